r"""Regular expressions in the syntax of JavaScript (ECMAScript), with the names of Python's module re.

    >>> import regress
    >>> pattern = regress.compile(r'(?<month>\d\d)-(\d\d)')
    >>> found = pattern.search('on 12-31')
    >>> found.group(), found['month'], found.span(2)
    ('12-31', '12', (6, 8))
    >>> pattern.sub('$2.$<month>.', 'on 12-31')
    'on 31.12.'
    >>> regress.findall('[a-z]+', 'On 12-31 or 1-1', regress.I)
    ['On', 'or']

Patterns and what they match are those of JavaScript, or with compile(.., dialect='regress') those of the Rust crate
regress. Flags are JavaScript's letters, or the constants beside them, which have the numbers of re:

    i   I, IGNORECASE   ignores case
    m   M, MULTILINE    ^ and $ match at each line
    s   S, DOTALL       . also matches line terminators
    u   U, UNICODE      Unicode: \u{..}, \p{..}, and stricter syntax
    v   V, SETS         as u, with class sets such as [\w--\d]; excludes u

The letters d, g and y are accepted and do nothing. Templates are JavaScript's too:

    $$          a dollar sign
    $&          the match
    $` $'       the text before and after it
    $1 to $99   a group
    $<name>     a group by its name

A backslash is an ordinary character there: what is \2 and \g<name> in re is $2 and $<name> here.

A pattern is a str or, in UTF-8, bytes, and searches for matches in texts of the same type. Positions are code points of
a str or bytes of a bytes. A lone surrogate in a str, or bytes that are not UTF-8, raise error of the kind 'Unicode'.

A search takes linear time, unless the pattern has a back reference or more than 4,000 instructions, or a group in
a lookaround that is not negated, for a search for all matches (Pattern.nonlinear, Pattern.is_find_linear). Then it
backtracks within a limit of steps, so that it also ends for untrusted patterns and texts: at the limit it raises the
exception error of the kind 'OutOfSteps'. Its tables, each backtrack stack and a list of all matches may take 256 MiB
each: a search that needs more raises error of the kind 'TooMuchMemory'. Ctrl-C takes effect when the search has ended.
Any number of threads may use a pattern at the same time, and other threads run while a long text is searched.

The module calls the library in its folder by the extension module _regress, or without that by ctypes; or by ctypes the
shared library that the environment variable REGRESS_LIBRARY names. The searches of the library are proved to be right;
this module is tested.
"""

import collections
import ctypes
import enum
import functools
import itertools
import operator
import os
import sys
import types

__all__ = ['compile', 'search', 'match', 'fullmatch', 'finditer', 'findall', 'sub', 'subn', 'split', 'escape', 'purge',
           'differences', 'node_bound', 'error', 'Difference', 'Pattern', 'Match', 'Flag', 'I', 'IGNORECASE', 'M',
           'MULTILINE', 'S', 'DOTALL', 'U', 'UNICODE', 'V', 'SETS']
__version__ = '0.1.0'

_OK, _NO_MATCH, _MEMORY, _ROOM, _BAD_INPUT, _SYNTAX, _TOO_LARGE, _OUT_OF_STEPS, _TOO_MUCH_MEMORY = range(9)
_ABI_VERSION = 6

# Why searches are not linear, by the numbers of the library.
_NONLINEAR = None, 'back-reference', 'capturing-lookaround', 'too-many-instructions'

# The flags of the library. JavaScript's v includes u.
_FLAGS = {'i': 1, 'm': 2, 's': 4, 'u': 8, 'v': 8 | 16}


# The dialects, as the library has them: for a pattern that is compiled, and for one that is parsed.
_DIALECTS = {'ecma': 0, 'regress': 0x20000}
_PARSED = {'ecma': 0x40000, 'regress': 0}


class Flag(enum.IntFlag):
    '''Flags of a pattern. Those that re has too have the same number.'''

    NOFLAG = 0
    IGNORECASE = I = 2
    MULTILINE = M = 8
    DOTALL = S = 16
    UNICODE = U = 32
    SETS = V = 1 << 16


IGNORECASE = I = Flag.IGNORECASE
MULTILINE = M = Flag.MULTILINE
DOTALL = S = Flag.DOTALL
UNICODE = U = Flag.UNICODE
SETS = V = Flag.SETS

_LETTERS = {'i': int(I), 'm': int(M), 's': int(S), 'u': int(U), 'v': int(V)}

# The kinds of syntax errors, from 1 on, as docs/errors.md lists them.
_KINDS = (
    'UnbalancedParenthesis', 'TooDeep', 'TooManyGroups', 'TooManyLoops', 'IncompleteEscape', 'UnterminatedEscape',
    'InvalidEscape', 'InvalidUnicodeEscape', 'InvalidBracedQuantifier', 'InvalidAtom', 'QuantifierNotAllowed',
    'InvalidQuantifier', 'UnbalancedBracket', 'ReversedRange', 'InvalidRange', 'UnbalancedSet', 'InvalidSetRange',
    'UnexpectedInIntersection', 'UnexpectedInSubtraction', 'EmptyOperand', 'IncompleteSetEscape',
    'StringsWithoutBrace', 'UnbalancedStrings', 'InvalidSetCharacter', 'InvalidNegatedClass', 'PropertyWithoutBrace',
    'InvalidProperty', 'InvalidGroupName', 'InvalidModifier', 'InvalidReference', 'UnknownName', 'DuplicateName',
)


class error(Exception):
    """Raised if a pattern or its flags are rejected, if a search takes too many steps or too much memory, or if a text is
    not Unicode.

    Attributes:
        msg: what is wrong, as a sentence for a person, with what to write for the syntax of another engine; it may change
        pattern: the pattern
        pos: the position of a syntax error in the pattern, else None
        kind: the kind of the syntax error, such as 'UnbalancedParenthesis' (docs/errors.md lists them); or 'Flags',
            'TooLarge' if the pattern needs more nodes than allowed, or its program more instructions; 'OutOfSteps';
            'TooMuchMemory'; or 'Unicode' for a lone surrogate, and for bytes that are not UTF-8
    """

    def __init__(self, msg, pattern=None, pos=None, kind=None):
        super().__init__(msg if pos is None else '%s at position %d' % (msg, pos))
        self.msg = msg
        self.pattern = pattern
        self.pos = pos
        self.kind = kind


def compile(pattern, flags='', *, dialect='ecma', steps=None, nodes=None, instructions=None, linear_instructions=None,
            memory=None, linear_steps=None):
    """Compiles a pattern to a Pattern.

    flags are JavaScript's letters, or constants such as I. A Pattern is returned as it is, if no flags are given.
    dialect is 'ecma', the language of JavaScript, or 'regress', that of the Rust crate regress: docs/syntax.md has the
    rules in which they differ. The limits are:

        steps         the steps of one search that does not take linear time; a billion by default
        nodes         the nodes of the tree of the pattern, as node_bound() bounds them; a million by default
        instructions  those of its program that are stored, where the body of a loop {n,m} counts m times, or if it is
                      one character, about m / 64 times; but if that is too much, a few times; 250,000 by default
        linear_instructions
                      the instructions up to which a search may take linear time, where one character always counts
                      about m / 64 times; 4,000 by default. It takes up to two bits of memory for each
                      instruction and byte of the text
        memory        the bytes that the tables of one search may take, 256 MiB by default: at most a quarter of a byte
                      for each instruction, and 8 bytes, for each byte of the text in UTF-8, and once more; 4 bytes more
                      for each lookaround do not count. The same limit holds for each backtrack stack, one for the pattern and
                      one for each level of nested lookarounds, and for a list of all matches, of findall, finditer,
                      sub and split: 56 bytes for a match, and 24 for each group
        linear_steps  the steps of one search that takes linear time; no limit by default. If its bound exceeds that
                      (of a search for all matches steps_per_byte times (length + 1) of the text in UTF-8), the search
                      only backtracks, within that number of steps

    Raises error if the pattern or the flags are rejected.
    """
    if isinstance(pattern, Pattern):
        if flags:
            raise ValueError('flags are not allowed with a compiled pattern')
        return pattern
    return Pattern(pattern, flags, steps, nodes, instructions, linear_instructions, memory, dialect, linear_steps)


# The patterns of the calls below.
@functools.lru_cache(maxsize=512)
def _cached(kind, pattern, flags):
    return Pattern(pattern, flags)


def _compiled(pattern, flags):
    if isinstance(pattern, Pattern):
        return compile(pattern, flags)
    return _cached(type(pattern), pattern, flags)


def search(pattern, string, flags=''):
    """Returns the leftmost Match of a pattern in a string, or None. The last 512 patterns are kept compiled."""
    return _compiled(pattern, flags).search(string)


def match(pattern, string, flags=''):
    """Returns the Match at the start of a string, or None."""
    return _compiled(pattern, flags).match(string)


def fullmatch(pattern, string, flags=''):
    """Returns the Match of a whole string, or None."""
    return _compiled(pattern, flags).fullmatch(string)


def finditer(pattern, string, flags=''):
    """Returns an iterator over all non-overlapping matches, as Pattern.finditer()."""
    return _compiled(pattern, flags).finditer(string)


def findall(pattern, string, flags=''):
    """Returns the list of all matches, as Pattern.findall()."""
    return _compiled(pattern, flags).findall(string)


def sub(pattern, repl, string, count=0, flags=''):
    """Returns the string with matches replaced, as Pattern.sub()."""
    return _compiled(pattern, flags).sub(repl, string, count)


def subn(pattern, repl, string, count=0, flags=''):
    """Returns the string with matches replaced, and their number, as Pattern.subn()."""
    return _compiled(pattern, flags).subn(repl, string, count)


def split(pattern, string, maxsplit=0, flags=''):
    """Returns the parts of a string between matches, as Pattern.split()."""
    return _compiled(pattern, flags).split(string, maxsplit)


def purge():
    """Frees the patterns that the functions of this module have compiled."""
    _cached.cache_clear()


def escape(text):
    r"""Returns the pattern that matches exactly this text, as JavaScript's RegExp.escape.

        >>> import regress
        >>> regress.escape('1+1')
        '\\x31\\+1'
    """
    if not isinstance(text, str):
        return escape(_decoded(bytes(text))).encode()
    data = _utf8(_plain(text))
    # Mostly less than twice as much is needed.
    status, pattern = _call(ctypes.c_char, 2 * len(data), _OK, lambda *buffer: _library.regress_escape_raw(
        data, len(data), *buffer))
    if status != _OK:
        raise _failure(status)
    return pattern.decode()


def node_bound(pattern, flags=''):
    """Returns an upper bound on the number of nodes of the tree of a pattern, also of one that is rejected.

        >>> import regress
        >>> regress.node_bound('a|b')
        7
    """
    data = _utf8(_pattern_text(pattern))
    bits = _bits(_letters(flags, pattern))
    bound = ctypes.c_size_t()
    status = _library.regress_front_bound_nodes_of_text(data, len(data), bits, ctypes.byref(bound))
    if status != _OK:
        raise _failure(status)
    return bound.value


Difference = collections.namedtuple('Difference', 'kind start end text')
Difference.__doc__ = """A part of a pattern that matches otherwise than in JavaScript.

Attributes:
    kind: 'case-closure', 'string-set', 'same-name' or 'grammar'
    start, end: where it is in the pattern
    text: a sentence about the kind, with an example
"""


def differences(pattern, flags=''):
    r"""Returns the list of the parts of a pattern that in the dialect 'regress' match otherwise than in JavaScript,
    each a Difference.

        >>> import regress
        >>> [found[:3] for found in regress.differences('a[k]', 'i')]
        [('case-closure', 1, 4)]

    If there are none, its first match in a text is that of JavaScript; but without u or v a text is read by characters,
    and not by code units. What JavaScript rejects is one part, at the place of its syntax error. What follows a part
    that is parsed otherwise, such as \u{61} without u, is not compared. The tree may be large: for untrusted patterns
    call node_bound() first.

    Raises error if the pattern or the flags are rejected.
    """
    data = _utf8(_pattern_text(pattern))
    bits = _bits(_letters(flags, pattern))
    kind, position = ctypes.c_uint32(), ctypes.c_size_t()
    status, found = _call(_Difference, 16, _OK, lambda *buffer: _library.regress_differences_raw(
        data, len(data), bits, *buffer, ctypes.byref(kind), ctypes.byref(position)))
    if status == _SYNTAX:
        raise _syntax_error(data, bits, pattern)
    if status != _OK:
        raise _failure(status)
    kinds = {each.kind: _kind_of_difference(each.kind) for each in found}
    return [Difference(kinds[each.kind][0], _position(pattern, each.start), _position(pattern, each.end),
                       kinds[each.kind][1]) for each in found]


# The greatest position.
_END = sys.maxsize


class Pattern:
    """A compiled regular expression. compile() makes it.

    Attributes:
        pattern: its text
        flags: its flags, as letters in alphabetical order
        dialect: its dialect, 'ecma' or 'regress'
        is_linear: whether searches take linear time, so that the limit of steps does not apply to them
        nonlinear: why they do not, 'back-reference', 'capturing-lookaround' or 'too-many-instructions', the first of
            these that holds; None if they do
        steps_per_byte: a search takes at most that times (length + 1) steps, where the length of the text is in
            bytes of UTF-8; None if searches are not linear
        is_find_linear: whether a search for one match takes linear time: also where a lookaround has a group
        groups: the number of its groups
        groupindex: a read-only mapping from the names of groups to their numbers; if groups share a name, that of the
            first
    """

    def __init__(self, pattern, flags='', steps=None, nodes=None, instructions=None, linear_instructions=None,
                 memory=None, dialect='ecma', linear_steps=None):
        self.pattern = _pattern_text(pattern)
        self.flags = _letters(flags, self.pattern)
        if dialect not in _DIALECTS:
            raise ValueError('a dialect is ecma or regress, not %r' % (dialect,))
        self.dialect = dialect
        self._limits = (steps, nodes, instructions, linear_instructions, memory, linear_steps)
        self._program = program = _Program(_utf8(self.pattern), self.flags, dialect, self._limits, self.pattern)
        # The call of fullmatch, after the first.
        self._full = None
        self._type = type(self.pattern)
        # The numbers of the groups with each name.
        self._numbers = _numbers(program.names())
        self.steps_per_byte = program.steps_per_byte or None
        self.nonlinear = program.nonlinear
        self.is_linear = self.nonlinear is None
        self.is_find_linear = program.find_steps_per_byte > 0
        self.groups = program.groups
        self.groupindex = types.MappingProxyType({name: same[0] for name, same in self._numbers.items()})
        if _native:
            # The calls of the extension module do what the methods with these names do.
            native = self._searcher(program)
            self.search, self.match, self.findall = native.search, native.match, native.findall
            self.finditer, self.split, self._replaced = native.finditer, native.split, native.replaced

    def search(self, string, pos=0, endpos=_END):
        """Returns the leftmost Match that starts at pos or later, or None.

        The text before pos is seen by ^ and lookbehinds. Text from endpos on is not seen.
        """
        return self._first(self._program, string, pos, endpos, False)

    def match(self, string, pos=0, endpos=_END):
        """Returns the Match that starts at pos, or None.

        It takes the time of search(), which it calls.
        """
        return self._first(self._program, string, pos, endpos, True)

    def fullmatch(self, string, pos=0, endpos=_END):
        """Returns the Match that starts at pos and ends at endpos or at the end of the text, or None.

        It searches for (?:pattern)(?![^]), which is compiled at the first call. That raises error, of the kind
        'TooDeep' or 'TooLarge', if the pattern is as deep or as large as allowed.
        """
        if self._full is None:
            wrapped = b'(?:' + _utf8(self.pattern) + b')(?![^])'
            program = _Program(wrapped, self.flags, self.dialect, self._limits, self.pattern, offset=3)
            if _native:
                self._full = self._searcher(program).match
            else:
                self._full = lambda *arguments: self._first(program, *arguments, True)
        return self._full(string, pos, endpos)

    def finditer(self, string, pos=0, endpos=_END):
        """Returns an iterator over all non-overlapping matches, from left to right.

        After an empty match the search goes on one character further. All matches are found by one search before this
        call returns.
        """
        text = _Text(self, string, pos, endpos)
        return (text.match(self, spans) for spans in self._all(text))

    def findall(self, string, pos=0, endpos=_END):
        """Returns the list of all matches of finditer(): their texts, or those of the group if there is one, or tuples
        of those of the groups. An unset group is empty."""
        found = self.finditer(string, pos, endpos)
        if self.groups == 0:
            return [match[0] for match in found]
        empty = self.pattern[:0]
        if self.groups == 1:
            return [match.groups(empty)[0] for match in found]
        return [match.groups(empty) for match in found]

    def sub(self, repl, string, count=0):
        r"""Returns the string with all matches replaced, or the first count of them.

        repl is a template, as the documentation of the module explains, or a function that returns a str, or bytes,
        for a Match. A backslash in a template is an ordinary character: write $2 and $<name> for what is \2 and \g<name>
        in re.
        """
        if callable(repl):
            return self.subn(repl, string, count)[0]
        return self._replaced(repl, string, _limit(count), False)

    def subn(self, repl, string, count=0):
        """Returns a tuple of the string as by sub(), and the number of matches that were replaced."""
        if not callable(repl):
            return self._replaced(repl, string, _limit(count), True)
        text = _same_type(self, string)
        parts, at = [], 0
        for found in itertools.islice(self.finditer(text), _limit(count)):
            start, end = found.span()
            parts.append(text[at:start])
            parts.append(_valid(_same_type(self, repl(found))))
            at = end
        parts.append(text[at:])
        return text[:0].join(parts), len(parts) // 2

    def split(self, string, maxsplit=0):
        """Returns the list of the parts of the string between the matches, with the groups of each match, or of the
        first maxsplit.

        As in JavaScript, an empty match does not split at the ends of the string or at the end of the match before it,
        and an empty string that matches has no parts.
        """
        data = _utf8(_same_type(self, string))
        limit = _part_limit(self.groups, maxsplit)
        spans = _split(self._program.address, data, limit)
        if type(spans) is int:
            raise self._program.failure(spans)
        if len(spans) == limit:
            # The last part is the rest of the text.
            spans[-1] = spans[-1][0], len(data)
        parts = [None if start < 0 else data[start:end] for start, end in spans]
        return parts if self._type is bytes else [part if part is None else part.decode() for part in parts]

    def is_exact_for(self, string):
        r"""Returns whether a match in a text, in the dialect 'ecma', is that of JavaScript: with the flag u or v, or if
        the pattern has no code point above U+FFFF, which JavaScript reads as two code units, and neither has the text, or
        each literal and class matches only others that are no surrogates, and each match has one.

            >>> import regress
            >>> regress.compile('^.$').is_exact_for('\N{GRINNING FACE}')
            False
        """
        data = _utf8(_same_type(self, string))
        return self._program.is_exact_for(data)

    def _searcher(self, program):
        """Returns what searches for a program of this pattern, in the extension module."""
        return _native.Searcher(self, program, program.owner, program.groups, self._type is bytes)

    def _first(self, program, string, pos, endpos, is_at_pos):
        """Returns the leftmost match, if it starts at pos where it has to."""
        text = _Text(self, string, pos, endpos)
        if text.start > len(text.data):
            return None
        spans = _find(program.address, program.width, text.data, text.start)
        if type(spans) is int:
            raise program.failure(spans)
        if spans is None or is_at_pos and spans[0] != text.start:
            return None
        return text.match(self, spans)

    def _all(self, text):
        """Returns the list of the spans of all matches in a text."""
        if text.start > len(text.data):
            return []
        matches = _find_all(self._program.address, self._program.width, text.data, text.start)
        if type(matches) is int:
            raise self._program.failure(matches)
        return matches

    def _replaced(self, template, string, limit, is_counted):
        """Returns a text with its first matches replaced by a template; with is_counted the tuple of that and of their
        number."""
        data = _utf8(_same_type(self, string))
        out = _replace(self._program.address, data, _utf8(_same_type(self, template)), limit, is_counted)
        if type(out) is int:
            raise self._program.failure(out)
        replaced, count = out
        replaced = replaced if self._type is bytes else replaced.decode()
        return (replaced, count) if is_counted else replaced

    def __repr__(self):
        dialect = '' if self.dialect == 'ecma' else ', dialect=%r' % self.dialect
        return 'regress.compile(%r%s%s)' % (self.pattern, self.flags and ', %r' % self.flags, dialect)

    def __eq__(self, other):
        if not isinstance(other, Pattern):
            return NotImplemented
        return self._key() == other._key()

    def __hash__(self):
        return hash(self._key())

    def _key(self):
        return self.pattern, self.flags, self.dialect, self._limits

    def __copy__(self):
        return self

    def __deepcopy__(self, memo):
        return self

    def __reduce__(self):
        return Pattern, (self.pattern, self.flags, *self._limits[:-1], self.dialect, self._limits[-1])


class Match:
    """A match. The methods of Pattern make it; it is always true.

    A group is a number, 0 for the whole match, or a name. If groups share a name, it is the first one that is set.

    Attributes:
        re: the Pattern
        string: the text that was searched
        pos, endpos: where the search began and ended
    """

    __slots__ = 're', 'string', 'pos', 'endpos', '_own', '_spans'

    def __init__(self, pattern, string, pos, endpos, own, spans):
        self.re = pattern
        self.string = string
        self.pos = pos
        self.endpos = endpos
        # The text in the type of the pattern, up to endpos.
        self._own = own
        # The positions of the match and of each group, -1 for one that is unset.
        self._spans = spans

    def group(self, *groups):
        """Returns the text of a group, None if it is unset; a tuple for several groups; the match without argument."""
        if len(groups) > 1:
            return tuple(self[group] for group in groups)
        return self[groups[0] if groups else 0]

    def __getitem__(self, group):
        """Returns the text of a group, None if it is unset."""
        start, end = self.span(group)
        return None if start < 0 else self._own[start:end]

    def groups(self, default=None):
        """Returns the tuple of the texts of all groups, with a default for those that are unset."""
        spans, own = self._spans, self._own
        return tuple([default if spans[at] < 0 else own[spans[at]:spans[at + 1]] for at in range(2, len(spans), 2)])

    def groupdict(self, default=None):
        """Returns the dict from the names of groups to their texts, with a default for those that are unset."""
        texts = {name: self[name] for name in self.re.groupindex}
        return {name: default if text is None else text for name, text in texts.items()}

    def span(self, group=0):
        """Returns the tuple of the start and the end of a group, (-1, -1) if it is unset."""
        if isinstance(group, str):
            return self._named(group)
        number = operator.index(group)
        if not 0 <= number <= self.re.groups:
            raise IndexError('no such group')
        return self._spans[2 * number:2 * number + 2]

    def start(self, group=0):
        """Returns the position at which a group starts, -1 if it is unset."""
        return self.span(group)[0]

    def end(self, group=0):
        """Returns the position after a group, -1 if it is unset."""
        return self.span(group)[1]

    def expand(self, template):
        """Returns what a template expands to, as by sub()."""
        return _expanded(self, _same_type(self.re, template))

    def _named(self, name):
        if name not in self.re._numbers:
            raise IndexError('no such group')
        spans = (self._spans[2 * number:2 * number + 2] for number in self.re._numbers[name])
        return next((span for span in spans if span[0] >= 0), (-1, -1))

    def __repr__(self):
        return '<regress.Match object; span=%r, match=%r>' % (self.span(), self[0])


class _Text:
    """A text that is searched: its bytes, and its positions. The extension module has its own."""

    # If there are other characters than ASCII, the number of characters before each block of bytes is kept.
    BLOCK = 64

    __slots__ = 'string', 'own', 'pos', 'endpos', 'data', 'start', 'is_same', '_counts'

    def __init__(self, pattern, string, pos=0, endpos=_END):
        self.string = string
        text = _same_type(pattern, string)
        length = len(text)
        self.pos = pos = min(max(operator.index(pos), 0), length)
        self.endpos = min(max(operator.index(endpos), 0), length)
        self.own = text = text[:self.endpos]
        self.data = text if type(text) is bytes else _utf8(text)
        # Whether positions are byte offsets.
        self.is_same = type(text) is bytes or text.isascii()
        self.start = pos
        if not self.is_same:
            # Past the end if the search ends before it begins.
            self.start = len(text[:pos].encode()) if pos <= self.endpos else len(self.data) + 1
        self._counts = None

    def match(self, pattern, spans):
        """Returns the match with these spans."""
        if not self.is_same:
            spans = tuple([self._index(offset) for offset in spans])
        return Match(pattern, self.string, self.pos, self.endpos, self.own, spans)

    def _index(self, offset):
        """Returns the position of a byte offset, -1 for -1."""
        if offset < 0:
            return -1
        if self._counts is None:
            self._counts = [0]
            for start in range(0, len(self.data), self.BLOCK):
                self._counts.append(self._counts[-1] + _characters(self.data[start:start + self.BLOCK]))
        block = offset // self.BLOCK
        return self._counts[block] + _characters(self.data[block * self.BLOCK:offset])


class _Regex(ctypes.Structure):
    """The regress_regex, the regress_matches and the regress_replaced of regress.h."""

    _fields_ = [('inside', ctypes.c_void_p)]


class _Limits(ctypes.Structure):
    """The regress_limits of regress.h. 0 is the default of each."""

    _fields_ = [('steps', ctypes.c_uint64), ('nodes', ctypes.c_size_t), ('instructions', ctypes.c_size_t),
                ('linear_instructions', ctypes.c_size_t), ('memory', ctypes.c_size_t),
                ('linear_steps', ctypes.c_uint64)]


class _Difference(ctypes.Structure):
    """The regress_difference of regress.h."""

    _fields_ = [('kind', ctypes.c_uint32), ('start', ctypes.c_size_t), ('end', ctypes.c_size_t)]


class _Program:
    """A pattern as the library has it. Any number of calls may use it at the same time."""

    def __init__(self, pattern, letters, dialect, limits, source, offset=0):
        self._regex, self.owner = _Regex(), None
        # The pattern of the caller.
        self._source = source
        for limit in limits:
            if limit is not None and not 1 <= limit <= sys.maxsize:
                raise ValueError('a limit is from 1 to sys.maxsize')
        limits = _Limits(*[limit or 0 for limit in limits])
        flags = _bits(letters)
        kind, position = ctypes.c_uint32(), ctypes.c_size_t()
        status = _library.regress_compile_raw(
            pattern, len(pattern), flags | _DIALECTS[dialect], ctypes.byref(limits), ctypes.byref(self._regex),
            ctypes.byref(kind), ctypes.byref(position))
        if status == _SYNTAX:
            # `offset` code points are not the caller's.
            raise _syntax_error(pattern, flags | _PARSED[dialect], source, offset)
        if status != _OK:
            raise self.failure(status)
        # The searches of the extension module share what owns it.
        self.owner = _native and _native.owner(self.address)
        self.groups = _library.regress_group_count_raw(self._copy())
        self.width = 2 * (self.groups + 1)
        self.steps_per_byte = _library.regress_steps_per_byte_raw(self._copy())
        self.find_steps_per_byte = _library.regress_find_steps_per_byte_raw(self._copy())
        number = _library.regress_nonlinear_raw(self._copy())
        self.nonlinear = _NONLINEAR[number] if number < len(_NONLINEAR) else 'other'

    def __del__(self):
        if self.owner is None and self._regex.inside:
            _library.regress_free_raw(ctypes.byref(self._regex))
            self._regex.inside = None

    @property
    def address(self):
        """Where it is.

        Raises RuntimeError after __del__, which is called before the finalizers of other objects in a cycle may search.
        """
        if not self._regex.inside:
            raise RuntimeError('the pattern is freed')
        return self._regex.inside

    def _copy(self):
        """Returns the handle for a call, which changes it."""
        return ctypes.byref(_Regex(self.address))

    def is_exact_for(self, data):
        return _library.regress_is_exact_for_raw(self._copy(), data, len(data)) == 1

    def names(self):
        """Returns the list of the names of all groups, None for a group without one."""
        return [self._name(group) for group in range(1, self.groups + 1)]

    def _name(self, group):
        status, name = _call(ctypes.c_char, 32, _OK, lambda *buffer: _library.regress_group_name_raw(
            self._copy(), group, *buffer))
        if status != _OK:
            raise self.failure(status)
        return name.decode() or None

    def failure(self, status):
        """Returns the exception of a status."""
        if status == _TOO_LARGE:
            return error('the pattern is too large', self._source, kind='TooLarge')
        if status == _OUT_OF_STEPS:
            return error('the search takes too many steps', self._source, kind='OutOfSteps')
        if status == _TOO_MUCH_MEMORY:
            return error('the search needs more memory than the option memory allows', self._source,
                         kind='TooMuchMemory')
        if status == _BAD_INPUT and isinstance(self._source, bytes):
            return error('the text is not UTF-8', self._source, kind='Unicode')
        return _failure(status)


def _numbers(names):
    """Returns the dict from the names of groups to the tuples of their numbers."""
    numbers = {}
    for number, name in enumerate(names, 1):
        if name:
            numbers[name] = numbers.get(name, ()) + (number,)
    return numbers


def _find(address, width, data, start):
    """Returns the tuple of the spans of the leftmost match, None if there is none, or the status of a failure."""
    spans, needed = (ctypes.c_ssize_t * width)(), ctypes.c_size_t()
    status = _library.regress_find_raw(_Regex(address), data, len(data), start, spans, width, needed)
    if status == _OK:
        return tuple(spans)
    return None if status == _NO_MATCH else status


def _find_all(address, width, data, start):
    """Returns the list of the tuples of the spans of all matches, or the status of a failure."""
    matches = _Regex()
    status = _library.regress_matches_new_raw(_Regex(address), data, len(data), start, ctypes.byref(matches))
    return _listed(matches, width) if status == _OK else status


def _split(address, data, limit):
    """Returns the list of the spans of the parts of a text, or the status of a failure."""
    parts = _Regex()
    status = _library.regress_split_raw(_Regex(address), data, len(data), limit, ctypes.byref(parts))
    return _listed(parts, 2) if status == _OK else status


def _listed(matches, width):
    """Returns the list of the tuples of the spans of matches, or of the parts of a text, and frees them."""
    spans, needed = (ctypes.c_ssize_t * width)(), ctypes.c_size_t()
    found = []
    while _library.regress_matches_next_raw(ctypes.byref(matches), spans, width, ctypes.byref(needed)) == _OK:
        found.append(tuple(spans))
    _library.regress_matches_free_raw(ctypes.byref(matches))
    return found


def _replace(address, data, template, limit, is_counted):
    """Returns the bytes of a text with its first matches replaced by a template, and their number if it is asked for, or
    the status of a failure."""
    texts = _Regex(address), data, len(data), template, len(template)
    if not is_counted and limit == 1:
        # One match is searched for in linear time with more patterns than several are. If more room is needed than
        # usually, the search is made again.
        status, out = _call(ctypes.c_char, 2 * len(data) + len(template) + 64, _OK,
                            lambda *buffer: _library.regress_replace_raw(*texts, *buffer))
        return (out, 0) if status == _OK else status
    replaced = _Regex()
    status = _library.regress_replaced_new_raw(*texts, limit, ctypes.byref(replaced))
    if status != _OK:
        return status
    try:
        # The first call asks for the length.
        status, out = _call(ctypes.c_char, 0, _OK, lambda *buffer: _library.regress_replaced_write_raw(
            ctypes.byref(replaced), *buffer))
        return (out, _library.regress_replaced_count_raw(ctypes.byref(replaced))) if status == _OK else status
    finally:
        _library.regress_replaced_free_raw(ctypes.byref(replaced))


def _expand(address, data, spans, template):
    """Returns the bytes that a template expands to at the match with these spans, or the status of a failure."""
    numbers = (ctypes.c_ssize_t * len(spans))(*spans)
    status, out = _call(ctypes.c_char, 2 * len(template) + 64, _OK, lambda *buffer: _library.regress_expand_raw(
        _Regex(address), data, len(data), numbers, len(spans), template, len(template), *buffer))
    return out if status == _OK else status


def _call(item, room, written, function):
    """Calls a function with a buffer, and once more if that is too small. Returns the status, and what is written with
    the status `written`."""
    needed = ctypes.c_size_t()
    buffer = (item * max(room, 1))()
    status = function(buffer, len(buffer), ctypes.byref(needed))
    if status == _ROOM:
        buffer = (item * needed.value)()
        status = function(buffer, len(buffer), ctypes.byref(needed))
    return status, buffer[:needed.value if status == written else 0]


def _failure(status):
    """Returns the exception of a status that does not depend on a pattern or a text."""
    if status == _MEMORY:
        return MemoryError('the library is out of memory')
    return RuntimeError('the library returned the status %d' % status)


def _syntax_error(data, bits, source, offset=0):
    """Returns the exception of a pattern that is rejected: the source, after a number of other code points."""
    kind, position = ctypes.c_uint32(), ctypes.c_size_t()
    status, _ = _call(ctypes.c_char, 128, _SYNTAX, lambda *buffer: _library.regress_front_tell_fault_of_text(
        data, len(data), bits, *buffer, ctypes.byref(kind), ctypes.byref(position)))
    if status != _SYNTAX:
        return _failure(status)
    status, sentence = _call(ctypes.c_char, 128, _OK, lambda *buffer: _library.regress_error_sentence_raw(
        data, len(data), kind, position, *buffer))
    if status != _OK:
        return _failure(status)
    name = _KINDS[kind.value - 1] if kind.value <= len(_KINDS) else None
    return error(sentence.decode(), source, _position(source, position.value - offset), name)


def _position(source, index):
    """Returns a position in a pattern, from a code-point index: for bytes the byte offset."""
    return len(source.decode()[:index].encode()) if isinstance(source, bytes) else index


def _kind_of_difference(number):
    """Returns the name and the text of a kind of difference."""
    texts = []
    for function in (_library.regress_difference_name_raw, _library.regress_difference_text_raw):
        status, text = _call(ctypes.c_char, 256, _OK, lambda *buffer: function(number, *buffer))
        if status != _OK:
            raise _failure(status)
        texts.append(text.decode())
    return texts


def _letters(flags, pattern):
    """Returns the letters of flags that set something, in alphabetical order."""
    if isinstance(flags, int):
        letters = ''.join(letter for letter, number in _LETTERS.items() if flags & number)
        if flags & ~sum(_LETTERS.values()):
            raise error('unknown flags %d' % flags, pattern, kind='Flags')
        flags = letters
    if not isinstance(flags, str):
        raise TypeError('flags are a str of letters or an int, not %s' % type(flags).__name__)
    for letter in flags:
        if letter not in 'dgimsuvy':
            raise error('unknown flag %s' % letter, pattern, kind='Flags')
        if flags.count(letter) > 1:
            raise error('flag %s occurs twice' % letter, pattern, kind='Flags')
    if 'u' in flags and 'v' in flags:
        raise error('flags u and v exclude each other', pattern, kind='Flags')
    return ''.join(letter for letter in _FLAGS if letter in flags)


def _bits(letters):
    """Returns flags as the library has them."""
    return sum(_FLAGS[letter] for letter in letters)


def _plain(string):
    """Returns a str or bytes itself, or that of an object of a subclass, whose methods may differ."""
    if isinstance(string, str):
        return string if type(string) is str else str.__getitem__(string, slice(None))
    return string if type(string) is bytes else bytes.__getitem__(string, slice(None))


def _pattern_text(pattern):
    """Returns the text of a pattern, which has to be a str or bytes."""
    if not isinstance(pattern, (str, bytes)):
        raise TypeError('a pattern is a str or bytes, not %s' % type(pattern).__name__)
    return _plain(pattern)


def _same_type(pattern, string):
    """Returns a text for a pattern, or a template, which has to be of the type of the pattern."""
    if pattern._type is str:
        if isinstance(string, str):
            return _plain(string)
        raise TypeError('a pattern that is a str needs a str, not %s' % type(string).__name__)
    if isinstance(string, bytes):
        return _plain(string)
    if isinstance(string, (bytearray, memoryview)):
        return bytes(string)
    raise TypeError('a pattern that is bytes needs bytes, not %s' % type(string).__name__)


def _utf8(string):
    """Returns a text in UTF-8. Raises error if there is none."""
    if isinstance(string, str):
        try:
            return string.encode()
        except UnicodeEncodeError as cause:
            failure = error('a lone surrogate at position %d' % cause.start, string, kind='Unicode')
        raise failure
    _decoded(string)
    return string


def _valid(string):
    """Returns a text that is Unicode. Raises error if it is not."""
    _utf8(string)
    return string


def _decoded(data):
    """Returns the text of bytes in UTF-8. Raises error if they are not."""
    try:
        return data.decode()
    except UnicodeDecodeError as cause:
        failure = error('not UTF-8 at position %d' % cause.start, data, kind='Unicode')
    raise failure


_CONTINUING = bytes(range(0x80, 0xC0))


def _characters(data):
    """Returns the number of characters that begin in these bytes."""
    return len(data.translate(None, _CONTINUING))


def _limit(count):
    """Returns how many matches are replaced: all for 0."""
    return max(count, 0) if count else _END


def _part_limit(groups, maxsplit):
    """Returns how many parts a text is split into, at most: all for 0."""
    return min(max(maxsplit, 0) * (groups + 1) + 1, _END) if maxsplit else _END


def _expanded(found, template):
    """Returns what a template expands to at a match."""
    pattern, text = found.re, found._own
    spans = [position for group in range(pattern.groups + 1) for position in found.span(group)]
    data = _utf8(template)
    # The library reads all of the text that it gets: if the template needs only the groups, the part with these.
    first, last = 0, len(text)
    if b'$`' not in data and b"$'" not in data:
        first, last = min(position for position in spans if position >= 0), max(spans)
    part = text[first:last]
    if type(part) is bytes or part.isascii():
        offsets = [position - first for position in spans]
    else:
        offsets = [len(part[:position - first].encode()) for position in spans]
    offsets = [-1 if position < 0 else offset for position, offset in zip(spans, offsets)]
    out = _expand(pattern._program.address, _utf8(part), offsets, data)
    if type(out) is int:
        raise pattern._program.failure(out)
    return out if pattern._type is bytes else out.decode()


def _load():
    """Returns the library, with the types of its calls, and the extension module, None if there is none."""
    folder = os.path.dirname(os.path.abspath(__file__))
    path = os.environ.get('REGRESS_LIBRARY')
    native = None
    if not path:
        # The extension module exports the calls of the library too.
        files = os.path.join(folder, '_regress.abi3.so'), os.path.join(folder, 'libregress.so')
        path = next(filter(os.path.exists, files), files[-1])
        try:
            from . import _regress as native
        except ImportError:
            pass
    try:
        library = ctypes.CDLL(path)
    except OSError as cause:
        raise ImportError('the library cannot be loaded: %s (bindings/python/build makes it)' % cause) from None
    number, size, wide = ctypes.c_uint32, ctypes.c_size_t, ctypes.c_uint64
    handle, limits, data = ctypes.POINTER(_Regex), ctypes.POINTER(_Limits), ctypes.c_char_p
    numbers, sizes, octets = ctypes.POINTER(number), ctypes.POINTER(size), ctypes.POINTER(ctypes.c_char)
    signed = ctypes.POINTER(ctypes.c_ssize_t)
    listed = ctypes.POINTER(_Difference)
    finding = number, handle, data, size, size, signed, size, sizes
    replacing = number, handle, data, size, data, size, octets, size, sizes
    calls = {
        'regress_abi_version': (number,),
        'regress_compile_raw': (number, data, size, number, limits, handle, numbers, sizes),
        'regress_find_raw': finding,
        'regress_matches_new_raw': (number, handle, data, size, size, handle),
        'regress_matches_next_raw': (number, handle, signed, size, sizes),
        'regress_matches_free_raw': (None, handle),
        'regress_replace_raw': replacing,
        'regress_replaced_new_raw': (number, handle, data, size, data, size, size, handle),
        'regress_replaced_write_raw': (number, handle, octets, size, sizes),
        'regress_replaced_count_raw': (size, handle),
        'regress_replaced_free_raw': (None, handle),
        'regress_expand_raw': (number, handle, data, size, signed, size, data, size, octets, size, sizes),
        'regress_split_raw': (number, handle, data, size, size, handle),
        'regress_group_count_raw': (size, handle),
        'regress_group_name_raw': (number, handle, size, octets, size, sizes),
        'regress_steps_per_byte_raw': (wide, handle),
        'regress_find_steps_per_byte_raw': (wide, handle),
        'regress_nonlinear_raw': (number, handle),
        'regress_is_exact_for_raw': (number, handle, data, size),
        'regress_escape_raw': (number, data, size, octets, size, sizes),
        'regress_error_sentence_raw': (number, data, size, number, size, octets, size, sizes),
        'regress_free_raw': (None, handle),
        'regress_differences_raw': (number, data, size, number, listed, size, sizes, numbers, sizes),
        'regress_difference_name_raw': (number, number, octets, size, sizes),
        'regress_difference_text_raw': (number, number, octets, size, sizes),
        'regress_front_bound_nodes_of_text': (number, data, size, number, sizes),
        'regress_front_tell_fault_of_text': (number, data, size, number, octets, size, sizes, numbers, sizes),
    }
    for name, (result, *arguments) in calls.items():
        function = getattr(library, name, None)
        if function is None:
            raise ImportError('%s is of another version: it has no %s' % (path, name))
        function.restype = result
        function.argtypes = arguments
    version = library.regress_abi_version()
    if version != _ABI_VERSION:
        raise ImportError('%s has version %d of the calls, and not %d' % (path, version, _ABI_VERSION))
    return library, native


_library, _native = _load()
if _native:
    _native.setup(_same_type, _utf8)
    # The type of the extension module has these too, but neither their documentation nor what is not there.
    for _method in ('__doc__', '__repr__', 'groupdict', 'expand'):
        setattr(_native.Match, _method, vars(Match)[_method])
    Match = _native.Match
