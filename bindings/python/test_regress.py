"""Tests of the module regress: python3 test_regress.py [FOLDER [TEST..]]; FOLDER has the package, as
bindings/python/build makes it.

The results are those of V8, in the files of crates/test_cases/data/generated, and those of Python's module re, for
patterns that mean the same there, among them those of Python's own tests, where they are installed. The class Memory
needs a library that is linked with refuse.c, as tools/check_python links it, and is skipped with another one."""

import copy
import ctypes
import doctest
import gc
import pathlib
import pickle
import re
import sys
import threading
import time
import unittest
import weakref

if len(sys.argv) > 1:
    sys.path.insert(0, sys.argv.pop(1))
import regress

CASES = pathlib.Path(__file__).resolve().parents[2] / 'crates/test_cases/data/generated'


def literal(field):
    """Returns a field of a test case with its code points in brackets replaced by the characters."""
    def replaced(found):
        times, by, text = found[1].partition('×')
        return int(times) * text if by else chr(int(found[1], 16))
    return re.sub('⟨(.*?)⟩', replaced, field)


def cases(name):
    """Yields the lines of a file of test cases, each with its fields."""
    for number, line in enumerate((CASES / name).read_text(encoding='utf-8').split('\n'), 1):
        if line and not line.startswith('#'):
            fields = [literal(field) for field in line.split('\t')]
            # Each pattern is compiled under the table of all of Unicode.
            yield '%s:%d: %s' % (name, number, line), fields[1:] if fields[0] == 'unicode' else fields


def compiled(flags, pattern):
    """Compiles a pattern of a test case, whose flags are independent of each other: v needs u there."""
    return regress.compile(pattern, flags.replace('u', '') if 'v' in flags else flags)


def spans(found):
    """Shows the spans of a match and of its groups; an empty text if there is no match."""
    numbers = range(found.re.groups + 1) if found else ()
    return ' '.join('-' if found.span(number) == (-1, -1) else '%d-%d' % found.span(number) for number in numbers)


class V8(unittest.TestCase):
    """Compares with V8."""

    def conclude(self, failures, count):
        self.assertGreater(count, 0)
        self.assertFalse(failures, '%d of %d fail:\n%s' % (len(failures), count, '\n'.join(failures[:20])))
        print('%d results are those of V8' % count)

    def compare_searches(self, file, question, shown):
        """Compares what a search shows of each test case of a file with its result, which V8 has, and so the default
        dialect."""
        failures = []
        count = 0
        for name, (_, call, flags, pattern, text, result) in cases(file):
            count += 1
            self.assertIn(call, (question, 'ecma ' + question, 'both ' + question))
            found = shown(compiled(flags, pattern), text) or 'none'
            if found != result:
                failures.append('%s\n    found: %s' % (name, found))
        self.conclude(failures, count)

    def test_first_matches(self):
        self.compare_searches('v8.tsv', 'find', lambda pattern, text: spans(pattern.search(text)))

    def test_first_matches_of_letters_with_unusual_case(self):
        self.compare_searches('v8_cases.tsv', 'find', lambda pattern, text: spans(pattern.search(text)))

    def test_all_matches(self):
        self.compare_searches('v8_all.tsv', 'all', lambda pattern, text: ' | '.join(
            spans(found) for found in pattern.finditer(text)))

    def test_replaced_and_split_texts(self):
        failures = []
        count = 0
        for name, (call, flags, pattern, text, last, result) in cases('v8_replaces.tsv'):
            count += 1
            pattern = compiled(flags, pattern)
            if call == 'replace':
                results = [pattern.sub(last, text, 1), pattern.subn(last, text, 1)[0]]
                results.append(pattern.sub(lambda found: found.expand(last), text, 1))
            elif call == 'replace_all':
                results = [pattern.sub(last, text), pattern.subn(last, text)[0]]
            else:
                # The limit of JavaScript is that of the parts.
                parts = pattern.split(text)[:None if last == '-' else int(last)]
                results = [' | '.join('-' if part is None else part for part in parts) if parts else 'none']
            failures += ['%s\n    found: %s' % (name, shown) for shown in results if shown != result]
        self.conclude(failures, count)


class Re(unittest.TestCase):
    """Compares with Python's re, over patterns and texts for which both have the same results."""

    PATTERNS = ['a', 'a+', '(a)(b)?', '(?:a|(b))(c)?', '[^a]', '^a', 'b$', 'é+', '(.)(.)', 'x*', '', 'a|ab',
                '(a|ab)(c|bcd)?', '(?<=(.))(.)', '(.)(.)((.)|(x))(y|(.))(.)?(z)?(.)']
    TEXTS = ['', 'a', 'abc', 'aab', 'abcd', 'éaé', 'ab' * 40 + 'é' + 'ba' * 40, 'a😀b', 'ééé', '日本ab', 'é日a😀éxy本']

    def pairs(self):
        for pattern in self.PATTERNS:
            for text in self.TEXTS:
                yield regress.compile(pattern), re.compile(pattern), text
                yield regress.compile(pattern.encode()), re.compile(pattern.encode()), text.encode()

    def assertSame(self, ours, theirs):
        self.assertEqual(ours is None, theirs is None)
        if ours is None:
            return
        for group in range(theirs.re.groups + 1):
            self.assertEqual(ours.span(group), theirs.span(group))
            self.assertEqual(ours.start(group), theirs.start(group))
            self.assertEqual(ours.end(group), theirs.end(group))
            self.assertEqual(ours[group], theirs[group])
        self.assertEqual(ours.groups(), theirs.groups())
        self.assertEqual((ours.pos, ours.endpos, ours.string), (theirs.pos, theirs.endpos, theirs.string))

    def test_matches(self):
        for ours, theirs, text in self.pairs():
            # Bytes of one character are one character for us.
            if isinstance(text, bytes) and not text.isascii():
                continue
            for pos in range(len(text) + 2) if len(text) < 9 else (0, 80, 83):
                for name in ('search', 'match', 'fullmatch'):
                    with self.subTest(name=name, pattern=theirs.pattern, text=text, pos=pos):
                        self.assertSame(getattr(ours, name)(text, pos), getattr(theirs, name)(text, pos))

    def test_ends(self):
        for ours, theirs, text in self.pairs():
            if isinstance(text, bytes) and not text.isascii():
                continue
            for endpos in range(-1, len(text) + 2) if len(text) < 9 else (80, 81):
                for name in ('search', 'match', 'fullmatch'):
                    with self.subTest(name=name, pattern=theirs.pattern, text=text, endpos=endpos):
                        found = getattr(ours, name)(text, 0, endpos), getattr(theirs, name)(text, 0, endpos)
                        self.assertSame(*found)
                        # In re an empty search is at pos, even if that is past the end.
                        if endpos >= 1:
                            found = getattr(ours, name)(text, 1, endpos), getattr(theirs, name)(text, 1, endpos)
                            self.assertSame(*found)

    def test_all_matches(self):
        for ours, theirs, text in self.pairs():
            if isinstance(text, bytes) and not text.isascii():
                continue
            for pos in (0, 1, 2):
                with self.subTest(pattern=theirs.pattern, text=text, pos=pos):
                    found = list(ours.finditer(text, pos)), list(theirs.finditer(text, pos))
                    self.assertEqual(len(found[0]), len(found[1]))
                    for pair in zip(*found):
                        self.assertSame(*pair)
                    self.assertEqual(ours.findall(text, pos), theirs.findall(text, pos))
            # Empty matches split a text in re, and not in JavaScript.
            if not theirs.match(text[:0]):
                for maxsplit in (-1, 0, 1, 2):
                    self.assertEqual(ours.split(text, maxsplit), theirs.split(text, maxsplit))
            letter = b'<' if isinstance(text, bytes) else '<'
            self.assertEqual(ours.subn(letter, text, 2), theirs.subn(letter, text, 2))
            self.assertEqual(ours.sub(letter, text), theirs.sub(letter, text))
            self.assertEqual(ours.sub(lambda found: found[0] * 2, text), theirs.sub(lambda found: found[0] * 2, text))


try:
    from test.re_tests import FAIL, SYNTAX_ERROR, tests as RE_TESTS
except ImportError:
    RE_TESTS = []


@unittest.skipUnless(RE_TESTS, 'the tests of Python are not installed')
class TestsOfRe(unittest.TestCase):
    """Compares with Python's re, over the patterns and texts of its own tests that mean the same in JavaScript."""

    # What JavaScript does not have, or what means something else there: inline flags, comments, conditions, atomic groups
    # and possessive quantifiers, names with P, \\A, \\Z and \\a, octal escapes, empty classes, {,n}.
    OTHER = re.compile(r'\(\?(?:[aiLmsux-]+\)|[aiLmsux-]*:|#|\(|>|P)|\\[AZ0a]|\\x|[*+?}]\+|\[\^?\]|\{,|\\\d\d\d')

    def test_first_matches(self):
        count = 0
        for pattern, text, *_ in RE_TESTS:
            if self.OTHER.search(pattern) or not (pattern + text).isascii():
                continue
            try:
                theirs = re.compile(pattern)
            except re.error:
                continue
            with self.subTest(pattern=pattern, text=text):
                try:
                    ours = regress.compile(pattern)
                except regress.error as error:
                    self.fail('rejected: %s' % error)
                found = ours.search(text), theirs.search(text)
                # In re, $ matches before the last line feed too, and a carriage return is no line terminator.
                if '$' in pattern and text.endswith('\n') or '\r' in text:
                    continue
                spans = [each and [each.span(group) for group in range(theirs.groups + 1)] for each in found]
                self.assertEqual(*spans)
                count += 1
        self.assertGreater(count, 150)
        print('%d results are those of re' % count)

    # Names with P, comments, groups of flags, conditions, \a, \A and \Z.
    ONLY_IN_RE = re.compile(r'\(\?P|\(\?#|\(\?[aiLmsux]+\)|\(\?\(|\\[aAZ]')
    # What V8 reads otherwise: a bracket directly after [ or [^ ends the class, a reference without a group is an octal
    # escape, one inside its group matches the empty text, and a letter after a backslash may be that letter.
    DIFFERENT = {'a[]b', 'a[]]b', 'a[^]b]c', r'\1', r'((((((((((a))))))))))\41', r'((.)\1+)', r'\u',
                 r'(a)(b)(c)(d)(e)(f)(g)(h)(i)(j)(k)(l)\119'}
    FLAGS = re.compile(r'\(\?([ims]+)\)')

    @staticmethod
    def names(found):
        """Returns the names that the expression of a case uses."""
        names = {'found': found[0], 'groups': found.group(), 'flags': found.re.flags}
        for number in range(1, 100):
            names['g%d' % number] = str(found[number]) if number <= found.re.groups else 'Error'
        return names

    def test_cases(self):
        """The cases have the results that Python's tests expect, flags at the start of the pattern being those of the
        call."""
        count = 0
        for pattern, text, outcome, *expectation in RE_TESTS:
            flags = self.FLAGS.match(pattern)
            pattern, letters = (pattern[flags.end():], flags[1]) if flags else (pattern, '')
            # JavaScript's . matches no carriage return.
            if self.ONLY_IN_RE.search(pattern) or pattern in self.DIFFERENT or '\r' in text and '.' in pattern:
                continue
            count += 1
            with self.subTest(pattern=pattern, text=text):
                if outcome == SYNTAX_ERROR:
                    self.assertRaises(regress.error, regress.compile, pattern, letters)
                    continue
                found = regress.search(pattern, text, letters)
                self.assertEqual(found is None, outcome == FAIL)
                if found:
                    expression, value = expectation
                    self.assertEqual(eval(expression, self.names(found)), value)
        self.assertGreater(count, 300)
        print('%d of the %d cases of re have its results' % (count, len(RE_TESTS)))


class Str(str):
    """A str whose methods differ from those of str."""

    def __len__(self):
        return 100

    def encode(self, *arguments):
        return b'other'

    def __getitem__(self, key):
        return 'other'

    def isascii(self):
        return False


class Calls(unittest.TestCase):
    """Tests what is this module's own."""

    def test_groups(self):
        pattern = regress.compile(r'(?<year>\d{4})(?:-(?<month>\d\d))?(x)?', 'u')
        self.assertEqual(pattern.groups, 3)
        self.assertEqual(pattern.groupindex, {'year': 1, 'month': 2})
        found = pattern.search('é 2024-05')
        self.assertEqual(found.group('year', 2, 3), ('2024', '05', None))
        self.assertEqual(found.groups(''), ('2024', '05', ''))
        self.assertEqual(found.groupdict(), {'year': '2024', 'month': '05'})
        self.assertEqual(pattern.search('2024').groupdict('?'), {'year': '2024', 'month': '?'})
        self.assertEqual(found.span('month'), (7, 9))
        self.assertEqual(found.span(3), (-1, -1))
        self.assertEqual(found.expand('$<month>/$1$3$4$$'), '05/2024$4$')
        self.assertEqual(found.expand("$`|$'|$&"), 'é ||2024-05')
        self.assertEqual(repr(found), "<regress.Match object; span=(2, 9), match='2024-05'>")
        for group in (4, -1, 'day', 'x'):
            with self.assertRaises(IndexError):
                found[group]

    def test_names_beside_nodes_of_all_kinds(self):
        pattern = (r'(?<a>[\q{abc|de}x-z]{2,3}?|\w+)\b(?<b>^.|[^\d]|\u{1F600})(?:(?<c\u{e9}>é)*|(y))+'
                   r'(?<=(?<d>a))\k<a>[ab]\p{L}*$')
        self.assertEqual(regress.compile(pattern, 'v').groupindex, {'a': 1, 'b': 2, 'cé': 3, 'd': 5})

    def test_groups_of_one_name(self):
        pattern = regress.compile('(?<a>x)|(?<a>y)')
        self.assertEqual(pattern.groupindex, {'a': 1})
        self.assertEqual(pattern.search('y')['a'], 'y')
        self.assertEqual(pattern.sub('<$<a>>', 'xzy'), '<x>z<y>')
        self.assertEqual(pattern.subn('<$<a>>', 'xzy'), ('<x>z<y>', 2))

    def test_names_cannot_be_changed(self):
        pattern = regress.compile('(?<a>x)')
        with self.assertRaises(TypeError):
            pattern.groupindex['a'] = 10**6
        self.assertEqual(pattern.search('x')['a'], 'x')
        self.assertEqual(copy.deepcopy(pattern).groupindex, {'a': 1})
        self.assertEqual(pickle.loads(pickle.dumps(pattern)).groupindex, {'a': 1})

    def test_numbers_that_are_replaced_are_checked(self):
        pattern = regress.compile('(?<a>x)')
        found = pattern.search('x')
        for numbers in ({'a': (10**6,)}, {'a': (-1,)}, {'a': (10**30,)}, {'a': ('b',)}, {'a': 1}, {}, None):
            pattern._numbers = numbers
            with self.assertRaises((IndexError, TypeError, SystemError)):
                found['a']
        self.assertEqual(found.span(1), (0, 1))

    def test_a_match_of_a_pattern_that_is_made_anew(self):
        pattern = regress.compile('(?<a>x)')
        found = pattern.search('x')
        pattern.__init__('(.)(.)(.)(?<b>.)')
        with self.assertRaises(IndexError):
            found['b']

    def test_a_search_while_a_cycle_is_collected(self):
        class Searching:
            def __del__(self):
                try:
                    spans.append(self.pattern.search('xay').span())
                except RuntimeError:
                    # Without the extension module the pattern may be freed before.
                    spans.append((1, 2) if regress._native is None else None)

        spans = []
        # The collector finalizes the objects of a cycle in the order in which they were made, or in the other one.
        for is_first in (True, False):
            one = Searching() if is_first else None
            pattern = regress.compile('a')
            one = one or Searching()
            one.pattern, pattern.searching = pattern, one
            del one, pattern
            gc.collect()
        self.assertEqual(spans, [(1, 2)] * 2)

    def test_flags(self):
        self.assertEqual(regress.compile('a', 'vgimsdy').flags, 'imsv')
        self.assertTrue(regress.compile('a.b', 'is').search('A\nB'))
        for flags in ('x', 'ii', 'uv'):
            with self.assertRaises(regress.error) as caught:
                regress.compile('a', flags)
            self.assertEqual(caught.exception.kind, 'Flags')

    def test_flags_are_constants_too(self):
        self.assertEqual(regress.compile('a', regress.I | regress.S).flags, 'is')
        self.assertEqual(regress.compile('a', 2).flags, 'i')
        self.assertEqual(regress.compile('^a', re.IGNORECASE | re.MULTILINE).flags, 'im')
        self.assertEqual(regress.compile('a', 0).flags, '')
        self.assertEqual(regress.compile('a', regress.UNICODE).flags, 'u')
        self.assertEqual(regress.compile('a', regress.SETS).flags, 'v')
        for flags in (re.VERBOSE, re.ASCII, -1, 1 << 20, regress.U | regress.V):
            with self.assertRaises(regress.error) as caught:
                regress.compile('a', flags)
            self.assertEqual(caught.exception.kind, 'Flags')
        self.assertRaises(TypeError, regress.compile, 'a', 1.5)

    def test_patterns_are_freed(self):
        freed = []
        pattern = regress.compile('a')
        weakref.finalize(pattern, freed.append, 'pattern')
        found, matches = pattern.search('bab'), pattern.finditer('aba')
        next(matches)
        del pattern
        gc.collect()
        self.assertEqual((freed, found.re.pattern, next(matches).span()), ([], 'a', (2, 3)))
        del found, matches
        gc.collect()
        self.assertEqual(freed, ['pattern'])

    def test_keywords_and_types_of_arguments(self):
        pattern = regress.compile('(a)|b')
        self.assertEqual(pattern.search(string='ba', pos=1).span(group=1), (1, 2))
        self.assertEqual(pattern.search('ba', endpos=1).groups(default='-'), ('-',))
        self.assertEqual(pattern.findall('aba', pos=1), ['', 'a'])
        self.assertEqual([found.start() for found in pattern.finditer('aba', endpos=2)], [0, 1])
        self.assertEqual(pattern.search('a').group(0, 1), ('a', 'a'))
        self.assertRaises(TypeError, pattern.search)
        self.assertRaises(TypeError, pattern.search, b'a')
        self.assertRaises(TypeError, pattern.search, 'a', 'b')
        self.assertRaises(TypeError, pattern.search('a').group, 1.5)
        self.assertRaises(TypeError, regress.Match)

    def test_functions(self):
        self.assertEqual(regress.search('b+', 'abb').span(), (1, 3))
        self.assertEqual(regress.match('a', 'ab').span(), (0, 1))
        self.assertIsNone(regress.match('b', 'ab'))
        self.assertEqual(regress.fullmatch('A.', 'ab', 'i').span(), (0, 2))
        self.assertEqual([found.span() for found in regress.finditer('a', 'aba')], [(0, 1), (2, 3)])
        self.assertEqual(regress.findall(b'[ab]', b'acb'), [b'a', b'b'])
        self.assertEqual(regress.sub('A', '<$&>', 'aba', flags='i'), '<a>b<a>')
        self.assertEqual(regress.sub('a', 'x', 'aba', 1), 'xba')
        self.assertEqual(regress.subn('a', 'x', 'aba'), ('xbx', 2))
        self.assertEqual(regress.split(',', 'a,b,c', 1), ['a', 'b,c'])
        self.assertEqual(regress.split('(,)|é', 'aéb,c,d', 2), ['a', None, 'b', ',', 'c,d'])
        self.assertEqual(regress.split(b',', bytearray(b'a,b,c'), -1), [b'a,b,c'])
        self.assertEqual(regress.subn('[ab]', '<$&>', 'éabab', 3), ('é<a><b><a>b', 3))
        self.assertEqual(regress.subn('[ab]', '<$&>', 'abab', -1), ('abab', 0))
        self.assertEqual(regress.sub('a', '-', 'aaa', 2), '--a')
        # Captures that are not in the match, in a text that is not ASCII and in bytes.
        for pattern, text in ('(?<=(é)|(z))b(?=.*(d))', 'aéb-cd'), ('(?<=(é)|(z))b(?=.*(d))'.encode(), 'aéb-cd'.encode()):
            template = '$1$2$3$&'
            found = regress.search(pattern, text)
            expanded = found.expand(template if isinstance(text, str) else template.encode())
            self.assertEqual(expanded, 'édb' if isinstance(text, str) else 'édb'.encode())
        many = '1-' * 20000
        self.assertEqual({found.expand('<$1>') for found in regress.finditer('(1)', many)}, {'<1>'})
        pattern = regress.compile('a', 'i')
        self.assertTrue(regress.search(pattern, 'A'))
        self.assertRaises(ValueError, regress.search, pattern, 'A', 'i')
        self.assertRaises(regress.error, regress.search, '(', 'A')
        regress.purge()
        self.assertTrue(regress.search('a', 'a'))

    def test_texts_of_a_subclass(self):
        self.assertEqual(regress.compile(Str('é+')).pattern, 'é+')
        self.assertEqual(regress.compile('é+').search(Str('aéé'))[0], 'éé')
        text = Str('abb')
        found = regress.compile('b').search(text, 0, 2)
        self.assertEqual((found.span(), found[0]), ((1, 2), 'b'))
        self.assertIs(found.string, text)
        self.assertEqual(regress.compile('b').sub(Str('c'), Str('abb')), 'acc')
        self.assertEqual(regress.compile('b').sub(lambda found: Str('c'), 'abb'), 'acc')
        self.assertEqual(regress.escape(Str('a.')), '\\x61\\.')

    def test_a_backslash_in_a_template_is_itself(self):
        self.assertEqual(regress.compile('(?<y>a)').sub(r'\1\g<y>', 'a'), r'\1\g<y>')

    def test_tracebacks_have_one_exception(self):
        for call in (lambda: regress.compile('('), lambda: regress.compile('a', 'x'), lambda: regress.compile('\ud800'),
                     lambda: regress.compile('a').search('\ud800'), lambda: regress.compile(b'a').search(b'\xff'),
                     lambda: regress.differences('(')):
            with self.assertRaises(regress.error) as caught:
                call()
            self.assertIsNone(caught.exception.__context__)
            self.assertIsNone(caught.exception.__cause__)

    def test_fullmatch_tries_other_matches(self):
        self.assertEqual(regress.compile('a|ab').fullmatch('ab').span(), (0, 2))
        self.assertEqual(regress.compile('a|ab').match('ab').span(), (0, 1))
        self.assertEqual(regress.compile('^a$', 'm').fullmatch('b\na\nc', 2, 3).span(), (2, 3))
        self.assertIsNone(regress.compile('a$', 'm').fullmatch('a\nb'))
        self.assertIsNone(regress.compile('^b', 'm').fullmatch('a\nb'))
        self.assertEqual(regress.compile('a|b', 'v').fullmatch('b').span(), (0, 1))

    def test_syntax_errors(self):
        with self.assertRaises(regress.error) as caught:
            regress.compile('é[b')
        error = caught.exception
        sentence = r'unterminated class (write `\[` for the character)'
        self.assertEqual(str(error), sentence + ' at position 1')
        self.assertEqual((error.msg, error.pos, error.kind), (sentence, 1, 'UnbalancedBracket'))
        self.assertEqual(error.pattern, 'é[b')
        with self.assertRaises(regress.error) as caught:
            regress.compile('é[b'.encode())
        self.assertEqual(caught.exception.pos, 2)
        with self.assertRaises(regress.error) as caught:
            regress.compile('é[z-a]')
        self.assertEqual(str(caught.exception), r'a range ends before it begins (write `\-` for the character `-`) at position 2')
        self.assertEqual(caught.exception.pos, 2)
        with self.assertRaises(regress.error) as caught:
            regress.compile('é[z-a]'.encode())
        self.assertEqual(caught.exception.pos, 3)
        # What another engine has.
        with self.assertRaises(regress.error) as caught:
            regress.compile('é(?P<a>b)'.encode())
        self.assertEqual(caught.exception.msg, 'unknown kind of group (a named group is written `(?<name>..)`)')

    def test_dialects(self):
        """What holds in 'ecma', the default, is what V8 does."""
        ecma = regress.compile(r'[\W_]', 'i', dialect='ecma')
        other = regress.compile(r'[\W_]', 'i', dialect='regress')
        self.assertIsNone(ecma.search('k'))
        self.assertEqual(regress.compile(r'[\W_]', 'i'), ecma)
        self.assertEqual(regress.sub(r'[\W_]+', '', 'skunk works', flags='i'), 'skunkworks')
        self.assertEqual(other.search('k').span(), (0, 1))
        self.assertTrue(regress.compile(r'\u{3}').fullmatch('uuu'))
        self.assertIsNone(regress.compile(r'\u{3}', dialect='regress').fullmatch('uuu'))
        self.assertEqual((ecma.dialect, other.dialect), ('ecma', 'regress'))
        self.assertEqual(repr(ecma), "regress.compile('[\\\\W_]', 'i')")
        self.assertEqual(repr(other), "regress.compile('[\\\\W_]', 'i', dialect='regress')")
        for pattern in ecma, other:
            self.assertEqual(pickle.loads(pickle.dumps(pattern)), pattern)
        self.assertNotEqual(ecma, other)
        for pattern, pos in (r'é\b+', 3), (r'é\b+'.encode(), 4):
            with self.assertRaises(regress.error) as raised:
                regress.compile(pattern)
            self.assertEqual((raised.exception.kind, raised.exception.pos), ('QuantifierNotAllowed', pos))
            self.assertEqual(raised.exception.msg, "an assertion can't be repeated")
            regress.compile(pattern, dialect='regress')
        for dialect in 'ecma', 'regress':
            with self.assertRaises(regress.error) as raised:
                regress.compile(r'(?<b>x)\k<a>', dialect=dialect)
            self.assertEqual((raised.exception.msg, raised.exception.pos),
                             ('no group has the name `a`', 10))
            # The sentence has the name as it is written.
            for pattern in r'(?<é>x)\k<\u0061>', r'(?<é>x)\k<\u0061>'.encode():
                with self.assertRaises(regress.error) as raised:
                    regress.compile(pattern, dialect=dialect)
                self.assertEqual((raised.exception.msg, raised.exception.kind),
                                 ('no group has the name `\\u0061`', 'UnknownName'))
                self.assertEqual(raised.exception.pos, 10 + isinstance(pattern, bytes))
        with self.assertRaises(ValueError):
            regress.compile('a', dialect='perl')

    def test_limits(self):
        with self.assertRaises(regress.error) as caught:
            regress.compile('a' * 1000, nodes=10)
        self.assertEqual(caught.exception.kind, 'TooLarge')
        # Too many instructions, in a small tree.
        with self.assertRaises(regress.error) as caught:
            regress.compile('(?:(?:ab){9999999999}){9999999999}')
        self.assertEqual(caught.exception.kind, 'TooLarge')
        pattern = regress.compile(r'(a*)*\1b', steps=100)
        for call in (pattern.search, pattern.findall, lambda text: pattern.sub('', text)):
            with self.assertRaises(regress.error) as caught:
                call('a' * 1000)
            self.assertEqual(caught.exception.kind, 'OutOfSteps')
        with self.assertRaises(ValueError):
            regress.compile('a', steps=0)
        # A linear search has no limit of steps, unless the program is too long for tables.
        self.assertIsNone(regress.compile('(a*)*b', steps=1).search('a' * 1000))
        with self.assertRaises(regress.error) as caught:
            regress.compile('(a*)*b', steps=1, linear_instructions=1).search('a' * 1000)
        self.assertEqual(caught.exception.kind, 'OutOfSteps')
        # Tables are limited.
        small = regress.compile('(a*)*b', memory=1000)
        self.assertEqual(small.search('aab').span(), (0, 3))
        for call in (small.search, small.findall, small.split, lambda text: small.sub('', text)):
            with self.assertRaises(regress.error) as caught:
                call('a' * 1000)
            self.assertEqual(caught.exception.kind, 'TooMuchMemory')
        # A backtrack stack and a list of matches are limited, too.
        stack, listed = regress.compile(r'(?:a|b|(c))*\1d', memory=4000), regress.compile('a', memory=1000)
        self.assertEqual(stack.search('aaad').span(), (0, 4))
        self.assertEqual(len(listed.findall('a' * 17)), 17)
        for call, text in (stack.search, 'a' * 200), (listed.findall, 'a' * 18):
            with self.assertRaises(regress.error) as caught:
                call(text)
            self.assertEqual(caught.exception.kind, 'TooMuchMemory')
        # A linear search may have a limit of steps, too.
        limited = regress.compile('(a*)*b', linear_steps=10)
        self.assertTrue(limited.is_linear)
        self.assertEqual(limited.search('b').span(), (0, 1))
        for call in (limited.search, limited.findall, limited.split, lambda text: limited.sub('', text)):
            with self.assertRaises(regress.error) as caught:
                call('a' * 1000)
            self.assertEqual(caught.exception.kind, 'OutOfSteps')
        self.assertIsNone(regress.compile('(a*)*b', linear_steps=1001 * limited.steps_per_byte).search('a' * 1000))
        self.assertEqual(pickle.loads(pickle.dumps(limited)), limited)
        large = '(?:(?:ab){400}){700}'
        with self.assertRaises(regress.error) as caught:
            regress.compile(large, instructions=10)
        self.assertEqual(caught.exception.kind, 'TooLarge')
        # Two iterations are stored, of five instructions with those inside.
        for instructions in 11, 10_000_000:
            pattern = regress.compile(large, instructions=instructions)
            self.assertEqual(pattern.search('c' + 'ab' * 280_000).span(), (1, 560_001))

    def test_linear_patterns(self):
        pattern = regress.compile('(a*)*b')
        self.assertTrue(pattern.is_linear)
        self.assertGreater(pattern.steps_per_byte, 0)
        self.assertIsNone(pattern.nonlinear)
        for pattern, nonlinear in (
            (regress.compile(r'(a)\1'), 'back-reference'),
            (regress.compile('(?=(a))b'), 'capturing-lookaround'),
            (regress.compile('(a*)*b', linear_instructions=1), 'too-many-instructions'),
            (regress.compile(r'(?=(a))\1', linear_instructions=1), 'back-reference'),
        ):
            self.assertFalse(pattern.is_linear)
            self.assertIsNone(pattern.steps_per_byte)
            self.assertEqual(pattern.nonlinear, nonlinear)
            self.assertEqual(pattern.is_find_linear, nonlinear == 'capturing-lookaround')

    def test_a_text_is_exact_with_u_or_where_no_character_above_ffff_counts(self):
        face = '\N{GRINNING FACE}'
        pattern = regress.compile('^.$')
        self.assertIs(pattern.is_exact_for('\xe9'), True)
        self.assertIs(pattern.is_exact_for(face), False)
        self.assertIs(regress.compile(face).is_exact_for('a'), False)
        self.assertIs(regress.compile(face, 'u').is_exact_for(face), True)
        self.assertIs(regress.compile(b'.').is_exact_for(face.encode()), False)
        self.assertIs(regress.compile(b'a').is_exact_for(face.encode()), True)
        with self.assertRaises(TypeError):
            pattern.is_exact_for(b'a')

    def test_a_match_is_found_in_linear_time_also_where_lookarounds_capture(self):
        pattern = regress.compile('(?:(?=(a*))a)*b', steps=1)
        # At the last a that is consumed, a* consumes that one.
        self.assertEqual(pattern.search('a' * 1000 + 'b').span(1), (999, 1000))
        self.assertIsNone(pattern.search('a' * 1000))

    def test_node_bound(self):
        # 3, one for each code point, and one more for the bar.
        self.assertEqual(regress.node_bound('a|b'), 7)
        self.assertEqual(regress.node_bound('é'), 4)
        self.assertEqual(regress.node_bound('é'.encode()), 4)
        self.assertEqual(regress.node_bound('(['), 5)
        self.assertEqual(regress.node_bound('[a]', 'v'), 10)
        self.assertGreater(regress.node_bound('(?<a>x)|' * 1000 + r'\k<a>' * 1000), 2_000_000)
        self.assertRaises(TypeError, regress.node_bound, 1)
        self.assertRaises(regress.error, regress.node_bound, 'a', 'x')

    def test_differences(self):
        # As docs/differences.md has them.
        def listed(*arguments):
            return [found[:3] for found in regress.differences(*arguments)]
        self.assertEqual(listed(r'é[k]\w', 'i'), [('case-closure', 1, 4), ('case-closure', 4, 6)])
        self.assertEqual(listed(r'é[k]\w'.encode(), 'i'), [('case-closure', 2, 5), ('case-closure', 5, 7)])
        self.assertEqual(listed(r'x\u{61}'), [('grammar', 1, 7)])
        self.assertEqual(listed(r'[\s\S]|\p{RGI_Emoji}', 'iv'), [])
        self.assertEqual(listed(r'(?:(?<a>x)|(?<a>y))\k<a>'), [('same-name', 19, 24)])
        self.assertEqual(listed(r'[k]\w'), [])
        self.assertEqual(len(listed('[k]' * 100, 'i')), 100)
        found = regress.differences('[k]', 'i')[0]
        self.assertTrue(found.text.startswith('with the flag i other characters may match'))
        self.assertEqual((found.kind, found.start, found.end), ('case-closure', 0, 3))
        with self.assertRaises(regress.error) as caught:
            regress.differences('é)'.encode())
        self.assertEqual((caught.exception.pos, caught.exception.kind), (2, 'UnbalancedParenthesis'))
        self.assertRaises(TypeError, regress.differences, 1)
        self.assertRaises(regress.error, regress.differences, 'a', 'x')
        self.assertRaises(regress.error, regress.differences, b'\xff')

    def test_types(self):
        for pattern, text in (('a', b'a'), (b'a', 'a'), ('a', None)):
            with self.assertRaises(TypeError):
                regress.compile(pattern).search(text)
        with self.assertRaises(TypeError):
            regress.compile('a').sub(b'b', 'a')
        with self.assertRaises(TypeError):
            regress.compile(1)
        self.assertEqual(regress.compile(b'a').search(bytearray(b'ba')).span(), (1, 2))
        found = regress.compile('(.)é'.encode()).search('x日é'.encode())
        self.assertEqual((found.span(), found[1]), ((1, 6), '日'.encode()))

    def test_texts_that_are_no_unicode(self):
        text, data = regress.compile('a'), regress.compile(b'a')
        for call in (lambda: regress.compile('\ud800'), lambda: regress.compile(b'\xff'),
                     lambda: text.search('\ud800'), lambda: text.finditer('a\ud800'), lambda: text.sub('\ud800', 'a'),
                     lambda: text.sub('b', '\ud800'), lambda: text.split('\ud800'), lambda: text.fullmatch('é\ud800'),
                     lambda: text.sub(lambda found: '\ud800', 'a'),
                     lambda: data.search(b'\xff'), lambda: data.findall(b'a\xff'), lambda: data.sub(b'\xff', b'a'),
                     lambda: data.sub(b'', b'\xff'), lambda: regress.escape('\ud800'), lambda: regress.escape(b'\xff'),
                     lambda: regress.node_bound('\ud800')):
            with self.assertRaises(regress.error) as caught:
                call()
            self.assertEqual(caught.exception.kind, 'Unicode')

    def test_positions_take_linear_time(self):
        text = 'é😀x' * 100_000
        begin = time.perf_counter()
        spans = [found.span() for found in regress.compile('(?<=(é).)x').finditer(text)]
        self.assertEqual(spans, [(3 * n + 2, 3 * n + 3) for n in range(100_000)])
        self.assertEqual(len(regress.compile('x').findall(text, 3)), 99_999)
        self.assertLess(time.perf_counter() - begin, 20)

    def test_all_matches_from_a_position(self):
        pattern = regress.compile('^a|(?<=a)a|bb')
        self.assertEqual([found.span() for found in pattern.finditer('aabbb', 1)], [(1, 2), (2, 4)])
        self.assertEqual([found.span() for found in pattern.finditer('aabbb', 3)], [(3, 5)])
        self.assertEqual([found.span() for found in regress.compile('').finditer('é', 1)], [(1, 1)])
        self.assertEqual(pattern.findall('aabbb', 5), [])
        self.assertEqual(pattern.findall('aabbb', 3, 2), [])
        # The limit of steps is for all matches together.
        pattern = regress.compile(r'(a)\1', steps=1000)
        self.assertEqual(len(pattern.findall('aa' * 10, 2)), 9)
        self.assertTrue(pattern.search('aa' * 1000))
        for pos in (0, 2):
            with self.assertRaises(regress.error) as caught:
                pattern.findall('aa' * 1000, pos)
            self.assertEqual(caught.exception.kind, 'OutOfSteps')

    def test_values(self):
        pattern = regress.compile('a', 'i')
        self.assertEqual(repr(pattern), "regress.compile('a', 'i')")
        self.assertEqual(pickle.loads(pickle.dumps(pattern)), pattern)
        self.assertIs(copy.deepcopy(pattern), pattern)
        self.assertEqual(len({pattern, regress.compile('a', 'i'), regress.compile('a')}), 2)
        self.assertIs(regress.compile(pattern), pattern)

    def test_escape(self):
        text = '1+1 = 2?\t\n\v\f\r-\u2028é'
        self.assertEqual(regress.escape(text), '\\x31\\+1\\x20\\x3d\\x202\\?\\t\\n\\v\\f\\r\\x2d\\u2028é')
        self.assertEqual(regress.escape('é1'), 'é1')
        self.assertEqual(regress.escape(b'a.'), b'\\x61\\.')
        self.assertEqual(regress.escape('-' * 100), '\\x2d' * 100)
        self.assertEqual(regress.escape('\0'), '\0')
        for flags in ('', 'i', 'u', 'v'):
            self.assertTrue(regress.compile(regress.escape(text), flags).fullmatch(text))

    def test_threads(self):
        pattern = regress.compile('(a+)b?')
        lengths = []

        def search(length):
            # Other threads run while a text of this length is searched.
            text = 'a' * (1000 * length)
            for _ in range(50):
                found = pattern.search(text)
                ends = {found.end(), pattern.finditer(text).__next__().end(), len(pattern.sub('$1', text))}
                if ends == {len(text)} and pattern.groups == 1:
                    lengths.append(length)
        threads = [threading.Thread(target=search, args=(length,)) for length in range(1, 9)]
        for thread in threads:
            thread.start()
        for thread in threads:
            thread.join()
        self.assertEqual(len(lengths), 400)

    def test_documentation(self):
        self.assertEqual(doctest.testmod(regress).failed, 0)


@unittest.skipUnless(hasattr(regress._library, 'regress_refused'), 'the library does not count requests for memory')
class Memory(unittest.TestCase):
    """Each request for memory that the library makes in a call fails once."""

    # With groups that have names, with a back reference, and with a search so long that tables are made.
    SEARCHES = [('(?<a>x)|(?<b>y+)', 'xyyzyyyy'), (r'x(y+)\1', 'zxyyxyyyy'), ('(a*)*b', 'a' * 24 + 'cb')]

    def number(self, name):
        return ctypes.c_long.in_dll(regress._library, 'regress_' + name)

    def refused(self, number, call):
        """Makes a call with the request of this number failing. Returns its result, or the type of its exception, and
        the number of requests."""
        self.number('requests').value = 0
        self.number('refused').value = number
        try:
            result = call()
        except (MemoryError, regress.error) as raised:
            result = type(raised)
        finally:
            self.number('refused').value = -1
        return result, self.number('requests').value

    def each_refused(self, name, call):
        """Makes a call with each of its requests failing in order: it raises MemoryError, or it has its result. The
        next call has its result."""
        expected, requests = self.refused(-1, call)
        self.assertIsNot(expected, MemoryError)
        reported = 0
        for number in range(requests):
            result, _ = self.refused(number, call)
            if result is MemoryError:
                reported += 1
            else:
                self.assertEqual(result, expected, (name, number))
            # After all of the many requests that make the table of Unicode this would take long.
            if number % 16 == 0 or requests < 1000:
                self.assertEqual(self.refused(-1, call)[0], expected, (name, number))
        self.assertEqual(self.refused(-1, call)[0], expected, name)
        self.assertGreater(reported, 0, name)
        print('%s: out of memory in %d of %d runs' % (name, reported, requests))

    def test_compiling(self):
        for pattern in [pattern for pattern, _ in self.SEARCHES] + ['a)']:
            self.each_refused('compile %s' % pattern, lambda: repr(regress.compile(pattern)))

    def test_searches(self):
        for pattern, text in self.SEARCHES:
            pattern = regress.compile(pattern)
            pattern.fullmatch(text)
            found = pattern.search(text)
            for name, call in (
                ('search', lambda: pattern.search(text).span()),
                ('match', lambda: pattern.match(text) is None),
                ('fullmatch', lambda: pattern.fullmatch(text) is None),
                ('finditer', lambda: [found.span() for found in pattern.finditer(text)]),
                ('finditer from 1', lambda: [found.span() for found in pattern.finditer(text, 1)]),
                ('sub', lambda: pattern.sub('<$1>', text)),
                ('sub of the first match', lambda: pattern.sub('<$1>', text, 1)),
                ('subn', lambda: pattern.subn('<$1>', text)),
                ('sub of two matches', lambda: pattern.sub('<$1>', text, 2)),
                ('split', lambda: pattern.split(text)),
                ('split once', lambda: pattern.split(text, 1)),
                ('expand', lambda: found.expand('<$1>')),
            ):
                self.each_refused(name, call)

    def test_escape(self):
        self.each_refused('escape', lambda: regress.escape('1 + 1'))

    def test_differences(self):
        self.each_refused('differences', lambda: regress.differences('[k]', 'i'))

    def test_node_bound(self):
        self.each_refused('node_bound', lambda: regress.node_bound('a|b'))


if __name__ == '__main__':
    unittest.main()
