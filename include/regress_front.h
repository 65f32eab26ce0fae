/* The pattern layer of a regular expression engine for ECMAScript syntax, for C: parses a pattern to a tree.

   Every function returns a status, keeps no state, and accesses only its arguments. It allocates with malloc, and frees
   everything before it returns. Any number of threads may call at the same time, each with its own buffers. A call uses
   stack, at most 800 KiB in measurements of patterns with the greatest nesting depth: 255 parentheses or 256 class
   brackets. Alternatives take no stack.

   NULL is allowed wherever a pointer and a length are given together and the length is 0, and for `kind`, `position`,
   `needed` and `spans_needed`: a number for which the pointer is NULL is not written. With any other NULL pointer the
   status is REGRESS_FRONT_BAD_INPUT. Buffers must not overlap each other or the pattern. */

#ifndef REGRESS_FRONT_H
#define REGRESS_FRONT_H

#include <stddef.h>
#include <stdint.h>

#ifdef __cplusplus
extern "C" {
#endif

/* A function of this header. C before C99 has no `inline`. */
#if defined(__cplusplus) || (defined(__STDC_VERSION__) && __STDC_VERSION__ >= 199901L)
#define REGRESS_FRONT_INLINE static inline
#elif defined(__GNUC__)
#define REGRESS_FRONT_INLINE static __inline__
#else
#define REGRESS_FRONT_INLINE static
#endif

/* Statuses: those of regress.h have the same numbers. */
#define REGRESS_FRONT_OK 0u        /* success: the result is written */
#define REGRESS_FRONT_MEMORY 2u    /* an allocation failed: the pattern may be valid or not */
#define REGRESS_FRONT_ROOM 3u      /* the buffer is too small and unchanged: `needed` is the size it has to have */
#define REGRESS_FRONT_BAD_INPUT 4u /* invalid arguments: a value above 10FFFF, invalid UTF-8, an unknown bit, NULL */
#define REGRESS_FRONT_SYNTAX 5u    /* the pattern is rejected: a syntax error */

/* Flags of a pattern, independent of each other: the flag v of JavaScript is UNICODE and UNICODE_SETS together. */
#define REGRESS_FRONT_ICASE 1u        /* i */
#define REGRESS_FRONT_MULTILINE 2u    /* m */
#define REGRESS_FRONT_DOT_ALL 4u      /* s */
#define REGRESS_FRONT_UNICODE 8u      /* u */
#define REGRESS_FRONT_UNICODE_SETS 16u /* v */
/* Use the small table instead of the one of all of Unicode: for patterns in ASCII, and for tests. It has few
   properties; letters in names are those of ASCII and from U+00C0 to U+00F6. */
#define REGRESS_FRONT_SMALL_TABLE 32u
/* The dialect of a pattern: the language of ECMA-262, in which UNICODE_SETS implies UNICODE. Without this bit it is that
   of the Rust crate `regress`. docs/syntax.md has the rules in which they differ. In regress.h it is the other way
   round: for a pattern that regress_compile rejects, give the calls here this bit unless that call had
   REGRESS_DIALECT_REGRESS. */
#define REGRESS_FRONT_DIALECT_ECMA 0x40000u

/* The kinds of syntax errors. docs/errors.md has the text and the cause of each. Their numbers never change; a later
   version may have more kinds. */
#define REGRESS_FRONT_KIND_UNBALANCED_PARENTHESIS 1u
#define REGRESS_FRONT_KIND_TOO_DEEP 2u
#define REGRESS_FRONT_KIND_TOO_MANY_GROUPS 3u
#define REGRESS_FRONT_KIND_TOO_MANY_LOOPS 4u
#define REGRESS_FRONT_KIND_INCOMPLETE_ESCAPE 5u
#define REGRESS_FRONT_KIND_UNTERMINATED_ESCAPE 6u
#define REGRESS_FRONT_KIND_INVALID_ESCAPE 7u
#define REGRESS_FRONT_KIND_INVALID_UNICODE_ESCAPE 8u
#define REGRESS_FRONT_KIND_INVALID_BRACED_QUANTIFIER 9u
#define REGRESS_FRONT_KIND_INVALID_ATOM 10u
#define REGRESS_FRONT_KIND_QUANTIFIER_NOT_ALLOWED 11u
#define REGRESS_FRONT_KIND_INVALID_QUANTIFIER 12u
#define REGRESS_FRONT_KIND_UNBALANCED_BRACKET 13u
#define REGRESS_FRONT_KIND_REVERSED_RANGE 14u
#define REGRESS_FRONT_KIND_INVALID_RANGE 15u
#define REGRESS_FRONT_KIND_UNBALANCED_SET 16u
#define REGRESS_FRONT_KIND_INVALID_SET_RANGE 17u
#define REGRESS_FRONT_KIND_UNEXPECTED_IN_INTERSECTION 18u
#define REGRESS_FRONT_KIND_UNEXPECTED_IN_SUBTRACTION 19u
#define REGRESS_FRONT_KIND_EMPTY_OPERAND 20u
#define REGRESS_FRONT_KIND_INCOMPLETE_SET_ESCAPE 21u
#define REGRESS_FRONT_KIND_STRINGS_WITHOUT_BRACE 22u
#define REGRESS_FRONT_KIND_UNBALANCED_STRINGS 23u
#define REGRESS_FRONT_KIND_INVALID_SET_CHARACTER 24u
#define REGRESS_FRONT_KIND_INVALID_NEGATED_CLASS 25u
#define REGRESS_FRONT_KIND_PROPERTY_WITHOUT_BRACE 26u
#define REGRESS_FRONT_KIND_INVALID_PROPERTY 27u
#define REGRESS_FRONT_KIND_INVALID_GROUP_NAME 28u
#define REGRESS_FRONT_KIND_INVALID_MODIFIER 29u
#define REGRESS_FRONT_KIND_INVALID_REFERENCE 30u
#define REGRESS_FRONT_KIND_UNKNOWN_NAME 31u
#define REGRESS_FRONT_KIND_DUPLICATE_NAME 32u

/* Which tree: as parsed, or optimized to normal form. */
#define REGRESS_FRONT_PARSED 0u
#define REGRESS_FRONT_OPTIMIZED 1u

/* The encoding of a tree, as 32-bit words.

   A node is a word for its kind, its fields in the order of this table, and then the nodes inside it. A field is one
   word; a Boolean is 0 or 1. A number marked "wide" has 64 bits and takes two words, the low half first. "list of X" is
   a wide number, the length, and then that many X.

   What an emitter or matcher has to know:
   - In a lookbehind the parts of a CAT are in reverse order, which is the order in which they are matched. A lookahead
     inside a lookbehind has its parts in the pattern's order again. The bytes of a BYTE_SEQUENCE and the code points of
     a STRING_SET are in the order of the text everywhere.
   - An iteration of a loop past the minimum that does not advance fails, which ends the loop.
   - The groups inside a LOOP are unset at the start of each iteration.
   - A BACK_REF to a group that is unset matches the empty text.

     kind                                        fields                                          nodes inside */
#define REGRESS_FRONT_EMPTY 0u                /*                                                                   */
#define REGRESS_FRONT_GOAL 1u                 /*                                                                   */
#define REGRESS_FRONT_CHAR 2u                 /* code point                                                        */
#define REGRESS_FRONT_BYTE_SEQUENCE 3u        /* list of bytes, a byte a word                                      */
#define REGRESS_FRONT_BYTE_SET 4u             /* list of bytes, a byte a word                                      */
#define REGRESS_FRONT_CHAR_SET 5u             /* list of code points                                               */
#define REGRESS_FRONT_CAT 6u                  /* wide: the number of parts                           the parts     */
#define REGRESS_FRONT_ALT 7u                  /*                                                     left, right   */
#define REGRESS_FRONT_MATCH_ANY 8u            /*                                                                   */
#define REGRESS_FRONT_MATCH_ANY_EXCEPT_LINE_TERMINATOR 9u /*                                                       */
#define REGRESS_FRONT_ANCHOR 10u              /* 0 for the start of line, 1 for its end; multiline                 */
#define REGRESS_FRONT_WORD_BOUNDARY 11u       /* invert; unicode_icase                                             */
#define REGRESS_FRONT_CAPTURE_GROUP 12u       /* id, from 0; whether it has a name; if so, the name
                                                 as list of bytes of UTF-8, a byte a word            contents      */
#define REGRESS_FRONT_BRACKET 13u             /* invert; list of intervals: first, last                            */
#define REGRESS_FRONT_LOOP 14u                /* the groups inside: first id, id after the last;
                                                 quantifier                                          body          */
#define REGRESS_FRONT_LOOP_1_CHAR_BODY 15u    /* quantifier                                          body          */
#define REGRESS_FRONT_LOOKAROUND_ASSERTION 16u /* negate; backwards; the groups inside: first id,
                                                 id after the last                                   contents      */
#define REGRESS_FRONT_BACK_REF 17u            /* group, from 1; icase                                              */
#define REGRESS_FRONT_STRING_SET 18u          /* icase; list of strings, each a list of code points                */
/* A quantifier is: greedy; wide: the minimum number of iterations; whether there is a maximum; if so, wide: the
   maximum. */

/* The span of a node: the half-open range of code-point indices of the pattern that it is parsed from. A node of a
   reference by name, or of a class under UNICODE_SETS, has the span of the whole item. */
typedef struct regress_front_span {
    size_t start;
    size_t end;
} regress_front_span;

/* The functions of the library. They are as those below, but no pointer may be NULL. */
uint32_t regress_front_parse_code_points(const uint32_t *pattern, size_t pattern_length, uint32_t flags,
                                        uint32_t optimize, uint32_t *words, size_t room, size_t *needed,
                                        uint32_t *kind, size_t *position);
uint32_t regress_front_parse_text(const uint8_t *pattern, size_t pattern_length, uint32_t flags, uint32_t optimize,
                                 uint32_t *words, size_t room, size_t *needed, uint32_t *kind, size_t *position);
uint32_t regress_front_parse_code_points_with_spans(const uint32_t *pattern, size_t pattern_length, uint32_t flags,
                                                   uint32_t *words, size_t room, size_t *needed,
                                                   regress_front_span *spans, size_t span_room, size_t *spans_needed,
                                                   uint32_t *kind, size_t *position);
uint32_t regress_front_parse_text_with_spans(const uint8_t *pattern, size_t pattern_length, uint32_t flags,
                                            uint32_t *words, size_t room, size_t *needed, regress_front_span *spans,
                                            size_t span_room, size_t *spans_needed, uint32_t *kind, size_t *position);
uint32_t regress_front_tell_fault(const uint32_t *pattern, size_t pattern_length, uint32_t flags, uint8_t *text,
                                 size_t room, size_t *needed, uint32_t *kind, size_t *position);
uint32_t regress_front_tell_fault_of_text(const uint8_t *pattern, size_t pattern_length, uint32_t flags, uint8_t *text,
                                         size_t room, size_t *needed, uint32_t *kind, size_t *position);
uint32_t regress_front_bound_nodes(const uint32_t *pattern, size_t pattern_length, uint32_t flags, size_t *bound);
uint32_t regress_front_bound_nodes_of_text(const uint8_t *pattern, size_t pattern_length, uint32_t flags,
                                           size_t *bound);

/* For the functions below: a pointer, or where it is NULL that of a variable which is not used; whether a pointer and
   its length are no pattern and no buffer; and the result for invalid arguments. */
#define REGRESS_FRONT_OR(pointer, variable) ((pointer) ? (pointer) : &(variable))
#define REGRESS_FRONT_IS_MISSING(pointer, length) (!(pointer) && (length) > 0)

REGRESS_FRONT_INLINE uint32_t regress_front_bad_input(size_t *needed, uint32_t *kind, size_t *position) {
    *needed = 0;
    *kind = 0;
    *position = 0;
    return REGRESS_FRONT_BAD_INPUT;
}

/* Parses a pattern of code points, each at most 10FFFF, surrogates included.

   Writes the encoding of its tree to `words`, a buffer of `room` words; words after the encoding are unchanged. For OK
   and ROOM `needed` is the length of the encoding in words, else 0: call with `room` 0 first, and then with a buffer of
   that size. For SYNTAX `kind` is the kind of the syntax error, one of REGRESS_FRONT_KIND_.., and `position` its position,
   a code-point index from 0 to the pattern's length, else both are 0. */
REGRESS_FRONT_INLINE uint32_t regress_front_parse(const uint32_t *pattern, size_t pattern_length, uint32_t flags,
                                                  uint32_t optimize, uint32_t *words, size_t room, size_t *needed,
                                                  uint32_t *kind, size_t *position) {
    uint32_t no_point = 0, no_word = 0;
    size_t no_needed = 0, no_position = 0;
    uint32_t no_kind = 0;
    needed = REGRESS_FRONT_OR(needed, no_needed);
    kind = REGRESS_FRONT_OR(kind, no_kind);
    position = REGRESS_FRONT_OR(position, no_position);
    if (REGRESS_FRONT_IS_MISSING(pattern, pattern_length) || REGRESS_FRONT_IS_MISSING(words, room)) {
        return regress_front_bad_input(needed, kind, position);
    }
    return regress_front_parse_code_points(REGRESS_FRONT_OR(pattern, no_point), pattern_length, flags, optimize,
                                           REGRESS_FRONT_OR(words, no_word), room, needed, kind, position);
}

/* Parses a pattern in UTF-8, as regress_front_parse. `pattern_length` is in bytes; `position` counts code points here
   too. */
REGRESS_FRONT_INLINE uint32_t regress_front_parse_utf8(const char *pattern, size_t pattern_length, uint32_t flags,
                                                       uint32_t optimize, uint32_t *words, size_t room, size_t *needed,
                                                       uint32_t *kind, size_t *position) {
    const char no_byte = 0;
    uint32_t no_word = 0;
    size_t no_needed = 0, no_position = 0;
    uint32_t no_kind = 0;
    needed = REGRESS_FRONT_OR(needed, no_needed);
    kind = REGRESS_FRONT_OR(kind, no_kind);
    position = REGRESS_FRONT_OR(position, no_position);
    if (REGRESS_FRONT_IS_MISSING(pattern, pattern_length) || REGRESS_FRONT_IS_MISSING(words, room)) {
        return regress_front_bad_input(needed, kind, position);
    }
    return regress_front_parse_text((const uint8_t *)REGRESS_FRONT_OR(pattern, no_byte), pattern_length, flags,
                                    optimize, REGRESS_FRONT_OR(words, no_word), room, needed, kind, position);
}

/* Parses a pattern of code points without optimizing its tree, as regress_front_parse, and writes the span of each node
   to `spans`, a buffer of `span_room` elements, in the order in which `words` has the nodes: a node comes before those
   inside it.

   For OK and ROOM `spans_needed` is the number of spans, that of the nodes, else 0. For ROOM `words` or `spans` is too
   small, and both are unchanged. */
REGRESS_FRONT_INLINE uint32_t regress_front_parse_with_spans(const uint32_t *pattern, size_t pattern_length,
                                                             uint32_t flags, uint32_t *words, size_t room,
                                                             size_t *needed, regress_front_span *spans,
                                                             size_t span_room, size_t *spans_needed, uint32_t *kind,
                                                             size_t *position) {
    uint32_t no_point = 0, no_word = 0;
    regress_front_span no_span = {0, 0};
    size_t no_spans_needed = 0;
    size_t no_needed = 0, no_position = 0;
    uint32_t no_kind = 0;
    needed = REGRESS_FRONT_OR(needed, no_needed);
    kind = REGRESS_FRONT_OR(kind, no_kind);
    position = REGRESS_FRONT_OR(position, no_position);
    spans_needed = REGRESS_FRONT_OR(spans_needed, no_spans_needed);
    if (REGRESS_FRONT_IS_MISSING(pattern, pattern_length) || REGRESS_FRONT_IS_MISSING(words, room)
        || REGRESS_FRONT_IS_MISSING(spans, span_room)) {
        *spans_needed = 0;
        return regress_front_bad_input(needed, kind, position);
    }
    return regress_front_parse_code_points_with_spans(REGRESS_FRONT_OR(pattern, no_point), pattern_length, flags,
                                                      REGRESS_FRONT_OR(words, no_word), room, needed,
                                                      REGRESS_FRONT_OR(spans, no_span), span_room, spans_needed, kind,
                                                      position);
}

/* As regress_front_parse_with_spans, for a pattern in UTF-8. Spans and `position` count code points here too. */
REGRESS_FRONT_INLINE uint32_t regress_front_parse_utf8_with_spans(const char *pattern, size_t pattern_length,
                                                                  uint32_t flags, uint32_t *words, size_t room,
                                                                  size_t *needed, regress_front_span *spans,
                                                                  size_t span_room, size_t *spans_needed,
                                                                  uint32_t *kind, size_t *position) {
    const char no_byte = 0;
    uint32_t no_word = 0;
    regress_front_span no_span = {0, 0};
    size_t no_spans_needed = 0;
    size_t no_needed = 0, no_position = 0;
    uint32_t no_kind = 0;
    needed = REGRESS_FRONT_OR(needed, no_needed);
    kind = REGRESS_FRONT_OR(kind, no_kind);
    position = REGRESS_FRONT_OR(position, no_position);
    spans_needed = REGRESS_FRONT_OR(spans_needed, no_spans_needed);
    if (REGRESS_FRONT_IS_MISSING(pattern, pattern_length) || REGRESS_FRONT_IS_MISSING(words, room)
        || REGRESS_FRONT_IS_MISSING(spans, span_room)) {
        *spans_needed = 0;
        return regress_front_bad_input(needed, kind, position);
    }
    return regress_front_parse_text_with_spans((const uint8_t *)REGRESS_FRONT_OR(pattern, no_byte), pattern_length,
                                               flags, REGRESS_FRONT_OR(words, no_word), room, needed,
                                               REGRESS_FRONT_OR(spans, no_span), span_room, spans_needed, kind,
                                               position);
}

/* Parses a pattern of code points, and writes the text of its syntax error to `text`, a buffer of `room` bytes: in
   UTF-8, with a zero after it if there is room for one.

   Returns SYNTAX if the pattern is rejected and the text is written, ROOM if the buffer is too small for it, and OK if
   the pattern is accepted, with nothing written. For SYNTAX and ROOM `needed` is the length of the text in bytes, and
   `kind` and `position` are the kind and the position of the same error, else they are 0. */
REGRESS_FRONT_INLINE uint32_t regress_front_fault(const uint32_t *pattern, size_t pattern_length, uint32_t flags,
                                                  char *text, size_t room, size_t *needed, uint32_t *kind,
                                                  size_t *position) {
    uint32_t no_point = 0;
    char no_text = 0;
    uint32_t status;
    size_t no_needed = 0, no_position = 0;
    uint32_t no_kind = 0;
    needed = REGRESS_FRONT_OR(needed, no_needed);
    kind = REGRESS_FRONT_OR(kind, no_kind);
    position = REGRESS_FRONT_OR(position, no_position);
    if (REGRESS_FRONT_IS_MISSING(pattern, pattern_length) || REGRESS_FRONT_IS_MISSING(text, room)) {
        return regress_front_bad_input(needed, kind, position);
    }
    status = regress_front_tell_fault(REGRESS_FRONT_OR(pattern, no_point), pattern_length, flags,
                                      (uint8_t *)REGRESS_FRONT_OR(text, no_text), room, needed, kind, position);
    if (status == REGRESS_FRONT_SYNTAX && *needed < room) {
        text[*needed] = 0;
    }
    return status;
}

/* As regress_front_fault, for a pattern in UTF-8. `position` counts code points here too. */
REGRESS_FRONT_INLINE uint32_t regress_front_fault_utf8(const char *pattern, size_t pattern_length, uint32_t flags,
                                                       char *text, size_t room, size_t *needed, uint32_t *kind,
                                                       size_t *position) {
    const char no_byte = 0;
    char no_text = 0;
    uint32_t status;
    size_t no_needed = 0, no_position = 0;
    uint32_t no_kind = 0;
    needed = REGRESS_FRONT_OR(needed, no_needed);
    kind = REGRESS_FRONT_OR(kind, no_kind);
    position = REGRESS_FRONT_OR(position, no_position);
    if (REGRESS_FRONT_IS_MISSING(pattern, pattern_length) || REGRESS_FRONT_IS_MISSING(text, room)) {
        return regress_front_bad_input(needed, kind, position);
    }
    status = regress_front_tell_fault_of_text((const uint8_t *)REGRESS_FRONT_OR(pattern, no_byte), pattern_length,
                                              flags, (uint8_t *)REGRESS_FRONT_OR(text, no_text), room, needed, kind,
                                              position);
    if (status == REGRESS_FRONT_SYNTAX && *needed < room) {
        text[*needed] = 0;
    }
    return status;
}

/* Writes an upper bound on the number of nodes of the tree of a pattern of code points to `bound`, or SIZE_MAX, which
   is no bound. Test it before an untrusted pattern is parsed: n references by name to n groups of this name make n * n
   nodes. A pattern without references by name has at most 5 times its length and 3 more.

   Returns OK or BAD_INPUT: no syntax error is reported. `bound` is 0 with BAD_INPUT. */
REGRESS_FRONT_INLINE uint32_t regress_front_node_bound(const uint32_t *pattern, size_t pattern_length, uint32_t flags,
                                                       size_t *bound) {
    uint32_t no_point = 0;
    if (!bound) {
        return REGRESS_FRONT_BAD_INPUT;
    }
    if (REGRESS_FRONT_IS_MISSING(pattern, pattern_length)) {
        *bound = 0;
        return REGRESS_FRONT_BAD_INPUT;
    }
    return regress_front_bound_nodes(REGRESS_FRONT_OR(pattern, no_point), pattern_length, flags, bound);
}

/* As regress_front_node_bound, for a pattern in UTF-8. It also returns MEMORY, with 0 as `bound`. */
REGRESS_FRONT_INLINE uint32_t regress_front_node_bound_utf8(const char *pattern, size_t pattern_length, uint32_t flags,
                                                            size_t *bound) {
    const char no_byte = 0;
    if (!bound) {
        return REGRESS_FRONT_BAD_INPUT;
    }
    if (REGRESS_FRONT_IS_MISSING(pattern, pattern_length)) {
        *bound = 0;
        return REGRESS_FRONT_BAD_INPUT;
    }
    return regress_front_bound_nodes_of_text((const uint8_t *)REGRESS_FRONT_OR(pattern, no_byte), pattern_length,
                                             flags, bound);
}

/* Returns the name of a kind of node as docs/ir.md has it, such as "Char"; NULL for a number that is no kind. */
REGRESS_FRONT_INLINE const char *regress_front_node_name(uint32_t kind) {
    static const char *const names[] = {
        "Empty", "Goal", "Char", "ByteSequence", "ByteSet", "CharSet", "Cat", "Alt", "MatchAny",
        "MatchAnyExceptLineTerminator", "Anchor", "WordBoundary", "CaptureGroup", "Bracket", "Loop", "Loop1CharBody",
        "LookaroundAssertion", "BackRef", "StringSet",
    };
    return kind < sizeof names / sizeof *names ? names[kind] : NULL;
}

/* For regress_front_skip: the word at an index, and the wide number, with 0 for words past the end. */
REGRESS_FRONT_INLINE uint32_t regress_front_word_at(const uint32_t *words, size_t length, size_t at) {
    return at < length ? words[at] : 0;
}

REGRESS_FRONT_INLINE uint64_t regress_front_wide_at(const uint32_t *words, size_t length, size_t at) {
    return (uint64_t)regress_front_word_at(words, length, at + 1) << 32 | regress_front_word_at(words, length, at);
}

/* For regress_front_skip: the index after the list at an index, with elements of `size` words. It is past the end if
   the list is. */
REGRESS_FRONT_INLINE size_t regress_front_after_list(const uint32_t *words, size_t length, size_t at, size_t size) {
    uint64_t count = regress_front_wide_at(words, length, at);
    at += 2;
    return at > length || count > (length - at) / size ? length + 1 : at + (size_t)count * size;
}

/* For regress_front_skip: the index after the kind and the fields at an index, and the number of the nodes inside. It
   is past the end if the fields are, or if the kind is unknown. */
REGRESS_FRONT_INLINE size_t regress_front_after_fields(const uint32_t *words, size_t length, size_t at,
                                                       uint64_t *inside) {
    uint32_t kind = regress_front_word_at(words, length, at++);
    uint64_t strings;
    *inside = 0;
    switch (kind) {
    case REGRESS_FRONT_EMPTY:
    case REGRESS_FRONT_GOAL:
    case REGRESS_FRONT_MATCH_ANY:
    case REGRESS_FRONT_MATCH_ANY_EXCEPT_LINE_TERMINATOR:
        return at;
    case REGRESS_FRONT_CHAR:
        return at + 1;
    case REGRESS_FRONT_ANCHOR:
    case REGRESS_FRONT_WORD_BOUNDARY:
    case REGRESS_FRONT_BACK_REF:
        return at + 2;
    case REGRESS_FRONT_BYTE_SEQUENCE:
    case REGRESS_FRONT_BYTE_SET:
    case REGRESS_FRONT_CHAR_SET:
        return regress_front_after_list(words, length, at, 1);
    case REGRESS_FRONT_CAT:
        *inside = regress_front_wide_at(words, length, at);
        return at + 2;
    case REGRESS_FRONT_ALT:
        *inside = 2;
        return at;
    case REGRESS_FRONT_CAPTURE_GROUP:
        *inside = 1;
        at += 2;
        return regress_front_word_at(words, length, at - 1) ? regress_front_after_list(words, length, at, 1) : at;
    case REGRESS_FRONT_BRACKET:
        return regress_front_after_list(words, length, at + 1, 2);
    case REGRESS_FRONT_LOOP:
        *inside = 1;
        return at + (regress_front_word_at(words, length, at + 5) ? 8 : 6);
    case REGRESS_FRONT_LOOP_1_CHAR_BODY:
        *inside = 1;
        return at + (regress_front_word_at(words, length, at + 3) ? 6 : 4);
    case REGRESS_FRONT_LOOKAROUND_ASSERTION:
        *inside = 1;
        return at + 4;
    case REGRESS_FRONT_STRING_SET:
        strings = regress_front_wide_at(words, length, at + 1);
        for (at += 3; strings > 0 && at < length; strings--) {
            at = regress_front_after_list(words, length, at, 1);
        }
        return strings > 0 ? length + 1 : at;
    default:
        return length + 1;
    }
}

/* Returns the number of words of the node at the start of `words`, with the nodes inside it: those that a decoder skips
   to ignore the node. It iterates, and does not recurse.

   Returns 0 if the node does not end within `length` words, or if a kind in it is unknown. */
REGRESS_FRONT_INLINE size_t regress_front_skip(const uint32_t *words, size_t length) {
    size_t at = 0;
    /* The number of nodes that remain, each of which takes at least a word. */
    uint64_t nodes = 1, inside;
    while (nodes > 0) {
        if (nodes > length - at) {
            return 0;
        }
        at = regress_front_after_fields(words, length, at, &inside);
        if (at > length || inside > length - at) {
            return 0;
        }
        nodes += inside - 1;
    }
    return at;
}

#ifdef __cplusplus
}
#endif

#endif
