/* Regular expressions in ECMAScript syntax, for C: a pattern is compiled once, and then searched for in any number of
   texts.

   Patterns and texts are UTF-8, each with its length in bytes, and not terminated by a zero. Positions in a text are
   byte offsets. Positions in a pattern are code-point indices; regress_byte_offset makes one a byte offset.

   Every call returns a status, unless its comment names another result. A call writes nothing but what its status says.
   Each writes the size of its result to `needed` where it has one: with REGRESS_ROOM it is the size that the buffer has
   to have, and the buffer is unchanged, so call again with a buffer of that size.

   NULL is allowed wherever a pointer and a length are given together and the length is 0, and for `limits`, `kind`,
   `position`, `needed` and `count`: NULL limits are the default limits, and a number for which the pointer is NULL is
   not written. With any other NULL pointer, and with a handle that is zero, the status is REGRESS_BAD_INPUT, and a call
   without a status returns 0. Buffers must not overlap each other or the input.

   A handle is a variable that regress_compile writes, and may be moved. It owns the compiled pattern, until
   regress_free frees it and makes it zero. A regress_matches is the same for matches, from regress_matches_new to
   regress_matches_free, and a regress_replaced for a text, from regress_replaced_new to regress_replaced_free. A
   regress_searcher keeps the memory of searches, from regress_searcher_new to regress_searcher_free.
   Everything else that a call allocates, with malloc, is freed before it returns. No call keeps a pointer that it is
   given. A call must not be made in a signal handler.

   Any number of threads may make calls at the same time, also with the same handle if its type in the call is const.
   Every other call with a handle must be the only one with it while it runs: order them by a lock, by a start or join
   of a thread, or by a sequentially consistent atomic. */

#ifndef REGRESS_H
#define REGRESS_H

#include <stddef.h>
#include <stdint.h>

#ifdef __cplusplus
extern "C" {
#endif

/* A function of this header. C before C99 has no `inline`. */
#if defined(__cplusplus) || (defined(__STDC_VERSION__) && __STDC_VERSION__ >= 199901L)
#define REGRESS_INLINE static inline
#elif defined(__GNUC__)
#define REGRESS_INLINE static __inline__
#else
#define REGRESS_INLINE static
#endif

/* The version of this header, and that of the calls: it grows when a call, a status or a number changes its meaning,
   and not when one is added. */
#define REGRESS_VERSION "0.1.0"
#define REGRESS_ABI_VERSION 6u

/* A handle to a compiled regular expression. `inside` is the library's own, and NULL in a handle that is zero. */
typedef struct regress_regex {
    void *inside;
} regress_regex;

/* The matches that a search has found, in order. `inside` is as that of a handle. */
typedef struct regress_matches {
    void *inside;
} regress_matches;

/* A text in which matches were replaced, and how many were. `inside` is as that of a handle. */
typedef struct regress_replaced {
    void *inside;
} regress_replaced;

/* The memory of searches for one match, which is kept from one search to the next. `inside` is as that of a handle. */
typedef struct regress_searcher {
    void *inside;
} regress_searcher;

/* Statuses. docs/c-api.md lists when each is returned, and what to do. Those of regress_front.h have the same
   numbers. */
#define REGRESS_OK 0u              /* success: the result is written */
#define REGRESS_NO_MATCH 1u        /* the text has no match, or no further one */
#define REGRESS_MEMORY 2u          /* an allocation failed; the same call may succeed later */
#define REGRESS_ROOM 3u            /* the buffer is too small and unchanged: `needed` is the size that it has to have */
#define REGRESS_BAD_INPUT 4u       /* invalid arguments: invalid UTF-8, an unknown bit, a NULL pointer, a zero handle */
#define REGRESS_SYNTAX 5u          /* the pattern is rejected: a syntax error */
#define REGRESS_TOO_LARGE 6u       /* the pattern may have more nodes than allowed, or too many instructions */
#define REGRESS_OUT_OF_STEPS 7u    /* the search takes more steps than allowed */
#define REGRESS_TOO_MUCH_MEMORY 8u /* the search needs more memory than allowed */

/* Flags of a pattern. The flag v of JavaScript is UNICODE and UNICODE_SETS together. */
#define REGRESS_ICASE 1u         /* i */
#define REGRESS_MULTILINE 2u     /* m */
#define REGRESS_DOT_ALL 4u       /* s */
#define REGRESS_UNICODE 8u       /* u */
#define REGRESS_UNICODE_SETS 16u /* v */
/* Use the small table instead of the one of all of Unicode: for patterns in ASCII, and for tests. It has few
   properties; letters in names are those of ASCII and from U+00C0 to U+00F6. */
#define REGRESS_SMALL_TABLE 32u
/* The dialect of a pattern, for regress_compile alone: that of the Rust crate `regress`. Without this bit it is the
   language of ECMA-262, in which UNICODE_SETS implies UNICODE. docs/syntax.md has the rules in which they differ. The
   calls of regress_front.h have another bit, REGRESS_FRONT_DIALECT_ECMA. */
#define REGRESS_DIALECT_REGRESS 0x20000u

/* The limits of a compiled pattern; 0 is the default of each, so {0} are the default limits.

   - steps: the steps of a search that is not linear, by default a billion. docs/performance.md says what a step is.
   - nodes: the nodes of the tree of the pattern, as regress_front_node_bound_utf8 bounds them, by default a million.
   - instructions: those of its program that are stored, where the body of a loop {n,m} counts m times, or if it is one
     character, about m / 64 times; but if that is too much, a few times; by default 250,000.
   - linear_instructions: the number of instructions up to which a search may be linear, where one character always counts
     about m / 64 times; by default 4,000. It takes up to two bits of memory for each instruction and byte of the
     text.
   - memory: by default 256 MiB: the bytes that the tables of one search may take, at most a quarter of a byte for each
     instruction, and 8 bytes, for each byte of the text, and once more; those of its backtrack stack, and of one more for
     each level of nested lookarounds; and those of a list of all matches, also of one by which a text is replaced or
     split, where a match counts 56 bytes, and 24 for each group. A lookaround takes up to 4 bytes more for each byte of
     the text, which do not count.
   - linear_steps: the steps of a search that is linear; by default there is no limit. If regress_steps_per_byte times
     (length + 1) exceeds it, for one match regress_find_steps_per_byte, the search only backtracks, within that number
     of steps. */
typedef struct regress_limits {
    uint64_t steps;
    size_t nodes;
    size_t instructions;
    size_t linear_instructions;
    size_t memory;
    uint64_t linear_steps;
} regress_limits;

/* What a group without a capture has as its start and its end. */
#define REGRESS_UNSET SIZE_MAX

/* A part of a pattern that in the dialect REGRESS matches otherwise than in JavaScript (ECMA-262): its kind, and the
   half-open range of code-point indices of the pattern where it is. docs/differences.md has the differences. */
typedef struct regress_difference {
    uint32_t kind;
    size_t start;
    size_t end;
} regress_difference;

/* The kinds of differences. Their numbers never change; a later version may have more kinds. */
#define REGRESS_DIFFERENCE_CASE_CLOSURE 1u /* a class, class escape or property, where the flag i may be in force */
#define REGRESS_DIFFERENCE_STRING_SET 2u   /* a property of strings, which JavaScript tries in another order */
#define REGRESS_DIFFERENCE_SAME_NAME 3u    /* a reference by name to several groups */
#define REGRESS_DIFFERENCE_GRAMMAR 4u      /* JavaScript rejects the pattern here, or parses it otherwise */

/* The functions of the library. They are as those below, but no pointer may be NULL, also if its length is 0, and a
   handle must be that of a compiled pattern. They change the handle while they run, so that only one call at a time
   may use it. */
uint32_t regress_compile_raw(const uint8_t *pattern, size_t length, uint32_t flags, const regress_limits *limits,
                             regress_regex *handle, uint32_t *kind, size_t *position);
uint32_t regress_is_linear_raw(regress_regex *handle);
uint32_t regress_is_exact_for_raw(regress_regex *handle, const uint8_t *text, size_t length);
uint32_t regress_nonlinear_raw(regress_regex *handle);
uint64_t regress_steps_per_byte_raw(regress_regex *handle);
uint64_t regress_find_steps_per_byte_raw(regress_regex *handle);
uint32_t regress_find_raw(regress_regex *handle, const uint8_t *text, size_t length, size_t from, size_t *spans,
                          size_t room, size_t *needed);
uint32_t regress_searcher_new_raw(regress_searcher *searcher);
uint32_t regress_searcher_find_raw(regress_searcher *searcher, regress_regex *handle, const uint8_t *text,
                                   size_t length, size_t from, size_t *spans, size_t room, size_t *needed);
uint32_t regress_searcher_is_match_raw(regress_searcher *searcher, regress_regex *handle, const uint8_t *text,
                                       size_t length);
void regress_searcher_free_raw(regress_searcher *searcher);
uint32_t regress_find_all_raw(regress_regex *handle, const uint8_t *text, size_t length, size_t from, size_t *spans,
                              size_t room, size_t *needed);
uint32_t regress_matches_new_raw(regress_regex *handle, const uint8_t *text, size_t length, size_t from,
                                 regress_matches *matches);
uint32_t regress_matches_next_raw(regress_matches *matches, size_t *spans, size_t room, size_t *needed);
size_t regress_matches_left_raw(regress_matches *matches);
void regress_matches_free_raw(regress_matches *matches);
uint32_t regress_is_match_raw(regress_regex *handle, const uint8_t *text, size_t length);
uint32_t regress_replace_raw(regress_regex *handle, const uint8_t *text, size_t length, const uint8_t *replacement,
                             size_t replacement_length, uint8_t *out, size_t room, size_t *needed);
uint32_t regress_replace_all_raw(regress_regex *handle, const uint8_t *text, size_t length,
                                 const uint8_t *replacement, size_t replacement_length, uint8_t *out, size_t room,
                                 size_t *needed);
uint32_t regress_replace_n_raw(regress_regex *handle, const uint8_t *text, size_t length, const uint8_t *replacement,
                               size_t replacement_length, size_t limit, uint8_t *out, size_t room, size_t *needed,
                               size_t *count);
uint32_t regress_replaced_new_raw(regress_regex *handle, const uint8_t *text, size_t length,
                                  const uint8_t *replacement, size_t replacement_length, size_t limit,
                                  regress_replaced *replaced);
uint32_t regress_replaced_write_raw(regress_replaced *replaced, uint8_t *out, size_t room, size_t *needed);
size_t regress_replaced_count_raw(regress_replaced *replaced);
void regress_replaced_free_raw(regress_replaced *replaced);
uint32_t regress_expand_raw(regress_regex *handle, const uint8_t *text, size_t length, const size_t *spans,
                            size_t span_count, const uint8_t *replacement, size_t replacement_length, uint8_t *out,
                            size_t room, size_t *needed);
uint32_t regress_split_raw(regress_regex *handle, const uint8_t *text, size_t length, size_t limit,
                           regress_matches *parts);
uint32_t regress_escape_raw(const uint8_t *text, size_t length, uint8_t *out, size_t room, size_t *needed);
size_t regress_group_count_raw(regress_regex *handle);
uint32_t regress_group_name_raw(regress_regex *handle, size_t group, uint8_t *out, size_t room, size_t *needed);
uint32_t regress_error_message_raw(uint32_t kind, uint8_t *out, size_t room, size_t *needed);
uint32_t regress_error_sentence_raw(const uint8_t *pattern, size_t length, uint32_t kind, size_t position, uint8_t *out,
                                    size_t room, size_t *needed);
void regress_free_raw(regress_regex *handle);
uint32_t regress_differences_raw(const uint8_t *pattern, size_t length, uint32_t flags,
                                 regress_difference *differences, size_t room, size_t *needed, uint32_t *kind,
                                 size_t *position);
uint32_t regress_difference_name_raw(uint32_t kind, uint8_t *out, size_t room, size_t *needed);
uint32_t regress_difference_text_raw(uint32_t kind, uint8_t *out, size_t room, size_t *needed);

/* For the functions below: a pointer, or where it is NULL that of a variable which is not used; whether a pointer and
   its length are no text and no buffer; and the copy of a handle that a call changes in place of the caller's. */
#define REGRESS_OR(pointer, variable) ((pointer) ? (pointer) : &(variable))
#define REGRESS_IS_MISSING(pointer, length) (!(pointer) && (length) > 0)

REGRESS_INLINE int regress_is_zero(const regress_regex *handle) {
    return !handle || !handle->inside;
}

REGRESS_INLINE uint32_t regress_bad_input(size_t *needed) {
    if (needed) {
        *needed = 0;
    }
    return REGRESS_BAD_INPUT;
}

/* Returns the version of the calls of the library, REGRESS_ABI_VERSION of the header that it was built with. */
uint32_t regress_abi_version(void);

/* Compiles a pattern, and writes `handle`. A handle that it had before is not freed. `flags` is a sum of flags, and may
   have the dialect.

   Returns OK, SYNTAX, TOO_LARGE, MEMORY or BAD_INPUT. With OK `handle` is written, else it is unchanged. With SYNTAX
   `kind` is the kind of the syntax error and `position` its position, from 0 to the number of code points of the
   pattern; else both are 0. The kinds are the numbers REGRESS_FRONT_KIND_.. of regress_front.h. */
REGRESS_INLINE uint32_t regress_compile(const uint8_t *pattern, size_t length, uint32_t flags,
                                        const regress_limits *limits, regress_regex *handle, uint32_t *kind,
                                        size_t *position) {
    const regress_limits defaults = {0, 0, 0, 0, 0, 0};
    uint32_t no_kind = 0;
    size_t no_position = 0;
    uint8_t no_byte = 0;
    kind = REGRESS_OR(kind, no_kind);
    position = REGRESS_OR(position, no_position);
    if (REGRESS_IS_MISSING(pattern, length) || !handle) {
        *kind = 0;
        return regress_bad_input(position);
    }
    return regress_compile_raw(REGRESS_OR(pattern, no_byte), length, flags, REGRESS_OR(limits, defaults), handle, kind,
                               position);
}

/* Returns the byte offset of a code point of a pattern, or of its end: of the position of a syntax error, that is. */
REGRESS_INLINE size_t regress_byte_offset(const uint8_t *pattern, size_t length, size_t position) {
    size_t offset = 0;
    if (!pattern) {
        return 0;
    }
    for (; position > 0 && offset < length; position--) {
        do {
            offset++;
        } while (offset < length && (pattern[offset] & 0xC0) == 0x80);
    }
    return offset;
}

/* Returns 1 if searches take linear time, also those for all matches, which limits.steps does not apply to, else 0. They
   do if the pattern has neither a back reference nor a capture group in a lookaround that is not negated, and if it has
   at most limits.linear_instructions instructions. */
REGRESS_INLINE uint32_t regress_is_linear(const regress_regex *handle) {
    regress_regex own;
    if (regress_is_zero(handle)) {
        return 0;
    }
    own = *handle;
    return regress_is_linear_raw(&own);
}

/* Returns 1 if a match in a text, in the dialect of ECMA-262, is that of JavaScript, else 0: with UNICODE, or if the pattern
   has no code point above U+FFFF, which JavaScript reads as two code units, and neither has the text, or each literal and
   class matches only others that are no surrogates, and each match has one. A text that is not UTF-8 gives 0. */
REGRESS_INLINE uint32_t regress_is_exact_for(const regress_regex *handle, const uint8_t *text, size_t length) {
    regress_regex own;
    uint8_t no_byte = 0;
    if (regress_is_zero(handle) || REGRESS_IS_MISSING(text, length)) {
        return 0;
    }
    own = *handle;
    return regress_is_exact_for_raw(&own, REGRESS_OR(text, no_byte), length);
}

/* Why searches are not linear. The numbers never change; a later version may have more of them. */
#define REGRESS_NONLINEAR_BACK_REFERENCE 1u        /* the pattern has a back reference */
#define REGRESS_NONLINEAR_CAPTURING_LOOKAROUND 2u  /* a lookaround that is not negated contains a capture group */
#define REGRESS_NONLINEAR_TOO_MANY_INSTRUCTIONS 3u /* the pattern has more than limits.linear_instructions instructions */

/* Returns why searches are not linear, one of REGRESS_NONLINEAR_.., and 0 if they are. If there are several reasons, it
   is the one with the least number. */
REGRESS_INLINE uint32_t regress_nonlinear(const regress_regex *handle) {
    regress_regex own;
    if (regress_is_zero(handle)) {
        return 0;
    }
    own = *handle;
    return regress_nonlinear_raw(&own);
}

/* Returns a number, at most UINT64_MAX: a search takes at most that times (length + 1) steps, where the length of the
   text is in bytes. The result is 0 if searches are not linear. */
REGRESS_INLINE uint64_t regress_steps_per_byte(const regress_regex *handle) {
    regress_regex own;
    if (regress_is_zero(handle)) {
        return 0;
    }
    own = *handle;
    return regress_steps_per_byte_raw(&own);
}

/* Returns a number, at most UINT64_MAX: regress_find and regress_is_match take at most that times (length + 1) steps,
   where the length of the text is in bytes. Then they take linear time, and limits.steps does not apply to them. The
   result is 0 if the pattern has a back reference, or more than limits.linear_instructions instructions. */
REGRESS_INLINE uint64_t regress_find_steps_per_byte(const regress_regex *handle) {
    regress_regex own;
    if (regress_is_zero(handle)) {
        return 0;
    }
    own = *handle;
    return regress_find_steps_per_byte_raw(&own);
}

/* Searches for the leftmost match that starts at the byte offset `from` or later.

   What precedes `from` is text too: ^ does not match there, and a lookbehind may match it. `from` may be off a
   character boundary; past the end of the text there is no match.

   Returns OK, NO_MATCH, ROOM, OUT_OF_STEPS, TOO_MUCH_MEMORY, MEMORY or BAD_INPUT. With OK `spans`, a buffer of `room`
   numbers, begins with the start and the end of the match, and then those of each group in the order of the opening
   parentheses: byte offsets, or REGRESS_UNSET twice for a group that is unset. `needed` is the number of these, 2 for
   the match and for each group, with OK and ROOM, else 0: 2 * (regress_group_count + 1). */
REGRESS_INLINE uint32_t regress_find(const regress_regex *handle, const uint8_t *text, size_t length, size_t from,
                                     size_t *spans, size_t room, size_t *needed) {
    regress_regex own;
    size_t no_span = 0, no_needed = 0;
    uint8_t no_byte = 0;
    if (regress_is_zero(handle) || REGRESS_IS_MISSING(text, length) || REGRESS_IS_MISSING(spans, room)) {
        return regress_bad_input(needed);
    }
    own = *handle;
    return regress_find_raw(&own, REGRESS_OR(text, no_byte), length, from, REGRESS_OR(spans, no_span), room,
                            REGRESS_OR(needed, no_needed));
}

/* Writes `searcher`, which keeps the memory of searches for one match. It serves any number of compiled patterns, and one
   thread at a time. What `searcher` had before is not freed.

   Returns OK, MEMORY or BAD_INPUT. With OK `searcher` is written, and has to be freed by regress_searcher_free; else it
   is unchanged. */
REGRESS_INLINE uint32_t regress_searcher_new(regress_searcher *searcher) {
    if (!searcher) {
        return REGRESS_BAD_INPUT;
    }
    return regress_searcher_new_raw(searcher);
}

/* As regress_find, in the memory of `searcher`. It allocates only where the search needs more memory than all searches
   before with this searcher, or tables. */
REGRESS_INLINE uint32_t regress_searcher_find(regress_searcher *searcher, const regress_regex *handle,
                                              const uint8_t *text, size_t length, size_t from, size_t *spans,
                                              size_t room, size_t *needed) {
    regress_regex own;
    size_t no_span = 0, no_needed = 0;
    uint8_t no_byte = 0;
    if (!searcher || !searcher->inside || regress_is_zero(handle) || REGRESS_IS_MISSING(text, length)
        || REGRESS_IS_MISSING(spans, room)) {
        return regress_bad_input(needed);
    }
    own = *handle;
    return regress_searcher_find_raw(searcher, &own, REGRESS_OR(text, no_byte), length, from,
                                     REGRESS_OR(spans, no_span), room, REGRESS_OR(needed, no_needed));
}

/* As regress_is_match, in the memory of `searcher`, as regress_searcher_find. */
REGRESS_INLINE uint32_t regress_searcher_is_match(regress_searcher *searcher, const regress_regex *handle,
                                                  const uint8_t *text, size_t length) {
    regress_regex own;
    uint8_t no_byte = 0;
    if (!searcher || !searcher->inside || regress_is_zero(handle) || REGRESS_IS_MISSING(text, length)) {
        return REGRESS_BAD_INPUT;
    }
    own = *handle;
    return regress_searcher_is_match_raw(searcher, &own, REGRESS_OR(text, no_byte), length);
}

/* Frees the memory, and makes the handle zero. It does nothing if that is zero, or if the pointer is NULL. */
REGRESS_INLINE void regress_searcher_free(regress_searcher *searcher) {
    if (searcher && searcher->inside) {
        regress_searcher_free_raw(searcher);
    }
}

/* Searches for all non-overlapping matches that start at the byte offset `from` or later, from left to right: the first
   as regress_find, and each further one from the end of the match before it, and one character further after an empty
   match. The step limit is for all of them together. Prefer it to calls of regress_find in a loop, each of which decodes
   the whole text.

   Returns OK, ROOM, OUT_OF_STEPS, TOO_MUCH_MEMORY, MEMORY or BAD_INPUT. With OK `spans` begins with the numbers of each
   match, as regress_find writes them, one match after the other. `needed` is their number with OK and ROOM, else 0; it
   is 0 if there is no match. */
REGRESS_INLINE uint32_t regress_find_all(const regress_regex *handle, const uint8_t *text, size_t length, size_t from,
                                         size_t *spans, size_t room, size_t *needed) {
    regress_regex own;
    size_t no_span = 0, no_needed = 0;
    uint8_t no_byte = 0;
    if (regress_is_zero(handle) || REGRESS_IS_MISSING(text, length) || REGRESS_IS_MISSING(spans, room)) {
        return regress_bad_input(needed);
    }
    own = *handle;
    return regress_find_all_raw(&own, REGRESS_OR(text, no_byte), length, from, REGRESS_OR(spans, no_span), room,
                                REGRESS_OR(needed, no_needed));
}

/* Searches as regress_find_all does, and writes `matches`, which regress_matches_next takes one match after the other
   from: no buffer is sized in advance, and nothing is searched twice. What `matches` had before is not freed. It needs
   neither the handle nor the text any more.

   Returns OK, OUT_OF_STEPS, TOO_MUCH_MEMORY, MEMORY or BAD_INPUT. With OK `matches` is written, also if there is no
   match, and has to be freed by regress_matches_free; else it is unchanged. */
REGRESS_INLINE uint32_t regress_matches_new(const regress_regex *handle, const uint8_t *text, size_t length,
                                            size_t from, regress_matches *matches) {
    regress_regex own;
    uint8_t no_byte = 0;
    if (regress_is_zero(handle) || REGRESS_IS_MISSING(text, length) || !matches) {
        return REGRESS_BAD_INPUT;
    }
    own = *handle;
    return regress_matches_new_raw(&own, REGRESS_OR(text, no_byte), length, from, matches);
}

/* Writes the next match to `spans`, a buffer of `room` numbers, as regress_find writes one.

   Returns OK, NO_MATCH, ROOM or BAD_INPUT: NO_MATCH if none is left. With ROOM the match remains the next one. `needed`
   is the number of its numbers with OK and ROOM, else 0. */
REGRESS_INLINE uint32_t regress_matches_next(regress_matches *matches, size_t *spans, size_t room, size_t *needed) {
    size_t no_span = 0, no_needed = 0;
    if (!matches || !matches->inside || REGRESS_IS_MISSING(spans, room)) {
        return regress_bad_input(needed);
    }
    return regress_matches_next_raw(matches, REGRESS_OR(spans, no_span), room, REGRESS_OR(needed, no_needed));
}

/* Returns how many numbers the matches that are left have together: 2 * (regress_group_count + 1) each, and 2 for each
   part of regress_split. */
REGRESS_INLINE size_t regress_matches_left(const regress_matches *matches) {
    regress_matches own;
    if (!matches || !matches->inside) {
        return 0;
    }
    own = *matches;
    return regress_matches_left_raw(&own);
}

/* Frees matches, and makes them zero. It does nothing if they are zero, or if the pointer is NULL. */
REGRESS_INLINE void regress_matches_free(regress_matches *matches) {
    if (matches && matches->inside) {
        regress_matches_free_raw(matches);
    }
}

/* Returns whether the pattern matches somewhere in the text: OK or NO_MATCH; or OUT_OF_STEPS, TOO_MUCH_MEMORY, MEMORY or
   BAD_INPUT. */
REGRESS_INLINE uint32_t regress_is_match(const regress_regex *handle, const uint8_t *text, size_t length) {
    regress_regex own;
    uint8_t no_byte = 0;
    if (regress_is_zero(handle) || REGRESS_IS_MISSING(text, length)) {
        return REGRESS_BAD_INPUT;
    }
    own = *handle;
    return regress_is_match_raw(&own, REGRESS_OR(text, no_byte), length);
}

/* Writes the text with its leftmost match replaced, in UTF-8, to `out`, a buffer of `room` bytes: the text as it is if
   it has no match.

   `replacement` is a template as for replace of JavaScript: $$ is a dollar sign, $& the match, $` the text before it,
   $' the text after it, $1 to $99 the capture of a group, and $<name> that of the group with this name. An unset group
   is empty. Everything else is taken as it is, and no template is rejected.

   Returns OK, ROOM, OUT_OF_STEPS, TOO_MUCH_MEMORY, MEMORY or BAD_INPUT: the last if the text or the template is not
   UTF-8. `needed` is the length of the result in bytes with OK and ROOM, else 0. */
REGRESS_INLINE uint32_t regress_replace(const regress_regex *handle, const uint8_t *text, size_t length,
                                        const uint8_t *replacement, size_t replacement_length, uint8_t *out,
                                        size_t room, size_t *needed) {
    regress_regex own;
    size_t no_needed = 0;
    uint8_t no_byte = 0, no_template = 0, no_out = 0;
    if (regress_is_zero(handle) || REGRESS_IS_MISSING(text, length)
        || REGRESS_IS_MISSING(replacement, replacement_length) || REGRESS_IS_MISSING(out, room)) {
        return regress_bad_input(needed);
    }
    own = *handle;
    return regress_replace_raw(&own, REGRESS_OR(text, no_byte), length, REGRESS_OR(replacement, no_template),
                               replacement_length, REGRESS_OR(out, no_out), room, REGRESS_OR(needed, no_needed));
}

/* Writes the text with all its matches replaced that regress_find_all finds from 0 on, as regress_replace does with
   one. */
REGRESS_INLINE uint32_t regress_replace_all(const regress_regex *handle, const uint8_t *text, size_t length,
                                            const uint8_t *replacement, size_t replacement_length, uint8_t *out,
                                            size_t room, size_t *needed) {
    regress_regex own;
    size_t no_needed = 0;
    uint8_t no_byte = 0, no_template = 0, no_out = 0;
    if (regress_is_zero(handle) || REGRESS_IS_MISSING(text, length)
        || REGRESS_IS_MISSING(replacement, replacement_length) || REGRESS_IS_MISSING(out, room)) {
        return regress_bad_input(needed);
    }
    own = *handle;
    return regress_replace_all_raw(&own, REGRESS_OR(text, no_byte), length, REGRESS_OR(replacement, no_template),
                                   replacement_length, REGRESS_OR(out, no_out), room, REGRESS_OR(needed, no_needed));
}

/* Writes the text with its first `limit` matches replaced, or all if there are fewer, as regress_replace does with one.
   `count` is the number of those that are replaced with OK and ROOM, else 0. */
REGRESS_INLINE uint32_t regress_replace_n(const regress_regex *handle, const uint8_t *text, size_t length,
                                          const uint8_t *replacement, size_t replacement_length, size_t limit,
                                          uint8_t *out, size_t room, size_t *needed, size_t *count) {
    regress_regex own;
    size_t no_needed = 0, no_count = 0;
    uint8_t no_byte = 0, no_template = 0, no_out = 0;
    count = REGRESS_OR(count, no_count);
    if (regress_is_zero(handle) || REGRESS_IS_MISSING(text, length)
        || REGRESS_IS_MISSING(replacement, replacement_length) || REGRESS_IS_MISSING(out, room)) {
        *count = 0;
        return regress_bad_input(needed);
    }
    own = *handle;
    return regress_replace_n_raw(&own, REGRESS_OR(text, no_byte), length, REGRESS_OR(replacement, no_template),
                                 replacement_length, limit, REGRESS_OR(out, no_out), room,
                                 REGRESS_OR(needed, no_needed), count);
}

/* Replaces as regress_replace_n does, and writes `replaced`, which owns the text: no buffer is sized in advance, and
   nothing is searched twice. What `replaced` had before is not freed. It needs neither the handle nor the text any more.

   Returns OK, OUT_OF_STEPS, TOO_MUCH_MEMORY, MEMORY or BAD_INPUT. With OK `replaced` is written, also if there is no
   match, and has to be freed by regress_replaced_free; else it is unchanged. */
REGRESS_INLINE uint32_t regress_replaced_new(const regress_regex *handle, const uint8_t *text, size_t length,
                                             const uint8_t *replacement, size_t replacement_length, size_t limit,
                                             regress_replaced *replaced) {
    regress_regex own;
    uint8_t no_byte = 0, no_template = 0;
    if (regress_is_zero(handle) || REGRESS_IS_MISSING(text, length)
        || REGRESS_IS_MISSING(replacement, replacement_length) || !replaced) {
        return REGRESS_BAD_INPUT;
    }
    own = *handle;
    return regress_replaced_new_raw(&own, REGRESS_OR(text, no_byte), length, REGRESS_OR(replacement, no_template),
                                    replacement_length, limit, replaced);
}

/* Writes the text, in UTF-8, to `out`, a buffer of `room` bytes.

   Returns OK, ROOM or BAD_INPUT. `needed` is the length of the text in bytes with OK and ROOM, else 0, so a call with a
   room of 0 asks for it. */
REGRESS_INLINE uint32_t regress_replaced_write(const regress_replaced *replaced, uint8_t *out, size_t room,
                                               size_t *needed) {
    regress_replaced own;
    size_t no_needed = 0;
    uint8_t no_out = 0;
    if (!replaced || !replaced->inside || REGRESS_IS_MISSING(out, room)) {
        return regress_bad_input(needed);
    }
    own = *replaced;
    return regress_replaced_write_raw(&own, REGRESS_OR(out, no_out), room, REGRESS_OR(needed, no_needed));
}

/* Returns how many matches are replaced in the text. */
REGRESS_INLINE size_t regress_replaced_count(const regress_replaced *replaced) {
    regress_replaced own;
    if (!replaced || !replaced->inside) {
        return 0;
    }
    own = *replaced;
    return regress_replaced_count_raw(&own);
}

/* Frees the text, and makes the handle zero. It does nothing if that is zero, or if the pointer is NULL. */
REGRESS_INLINE void regress_replaced_free(regress_replaced *replaced) {
    if (replaced && replaced->inside) {
        regress_replaced_free_raw(replaced);
    }
}

/* Writes what a template expands to at a match, as regress_replace expands it, to `out`, a buffer of `room` bytes.

   `spans` are the numbers of a match in the text, as regress_find and regress_matches_next write them. Of the text
   outside these spans only $` and $' need something: a caller with many matches of a long text may pass the part with
   the spans, with numbers counted from its start, since each call decodes all that it gets.

   Returns OK, ROOM, MEMORY or BAD_INPUT: the last if the text or the template is not UTF-8, or if the numbers are none
   of a match in the text: if there are too few or too many, or a span does not lie on character boundaries of the text.
   `needed` is the length of the result in bytes with OK and ROOM, else 0. */
REGRESS_INLINE uint32_t regress_expand(const regress_regex *handle, const uint8_t *text, size_t length,
                                       const size_t *spans, size_t span_count, const uint8_t *replacement,
                                       size_t replacement_length, uint8_t *out, size_t room, size_t *needed) {
    regress_regex own;
    size_t no_span = 0, no_needed = 0;
    uint8_t no_byte = 0, no_template = 0, no_out = 0;
    if (regress_is_zero(handle) || REGRESS_IS_MISSING(text, length) || REGRESS_IS_MISSING(spans, span_count)
        || REGRESS_IS_MISSING(replacement, replacement_length) || REGRESS_IS_MISSING(out, room)) {
        return regress_bad_input(needed);
    }
    own = *handle;
    return regress_expand_raw(&own, REGRESS_OR(text, no_byte), length, REGRESS_OR(spans, no_span), span_count,
                              REGRESS_OR(replacement, no_template), replacement_length, REGRESS_OR(out, no_out), room,
                              REGRESS_OR(needed, no_needed));
}

/* Splits a text as split of JavaScript, into at most `limit` parts, and writes `parts`, which regress_matches_next takes
   one part after the other from: its start and its end, or REGRESS_UNSET twice for a group that is unset. All else is
   as for regress_matches_new.

   A match splits the text unless it is empty and at the start of the text, at its end, or at the end of the match before
   it. The part before a match is followed by the captures of its groups. An empty text has no parts if it has a match,
   and else one. */
REGRESS_INLINE uint32_t regress_split(const regress_regex *handle, const uint8_t *text, size_t length, size_t limit,
                                      regress_matches *parts) {
    regress_regex own;
    uint8_t no_byte = 0;
    if (regress_is_zero(handle) || REGRESS_IS_MISSING(text, length) || !parts) {
        return REGRESS_BAD_INPUT;
    }
    own = *handle;
    return regress_split_raw(&own, REGRESS_OR(text, no_byte), length, limit, parts);
}

/* Writes the pattern that matches exactly a text, as RegExp.escape of JavaScript, to `out`, a buffer of `room` bytes.

   The pattern is accepted under all flags, also inside a larger pattern. A quantifier after it applies to its last
   character only, so put it into a group first.

   Returns OK, ROOM, MEMORY or BAD_INPUT: the last if the text is not UTF-8. `needed` is the length of the pattern in
   bytes with OK and ROOM, else 0. */
REGRESS_INLINE uint32_t regress_escape(const uint8_t *text, size_t length, uint8_t *out, size_t room, size_t *needed) {
    size_t no_needed = 0;
    uint8_t no_byte = 0, no_out = 0;
    if (REGRESS_IS_MISSING(text, length) || REGRESS_IS_MISSING(out, room)) {
        return regress_bad_input(needed);
    }
    return regress_escape_raw(REGRESS_OR(text, no_byte), length, REGRESS_OR(out, no_out), room,
                              REGRESS_OR(needed, no_needed));
}

/* Returns the number of groups, without the whole match. */
REGRESS_INLINE size_t regress_group_count(const regress_regex *handle) {
    regress_regex own;
    if (regress_is_zero(handle)) {
        return 0;
    }
    own = *handle;
    return regress_group_count_raw(&own);
}

/* Writes the name of the group with the number `group`, from 1, in UTF-8, to `out`, a buffer of `room` bytes. A zero
   follows if there is room.

   Returns OK, ROOM or BAD_INPUT: the last if there is no such group. `needed` is the length of the name in bytes with
   OK and ROOM, else 0; with OK it is 0 for a group without a name. */
REGRESS_INLINE uint32_t regress_group_name(const regress_regex *handle, size_t group, uint8_t *out, size_t room,
                                           size_t *needed) {
    regress_regex own;
    size_t no_needed = 0;
    uint8_t no_out = 0;
    if (regress_is_zero(handle) || REGRESS_IS_MISSING(out, room)) {
        return regress_bad_input(needed);
    }
    own = *handle;
    return regress_group_name_raw(&own, group, REGRESS_OR(out, no_out), room, REGRESS_OR(needed, no_needed));
}

/* Writes the text of a kind of syntax error, in UTF-8, to `out`, a buffer of `room` bytes. `kind` is the number that
   regress_compile writes. The text of REGRESS_FRONT_KIND_UNKNOWN_NAME ends in a colon and a space, without the name. A
   zero follows if there is room.

   Returns OK, ROOM or BAD_INPUT: the last if there is no such kind. `needed` is the length of the text in bytes with OK
   and ROOM, else 0. */
REGRESS_INLINE uint32_t regress_error_message(uint32_t kind, uint8_t *out, size_t room, size_t *needed) {
    size_t no_needed = 0;
    uint8_t no_out = 0;
    if (REGRESS_IS_MISSING(out, room)) {
        return regress_bad_input(needed);
    }
    return regress_error_message_raw(kind, REGRESS_OR(out, no_out), room, REGRESS_OR(needed, no_needed));
}

/* Writes a sentence for a person about a syntax error, in UTF-8, to `out`, a buffer of `room` bytes: what is wrong, and
   what to write if the pattern has the syntax of another engine there, as in

       nothing to repeat (JavaScript has no possessive quantifiers)

   without the position and a full stop. `kind` and `position` are the numbers that regress_compile writes for the
   pattern. The sentences may change. A zero follows if there is room.

   Returns OK, MEMORY, ROOM or BAD_INPUT: the last if there is no such kind, or if the pattern is not UTF-8. `needed` is the
   length of the sentence in bytes with OK and ROOM, else 0. */
REGRESS_INLINE uint32_t regress_error_sentence(const uint8_t *pattern, size_t length, uint32_t kind, size_t position,
                                               uint8_t *out, size_t room, size_t *needed) {
    size_t no_needed = 0;
    uint8_t no_byte = 0, no_out = 0;
    if (REGRESS_IS_MISSING(pattern, length) || REGRESS_IS_MISSING(out, room)) {
        return regress_bad_input(needed);
    }
    return regress_error_sentence_raw(REGRESS_OR(pattern, no_byte), length, kind, position, REGRESS_OR(out, no_out), room,
                                      REGRESS_OR(needed, no_needed));
}

/* Frees a handle, and makes it zero. It does nothing if the handle is zero, or if the pointer is NULL. */
REGRESS_INLINE void regress_free(regress_regex *handle) {
    if (!regress_is_zero(handle)) {
        regress_free_raw(handle);
    }
}

/* Finds the parts of a pattern that in the dialect REGRESS match otherwise than in JavaScript.

   If there are none, JavaScript's first match in a text is that of regress_find with the same flags and
   REGRESS_DIALECT_REGRESS, provided that SMALL_TABLE is not used; but without UNICODE JavaScript reads a text by code
   units. What JavaScript rejects is one part, at the place of its syntax error. What follows a part that is parsed
   otherwise, such as \u{61} without UNICODE, is not compared.

   Returns OK, ROOM, SYNTAX, MEMORY or BAD_INPUT. With OK `differences`, a buffer of `room` elements, begins with them.
   `needed` is their number with OK and ROOM, else 0. With SYNTAX `kind` and `position` are those of the syntax error,
   as of regress_compile, else they are 0. The size of the tree is not limited: for untrusted patterns test
   regress_front_node_bound_utf8 first. */
REGRESS_INLINE uint32_t regress_differences(const uint8_t *pattern, size_t length, uint32_t flags,
                                            regress_difference *differences, size_t room, size_t *needed,
                                            uint32_t *kind, size_t *position) {
    regress_difference no_difference = {0, 0, 0};
    size_t no_needed = 0, no_position = 0;
    uint32_t no_kind = 0;
    uint8_t no_byte = 0;
    kind = REGRESS_OR(kind, no_kind);
    position = REGRESS_OR(position, no_position);
    if (REGRESS_IS_MISSING(pattern, length) || REGRESS_IS_MISSING(differences, room)) {
        *kind = 0;
        *position = 0;
        return regress_bad_input(needed);
    }
    return regress_differences_raw(REGRESS_OR(pattern, no_byte), length, flags, REGRESS_OR(differences, no_difference),
                                   room, REGRESS_OR(needed, no_needed), kind, position);
}

/* Writes the name of a kind of difference, such as "case-closure", to `out`, a buffer of `room` bytes. A zero follows if
   there is room.

   Returns OK, ROOM or BAD_INPUT: the last if there is no such kind. `needed` is the length of the name in bytes with OK
   and ROOM, else 0. */
REGRESS_INLINE uint32_t regress_difference_name(uint32_t kind, uint8_t *out, size_t room, size_t *needed) {
    size_t no_needed = 0;
    uint8_t no_out = 0;
    if (REGRESS_IS_MISSING(out, room)) {
        return regress_bad_input(needed);
    }
    return regress_difference_name_raw(kind, REGRESS_OR(out, no_out), room, REGRESS_OR(needed, no_needed));
}

/* Writes a sentence about a kind of difference, with an example, as regress_difference_name does with its name. */
REGRESS_INLINE uint32_t regress_difference_text(uint32_t kind, uint8_t *out, size_t room, size_t *needed) {
    size_t no_needed = 0;
    uint8_t no_out = 0;
    if (REGRESS_IS_MISSING(out, room)) {
        return regress_bad_input(needed);
    }
    return regress_difference_text_raw(kind, REGRESS_OR(out, no_out), room, REGRESS_OR(needed, no_needed));
}

#ifdef __cplusplus
}
#endif

#endif
