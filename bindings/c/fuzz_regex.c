/* A target for libFuzzer: parses a pattern, compiles it, searches a text and replaces matches, with small limits, and
   escapes the text. tools/fuzz_c builds and runs it. */

#include <stdlib.h>
#include <string.h>

#include <regress.h>
#include <regress_front.h>

static uint8_t out[4096];

/* Replaces by the match itself, which gives the text, and by the pattern as a template. */
static void replace(regress_regex *regex, const uint8_t *text, size_t most, const uint8_t *pattern, size_t length,
                    int is_missing) {
    size_t needed;
    uint32_t status = regress_replace_all(regex, text, most, (const uint8_t *)"$&", 2, out, sizeof out, &needed);
    if (status == REGRESS_OK ? needed != most || memcmp(out, text, most) != 0 : needed != 0) {
        abort();
    }
    status = regress_replace(regex, text, most, pattern, length, out, sizeof out, &needed);
    if (status == REGRESS_OK && is_missing && (needed != most || memcmp(out, text, most) != 0)) {
        abort();
    }
    uint32_t status_of_all = regress_replace_all(regex, text, most, pattern, length, out, sizeof out, &needed);
    if ((status_of_all == REGRESS_BAD_INPUT) != (status == REGRESS_BAD_INPUT)
        || (status_of_all == REGRESS_ROOM) != (needed > sizeof out)) {
        abort();
    }
}

/* Expands the pattern as a template at the first match, which is what replaces that match. */
static void expand(regress_regex *regex, const uint8_t *text, size_t most, const uint8_t *pattern, size_t length,
                   const size_t *spans, size_t count) {
    size_t whole, expanded, changes;
    uint32_t status = regress_replace_n(regex, text, most, pattern, length, 1, out, sizeof out, &whole, &changes);
    uint32_t status_of_one = regress_expand(regex, text, most, spans, count, pattern, length, out, sizeof out, &expanded);
    if (status == REGRESS_OUT_OF_STEPS ? changes != 0 : (status != REGRESS_BAD_INPUT) != (changes == 1)) {
        abort();
    }
    if (status == REGRESS_OK && (status_of_one != REGRESS_OK || whole + spans[1] != most + spans[0] + expanded)) {
        abort();
    }
}

/* Splits a text: all parts are inside it. */
static void split(regress_regex *regex, const uint8_t *text, size_t most, size_t limit) {
    regress_matches parts = {NULL};
    size_t span[2], count = 0, needed;
    if (regress_split(regex, text, most, limit, &parts) != REGRESS_OK) {
        return;
    }
    for (; regress_matches_next(&parts, span, 2, &needed) == REGRESS_OK; count++) {
        int is_unset = span[0] == REGRESS_UNSET && span[1] == REGRESS_UNSET;
        if (!is_unset && (span[0] > span[1] || span[1] > most)) {
            abort();
        }
    }
    if (count > limit) {
        abort();
    }
    regress_matches_free(&parts);
}

/* Searches in a text for the pattern that escapes it. */
static void escape(const uint8_t *text, size_t most, uint32_t flags) {
    size_t needed, position, spans[2];
    uint32_t kind;
    regress_regex regex = {NULL};
    regress_limits limits = {0};
    uint32_t status = regress_escape(text, most, out, sizeof out, &needed);
    if (status == REGRESS_BAD_INPUT || (status == REGRESS_ROOM && needed <= 4 * most)) {
        return;
    }
    if (status != REGRESS_OK || regress_compile(out, needed, flags, &limits, &regex, &kind, &position) != REGRESS_OK
        || regress_find(&regex, text, most, 0, spans, 2, &needed) != REGRESS_OK || spans[0] != 0 || spans[1] != most) {
        abort();
    }
    regress_free(&regex);
}

/* Takes the matches from an offset on one after the other. They are these numbers. */
static void list(regress_regex *regex, const uint8_t *text, size_t most, size_t from, const size_t *spans, size_t count,
                 size_t width) {
    static size_t next[512];
    regress_matches matches = {NULL};
    size_t at = 0, needed;
    uint32_t status = regress_matches_new(regex, text, most, from, &matches);
    if (status != REGRESS_OK || regress_matches_left(&matches) != count) {
        abort();
    }
    while (regress_matches_next(&matches, next, 512, &needed) == REGRESS_OK) {
        if (needed != width || at + width > count || memcmp(spans + at, next, width * sizeof *next) != 0) {
            abort();
        }
        at += width;
    }
    if (at != count) {
        abort();
    }
    regress_matches_free(&matches);
}

/* Searches for all matches from an offset on. The first is that of a search for one, and none begins before the offset. */
static void find_all(regress_regex *regex, const uint8_t *text, size_t most, uint32_t flags, size_t count) {
    static size_t spans[512], first[512];
    size_t from = most ? flags % most : flags, needed, needed_first;
    uint32_t status = regress_find_all(regex, text, most, from, spans, 512, &needed);
    uint32_t one = regress_find(regex, text, most, from, first, 512, &needed_first);
    if (status != REGRESS_OK || one == REGRESS_OUT_OF_STEPS || one == REGRESS_ROOM) {
        return;
    }
    size_t width = 2 * (count + 1);
    if (needed % width != 0 || (one == REGRESS_NO_MATCH) != (needed == 0)
        || (needed && memcmp(spans, first, width * sizeof *spans) != 0)) {
        abort();
    }
    list(regex, text, most, from, spans, needed, width);
    for (size_t at = 0; at < needed; at += width) {
        if (spans[at] < (at ? spans[at - width + 1] : from)) {
            abort();
        }
    }
}

/* Parses a pattern to its tree with spans: one for each node, inside the pattern. */
static void parse(const uint8_t *pattern, size_t length, uint32_t flags) {
    static uint32_t words[4096];
    static regress_front_span spans[1024];
    size_t needed, spans_needed, position, bound;
    uint32_t kind;
    if (regress_front_node_bound_utf8((const char *)pattern, length, flags, &bound) != REGRESS_FRONT_OK
        || bound > 10000) {
        return;
    }
    uint32_t status = regress_front_parse_utf8_with_spans((const char *)pattern, length, flags, words, 4096, &needed,
                                                          spans, 1024, &spans_needed, &kind, &position);
    if (status == REGRESS_FRONT_ROOM ? needed <= 4096 && spans_needed <= 1024 : (status != REGRESS_FRONT_OK) != !needed) {
        abort();
    }
    for (size_t i = 0; status == REGRESS_FRONT_OK && i < spans_needed; i++) {
        if (spans[i].start > spans[i].end || spans[i].end > length) {
            abort();
        }
    }
}

int LLVMFuzzerTestOneInput(const uint8_t *data, size_t size) {
    static size_t spans[512];
    if (size < 3) {
        return 0;
    }
    /* The flags and the dialect, the length of the pattern, the pattern and the text. With 64 alone the dialect is
       REGRESS, and with 128 too there is an unknown bit. */
    uint32_t is_regress = data[0] / 64 == 1, bits = data[0] % 64 | (data[0] / 64 == 3 ? 64 : 0);
    uint32_t flags = bits | (is_regress ? REGRESS_DIALECT_REGRESS : 0);
    size_t rest = size - 2, length = data[1] % (rest + 1), needed, position;
    const uint8_t *pattern = data + 2, *text = pattern + length;
    uint32_t kind;
    parse(pattern, length, bits | (is_regress ? 0 : REGRESS_FRONT_DIALECT_ECMA));
    regress_regex regex = {NULL};
    regress_limits limits = {100000, 10000, 0, 0, 0, 0};
    uint32_t status = regress_compile(pattern, length, flags, &limits, &regex, &kind, &position);
    if (status == REGRESS_SYNTAX) {
        static uint8_t message[512];
        uint32_t told = regress_error_message(kind, message, sizeof message, &needed);
        if (told != REGRESS_OK || needed == 0 || position > length) {
            abort();
        }
        told = regress_error_sentence(pattern, length, kind, position, message, sizeof message, &needed);
        if (told != REGRESS_OK || needed == 0) {
            abort();
        }
    }
    if (status != REGRESS_OK) {
        if (regex.inside) {
            abort();
        }
        return 0;
    }
    size_t most = rest - length, count = regress_group_count(&regex);
    static uint8_t name[256];
    for (size_t group = 0; group <= count + 1; group++) {
        status = regress_group_name(&regex, group, name, sizeof name, &needed);
        if (status != (group >= 1 && group <= count ? REGRESS_OK : REGRESS_BAD_INPUT)) {
            abort();
        }
    }
    status = regress_find(&regex, text, most, 0, spans, 512, &needed);
    uint32_t tested = regress_is_match(&regex, text, most);
    if (status == REGRESS_OK) {
        if (needed != 2 * (count + 1) || spans[0] > spans[1] || spans[1] > most) {
            abort();
        }
        for (size_t i = 0; i < needed; i += 2) {
            int is_unset = spans[i] == REGRESS_UNSET && spans[i + 1] == REGRESS_UNSET;
            if (!is_unset && (spans[i] > spans[i + 1] || spans[i + 1] > most)) {
                abort();
            }
        }
    }
    if (regress_is_linear(&regex) != (regress_nonlinear(&regex) == 0)) {
        abort();
    }
    if (regress_find_steps_per_byte(&regex) && (status == REGRESS_OUT_OF_STEPS || tested == REGRESS_OUT_OF_STEPS)) {
        abort();
    }
    if ((status == REGRESS_OK && tested != REGRESS_OK) || (status == REGRESS_NO_MATCH && tested != REGRESS_NO_MATCH)) {
        abort();
    }
    replace(&regex, text, most, pattern, length, status == REGRESS_NO_MATCH);
    if (status == REGRESS_OK) {
        expand(&regex, text, most, pattern, length, spans, needed);
    }
    split(&regex, text, most, flags);
    find_all(&regex, text, most, flags, count);
    regress_free(&regex);
    escape(text, most, flags);
    return 0;
}
