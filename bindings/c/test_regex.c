/* Tests of the functions for C that compile and search. Linked with --wrap=malloc, --wrap=realloc and --wrap=free, so
   that one allocation can be made to fail, and that blocks which are not freed, and the bytes that are held, are
   counted. */

#include <malloc.h>
#include <stdio.h>
#include <stdlib.h>
#include <string.h>

#include <regress.h>

void *__real_malloc(size_t size);
void *__real_realloc(void *block, size_t size);
void __real_free(void *block);

static long requests;
static long refused = -1;
static long blocks;

/* The bytes of all blocks, and the most since `peak` was set. */
static size_t held, peak;

static size_t size_of(void *block) { return block ? malloc_usable_size(block) : 0; }

static void hold(void *block) {
    held += size_of(block);
    peak = held > peak ? held : peak;
}

void *__wrap_malloc(size_t size) {
    void *block = requests++ == refused ? NULL : __real_malloc(size);
    blocks += block != NULL;
    hold(block);
    return block;
}

void *__wrap_realloc(void *block, size_t size) {
    size_t before = size_of(block);
    void *moved = requests++ == refused ? NULL : __real_realloc(block, size);
    blocks += !block && moved;
    if (moved) {
        held -= before;
        hold(moved);
    }
    return moved;
}

void __wrap_free(void *block) {
    blocks -= block != NULL;
    held -= size_of(block);
    __real_free(block);
}

static int wrong;

static void check(int holds, const char *what, int line) {
    if (!holds) {
        fprintf(stderr, "test_regex.c:%d: %s\n", line, what);
        wrong++;
    }
}

#define CHECK(condition) check((condition), #condition, __LINE__)

#define SMALL REGRESS_SMALL_TABLE

/* A buffer for numbers, and one more that must stay unchanged. */
#define ROOM 64
#define MARK ((size_t)0xA5A5A5A5u)
static size_t spans[ROOM + 1];
static size_t needed, position;
static uint32_t kind;

static const regress_limits default_limits = {0, 0, 0, 0, 0, 0};
static const regress_limits one_step = {1, 0, 0, 0, 0, 0};

static uint32_t compiled_within(const regress_limits *limits, const char *pattern, regress_regex *regex) {
    return regress_compile((const uint8_t *)pattern, strlen(pattern), SMALL, limits, regex, &kind, &position);
}

static uint32_t compiled(const char *pattern, uint32_t flags, regress_regex *regex) {
    return regress_compile((const uint8_t *)pattern, strlen(pattern), flags, &default_limits, regex, &kind, &position);
}

static void mark(void) {
    for (size_t i = 0; i <= ROOM; i++) {
        spans[i] = MARK;
    }
}

static uint32_t found(const regress_regex *regex, const char *text, size_t from, size_t room) {
    mark();
    return regress_find(regex, (const uint8_t *)text, strlen(text), from, spans, room, &needed);
}

static uint32_t found_all_from(const regress_regex *regex, const char *text, size_t from, size_t room) {
    mark();
    return regress_find_all(regex, (const uint8_t *)text, strlen(text), from, spans, room, &needed);
}

static uint32_t found_all(const regress_regex *regex, const char *text, size_t room) {
    return found_all_from(regex, text, 0, room);
}

static int are(const size_t *expected, size_t count) {
    return needed == count && memcmp(spans, expected, count * sizeof *spans) == 0 && spans[count] == MARK;
}

#define ARE(...) are((const size_t[]){__VA_ARGS__}, sizeof((const size_t[]){__VA_ARGS__}) / sizeof(size_t))

static void searches(void) {
    regress_regex regex;
    CHECK(compiled("(a)|(b)(?=c)", SMALL, &regex) == REGRESS_OK && kind == 0 && position == 0);
    CHECK(regress_group_count(&regex) == 2);
    CHECK(found(&regex, "xbca", 0, ROOM) == REGRESS_OK
          && ARE(1, 2, REGRESS_UNSET, REGRESS_UNSET, 1, 2));
    CHECK(found(&regex, "xbca", 2, ROOM) == REGRESS_OK
          && ARE(3, 4, 3, 4, REGRESS_UNSET, REGRESS_UNSET));
    CHECK(found(&regex, "xbca", 4, ROOM) == REGRESS_NO_MATCH && needed == 0 && spans[0] == MARK);
    CHECK(found(&regex, "xbca", 5, ROOM) == REGRESS_NO_MATCH);
    CHECK(found_all(&regex, "abca", ROOM) == REGRESS_OK
          && ARE(0, 1, 0, 1, REGRESS_UNSET, REGRESS_UNSET, 1, 2, REGRESS_UNSET, REGRESS_UNSET, 1, 2, 3, 4, 3, 4,
                 REGRESS_UNSET, REGRESS_UNSET));
    CHECK(found_all(&regex, "xyz", ROOM) == REGRESS_OK && needed == 0 && spans[0] == MARK);
    CHECK(found_all_from(&regex, "abca", 2, ROOM) == REGRESS_OK && ARE(3, 4, 3, 4, REGRESS_UNSET, REGRESS_UNSET));
    CHECK(found_all_from(&regex, "abca", 4, ROOM) == REGRESS_OK && needed == 0 && spans[0] == MARK);
    CHECK(found_all_from(&regex, "abca", SIZE_MAX, ROOM) == REGRESS_OK && needed == 0 && spans[0] == MARK);
    CHECK(regress_is_match(&regex, (const uint8_t *)"xa", 2) == REGRESS_OK);
    CHECK(regress_is_match(&regex, (const uint8_t *)"xx", 2) == REGRESS_NO_MATCH);
    regress_free(&regex);
    /* U+20AC takes three bytes, and the empty match is found on each character boundary. */
    CHECK(compiled("", SMALL, &regex) == REGRESS_OK);
    CHECK(found_all(&regex, "\xE2\x82\xAC", ROOM) == REGRESS_OK && ARE(0, 0, 3, 3));
    CHECK(found(&regex, "\xE2\x82\xAC", 1, ROOM) == REGRESS_OK && ARE(3, 3));
    CHECK(found_all_from(&regex, "\xE2\x82\xAC", 1, ROOM) == REGRESS_OK && ARE(3, 3));
    regress_free(&regex);
    /* What precedes the offset is text too, and a match that begins before it is none. */
    CHECK(compiled("^a|(?<=a)a|bb", SMALL, &regex) == REGRESS_OK);
    CHECK(found_all(&regex, "aabbb", ROOM) == REGRESS_OK && ARE(0, 1, 1, 2, 2, 4));
    CHECK(found_all_from(&regex, "aabbb", 1, ROOM) == REGRESS_OK && ARE(1, 2, 2, 4));
    CHECK(found_all_from(&regex, "aabbb", 3, ROOM) == REGRESS_OK && ARE(3, 5));
    regress_free(&regex);
    CHECK(compiled("\\p{Lu}", REGRESS_UNICODE, &regex) == REGRESS_OK);
    CHECK(found(&regex, "\xC3\xA9\xC3\x89", 0, ROOM) == REGRESS_OK && ARE(2, 4));
    regress_free(&regex);
    CHECK(compiled("A", SMALL | REGRESS_ICASE, &regex) == REGRESS_OK);
    CHECK(found(&regex, "xa", 0, ROOM) == REGRESS_OK && ARE(1, 2));
    regress_free(&regex);
}

/* Where a pattern matches a text, in the dialect of the flags. */
static uint32_t found_by(const char *pattern, uint32_t flags, const char *text) {
    regress_regex regex = {NULL};
    uint32_t status = compiled(pattern, SMALL | flags, &regex);
    if (status == REGRESS_OK) {
        status = found(&regex, text, 0, ROOM);
    }
    regress_free(&regex);
    return status;
}

/* What V8 matches and rejects; and what the dialect REGRESS does. */
static void dialects(void) {
    const uint32_t regress = REGRESS_DIALECT_REGRESS;
    regress_regex regex = {NULL};
    CHECK(found_by("[\\W_]", REGRESS_ICASE, "k") == REGRESS_NO_MATCH);
    CHECK(found_by("[\\W_]", REGRESS_ICASE, "k_") == REGRESS_OK && ARE(1, 2));
    CHECK(found_by("[\\W_]", regress | REGRESS_ICASE, "k") == REGRESS_OK && ARE(0, 1));
    CHECK(found_by("\\u{3}", 0, "uuu") == REGRESS_OK && ARE(0, 3));
    CHECK(found_by("\\u{3}", regress, "uuu") == REGRESS_NO_MATCH);
    CHECK(found_by("\\b+", 0, "") == REGRESS_SYNTAX && kind == 11 && position == 2);
    CHECK(found_by("\\b+", regress, "a") == REGRESS_OK && ARE(0, 0));
    /* UNICODE_SETS implies UNICODE but in the dialect REGRESS. */
    CHECK(found_by("\\y", REGRESS_UNICODE_SETS, "y") == REGRESS_SYNTAX);
    CHECK(found_by("\\y", regress | REGRESS_UNICODE_SETS, "y") == REGRESS_OK && ARE(0, 1));
    CHECK(compiled("a", SMALL | 0x40, &regex) == REGRESS_BAD_INPUT && !regex.inside);
    CHECK(compiled("a", SMALL | 0x10000, &regex) == REGRESS_BAD_INPUT);
    CHECK(compiled("a", SMALL | 0x40000, &regex) == REGRESS_BAD_INPUT);
    /* The differences are those of the dialect REGRESS alone. */
    CHECK(regress_differences((const uint8_t *)"a", 1, SMALL | 0x40000, NULL, 0, &needed, &kind, &position)
          == REGRESS_BAD_INPUT);
}

static void rooms(void) {
    regress_regex regex;
    CHECK(compiled("(a)", SMALL, &regex) == REGRESS_OK);
    CHECK(found(&regex, "a", 0, 0) == REGRESS_ROOM && needed == 4 && spans[0] == MARK);
    CHECK(found(&regex, "a", 0, 3) == REGRESS_ROOM && needed == 4 && spans[0] == MARK);
    CHECK(found(&regex, "a", 0, 4) == REGRESS_OK && ARE(0, 1, 0, 1));
    CHECK(found_all(&regex, "aa", 7) == REGRESS_ROOM && needed == 8 && spans[0] == MARK);
    CHECK(found_all(&regex, "aa", 8) == REGRESS_OK && ARE(0, 1, 0, 1, 1, 2, 1, 2));
    CHECK(found_all_from(&regex, "aa", 1, 3) == REGRESS_ROOM && needed == 4 && spans[0] == MARK);
    CHECK(found_all_from(&regex, "aa", 1, 4) == REGRESS_OK && ARE(1, 2, 1, 2));
    regress_free(&regex);
}

/* A search for one match allocates its captures and its stack: nothing if the pattern has no group, and no choice is left
   open. What it finds is written to the buffer without a further allocation. */
static void allocations(void) {
    regress_regex regex;
    CHECK(compiled("abc", SMALL, &regex) == REGRESS_OK);
    long before = requests;
    CHECK(regress_is_match(&regex, (const uint8_t *)"xabcx", 5) == REGRESS_OK);
    CHECK(found(&regex, "xabcx", 0, ROOM) == REGRESS_OK && ARE(1, 4));
    CHECK(found(&regex, "xabx", 0, ROOM) == REGRESS_NO_MATCH);
    CHECK(requests == before);
    regress_free(&regex);
    CHECK(compiled("(a)(b)|(c)", SMALL, &regex) == REGRESS_OK);
    before = requests;
    CHECK(regress_is_match(&regex, (const uint8_t *)"xabx", 4) == REGRESS_OK);
    long testing = requests - before;
    CHECK(found(&regex, "xabx", 0, ROOM) == REGRESS_OK && ARE(1, 3, 1, 2, 2, 3, REGRESS_UNSET, REGRESS_UNSET));
    CHECK(requests == before + 2 * testing);
    regress_free(&regex);
}

static uint32_t found_with(regress_searcher *searcher, const regress_regex *regex, const char *text) {
    mark();
    return regress_searcher_find(searcher, regex, (const uint8_t *)text, strlen(text), 0, spans, ROOM, &needed);
}

/* A searcher allocates for the first search with a pattern, and then for none that needs no more memory. The spans are
   those of V8. */
static void searchers(void) {
    regress_regex mail, looking, numbers;
    regress_searcher searcher = {NULL};
    CHECK(compiled("(\\w+)@(\\w+)\\.com", SMALL, &mail) == REGRESS_OK);
    CHECK(compiled("(?=(a+))a", SMALL, &looking) == REGRESS_OK);
    CHECK(compiled("^(\\d+)-(\\d+)$", SMALL, &numbers) == REGRESS_OK);
    CHECK(regress_searcher_new(&searcher) == REGRESS_OK);
    long before = 0;
    for (int round = 0; round < 3; round++) {
        CHECK(found_with(&searcher, &mail, "to joe@example.com") == REGRESS_OK && ARE(3, 18, 3, 6, 7, 14));
        CHECK(found_with(&searcher, &mail, "to joe@example.org") == REGRESS_NO_MATCH && needed == 0 && spans[0] == MARK);
        CHECK(found_with(&searcher, &looking, "baaa") == REGRESS_OK && ARE(1, 2, 1, 4));
        CHECK(found_with(&searcher, &looking, "b") == REGRESS_NO_MATCH);
        CHECK(found_with(&searcher, &numbers, "2024-11") == REGRESS_OK && ARE(0, 7, 0, 4, 5, 7));
        CHECK(found_with(&searcher, &numbers, "2024-x") == REGRESS_NO_MATCH);
        CHECK(regress_searcher_find(&searcher, &mail, (const uint8_t *)"a@b.com", 7, 0, spans, ROOM, &needed) == REGRESS_OK
              && needed == 6);
        CHECK(regress_searcher_find(&searcher, &numbers, (const uint8_t *)"1-2", 3, 1, spans, ROOM, &needed)
              == REGRESS_NO_MATCH);
        CHECK(regress_searcher_is_match(&searcher, &numbers, (const uint8_t *)"1-2", 3) == REGRESS_OK);
        CHECK(regress_searcher_is_match(&searcher, &looking, (const uint8_t *)"xyz", 3) == REGRESS_NO_MATCH);
        CHECK(found_with(&searcher, &mail, "\xFF") == REGRESS_BAD_INPUT && needed == 0);
        CHECK(round == 0 || requests == before);
        before = requests;
    }
    /* a buffer that is too small: the numbers are counted in a list */
    CHECK(regress_searcher_find(&searcher, &mail, (const uint8_t *)"a@b.com", 7, 0, spans, 5, &needed) == REGRESS_ROOM
          && needed == 6);
    regress_free(&mail);
    regress_free(&looking);
    regress_free(&numbers);
    regress_searcher_free(&searcher);
    CHECK(searcher.inside == NULL);
    regress_searcher_free(&searcher);
    regress_searcher_free(NULL);
    CHECK(regress_searcher_new(NULL) == REGRESS_BAD_INPUT);
}

/* A buffer for texts, and one more byte that must stay unchanged. */
static uint8_t bytes[ROOM + 1];

static int are_bytes(const char *expected) {
    size_t count = strlen(expected);
    return needed == count && memcmp(bytes, expected, count) == 0 && bytes[count] == 0xA5;
}

/* The same of a text that ends in a zero, since there is room. */
static int is_text(const char *expected) {
    size_t count = strlen(expected);
    return needed == count && memcmp(bytes, expected, count + 1) == 0 && bytes[count + 1] == 0xA5;
}

static uint32_t name(const regress_regex *regex, size_t group, size_t room) {
    memset(bytes, 0xA5, sizeof bytes);
    return regress_group_name(regex, group, bytes, room, &needed);
}

static uint32_t message(uint32_t of, size_t room) {
    memset(bytes, 0xA5, sizeof bytes);
    return regress_error_message(of, bytes, room, &needed);
}

/* Sentences are longer. */
#define LINE 256
static uint8_t line[LINE + 1];

static uint32_t sentence(const char *pattern, uint32_t of, size_t position, size_t room) {
    memset(line, 0xA5, sizeof line);
    return regress_error_sentence((const uint8_t *)pattern, strlen(pattern), of, position, line, room, &needed);
}

static uint32_t next(regress_matches *matches, size_t room) {
    mark();
    return regress_matches_next(matches, spans, room, &needed);
}

/* Matches that are taken one after the other. */
/* Compiles a pattern for searches of at most `memory` bytes, and returns the status of searching a text of `length` times
   the letter for the first match, or for all. A search holds at most `most` bytes beside the pattern. */
static uint32_t within_memory(size_t memory, const char *pattern, char letter, size_t length, int all, size_t most) {
    regress_regex regex;
    regress_limits limits = {.memory = memory};
    char *text = malloc(length + 1);
    memset(text, letter, length);
    text[length] = 0;
    CHECK(compiled_within(&limits, pattern, &regex) == REGRESS_OK);
    size_t before = peak = held;
    uint32_t status = all ? found_all(&regex, text, ROOM) : found(&regex, text, 0, ROOM);
    CHECK(peak - before <= most);
    CHECK(held == before);
    regress_free(&regex);
    free(text);
    return status;
}

static void memory_is_limited(void) {
    const size_t mib = 1 << 20;
    char optional[400] = "^(?:", groups[4100] = "a(?:";
    for (int i = 0; i < 55; i++) {
        strcat(optional, "a\?\?");
    }
    strcat(optional, "a)*[bc]");
    for (int i = 0; i < 2000; i++) {
        strcat(groups, "()");
    }
    strcat(groups, "){0}");
    /* backtracking alone would take 3.3 KB for each letter: tables take over, if there is memory for them, a byte for each
       letter and what differs */
    CHECK(within_memory(100000, optional, 'a', 200000, 0, mib) == REGRESS_TOO_MUCH_MEMORY);
    CHECK(within_memory(mib, optional, 'a', 200000, 0, 2 * mib) == REGRESS_NO_MATCH);
    CHECK(within_memory(16 * mib, optional, 'a', 200000, 0, 17 * mib) == REGRESS_NO_MATCH);
    /* without tables */
    CHECK(within_memory(mib, "(?:a|b|(c))*\\1[de]", 'a', 1000000, 0, 2 * mib) == REGRESS_TOO_MUCH_MEMORY);
    CHECK(within_memory(64 * mib, "(?:a|b|(c))*\\1[de]", 'd', 1000, 0, mib) == REGRESS_OK);
    /* a match has 2,001 spans */
    CHECK(within_memory(mib, groups, 'a', 10000, 1, 3 * mib) == REGRESS_TOO_MUCH_MEMORY);
    CHECK(within_memory(mib, groups, 'a', 15, 1, 3 * mib) == REGRESS_ROOM);
    /* a list has room for three matches, each with one group */
    CHECK(within_memory(3 * (56 + 24), "(a)", 'a', 3, 1, mib) == REGRESS_OK);
    CHECK(within_memory(3 * (56 + 24), "(a)", 'a', 4, 1, mib) == REGRESS_TOO_MUCH_MEMORY);
    CHECK(within_memory(3 * (56 + 24) - 1, "(a)", 'a', 3, 1, mib) == REGRESS_TOO_MUCH_MEMORY);
}

static void lists(void) {
    regress_regex regex;
    regress_matches matches = {NULL}, none = {NULL};
    uint8_t text[] = "abca";
    CHECK(compiled("(a)|(b)(?=c)", SMALL, &regex) == REGRESS_OK);
    CHECK(regress_matches_new(&regex, text, 4, 0, &matches) == REGRESS_OK);
    /* They need neither the handle nor the text. */
    regress_free(&regex);
    memset(text, 'x', sizeof text);
    CHECK(regress_matches_left(&matches) == 18);
    CHECK(next(&matches, ROOM) == REGRESS_OK && ARE(0, 1, 0, 1, REGRESS_UNSET, REGRESS_UNSET));
    CHECK(next(&matches, 5) == REGRESS_ROOM && needed == 6 && spans[0] == MARK);
    CHECK(regress_matches_next(&matches, NULL, 0, &needed) == REGRESS_ROOM && needed == 6);
    CHECK(regress_matches_left(&matches) == 12);
    CHECK(next(&matches, 6) == REGRESS_OK && ARE(1, 2, REGRESS_UNSET, REGRESS_UNSET, 1, 2));
    CHECK(regress_matches_next(&matches, spans, ROOM, NULL) == REGRESS_OK && spans[0] == 3);
    CHECK(next(&matches, ROOM) == REGRESS_NO_MATCH && needed == 0 && spans[0] == MARK);
    CHECK(next(&matches, 0) == REGRESS_NO_MATCH && regress_matches_left(&matches) == 0);
    regress_matches_free(&matches);
    CHECK(!matches.inside);
    regress_matches_free(&matches);
    regress_matches_free(NULL);
    CHECK(regress_matches_left(&none) == 0 && regress_matches_left(NULL) == 0);
    needed = 1;
    CHECK(next(&none, ROOM) == REGRESS_BAD_INPUT && needed == 0);
    CHECK(next(NULL, ROOM) == REGRESS_BAD_INPUT);
    /* From an offset on, and without a match. */
    CHECK(compiled("a|$", SMALL, &regex) == REGRESS_OK);
    CHECK(regress_matches_new(&regex, (const uint8_t *)"aba", 3, 1, &matches) == REGRESS_OK);
    CHECK(next(&matches, 2) == REGRESS_OK && ARE(2, 3));
    CHECK(regress_matches_next(&matches, NULL, 2, &needed) == REGRESS_BAD_INPUT);
    CHECK(next(&matches, 2) == REGRESS_OK && ARE(3, 3));
    CHECK(next(&matches, 2) == REGRESS_NO_MATCH);
    regress_matches_free(&matches);
    CHECK(regress_matches_new(&regex, (const uint8_t *)"aba", 3, 4, &matches) == REGRESS_OK);
    CHECK(next(&matches, 2) == REGRESS_NO_MATCH);
    regress_matches_free(&matches);
    CHECK(regress_matches_new(&regex, NULL, 0, 0, &matches) == REGRESS_OK && next(&matches, 2) == REGRESS_OK && ARE(0, 0));
    regress_matches_free(&matches);
    /* They are written only with OK. */
    CHECK(regress_matches_new(&regex, (const uint8_t *)"\xFF", 1, 0, &matches) == REGRESS_BAD_INPUT && !matches.inside);
    CHECK(regress_matches_new(&regex, NULL, 1, 0, &matches) == REGRESS_BAD_INPUT);
    CHECK(regress_matches_new(&regex, text, 4, 0, NULL) == REGRESS_BAD_INPUT);
    regress_free(&regex);
    CHECK(regress_matches_new(&regex, text, 4, 0, &matches) == REGRESS_BAD_INPUT);
    CHECK(compiled_within(&one_step, "(a)\\1", &regex) == REGRESS_OK);
    CHECK(regress_matches_new(&regex, (const uint8_t *)"baa", 3, 0, &matches) == REGRESS_OUT_OF_STEPS && !matches.inside);
    regress_free(&regex);
}

static void names(void) {
    regress_regex regex;
    CHECK(compiled("(?<year>a)(b)(?<\xC3\xA9>c)", SMALL, &regex) == REGRESS_OK);
    CHECK(name(&regex, 1, ROOM) == REGRESS_OK && is_text("year"));
    CHECK(name(&regex, 1, 4) == REGRESS_OK && are_bytes("year"));
    CHECK(name(&regex, 1, 3) == REGRESS_ROOM && needed == 4 && bytes[0] == 0xA5);
    CHECK(name(&regex, 2, ROOM) == REGRESS_OK && is_text(""));
    CHECK(name(&regex, 2, 0) == REGRESS_OK && are_bytes(""));
    CHECK(name(&regex, 3, ROOM) == REGRESS_OK && is_text("\xC3\xA9"));
    CHECK(name(&regex, 0, ROOM) == REGRESS_BAD_INPUT && are_bytes(""));
    CHECK(name(&regex, 4, ROOM) == REGRESS_BAD_INPUT && are_bytes(""));
    CHECK(name(&regex, SIZE_MAX, ROOM) == REGRESS_BAD_INPUT && are_bytes(""));
    regress_free(&regex);
}

/* Checks the sentence for the syntax error of a pattern. */
static int is_rejected_by(const char *pattern, uint32_t flags, const char *expected) {
    regress_regex regex = {NULL};
    uint32_t kind = 0;
    size_t position = 0;
    return regress_compile((const uint8_t *)pattern, strlen(pattern), flags, NULL, &regex, &kind, &position)
               == REGRESS_SYNTAX
           && sentence(pattern, kind, position, LINE) == REGRESS_OK && needed == strlen(expected)
           && memcmp(line, expected, needed + 1) == 0 && line[needed + 1] == 0xA5;
}

static void sentences(void) {
    CHECK(is_rejected_by("a**", 0, "nothing to repeat (write `\\*` for the character)"));
    CHECK(is_rejected_by("\xC3\xA9(?P<n>b)", 0, "unknown kind of group (a named group is written `(?<name>..)`)"));
    CHECK(is_rejected_by("(?<a>b)\\k<c>", 0, "no group has the name `c`"));
    CHECK(is_rejected_by("a\\-", REGRESS_UNICODE,
                         "unknown escape `\\-` (write `-`: with the flag u only syntax characters are escaped)"));
    CHECK(sentence("a)", 1, 1, 4) == REGRESS_ROOM && needed == 44 && line[0] == 0xA5);
    CHECK(sentence("a)", 0, 1, LINE) == REGRESS_BAD_INPUT && needed == 0);
    CHECK(sentence("a)", 33, 1, LINE) == REGRESS_BAD_INPUT && needed == 0);
    CHECK(sentence("\xFF", 1, 0, LINE) == REGRESS_BAD_INPUT && needed == 0);
    /* Neither the kind nor the position need be those of the pattern. */
    for (uint32_t each = 1; each <= 32; each++) {
        CHECK(sentence("", each, SIZE_MAX, LINE) == REGRESS_OK && needed > 0);
    }
}

static void messages(void) {
    CHECK(message(1, ROOM) == REGRESS_OK && is_text("Unbalanced parenthesis"));
    CHECK(message(1, 21) == REGRESS_ROOM && needed == 22 && bytes[0] == 0xA5);
    CHECK(message(31, ROOM) == REGRESS_OK && is_text("Backreference to invalid named capture group: "));
    CHECK(message(32, ROOM) == REGRESS_OK && is_text("Duplicate capture group name"));
    CHECK(message(0, ROOM) == REGRESS_BAD_INPUT && are_bytes(""));
    CHECK(message(33, ROOM) == REGRESS_BAD_INPUT && are_bytes(""));
    CHECK(message(UINT32_MAX, ROOM) == REGRESS_BAD_INPUT && are_bytes(""));
    for (uint32_t each = 1; each <= 32; each++) {
        uint32_t status = message(each, ROOM);
        CHECK((status == REGRESS_OK && needed <= ROOM) || (status == REGRESS_ROOM && needed > ROOM));
    }
}

static uint32_t replaced(const regress_regex *regex, const char *text, const char *replacement, size_t room) {
    memset(bytes, 0xA5, sizeof bytes);
    return regress_replace(regex, (const uint8_t *)text, strlen(text), (const uint8_t *)replacement,
                           strlen(replacement), bytes, room, &needed);
}

static uint32_t all_replaced(const regress_regex *regex, const char *text, const char *replacement, size_t room) {
    memset(bytes, 0xA5, sizeof bytes);
    return regress_replace_all(regex, (const uint8_t *)text, strlen(text), (const uint8_t *)replacement,
                               strlen(replacement), bytes, room, &needed);
}

static uint32_t escaped(const char *text, size_t room) {
    memset(bytes, 0xA5, sizeof bytes);
    return regress_escape((const uint8_t *)text, strlen(text), bytes, room, &needed);
}

static int are_none(void) { return needed == 0 && bytes[0] == 0xA5; }

/* The expected texts are those of V8 11.3. */
static void replaces(void) {
    regress_regex regex;
    CHECK(compiled("(?<a>x)|(y)", SMALL, &regex) == REGRESS_OK);
    CHECK(all_replaced(&regex, "axby", "[$&$`$'$1$2$<a>$$]", ROOM) == REGRESS_OK && are_bytes("a[xabyxx$]b[yaxby$]"));
    CHECK(replaced(&regex, "axby", "[$&$`$'$1$2$<a>$$]", ROOM) == REGRESS_OK && are_bytes("a[xabyxx$]by"));
    CHECK(all_replaced(&regex, "axby", "", ROOM) == REGRESS_OK && are_bytes("ab"));
    CHECK(all_replaced(&regex, "ab", "c", ROOM) == REGRESS_OK && are_bytes("ab"));
    CHECK(replaced(&regex, "ab", "c", ROOM) == REGRESS_OK && are_bytes("ab"));
    CHECK(all_replaced(&regex, "", "c", 0) == REGRESS_OK && are_bytes(""));
    CHECK(all_replaced(&regex, "axby", "--", 5) == REGRESS_ROOM && needed == 6 && bytes[0] == 0xA5);
    CHECK(all_replaced(&regex, "axby", "--", 6) == REGRESS_OK && are_bytes("a--b--"));
    CHECK(replaced(&regex, "axby", "--", 4) == REGRESS_ROOM && needed == 5 && bytes[0] == 0xA5);
    CHECK(replaced(&regex, "axby", "--", 5) == REGRESS_OK && are_bytes("a--by"));
    CHECK(all_replaced(&regex, "\xFF", "c", ROOM) == REGRESS_BAD_INPUT && are_none());
    CHECK(all_replaced(&regex, "x", "\xFF", ROOM) == REGRESS_BAD_INPUT && are_none());
    CHECK(replaced(&regex, "\xFF", "c", ROOM) == REGRESS_BAD_INPUT && are_none());
    CHECK(replaced(&regex, "x", "\xFF", ROOM) == REGRESS_BAD_INPUT && are_none());
    regress_free(&regex);
    CHECK(compiled("(x)|(y)", SMALL, &regex) == REGRESS_OK);
    CHECK(all_replaced(&regex, "axby", "$3$10$02$<a>$", ROOM) == REGRESS_OK && are_bytes("a$3x0$<a>$b$30y$<a>$"));
    regress_free(&regex);
    CHECK(compiled("", SMALL, &regex) == REGRESS_OK);
    CHECK(all_replaced(&regex, "\xE2\x82\xAC", "-", ROOM) == REGRESS_OK && are_bytes("-\xE2\x82\xAC-"));
    regress_free(&regex);
    CHECK(compiled_within(&one_step, "(a*)*\\1b", &regex) == REGRESS_OK);
    CHECK(all_replaced(&regex, "aaaaaaaaaaaaaaaaaaaaaaaaaaaaaaaa", "c", ROOM) == REGRESS_OUT_OF_STEPS && are_none());
    CHECK(replaced(&regex, "aaaaaaaaaaaaaaaaaaaaaaaaaaaaaaaa", "c", ROOM) == REGRESS_OUT_OF_STEPS && are_none());
    regress_free(&regex);
}

static size_t changes;

static uint32_t first_replaced(const regress_regex *regex, const char *text, const char *replacement, size_t limit,
                               size_t room) {
    memset(bytes, 0xA5, sizeof bytes);
    changes = MARK;
    return regress_replace_n(regex, (const uint8_t *)text, strlen(text), (const uint8_t *)replacement,
                             strlen(replacement), limit, bytes, room, &needed, &changes);
}

static void replaces_some(void) {
    regress_regex regex;
    CHECK(compiled("x|(y)", SMALL, &regex) == REGRESS_OK);
    CHECK(first_replaced(&regex, "axbyx", "<$1>", 2, ROOM) == REGRESS_OK && are_bytes("a<>b<y>x") && changes == 2);
    CHECK(first_replaced(&regex, "axbyx", "<$1>", 1, ROOM) == REGRESS_OK && are_bytes("a<>byx") && changes == 1);
    CHECK(first_replaced(&regex, "axbyx", "<$1>", 0, ROOM) == REGRESS_OK && are_bytes("axbyx") && changes == 0);
    CHECK(first_replaced(&regex, "axbyx", "<$1>", SIZE_MAX, ROOM) == REGRESS_OK && are_bytes("a<>b<y><>") && changes == 3);
    CHECK(first_replaced(&regex, "ab", "-", 2, ROOM) == REGRESS_OK && are_bytes("ab") && changes == 0);
    CHECK(first_replaced(&regex, "axbyx", "<$1>", 2, 7) == REGRESS_ROOM && needed == 8 && bytes[0] == 0xA5 && changes == 2);
    CHECK(first_replaced(&regex, "\xFF", "-", 2, ROOM) == REGRESS_BAD_INPUT && are_none() && changes == 0);
    CHECK(first_replaced(&regex, "x", "\xFF", 2, ROOM) == REGRESS_BAD_INPUT && are_none() && changes == 0);
    CHECK(regress_replace_n(&regex, NULL, 0, NULL, 0, 1, NULL, 0, NULL, NULL) == REGRESS_OK);
    changes = needed = 1;
    CHECK(regress_replace_n(&regex, NULL, 1, NULL, 0, 1, NULL, 0, &needed, &changes) == REGRESS_BAD_INPUT);
    CHECK(needed == 0 && changes == 0);
    regress_free(&regex);
    CHECK(compiled_within(&one_step, "(a*)*\\1b", &regex) == REGRESS_OK);
    CHECK(first_replaced(&regex, "aaaaaaaaaaaaaaaa", "c", 1, ROOM) == REGRESS_OUT_OF_STEPS && are_none() && changes == 0);
    CHECK(first_replaced(&regex, "aaaaaaaaaaaaaaaa", "c", 0, ROOM) == REGRESS_OK && changes == 0);
    regress_free(&regex);
}

static uint32_t kept(const regress_regex *regex, const char *text, const char *replacement, size_t limit,
                     regress_replaced *made) {
    return regress_replaced_new(regex, (const uint8_t *)text, strlen(text), (const uint8_t *)replacement,
                                strlen(replacement), limit, made);
}

/* Writes the text of a handle. */
static uint32_t kept_written(const regress_replaced *made, size_t room) {
    memset(bytes, 0xA5, sizeof bytes);
    return regress_replaced_write(made, bytes, room, &needed);
}

/* Returns whether the text with its first matches replaced is this one, and their number, and frees it. */
static int keeps(const regress_regex *regex, const char *text, size_t limit, const char *expected, size_t count) {
    regress_replaced made = {NULL};
    int same = kept(regex, text, "<$1>", limit, &made) == REGRESS_OK && kept_written(&made, ROOM) == REGRESS_OK
               && are_bytes(expected) && regress_replaced_count(&made) == count;
    regress_replaced_free(&made);
    return same && !made.inside;
}

/* The texts are those of `replaces_some`. */
static void keeps_replaced(void) {
    regress_regex regex;
    regress_replaced made = {NULL}, none = {NULL};
    CHECK(compiled("x|(y)", SMALL, &regex) == REGRESS_OK);
    CHECK(keeps(&regex, "axbyx", 2, "a<>b<y>x", 2));
    CHECK(keeps(&regex, "axbyx", 1, "a<>byx", 1));
    CHECK(keeps(&regex, "axbyx", 0, "axbyx", 0));
    CHECK(keeps(&regex, "axbyx", SIZE_MAX, "a<>b<y><>", 3));
    CHECK(keeps(&regex, "ab", 2, "ab", 0));
    CHECK(keeps(&regex, "", 2, "", 0));
    CHECK(regress_replaced_new(&regex, NULL, 0, NULL, 0, 1, &made) == REGRESS_OK);
    CHECK(regress_replaced_write(&made, NULL, 0, NULL) == REGRESS_OK);
    regress_replaced_free(&made);
    /* A text may be written more than once, also after a buffer that is too small, and needs no pattern. */
    CHECK(kept(&regex, "axbyx", "<$1>", 2, &made) == REGRESS_OK);
    CHECK(kept(&regex, "\xFF", "-", 2, &none) == REGRESS_BAD_INPUT && !none.inside);
    CHECK(kept(&regex, "x", "\xFF", 2, &none) == REGRESS_BAD_INPUT && !none.inside);
    CHECK(kept(&regex, "x", "-", 2, NULL) == REGRESS_BAD_INPUT);
    CHECK(regress_replaced_new(&regex, NULL, 1, NULL, 0, 1, &none) == REGRESS_BAD_INPUT && !none.inside);
    CHECK(regress_replaced_new(&regex, NULL, 0, NULL, 1, 1, &none) == REGRESS_BAD_INPUT && !none.inside);
    regress_free(&regex);
    CHECK(kept_written(&made, 7) == REGRESS_ROOM && needed == 8 && bytes[0] == 0xA5);
    CHECK(regress_replaced_write(&made, NULL, 0, &needed) == REGRESS_ROOM && needed == 8);
    CHECK(regress_replaced_write(&made, NULL, 1, &needed) == REGRESS_BAD_INPUT && needed == 0);
    CHECK(kept_written(&made, 8) == REGRESS_OK && are_bytes("a<>b<y>x"));
    CHECK(kept_written(&made, ROOM) == REGRESS_OK && are_bytes("a<>b<y>x"));
    regress_replaced_free(&made);
    regress_replaced_free(&made);
    regress_replaced_free(NULL);
    CHECK(kept_written(&made, ROOM) == REGRESS_BAD_INPUT && are_none());
    CHECK(kept_written(NULL, ROOM) == REGRESS_BAD_INPUT && are_none());
    CHECK(regress_replaced_count(&made) == 0 && regress_replaced_count(NULL) == 0);
    CHECK(kept(&regex, "x", "-", 2, &none) == REGRESS_BAD_INPUT && !none.inside);
    CHECK(compiled_within(&one_step, "(a*)*\\1b", &regex) == REGRESS_OK);
    CHECK(kept(&regex, "aaaaaaaaaaaaaaaa", "c", 1, &none) == REGRESS_OUT_OF_STEPS && !none.inside);
    regress_free(&regex);
}

static uint32_t expanded_at(const regress_regex *regex, const char *text, const size_t *numbers, size_t length,
                            const char *replacement, size_t room) {
    memset(bytes, 0xA5, sizeof bytes);
    return regress_expand(regex, (const uint8_t *)text, strlen(text), numbers, length, (const uint8_t *)replacement,
                          strlen(replacement), bytes, room, &needed);
}

#define NUMBERS(...) (const size_t[]){__VA_ARGS__}, sizeof((const size_t[]){__VA_ARGS__}) / sizeof(size_t)

/* The expected texts are those of V8 11.3, as parts of what it replaces. */
static void expands(void) {
    const char *template = "[$&$`$'$1$2$<a>$$]";
    regress_regex regex;
    CHECK(compiled("(?<a>x)|(y)", SMALL, &regex) == REGRESS_OK);
    CHECK(found_all(&regex, "axby", ROOM) == REGRESS_OK && needed == 12);
    CHECK(expanded_at(&regex, "axby", spans, 6, template, ROOM) == REGRESS_OK && are_bytes("[xabyxx$]"));
    CHECK(expanded_at(&regex, "axby", spans + 6, 6, template, ROOM) == REGRESS_OK && are_bytes("[yaxby$]"));
    CHECK(expanded_at(&regex, "axby", spans + 6, 6, template, 7) == REGRESS_ROOM && needed == 8 && bytes[0] == 0xA5);
    CHECK(expanded_at(&regex, "axby", spans + 6, 6, template, 8) == REGRESS_OK && are_bytes("[yaxby$]"));
    CHECK(expanded_at(&regex, "axby", spans, 6, "", 0) == REGRESS_OK && are_bytes(""));
    /* Not one number for each end. */
    CHECK(expanded_at(&regex, "axby", spans, 5, "", ROOM) == REGRESS_BAD_INPUT && are_none());
    CHECK(expanded_at(&regex, "axby", spans, 4, "", ROOM) == REGRESS_BAD_INPUT && are_none());
    CHECK(expanded_at(&regex, "axby", spans, 8, "", ROOM) == REGRESS_BAD_INPUT && are_none());
    CHECK(expanded_at(&regex, "axby", spans, 1, "", ROOM) == REGRESS_BAD_INPUT && are_none());
    CHECK(expanded_at(&regex, "axby", NULL, 0, "", ROOM) == REGRESS_BAD_INPUT && are_none());
    CHECK(expanded_at(&regex, "axby", NULL, 6, "", ROOM) == REGRESS_BAD_INPUT && are_none());
    CHECK(expanded_at(&regex, "\xFF", spans, 6, "", ROOM) == REGRESS_BAD_INPUT && are_none());
    CHECK(expanded_at(&regex, "axby", spans, 6, "\xFF", ROOM) == REGRESS_BAD_INPUT && are_none());
    regress_free(&regex);
    /* A match need not be one that a search finds, but its spans have to be inside the text. U+20AC takes three bytes. */
    CHECK(compiled("(a)", SMALL, &regex) == REGRESS_OK);
    const char *euro = "\xE2\x82\xAC";
    CHECK(expanded_at(&regex, euro, NUMBERS(0, 3, 3, 3), "<$&$1>", ROOM) == REGRESS_OK && are_bytes("<\xE2\x82\xAC>"));
    CHECK(expanded_at(&regex, euro, NUMBERS(3, 3, SIZE_MAX, SIZE_MAX), "<$1>", ROOM) == REGRESS_OK && are_bytes("<>"));
    CHECK(expanded_at(&regex, euro, NUMBERS(0, 4, 0, 3), "", ROOM) == REGRESS_BAD_INPUT && are_none());
    CHECK(expanded_at(&regex, euro, NUMBERS(0, 1, 0, 3), "", ROOM) == REGRESS_BAD_INPUT && are_none());
    CHECK(expanded_at(&regex, euro, NUMBERS(0, 3, 2, 3), "", ROOM) == REGRESS_BAD_INPUT && are_none());
    CHECK(expanded_at(&regex, euro, NUMBERS(0, 3, 3, 0), "", ROOM) == REGRESS_BAD_INPUT && are_none());
    CHECK(expanded_at(&regex, euro, NUMBERS(3, 0, 0, 3), "", ROOM) == REGRESS_BAD_INPUT && are_none());
    CHECK(expanded_at(&regex, euro, NUMBERS(0, 3, SIZE_MAX, 3), "", ROOM) == REGRESS_BAD_INPUT && are_none());
    CHECK(expanded_at(&regex, euro, NUMBERS(0, 3, 0, SIZE_MAX), "", ROOM) == REGRESS_BAD_INPUT && are_none());
    CHECK(expanded_at(&regex, euro, NUMBERS(SIZE_MAX, SIZE_MAX, 0, 3), "", ROOM) == REGRESS_BAD_INPUT && are_none());
    regress_free(&regex);
}

/* Splits a text, and writes the ends of all parts. */
static uint32_t split(const regress_regex *regex, const char *text, size_t limit) {
    regress_matches parts = {NULL};
    size_t written = 0;
    mark();
    uint32_t status = regress_split(regex, (const uint8_t *)text, strlen(text), limit, &parts);
    while (regress_matches_next(&parts, spans + written, ROOM - written, &needed) == REGRESS_OK) {
        written += needed;
    }
    regress_matches_free(&parts);
    needed = written;
    return status;
}

/* The expected parts are those of V8 11.3. */
static void splits(void) {
    regress_regex regex;
    CHECK(compiled("(\\d)|(x)", SMALL, &regex) == REGRESS_OK);
    CHECK(split(&regex, "a1b2c", SIZE_MAX) == REGRESS_OK
          && ARE(0, 1, 1, 2, SIZE_MAX, SIZE_MAX, 2, 3, 3, 4, SIZE_MAX, SIZE_MAX, 4, 5));
    CHECK(split(&regex, "a1b2c", 2) == REGRESS_OK && ARE(0, 1, 1, 2));
    CHECK(split(&regex, "a1b2c", 0) == REGRESS_OK && needed == 0);
    CHECK(split(&regex, "", 9) == REGRESS_OK && ARE(0, 0));
    CHECK(split(&regex, "\xFF", 9) == REGRESS_BAD_INPUT && needed == 0);
    CHECK(regress_split(&regex, NULL, 1, 9, NULL) == REGRESS_BAD_INPUT);
    CHECK(regress_split(&regex, NULL, 0, 9, NULL) == REGRESS_BAD_INPUT);
    regress_free(&regex);
    CHECK(compiled("b|", SMALL, &regex) == REGRESS_OK);
    CHECK(split(&regex, "\xE2\x82\xAC" "ab", SIZE_MAX) == REGRESS_OK && ARE(0, 3, 3, 4, 5, 5));
    CHECK(split(&regex, "", SIZE_MAX) == REGRESS_OK && needed == 0);
    regress_free(&regex);
    CHECK(compiled_within(&one_step, "(a*)*\\1b", &regex) == REGRESS_OK);
    CHECK(split(&regex, "aaaaaaaaaaaaaaaa", 9) == REGRESS_OUT_OF_STEPS && needed == 0);
    regress_free(&regex);
}

/* The expected patterns are by ECMA-262, EncodeForRegExpEscape. */
static void escapes(void) {
    CHECK(escaped("1+1 = 2?", ROOM) == REGRESS_OK && are_bytes("\\x31\\+1\\x20\\x3d\\x202\\?"));
    CHECK(escaped("\xC3\xA9" "1/\t\xE2\x80\xA8", ROOM) == REGRESS_OK && are_bytes("\xC3\xA9" "1\\/\\t\\u2028"));
    CHECK(escaped("", 0) == REGRESS_OK && are_bytes(""));
    CHECK(escaped("a.", 5) == REGRESS_ROOM && needed == 6 && bytes[0] == 0xA5);
    CHECK(escaped("a.", 6) == REGRESS_OK && are_bytes("\\x61\\."));
    CHECK(escaped("a\xFF", ROOM) == REGRESS_BAD_INPUT && are_none());
}

/* A buffer for differences, and one more that must stay unchanged. */
static regress_difference differing[ROOM + 1];

static uint32_t differences(const char *pattern, uint32_t flags, size_t room) {
    for (size_t i = 0; i <= ROOM; i++) {
        differing[i].kind = 0xA5A5A5A5u;
        differing[i].start = differing[i].end = MARK;
    }
    return regress_differences((const uint8_t *)pattern, strlen(pattern), flags, differing, room, &needed, &kind,
                               &position);
}

static int is_difference(size_t at, uint32_t expected, size_t start, size_t end) {
    return differing[at].kind == expected && differing[at].start == start && differing[at].end == end;
}

static int has_no_more(size_t count) { return is_difference(count, 0xA5A5A5A5u, MARK, MARK); }

static uint32_t name_of_difference(uint32_t of, size_t room) {
    memset(bytes, 0xA5, sizeof bytes);
    return regress_difference_name(of, bytes, room, &needed);
}

static uint32_t text_of_difference(uint32_t of, uint8_t *text, size_t room) {
    memset(text, 0xA5, room);
    return regress_difference_text(of, text, room, &needed);
}

/* The expected differences are those of the table of docs/differences.md. */
static void lists_of_differences(void) {
    uint8_t text[256];
    CHECK(differences("\xC3\xA9[k]\\w", REGRESS_ICASE, ROOM) == REGRESS_OK && needed == 2);
    CHECK(kind == 0 && position == 0);
    CHECK(is_difference(0, REGRESS_DIFFERENCE_CASE_CLOSURE, 1, 4));
    CHECK(is_difference(1, REGRESS_DIFFERENCE_CASE_CLOSURE, 4, 6) && has_no_more(2));
    CHECK(differences("[k][s]", REGRESS_ICASE, 2) == REGRESS_OK && needed == 2 && has_no_more(2));
    CHECK(differences("[k][s]", REGRESS_ICASE, 1) == REGRESS_ROOM && needed == 2 && has_no_more(0));
    CHECK(differences("[k][s]", REGRESS_ICASE, 0) == REGRESS_ROOM && needed == 2 && has_no_more(0));
    CHECK(differences("[k][s]", 0, 0) == REGRESS_OK && needed == 0 && has_no_more(0));
    CHECK(differences("\\p{RGI_Emoji}", REGRESS_UNICODE | REGRESS_UNICODE_SETS, ROOM) == REGRESS_OK && needed == 0);
    CHECK(differences("x\\u{61}", SMALL, ROOM) == REGRESS_OK && needed == 1);
    CHECK(is_difference(0, REGRESS_DIFFERENCE_GRAMMAR, 1, 7) && has_no_more(1));
    CHECK(differences("(?:(?<a>x)|(?<a>y))\\k<a>", SMALL, ROOM) == REGRESS_OK && needed == 1);
    CHECK(is_difference(0, REGRESS_DIFFERENCE_SAME_NAME, 19, 24) && has_no_more(1));
    CHECK(differences("", SMALL, 0) == REGRESS_OK && needed == 0);
    CHECK(differences("\xC3\xA9)", SMALL, ROOM) == REGRESS_SYNTAX && needed == 0 && kind == 1 && position == 1);
    CHECK(differences("\xFF", SMALL, ROOM) == REGRESS_BAD_INPUT && needed == 0 && kind == 0 && has_no_more(0));
    CHECK(differences("a", 64, ROOM) == REGRESS_BAD_INPUT && needed == 0);
    CHECK(name_of_difference(REGRESS_DIFFERENCE_CASE_CLOSURE, ROOM) == REGRESS_OK && is_text("case-closure"));
    CHECK(name_of_difference(REGRESS_DIFFERENCE_STRING_SET, ROOM) == REGRESS_OK && is_text("string-set"));
    CHECK(name_of_difference(REGRESS_DIFFERENCE_SAME_NAME, ROOM) == REGRESS_OK && is_text("same-name"));
    CHECK(name_of_difference(REGRESS_DIFFERENCE_GRAMMAR, ROOM) == REGRESS_OK && is_text("grammar"));
    CHECK(name_of_difference(REGRESS_DIFFERENCE_SAME_NAME, 8) == REGRESS_ROOM && needed == 9 && bytes[0] == 0xA5);
    CHECK(name_of_difference(0, ROOM) == REGRESS_BAD_INPUT && are_bytes(""));
    CHECK(name_of_difference(5, ROOM) == REGRESS_BAD_INPUT && are_bytes(""));
    for (uint32_t each = 1; each <= 4; each++) {
        CHECK(text_of_difference(each, text, sizeof text) == REGRESS_OK && needed > 40);
        CHECK(text[needed] == 0 && text[needed + 1] == 0xA5);
        CHECK(text_of_difference(each, text, 40) == REGRESS_ROOM && needed > 40 && text[0] == 0xA5);
    }
    CHECK(text_of_difference(5, text, sizeof text) == REGRESS_BAD_INPUT && needed == 0 && text[0] == 0xA5);
}

static void errors(void) {
    int mark_of_caller;
    regress_regex regex = {&mark_of_caller};
    CHECK(compiled("ab)", SMALL, &regex) == REGRESS_SYNTAX && kind == 1 && position == 2);
    CHECK(compiled("\xFF", SMALL, &regex) == REGRESS_BAD_INPUT && kind == 0 && position == 0);
    CHECK(compiled("a", 64, &regex) == REGRESS_BAD_INPUT);
    /* too many instructions, in a small tree */
    CHECK(compiled("(?:(?:ab){9999999999}){9999999999}", SMALL, &regex) == REGRESS_TOO_LARGE && kind == 0 && position == 0);
    CHECK(regex.inside == &mark_of_caller);
    CHECK(compiled_within(&one_step, "(a*)*\\1b", &regex) == REGRESS_OK);
    CHECK(found(&regex, "aaaaaaaaaaaaaaaaaaaaaaaaaaaaaaaa", 0, ROOM) == REGRESS_OUT_OF_STEPS && needed == 0
          && spans[0] == MARK);
    /* the default limit would be enough */
    CHECK(found(&regex, "aab", 0, ROOM) == REGRESS_OUT_OF_STEPS && needed == 0 && spans[0] == MARK);
    CHECK(found(&regex, "\xFF", 0, ROOM) == REGRESS_BAD_INPUT && needed == 0 && spans[0] == MARK);
    CHECK(regress_is_match(&regex, (const uint8_t *)"\xFF", 1) == REGRESS_BAD_INPUT);
    CHECK(found_all_from(&regex, "aaaaaaaaaaaaaaaaaaaaaaaaaaaaaaaa", 8, ROOM) == REGRESS_OUT_OF_STEPS && needed == 0
          && spans[0] == MARK);
    CHECK(found_all_from(&regex, "a\xFF", 1, ROOM) == REGRESS_BAD_INPUT && needed == 0 && spans[0] == MARK);
    regress_free(&regex);
    /* a linear search has no step limit */
    CHECK(compiled_within(&one_step, "(a*)*b", &regex) == REGRESS_OK);
    CHECK(found(&regex, "aaaaaaaaaaaaaaaaaaaaaaaaaaaaaaaa", 0, ROOM) == REGRESS_NO_MATCH);
    regress_free(&regex);
}

static void limits(void) {
    regress_regex regex;
    regress_limits nodes = {0, 5, 0, 0, 0, 0}, instructions = {0, 0, 5, 0, 0, 0}, tables = {1, 0, 0, 1, 0, 0},
                   memory = {0, 0, 0, 0, 100, 0}, linear = {0, 0, 0, 0, 0, 10};
    char many[201] = {0};
    CHECK(compiled_within(&nodes, "ab", &regex) == REGRESS_OK);
    regress_free(&regex);
    CHECK(compiled_within(&nodes, "abc", &regex) == REGRESS_TOO_LARGE);
    CHECK(compiled_within(&instructions, "a", &regex) == REGRESS_OK);
    regress_free(&regex);
    CHECK(compiled_within(&instructions, "(?:(a)|b){9}", &regex) == REGRESS_TOO_LARGE);
    /* two iterations are stored, of five instructions with those inside */
    instructions.instructions = 10;
    CHECK(compiled_within(&instructions, "(?:(?:ab){400}){700}", &regex) == REGRESS_TOO_LARGE);
    instructions.instructions = 11;
    CHECK(compiled_within(&instructions, "(?:(?:ab){400}){700}", &regex) == REGRESS_OK);
    regress_free(&regex);
    /* a program that is too long for tables is searched within the step limit */
    CHECK(compiled_within(&tables, "(a*)*b", &regex) == REGRESS_OK);
    CHECK(regress_is_linear(&regex) == 0 && regress_steps_per_byte(&regex) == 0);
    CHECK(regress_find_steps_per_byte(&regex) == 0);
    CHECK(regress_nonlinear(&regex) == REGRESS_NONLINEAR_TOO_MANY_INSTRUCTIONS);
    CHECK(found(&regex, "aaaaaaaaaaaaaaaaaaaaaaaaaaaaaaaa", 0, ROOM) == REGRESS_OUT_OF_STEPS);
    regress_free(&regex);
    /* tables are limited, which have at least a byte for each letter */
    CHECK(compiled_within(&memory, "(a*)*b", &regex) == REGRESS_OK);
    CHECK(found(&regex, "aab", 0, ROOM) == REGRESS_OK && ARE(0, 3, 0, 2));
    memset(many, 'a', sizeof many - 1);
    CHECK(found(&regex, many, 0, ROOM) == REGRESS_TOO_MUCH_MEMORY && needed == 0 && spans[0] == MARK);
    CHECK(found_all(&regex, many, ROOM) == REGRESS_TOO_MUCH_MEMORY);
    regress_free(&regex);
    memory.memory = 1000;
    CHECK(compiled_within(&memory, "(a*)*b", &regex) == REGRESS_OK);
    CHECK(found(&regex, "aaaaaaaaaaaaaaaaaaaaaaaaaaaaaaaa", 0, ROOM) == REGRESS_NO_MATCH);
    regress_free(&regex);
    /* a linear search may have a limit of steps, too */
    CHECK(compiled_within(&linear, "(a*)*b", &regex) == REGRESS_OK);
    CHECK(regress_is_linear(&regex) == 1);
    CHECK(found(&regex, "b", 0, ROOM) == REGRESS_OK && ARE(0, 1, REGRESS_UNSET, REGRESS_UNSET));
    CHECK(found(&regex, "aaaaaaaaaaaaaaaaaaaaaaaaaaaaaaaa", 0, ROOM) == REGRESS_OUT_OF_STEPS && needed == 0
          && spans[0] == MARK);
    CHECK(found_all(&regex, "aaaaaaaaaaaaaaaaaaaaaaaaaaaaaaaa", ROOM) == REGRESS_OUT_OF_STEPS);
    linear.linear_steps = 33 * regress_steps_per_byte(&regex);
    regress_free(&regex);
    CHECK(compiled_within(&linear, "(a*)*b", &regex) == REGRESS_OK);
    CHECK(found(&regex, "aaaaaaaaaaaaaaaaaaaaaaaaaaaaaaaa", 0, ROOM) == REGRESS_NO_MATCH);
    regress_free(&regex);
    /* a list has room for 1000 / 56 matches */
    CHECK(compiled_within(&memory, "a", &regex) == REGRESS_OK);
    CHECK(found_all(&regex, "aa", ROOM) == REGRESS_OK && needed == 4);
    CHECK(found_all(&regex, "aaaaaaaaaaaaaaaaa", 1) == REGRESS_ROOM && needed == 34);
    CHECK(found_all(&regex, "aaaaaaaaaaaaaaaaaa", ROOM) == REGRESS_TOO_MUCH_MEMORY && needed == 0);
    regress_free(&regex);
    /* a backtrack stack that is full */
    memory.memory = 4000;
    CHECK(compiled_within(&memory, "(?:a|b|(c))*\\1d", &regex) == REGRESS_OK);
    CHECK(regress_find_steps_per_byte(&regex) == 0);
    CHECK(found(&regex, "aaad", 0, ROOM) == REGRESS_OK && ARE(0, 4, REGRESS_UNSET, REGRESS_UNSET));
    memset(many, 'a', sizeof many - 1);
    CHECK(found(&regex, many, 0, ROOM) == REGRESS_TOO_MUCH_MEMORY && needed == 0 && spans[0] == MARK);
    CHECK(found_all(&regex, many, ROOM) == REGRESS_TOO_MUCH_MEMORY);
    regress_free(&regex);
    CHECK(compiled("(a*)*b", SMALL, &regex) == REGRESS_OK);
    CHECK(regress_is_linear(&regex) == 1 && regress_steps_per_byte(&regex) > 0);
    CHECK(regress_nonlinear(&regex) == 0);
    CHECK(found(&regex, "ab", 0, ROOM) == REGRESS_OK && ARE(0, 2, 0, 1));
    regress_free(&regex);
    CHECK(compiled("(?=(a))b", SMALL, &regex) == REGRESS_OK);
    CHECK(regress_is_linear(&regex) == 0 && regress_steps_per_byte(&regex) == 0);
    CHECK(regress_nonlinear(&regex) == REGRESS_NONLINEAR_CAPTURING_LOOKAROUND);
    CHECK(regress_find_steps_per_byte(&regex) > 0);
    regress_free(&regex);
    CHECK(compiled("(?=(a))\\1", SMALL, &regex) == REGRESS_OK && regress_find_steps_per_byte(&regex) == 0);
    regress_free(&regex);
    /* of several reasons the first */
    CHECK(compiled_within(&tables, "(?=(a))\\1", &regex) == REGRESS_OK);
    CHECK(regress_nonlinear(&regex) == REGRESS_NONLINEAR_BACK_REFERENCE);
    regress_free(&regex);
    CHECK(compiled("(?!(a))b", SMALL, &regex) == REGRESS_OK && regress_nonlinear(&regex) == 0);
    regress_free(&regex);
}

/* NULL is allowed with the length 0, and for a number and for the limits; with any other one nothing is written. */
static void null_pointers(void) {
    regress_regex regex = {NULL}, zero = {NULL};
    regress_searcher searcher = {NULL};
    const uint8_t *text = (const uint8_t *)"a";
    CHECK(regress_compile(text, 1, SMALL, NULL, &regex, NULL, NULL) == REGRESS_OK);
    CHECK(regress_find(&regex, text, 1, 0, spans, ROOM, NULL) == REGRESS_OK && spans[1] == 1);
    CHECK(regress_find(&regex, NULL, 0, 0, spans, ROOM, &needed) == REGRESS_NO_MATCH);
    CHECK(regress_find(&regex, text, 1, 0, NULL, 0, &needed) == REGRESS_ROOM && needed == 2);
    CHECK(regress_find(&regex, NULL, 1, 0, spans, ROOM, &needed) == REGRESS_BAD_INPUT && needed == 0);
    CHECK(regress_find(&regex, text, 1, 0, NULL, 1, &needed) == REGRESS_BAD_INPUT);
    CHECK(regress_find_all(&regex, NULL, 0, 0, NULL, 0, NULL) == REGRESS_OK);
    CHECK(regress_find_all(&regex, NULL, 1, 0, spans, ROOM, &needed) == REGRESS_BAD_INPUT);
    CHECK(regress_find_all(&regex, text, 1, 0, NULL, 1, &needed) == REGRESS_BAD_INPUT);
    CHECK(regress_is_match(&regex, NULL, 0) == REGRESS_NO_MATCH);
    CHECK(regress_is_match(&regex, NULL, 1) == REGRESS_BAD_INPUT);
    CHECK(regress_searcher_new(&searcher) == REGRESS_OK);
    CHECK(regress_searcher_find(&searcher, &regex, text, 1, 0, spans, ROOM, NULL) == REGRESS_OK && spans[1] == 1);
    CHECK(regress_searcher_find(&searcher, &regex, NULL, 0, 0, NULL, 0, &needed) == REGRESS_NO_MATCH);
    CHECK(regress_searcher_find(&searcher, &regex, NULL, 1, 0, NULL, 0, &needed) == REGRESS_BAD_INPUT);
    CHECK(regress_searcher_find(&searcher, &regex, text, 1, 0, NULL, 1, &needed) == REGRESS_BAD_INPUT);
    CHECK(regress_searcher_find(&searcher, &zero, text, 1, 0, spans, ROOM, &needed) == REGRESS_BAD_INPUT && needed == 0);
    CHECK(regress_searcher_find(NULL, &regex, text, 1, 0, spans, ROOM, &needed) == REGRESS_BAD_INPUT);
    CHECK(regress_searcher_is_match(&searcher, &regex, NULL, 0) == REGRESS_NO_MATCH);
    CHECK(regress_searcher_is_match(&searcher, &regex, NULL, 1) == REGRESS_BAD_INPUT);
    CHECK(regress_searcher_is_match(&searcher, &zero, text, 1) == REGRESS_BAD_INPUT);
    regress_searcher_free(&searcher);
    CHECK(regress_searcher_find(&searcher, &regex, text, 1, 0, spans, ROOM, &needed) == REGRESS_BAD_INPUT);
    CHECK(regress_searcher_is_match(&searcher, &regex, text, 1) == REGRESS_BAD_INPUT);
    CHECK(regress_replace(&regex, text, 1, NULL, 0, NULL, 0, NULL) == REGRESS_OK);
    CHECK(regress_replace_all(&regex, text, 1, NULL, 0, bytes, ROOM, &needed) == REGRESS_OK && needed == 0);
    CHECK(regress_replace(&regex, NULL, 1, NULL, 0, NULL, 0, NULL) == REGRESS_BAD_INPUT);
    CHECK(regress_replace_all(&regex, text, 1, NULL, 1, NULL, 0, NULL) == REGRESS_BAD_INPUT);
    CHECK(regress_replace_all(&regex, text, 1, NULL, 0, NULL, 1, NULL) == REGRESS_BAD_INPUT);
    CHECK(regress_escape(NULL, 0, NULL, 0, NULL) == REGRESS_OK);
    CHECK(regress_escape(NULL, 1, NULL, 0, &needed) == REGRESS_BAD_INPUT && needed == 0);
    CHECK(regress_escape(text, 1, NULL, 0, &needed) == REGRESS_ROOM && needed == 4);
    CHECK(regress_group_name(&regex, 0, NULL, 0, NULL) == REGRESS_BAD_INPUT);
    CHECK(regress_error_message(1, NULL, 0, &needed) == REGRESS_ROOM && needed == 22);
    CHECK(regress_error_message(1, NULL, 1, &needed) == REGRESS_BAD_INPUT && needed == 0);
    CHECK(regress_error_sentence(NULL, 0, 1, 0, NULL, 0, &needed) == REGRESS_ROOM && needed > 0);
    CHECK(regress_error_sentence(NULL, 1, 1, 0, NULL, 0, &needed) == REGRESS_BAD_INPUT && needed == 0);
    CHECK(regress_error_sentence(NULL, 0, 1, 0, NULL, 1, NULL) == REGRESS_BAD_INPUT);
    CHECK(regress_differences(NULL, 0, SMALL, NULL, 0, NULL, NULL, NULL) == REGRESS_OK);
    CHECK(regress_differences(NULL, 1, SMALL, NULL, 0, &needed, &kind, &position) == REGRESS_BAD_INPUT);
    CHECK(regress_difference_name(1, NULL, 0, NULL) == REGRESS_ROOM);
    CHECK(regress_difference_text(1, NULL, 1, NULL) == REGRESS_BAD_INPUT);
    CHECK(regress_compile(NULL, 0, SMALL, NULL, NULL, &kind, &position) == REGRESS_BAD_INPUT && kind == 0);
    CHECK(regress_compile(NULL, 1, SMALL, NULL, &zero, NULL, NULL) == REGRESS_BAD_INPUT && !zero.inside);
    regress_free(&regex);
    CHECK(!regex.inside);
    regress_free(&regex);
    regress_free(NULL);
    CHECK(regress_compile(NULL, 0, SMALL, NULL, &regex, NULL, NULL) == REGRESS_OK);
    CHECK(regress_find(&regex, NULL, 0, 0, spans, ROOM, &needed) == REGRESS_OK && needed == 2);
    regress_free(&regex);
}

static uint32_t is_exact(const regress_regex *regex, const char *text) {
    return regress_is_exact_for(regex, (const uint8_t *)text, strlen(text));
}

/* Without u JavaScript reads a code point above U+FFFF as two code units. */
static void exactness(void) {
    const char *face = "\xF0\x9F\x98\x80";
    regress_regex regex;
    CHECK(compiled("^.$", SMALL, &regex) == REGRESS_OK);
    CHECK(is_exact(&regex, "\xC3\xA9") == 1 && is_exact(&regex, face) == 0 && is_exact(&regex, "\xFF") == 0);
    CHECK(regress_is_exact_for(&regex, NULL, 0) == 1 && regress_is_exact_for(&regex, NULL, 1) == 0);
    regress_free(&regex);
    CHECK(compiled(face, SMALL, &regex) == REGRESS_OK && is_exact(&regex, "a") == 0);
    regress_free(&regex);
    CHECK(compiled(face, SMALL | REGRESS_UNICODE, &regex) == REGRESS_OK && is_exact(&regex, face) == 1);
    regress_free(&regex);
    CHECK(is_exact(&regex, "a") == 0);
}

/* A handle that is zero, as one that is freed or was never compiled, is an invalid argument. */
static void zero_handles(void) {
    regress_regex zero = {NULL};
    regress_matches none = {NULL};
    CHECK(found(&zero, "a", 0, ROOM) == REGRESS_BAD_INPUT && needed == 0 && spans[0] == MARK);
    CHECK(found_all(&zero, "a", ROOM) == REGRESS_BAD_INPUT && needed == 0 && spans[0] == MARK);
    CHECK(regress_is_match(&zero, (const uint8_t *)"a", 1) == REGRESS_BAD_INPUT);
    CHECK(replaced(&zero, "a", "b", ROOM) == REGRESS_BAD_INPUT && are_none());
    CHECK(all_replaced(&zero, "a", "b", ROOM) == REGRESS_BAD_INPUT && are_none());
    CHECK(first_replaced(&zero, "a", "b", 1, ROOM) == REGRESS_BAD_INPUT && are_none() && changes == 0);
    CHECK(expanded_at(&zero, "a", NUMBERS(0, 1), "b", ROOM) == REGRESS_BAD_INPUT && are_none());
    CHECK(regress_matches_new(&zero, (const uint8_t *)"a", 1, 0, &none) == REGRESS_BAD_INPUT && !none.inside);
    CHECK(regress_split(&zero, (const uint8_t *)"a", 1, 9, &none) == REGRESS_BAD_INPUT && !none.inside);
    CHECK(name(&zero, 1, ROOM) == REGRESS_BAD_INPUT && are_bytes(""));
    CHECK(regress_group_count(&zero) == 0 && regress_is_linear(&zero) == 0 && regress_nonlinear(&zero) == 0);
    CHECK(regress_steps_per_byte(&zero) == 0 && regress_find_steps_per_byte(&zero) == 0);
    CHECK(found(NULL, "a", 0, ROOM) == REGRESS_BAD_INPUT && regress_group_count(NULL) == 0);
    regress_free(&zero);
}

static void byte_offsets(void) {
    const char *pattern = "\xC3\xA9[z-a]";
    regress_regex regex;
    size_t length = strlen(pattern);
    CHECK(compiled(pattern, SMALL, &regex) == REGRESS_SYNTAX && position == 2);
    CHECK(regress_byte_offset((const uint8_t *)pattern, length, position) == 3);
    CHECK(regress_byte_offset((const uint8_t *)pattern, length, 0) == 0);
    CHECK(regress_byte_offset((const uint8_t *)pattern, length, 6) == 7);
    CHECK(regress_byte_offset((const uint8_t *)pattern, length, SIZE_MAX) == 7);
    CHECK(regress_byte_offset((const uint8_t *)"\xF0\x9F\x98\x80", 4, 1) == 4);
    CHECK(regress_byte_offset(NULL, 0, 0) == 0);
}

/* With each allocation failing in order, the status is MEMORY with nothing written and nothing kept, or the result is
   that of a run without failures. */
static void refuse(const char *pattern, const char *text) {
    regress_regex regex;
    size_t expected[ROOM], wanting = 0;
    requests = 0;
    CHECK(compiled(pattern, SMALL, &regex) == REGRESS_OK);
    CHECK(found_all(&regex, text, ROOM) == REGRESS_OK);
    memcpy(expected, spans, sizeof expected);
    size_t expected_needed = needed;
    regress_free(&regex);
    long most = requests, before = blocks;
    for (long each = 0; each < most; each++) {
        requests = 0;
        refused = each;
        uint32_t status = compiled(pattern, SMALL, &regex);
        if (status == REGRESS_OK) {
            status = found_all(&regex, text, ROOM);
            CHECK(status == REGRESS_OK ? needed == expected_needed && memcmp(spans, expected, sizeof expected) == 0
                                       : status == REGRESS_MEMORY && needed == 0 && spans[0] == MARK);
            requests = refused = 0;
            CHECK(name(&regex, 1, ROOM) == (regress_group_count(&regex) ? REGRESS_OK : REGRESS_BAD_INPUT));
            CHECK(message(kind ? kind : 1, ROOM) == REGRESS_OK);
            CHECK((regress_is_linear(&regex) == 1) == (regress_steps_per_byte(&regex) > 0));
            CHECK((regress_is_linear(&regex) == 1) == (regress_nonlinear(&regex) == 0));
            CHECK(regress_is_linear(&regex) == 0 || regress_find_steps_per_byte(&regex) > 0);
            CHECK(requests == 0);
            refused = -1;
            CHECK(found_all(&regex, text, ROOM) == REGRESS_OK && memcmp(spans, expected, sizeof expected) == 0);
            regress_free(&regex);
        } else {
            CHECK(status == REGRESS_MEMORY && kind == 0 && position == 0);
        }
        wanting += status == REGRESS_MEMORY;
        refused = -1;
        CHECK(blocks == before);
    }
    CHECK(wanting > 0);
    printf("%s: out of memory in %zu of %ld runs\n", pattern, wanting, most);
}

/* A call that searches. Those for all matches begin at an offset, and have no status for no match there. */
enum searching { FINDING, FINDING_ALL, LISTING, SPLITTING, TESTING };

/* Lists the matches, and writes all of them. */
static uint32_t listed(const regress_regex *regex, const char *text) {
    regress_matches matches = {NULL};
    size_t written = 0;
    mark();
    uint32_t status = regress_matches_new(regex, (const uint8_t *)text, strlen(text), 1, &matches);
    while (regress_matches_next(&matches, spans + written, ROOM - written, &needed) == REGRESS_OK) {
        written += needed;
    }
    regress_matches_free(&matches);
    needed = 0;
    return status == REGRESS_OK && written == 0 ? REGRESS_NO_MATCH : status;
}

static uint32_t searched(enum searching how, const regress_regex *regex, const char *text) {
    if (how == FINDING) {
        return found(regex, text, 0, ROOM);
    }
    if (how == FINDING_ALL) {
        uint32_t status = found_all_from(regex, text, 1, ROOM);
        return status == REGRESS_OK && needed == 0 ? REGRESS_NO_MATCH : status;
    }
    if (how == LISTING) {
        return listed(regex, text);
    }
    if (how == SPLITTING) {
        uint32_t status = split(regex, text, SIZE_MAX);
        needed = 0;
        return status == REGRESS_OK && spans[1] == strlen(text) ? REGRESS_NO_MATCH : status;
    }
    mark();
    needed = 0;
    return regress_is_match(regex, (const uint8_t *)text, strlen(text));
}

/* As `refuse`, for a call that searches. */
static void refuse_search(enum searching how, const char *pattern, const char *text, uint32_t expected) {
    regress_regex regex;
    size_t ample[ROOM + 1], wanting = 0;
    CHECK(compiled(pattern, SMALL, &regex) == REGRESS_OK);
    requests = 0;
    CHECK(searched(how, &regex, text) == expected);
    memcpy(ample, spans, sizeof ample);
    long most = requests, before = blocks;
    for (long each = 0; each < most; each++) {
        requests = 0;
        refused = each;
        uint32_t status = searched(how, &regex, text);
        refused = -1;
        CHECK(status == REGRESS_MEMORY ? needed == 0 && spans[0] == MARK
                                       : status == expected && memcmp(spans, ample, sizeof ample) == 0);
        CHECK(blocks == before);
        wanting += status == REGRESS_MEMORY;
    }
    CHECK(wanting > 0);
    CHECK(searched(how, &regex, text) == expected && memcmp(spans, ample, sizeof ample) == 0);
    regress_free(&regex);
    printf("%s: out of memory in %zu of %ld searches\n", pattern, wanting, most);
}

/* As `refuse`, for searches with a searcher. After a failure it serves further searches. */
static void refuse_searcher(const char *pattern, const char *text, uint32_t expected) {
    regress_regex regex;
    regress_searcher searcher = {NULL};
    size_t ample[ROOM + 1], wanting = 0;
    CHECK(compiled(pattern, SMALL, &regex) == REGRESS_OK);
    long before = blocks;
    requests = 0;
    CHECK(regress_searcher_new(&searcher) == REGRESS_OK);
    CHECK(found_with(&searcher, &regex, text) == expected);
    memcpy(ample, spans, sizeof ample);
    regress_searcher_free(&searcher);
    long most = requests;
    for (long each = 0; each < most; each++) {
        requests = 0;
        refused = each;
        uint32_t status = regress_searcher_new(&searcher);
        CHECK(status == REGRESS_OK ? searcher.inside != NULL : status == REGRESS_MEMORY && searcher.inside == NULL);
        if (status == REGRESS_OK) {
            status = found_with(&searcher, &regex, text);
            refused = -1;
            CHECK(status == REGRESS_MEMORY ? needed == 0 && spans[0] == MARK
                                           : status == expected && memcmp(spans, ample, sizeof ample) == 0);
            CHECK(found_with(&searcher, &regex, text) == expected && memcmp(spans, ample, sizeof ample) == 0);
        }
        refused = -1;
        regress_searcher_free(&searcher);
        CHECK(blocks == before);
        wanting += status == REGRESS_MEMORY;
    }
    CHECK(wanting > 0);
    regress_free(&regex);
    printf("%s: out of memory in %zu of %ld searches with a searcher\n", pattern, wanting, most);
}

/* A call that writes a text, and what it writes. */
enum writing { REPLACING, REPLACING_ALL, REPLACING_ONE, KEEPING, EXPANDING, ESCAPING };

/* Keeps a text with all matches replaced, and writes it. */
static uint32_t kept_and_written(const regress_regex *regex, const char *text, const char *replacement) {
    regress_replaced made = {NULL};
    memset(bytes, 0xA5, sizeof bytes);
    needed = 0;
    uint32_t status = kept(regex, text, replacement, SIZE_MAX, &made);
    if (status == REGRESS_OK) {
        status = kept_written(&made, ROOM);
    }
    regress_replaced_free(&made);
    return status;
}

static uint32_t written(enum writing how, regress_regex *regex) {
    switch (how) {
    case REPLACING:
        return replaced(regex, "-xyyxyy", "<$<a>$'>", ROOM);
    case REPLACING_ALL:
        return all_replaced(regex, "-xyyxyy", "<$<a>$'>", ROOM);
    case REPLACING_ONE:
        return first_replaced(regex, "-xyyxyy", "<$<a>$'>", 1, ROOM);
    case KEEPING:
        return kept_and_written(regex, "-xyyxyy", "<$<a>$'>");
    case EXPANDING:
        return expanded_at(regex, "-xyyxyy", NUMBERS(1, 4, 2, 4), "<$<a>$'>", ROOM);
    default:
        return escaped("1 + 1 = 2", ROOM);
    }
}

/* As `refuse`, for a call that writes a text. */
static void refuse_text(enum writing how, const char *expected) {
    regress_regex regex;
    size_t wanting = 0;
    CHECK(compiled("x(?<a>y+)", SMALL, &regex) == REGRESS_OK);
    requests = 0;
    CHECK(written(how, &regex) == REGRESS_OK && are_bytes(expected));
    long most = requests, before = blocks;
    for (long each = 0; each < most; each++) {
        requests = 0;
        refused = each;
        uint32_t status = written(how, &regex);
        refused = -1;
        CHECK(status == REGRESS_OK ? are_bytes(expected) : status == REGRESS_MEMORY && are_none());
        CHECK(blocks == before);
        wanting += status == REGRESS_MEMORY;
    }
    CHECK(wanting > 0);
    CHECK(written(how, &regex) == REGRESS_OK && are_bytes(expected));
    regress_free(&regex);
    printf("%s: out of memory in %zu of %ld runs\n", expected, wanting, most);
}

/* As `refuse`, for the differences of a pattern. */
static void refuse_differences(const char *pattern, uint32_t expected, size_t count) {
    size_t wanting = 0;
    requests = 0;
    CHECK(differences(pattern, SMALL | REGRESS_ICASE, ROOM) == expected && needed == count);
    long most = requests, before = blocks;
    for (long each = 0; each < most; each++) {
        requests = 0;
        refused = each;
        uint32_t status = differences(pattern, SMALL | REGRESS_ICASE, ROOM);
        refused = -1;
        CHECK(status == REGRESS_MEMORY ? needed == 0 && kind == 0 && position == 0 && has_no_more(0)
                                       : status == expected && needed == count && has_no_more(count));
        CHECK(blocks == before);
        wanting += status == REGRESS_MEMORY;
    }
    CHECK(wanting > 0);
    CHECK(differences(pattern, SMALL | REGRESS_ICASE, ROOM) == expected && needed == count);
    printf("%s: out of memory in %zu of %ld lists of differences\n", pattern, wanting, most);
}

int main(void) {
    CHECK(regress_abi_version() == REGRESS_ABI_VERSION);
    long before = blocks;
    searches();
    dialects();
    rooms();
    allocations();
    searchers();
    errors();
    limits();
    memory_is_limited();
    lists();
    names();
    messages();
    sentences();
    replaces();
    replaces_some();
    keeps_replaced();
    expands();
    splits();
    escapes();
    lists_of_differences();
    null_pointers();
    exactness();
    zero_handles();
    byte_offsets();
    CHECK(blocks == before);
    refuse("(?<a>x)|(?<b>y+)\\k<b>", "xyyzyyyy");
    refuse("(?<=ab)c{2}[a-c]+|[^a]", "abccab");
    for (enum searching how = FINDING; how <= TESTING; how++) {
        refuse_search(how, "(?<a>x)z|(?<b>y+)\\k<b>", "xyyzyyyy", REGRESS_OK);
        refuse_search(how, "(?<a>x)z|(?<b>y+)\\k<b>", "xyz", REGRESS_NO_MATCH);
        /* backtracking uses up its steps, and the search goes on with tables */
        refuse_search(how, "(a*)*b", "aaaaaaaaaaaaaaaaaaaaaaaacb", REGRESS_OK);
        refuse_search(how, "(a*)*b", "aaaaaaaaaaaaaaaaaaaaaaaa", REGRESS_NO_MATCH);
    }
    refuse_searcher("(?<a>x)z|(?<b>y+)\\k<b>", "xyyzyyyy", REGRESS_OK);
    refuse_searcher("(?=(y)|x)x(?!z|y+z)|(.)y*", "xyyzyyyy", REGRESS_OK);
    refuse_searcher("(a*)*b", "aaaaaaaaaaaaaaaaaaaaaaaa", REGRESS_NO_MATCH);
    refuse_text(REPLACING, "-<yyxyy>xyy");
    refuse_text(REPLACING_ALL, "-<yyxyy><yy>");
    refuse_text(REPLACING_ONE, "-<yyxyy>xyy");
    refuse_text(KEEPING, "-<yyxyy><yy>");
    refuse_text(EXPANDING, "<yyxyy>");
    refuse_text(ESCAPING, "\\x31\\x20\\+\\x201\\x20\\x3d\\x202");
    refuse_differences("[k](?<a>x)|\\W(?<a>[s])\\k<a>", REGRESS_OK, 4);
    refuse_differences("[k])", REGRESS_SYNTAX, 0);
    if (wrong) {
        fprintf(stderr, "%d checks fail\n", wrong);
        return 1;
    }
    puts("all checks pass");
    return 0;
}
