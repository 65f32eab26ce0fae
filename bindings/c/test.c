/* Tests of the functions for C. Linked with --wrap=malloc and --wrap=realloc, so that one allocation can be made to
   fail. */

#include <stdio.h>
#include <stdlib.h>
#include <string.h>

#include <regress_front.h>

void *__real_malloc(size_t size);
void *__real_realloc(void *block, size_t size);

static long requests;
static long refused = -1;

void *__wrap_malloc(size_t size) {
    return requests++ == refused ? NULL : __real_malloc(size);
}

void *__wrap_realloc(void *block, size_t size) {
    return requests++ == refused ? NULL : __real_realloc(block, size);
}

static int wrong;

static void check(int holds, const char *what, int line) {
    if (!holds) {
        fprintf(stderr, "test.c:%d: %s\n", line, what);
        wrong++;
    }
}

#define CHECK(condition) check((condition), #condition, __LINE__)

#define SMALL REGRESS_FRONT_SMALL_TABLE

/* A buffer for words, and one more word that must stay unchanged. */
#define ROOM 256
#define MARK 0xA5A5A5A5u
static uint32_t words[ROOM + 1];
static size_t needed, position;
static uint32_t kind;

static uint32_t parsed(const char *pattern, uint32_t flags, uint32_t optimize, size_t room) {
    for (size_t i = 0; i <= ROOM; i++) {
        words[i] = MARK;
    }
    return regress_front_parse_utf8(pattern, strlen(pattern), flags, optimize, words, room, &needed, &kind, &position);
}

/* The tree is skipped as a whole, and nothing is if its last words are missing. */
static int is_skipped(void) {
    for (size_t length = 0; length < needed; length++) {
        if (regress_front_skip(words, length) != 0) {
            return 0;
        }
    }
    return regress_front_skip(words, needed) == needed && regress_front_skip(words, ROOM + 1) == needed;
}

static int are(const uint32_t *expected, size_t count) {
    return needed == count && memcmp(words, expected, count * sizeof *words) == 0 && words[count] == MARK
           && is_skipped();
}

#define ARE(...) are((const uint32_t[]){__VA_ARGS__}, sizeof((const uint32_t[]){__VA_ARGS__}) / sizeof(uint32_t))

/* One pattern for each kind, with its encoding by the table in the header. */
static void kinds(void) {
    CHECK(parsed("", SMALL, 0, ROOM) == REGRESS_FRONT_OK && ARE(6, 2, 0, 0, 1));
    CHECK(parsed("", SMALL, 1, ROOM) == REGRESS_FRONT_OK && ARE(1));
    CHECK(parsed("a", SMALL, 0, ROOM) == REGRESS_FRONT_OK && ARE(6, 2, 0, 2, 0x61, 1));
    CHECK(parsed("ab", SMALL, 1, ROOM) == REGRESS_FRONT_OK && ARE(6, 2, 0, 3, 2, 0, 0x61, 0x62, 1));
    CHECK(parsed("[ab]", SMALL, 1, ROOM) == REGRESS_FRONT_OK && ARE(6, 2, 0, 4, 2, 0, 0x61, 0x62, 1));
    CHECK(parsed("a|.", SMALL, 0, ROOM) == REGRESS_FRONT_OK && ARE(6, 2, 0, 7, 2, 0x61, 9, 1));
    CHECK(parsed(".", SMALL | REGRESS_FRONT_DOT_ALL, 0, ROOM) == REGRESS_FRONT_OK && ARE(6, 2, 0, 8, 1));
    CHECK(parsed("^$", SMALL | REGRESS_FRONT_MULTILINE, 0, ROOM) == REGRESS_FRONT_OK
          && ARE(6, 2, 0, 6, 2, 0, 10, 0, 1, 10, 1, 1, 1));
    CHECK(parsed("\\B", SMALL, 0, ROOM) == REGRESS_FRONT_OK && ARE(6, 2, 0, 11, 1, 0, 1));
    CHECK(parsed("(a)", SMALL, 0, ROOM) == REGRESS_FRONT_OK && ARE(6, 2, 0, 12, 0, 0, 2, 0x61, 1));
    CHECK(parsed("(?<n>a)", SMALL, 0, ROOM) == REGRESS_FRONT_OK
          && ARE(6, 2, 0, 12, 0, 1, 1, 0, 0x6E, 2, 0x61, 1));
    CHECK(parsed("[^0-9]", SMALL, 0, ROOM) == REGRESS_FRONT_OK && ARE(6, 2, 0, 13, 1, 1, 0, 0x30, 0x39, 1));
    CHECK(parsed("(a){2,3}?", SMALL, 0, ROOM) == REGRESS_FRONT_OK
          && ARE(6, 2, 0, 14, 0, 1, 0, 2, 0, 1, 3, 0, 12, 0, 0, 2, 0x61, 1));
    CHECK(parsed("[0-9]*", SMALL, 1, ROOM) == REGRESS_FRONT_OK
          && ARE(6, 2, 0, 15, 1, 0, 0, 0, 13, 0, 1, 0, 0x30, 0x39, 1));
    CHECK(parsed("(?<!(a))", SMALL, 0, ROOM) == REGRESS_FRONT_OK
          && ARE(6, 2, 0, 16, 1, 1, 0, 1, 12, 0, 0, 2, 0x61, 1));
    CHECK(parsed("(a)\\1", SMALL | REGRESS_FRONT_ICASE, 0, ROOM) == REGRESS_FRONT_OK);
    CHECK(words[needed - 4] == 17 && words[needed - 3] == 1 && words[needed - 2] == 1 && words[needed - 1] == 1);
    CHECK(is_skipped());
    CHECK(parsed("[\\q{xy}]", SMALL | REGRESS_FRONT_UNICODE | REGRESS_FRONT_UNICODE_SETS, 0, ROOM) == REGRESS_FRONT_OK);
    int found = 0;
    for (size_t i = 0; i + 7 < needed; i++) {
        const uint32_t expected[] = {18, 0, 1, 0, 2, 0, 0x78, 0x79};
        found |= memcmp(words + i, expected, sizeof expected) == 0;
    }
    CHECK(found && is_skipped());
}

/* A decoder that prints the kinds of the parts of a CAT skips what is inside them. */
static void skips(void) {
    static const char *const kinds_of_parts[] = {"CaptureGroup", "Alt", "Loop", "LookaroundAssertion", "Goal"};
    size_t at = 3;
    CHECK(parsed("(?<n>a[bc])(?:x|(y)|z)(?:ab){2,}(?=a|b)", SMALL, 0, ROOM) == REGRESS_FRONT_OK && is_skipped());
    CHECK(strcmp(regress_front_node_name(words[0]), "Cat") == 0);
    /* the disjunction is the first part of the tree, and a CAT itself */
    CHECK(words[3] == REGRESS_FRONT_CAT && regress_front_skip(words + 3, needed - 3) == needed - 4);
    for (size_t i = 0; i < sizeof kinds_of_parts / sizeof *kinds_of_parts; i++) {
        /* its parts follow its own three words, and then the GOAL */
        at += i == 0 ? 3 : regress_front_skip(words + at, needed - at);
        CHECK(at < needed && strcmp(regress_front_node_name(words[at]), kinds_of_parts[i]) == 0);
    }
    CHECK(at == needed - 1);
    CHECK(strcmp(regress_front_node_name(REGRESS_FRONT_EMPTY), "Empty") == 0);
    CHECK(strcmp(regress_front_node_name(REGRESS_FRONT_MATCH_ANY_EXCEPT_LINE_TERMINATOR),
                 "MatchAnyExceptLineTerminator") == 0);
    CHECK(strcmp(regress_front_node_name(REGRESS_FRONT_LOOP_1_CHAR_BODY), "Loop1CharBody") == 0);
    CHECK(strcmp(regress_front_node_name(REGRESS_FRONT_STRING_SET), "StringSet") == 0);
    CHECK(regress_front_node_name(19) == NULL && regress_front_node_name(UINT32_MAX) == NULL);
    /* words that encode no tree: an unknown kind, and lengths that are too large */
    const uint32_t unknown[] = {6, 2, 0, 19, 1}, wide[] = {6, UINT32_MAX, UINT32_MAX, 1, 1};
    const uint32_t list[] = {13, 0, 0, 1u << 31}, strings[] = {18, 0, UINT32_MAX, UINT32_MAX, 0, 0};
    CHECK(regress_front_skip(unknown, 5) == 0 && regress_front_skip(wide, 5) == 0);
    CHECK(regress_front_skip(list, 4) == 0 && regress_front_skip(strings, 6) == 0);
    CHECK(regress_front_skip(NULL, 0) == 0);
}

/* If the buffer is too small, nothing is written, and the length of the encoding is returned. */
static void rooms(void) {
    for (size_t room = 0; room < 6; room++) {
        CHECK(parsed("a", SMALL, 0, room) == REGRESS_FRONT_ROOM && needed == 6);
        CHECK(words[0] == MARK && words[room] == MARK);
    }
    CHECK(parsed("a", SMALL, 0, 6) == REGRESS_FRONT_OK && ARE(6, 2, 0, 2, 0x61, 1));
}

static void bad_input(void) {
    const uint32_t past = 0x110000, greatest = 0x10FFFF, surrogate = 0xD800;
    CHECK(regress_front_parse(&past, 1, SMALL, 0, words, ROOM, &needed, &kind, &position) == REGRESS_FRONT_BAD_INPUT);
    CHECK(needed == 0 && kind == 0 && position == 0);
    CHECK(regress_front_parse(&greatest, 1, SMALL, 0, words, ROOM, &needed, &kind, &position) == REGRESS_FRONT_OK);
    CHECK(regress_front_parse(&surrogate, 1, SMALL, 0, words, ROOM, &needed, &kind, &position) == REGRESS_FRONT_OK);
    CHECK(regress_front_parse(NULL, 0, SMALL, 0, words, ROOM, &needed, &kind, &position) == REGRESS_FRONT_OK);
    CHECK(regress_front_parse(NULL, 0, SMALL, 0, NULL, 0, &needed, &kind, &position) == REGRESS_FRONT_ROOM && needed == 5);
    CHECK(regress_front_parse(NULL, 1, SMALL, 0, words, ROOM, &needed, &kind, &position) == REGRESS_FRONT_BAD_INPUT);
    CHECK(regress_front_parse(NULL, 0, SMALL, 0, NULL, 1, &needed, &kind, &position) == REGRESS_FRONT_BAD_INPUT);
    CHECK(parsed("a", 64, 0, ROOM) == REGRESS_FRONT_BAD_INPUT);
    CHECK(parsed("a", 0x80000000u, 0, ROOM) == REGRESS_FRONT_BAD_INPUT);
    CHECK(parsed("a", SMALL, 2, ROOM) == REGRESS_FRONT_BAD_INPUT);
    CHECK(parsed("\xFF", SMALL, 0, ROOM) == REGRESS_FRONT_BAD_INPUT);
    CHECK(parsed("\xED\xA0\x80", SMALL, 0, ROOM) == REGRESS_FRONT_BAD_INPUT);
    CHECK(words[0] == MARK);
}

/* A number is not written where the pointer is NULL. */
static void null_numbers(void) {
    regress_front_span few[8];
    CHECK(regress_front_parse_utf8("a", 1, SMALL, 0, words, ROOM, NULL, NULL, NULL) == REGRESS_FRONT_OK);
    CHECK(regress_front_parse(NULL, 0, SMALL, 0, words, ROOM, NULL, NULL, NULL) == REGRESS_FRONT_OK);
    CHECK(regress_front_parse_utf8(")", 1, SMALL, 0, NULL, 0, NULL, NULL, &position) == REGRESS_FRONT_SYNTAX);
    CHECK(position == 0);
    CHECK(regress_front_parse_utf8_with_spans("a", 1, SMALL, words, ROOM, NULL, few, 8, NULL, NULL, NULL)
          == REGRESS_FRONT_OK);
    CHECK(regress_front_parse_with_spans(NULL, 1, SMALL, words, ROOM, NULL, few, 8, NULL, NULL, NULL)
          == REGRESS_FRONT_BAD_INPUT);
    CHECK(regress_front_fault(NULL, 0, SMALL, NULL, 0, NULL, NULL, NULL) == REGRESS_FRONT_OK);
    CHECK(regress_front_fault_utf8(")", 1, SMALL, NULL, 0, NULL, &kind, NULL) == REGRESS_FRONT_ROOM && kind == 1);
}

static uint32_t told(const char *pattern, uint32_t flags, char *text, size_t room) {
    return regress_front_fault_utf8(pattern, strlen(pattern), flags, text, room, &needed, &kind, &position);
}

static void faults(void) {
    static const char expected[] = "Unbalanced parenthesis";
    const uint32_t point[] = {0x29};
    char text[64];
    memset(text, '#', sizeof text);
    CHECK(parsed("\xC3\xA9)", SMALL, 0, ROOM) == REGRESS_FRONT_SYNTAX && position == 1 && needed == 0);
    CHECK(kind == REGRESS_FRONT_KIND_UNBALANCED_PARENTHESIS);
    CHECK(words[0] == MARK);
    CHECK(told("a)", SMALL, text, 5) == REGRESS_FRONT_ROOM);
    CHECK(needed == strlen(expected) && text[0] == '#');
    CHECK(kind == REGRESS_FRONT_KIND_UNBALANCED_PARENTHESIS && position == 1);
    CHECK(told("\xC3\xA9)", SMALL, text, sizeof text) == REGRESS_FRONT_SYNTAX);
    CHECK(needed == strlen(expected) && memcmp(text, expected, needed) == 0);
    CHECK(kind == REGRESS_FRONT_KIND_UNBALANCED_PARENTHESIS && position == 1);
    /* a zero follows the text if there is room for it */
    CHECK(text[needed] == 0 && text[needed + 1] == '#');
    text[needed] = '#';
    CHECK(told("a)", SMALL, text, needed) == REGRESS_FRONT_SYNTAX && text[needed] == '#');
    CHECK(told("a)", SMALL, text, needed + 1) == REGRESS_FRONT_SYNTAX && strcmp(text, expected) == 0);
    CHECK(regress_front_fault(point, 1, SMALL, text, sizeof text, &needed, &kind, &position) == REGRESS_FRONT_SYNTAX);
    CHECK(strcmp(text, expected) == 0 && text[needed + 1] == '#');
    CHECK(told("a", SMALL, NULL, 0) == REGRESS_FRONT_OK && needed == 0 && kind == 0 && position == 0);
    CHECK(regress_front_fault(NULL, 0, 64, NULL, 0, &needed, &kind, &position) == REGRESS_FRONT_BAD_INPUT);
    CHECK(regress_front_fault(NULL, 1, SMALL, NULL, 0, &needed, &kind, &position) == REGRESS_FRONT_BAD_INPUT);
    CHECK(regress_front_fault(NULL, 0, SMALL, NULL, 1, &needed, &kind, &position) == REGRESS_FRONT_BAD_INPUT);
    CHECK(told("\xFF", SMALL, NULL, 0) == REGRESS_FRONT_BAD_INPUT && kind == 0 && position == 0);
}

/* The examples of docs/errors.md. Both calls report the same kind and position. */
static void kinds_of_faults(void) {
    static const struct {
        const char *pattern;
        uint32_t flags, kind;
        size_t position;
    } examples[] = {
        {"x(a", 0, REGRESS_FRONT_KIND_UNBALANCED_PARENTHESIS, 1},
        {"a\\", 0, REGRESS_FRONT_KIND_INCOMPLETE_ESCAPE, 1},
        {"[a\\", 0, REGRESS_FRONT_KIND_UNTERMINATED_ESCAPE, 2},
        {"a\\-", REGRESS_FRONT_UNICODE, REGRESS_FRONT_KIND_INVALID_ESCAPE, 1},
        {"a\\u{}", REGRESS_FRONT_UNICODE, REGRESS_FRONT_KIND_INVALID_UNICODE_ESCAPE, 1},
        {"a{2}{3}", 0, REGRESS_FRONT_KIND_INVALID_BRACED_QUANTIFIER, 4},
        {"a**", 0, REGRESS_FRONT_KIND_INVALID_ATOM, 2},
        {"^*", 0, REGRESS_FRONT_KIND_QUANTIFIER_NOT_ALLOWED, 1},
        {"a{3,2}", 0, REGRESS_FRONT_KIND_INVALID_QUANTIFIER, 1},
        {"a[b", 0, REGRESS_FRONT_KIND_UNBALANCED_BRACKET, 1},
        {"[ac-b]", 0, REGRESS_FRONT_KIND_REVERSED_RANGE, 2},
        {"[a\\d-z]", REGRESS_FRONT_UNICODE, REGRESS_FRONT_KIND_INVALID_RANGE, 2},
        {"a[b", REGRESS_FRONT_UNICODE_SETS, REGRESS_FRONT_KIND_UNBALANCED_SET, 1},
        {"[ac-b]", REGRESS_FRONT_UNICODE_SETS, REGRESS_FRONT_KIND_INVALID_SET_RANGE, 2},
        {"[a&&bc]", REGRESS_FRONT_UNICODE_SETS, REGRESS_FRONT_KIND_UNEXPECTED_IN_INTERSECTION, 5},
        {"[a--bc]", REGRESS_FRONT_UNICODE_SETS, REGRESS_FRONT_KIND_UNEXPECTED_IN_SUBTRACTION, 5},
        {"[a&&", REGRESS_FRONT_UNICODE_SETS, REGRESS_FRONT_KIND_EMPTY_OPERAND, 4},
        {"[a\\", REGRESS_FRONT_UNICODE_SETS, REGRESS_FRONT_KIND_INCOMPLETE_SET_ESCAPE, 2},
        {"[\\qa]", REGRESS_FRONT_UNICODE_SETS, REGRESS_FRONT_KIND_STRINGS_WITHOUT_BRACE, 3},
        {"[\\q{a", REGRESS_FRONT_UNICODE_SETS, REGRESS_FRONT_KIND_UNBALANCED_STRINGS, 1},
        {"[a(]", REGRESS_FRONT_UNICODE_SETS, REGRESS_FRONT_KIND_INVALID_SET_CHARACTER, 2},
        {"a[^\\q{bc}]", REGRESS_FRONT_UNICODE_SETS, REGRESS_FRONT_KIND_INVALID_NEGATED_CLASS, 1},
        {"a\\pL", REGRESS_FRONT_UNICODE, REGRESS_FRONT_KIND_PROPERTY_WITHOUT_BRACE, 3},
        {"a\\p{Foo}", REGRESS_FRONT_UNICODE, REGRESS_FRONT_KIND_INVALID_PROPERTY, 4},
        {"a(?<1>x)", 0, REGRESS_FRONT_KIND_INVALID_GROUP_NAME, 3},
        {"a(?ii:x)", 0, REGRESS_FRONT_KIND_INVALID_MODIFIER, 3},
        {"a\\k<", REGRESS_FRONT_UNICODE, REGRESS_FRONT_KIND_INVALID_REFERENCE, 1},
        {"(?<b>x)\\k<a>", 0, REGRESS_FRONT_KIND_UNKNOWN_NAME, 10},
        {"(?<a>x)(?<a>y)", 0, REGRESS_FRONT_KIND_DUPLICATE_NAME, 10},
    };
    char text[128];
    for (size_t i = 0; i < sizeof examples / sizeof *examples; i++) {
        const char *pattern = examples[i].pattern;
        uint32_t flags = SMALL | examples[i].flags;
        CHECK(parsed(pattern, flags, 0, ROOM) == REGRESS_FRONT_SYNTAX);
        CHECK(kind == examples[i].kind && position == examples[i].position);
        CHECK(told(pattern, flags, text, sizeof text) == REGRESS_FRONT_SYNTAX);
        CHECK(kind == examples[i].kind && position == examples[i].position);
    }
}

/* A buffer for spans, and one more that must stay unchanged. */
static regress_front_span spans[ROOM + 1];
static size_t spans_needed;

static void mark_both(void) {
    for (size_t i = 0; i <= ROOM; i++) {
        words[i] = MARK;
        spans[i].start = spans[i].end = MARK;
    }
}

static uint32_t spanned(const char *pattern, uint32_t flags, size_t room, size_t span_room) {
    mark_both();
    return regress_front_parse_utf8_with_spans(pattern, strlen(pattern), flags, words, room, &needed, spans, span_room,
                                               &spans_needed, &kind, &position);
}

static int have_spans(const size_t *expected, size_t count) {
    for (size_t i = 0; i < count / 2; i++) {
        if (spans[i].start != expected[2 * i] || spans[i].end != expected[2 * i + 1]) {
            return 0;
        }
    }
    return spans_needed == count / 2 && spans[count / 2].start == MARK && spans[count / 2].end == MARK;
}

#define HAVE(...) have_spans((const size_t[]){__VA_ARGS__}, sizeof((const size_t[]){__VA_ARGS__}) / sizeof(size_t))

static int is_unchanged(void) { return words[0] == MARK && spans[0].start == MARK && spans[0].end == MARK; }

/* The spans are by the rules that the documentation of try_parse_with_spans lists. */
static void trees_with_spans(void) {
    const uint32_t points[] = {0x61, 0x2A}, past = 0x110000;
    CHECK(spanned("a*", SMALL, ROOM, ROOM) == REGRESS_FRONT_OK && HAVE(0, 2, 0, 2, 0, 1, 2, 2));
    CHECK(kind == 0 && position == 0);
    CHECK(ARE(6, 2, 0, 14, 0, 0, 1, 0, 0, 0, 2, 0x61, 1));
    /* CAT, ALT, CAPTURE_GROUP, CAT, CHAR, BRACKET, CHAR, GOAL */
    CHECK(spanned("(?<n>a[bc])|d", SMALL, ROOM, ROOM) == REGRESS_FRONT_OK
          && HAVE(0, 13, 0, 13, 0, 11, 5, 10, 5, 6, 6, 10, 12, 13, 13, 13));
    /* an ALT has the span up to the last alternative */
    CHECK(spanned("a|b|c", SMALL, ROOM, ROOM) == REGRESS_FRONT_OK
          && HAVE(0, 5, 0, 5, 0, 1, 2, 5, 2, 3, 4, 5, 5, 5));
    /* the parts are in reverse order in a lookbehind */
    CHECK(spanned("(?<=ab)", SMALL, ROOM, ROOM) == REGRESS_FRONT_OK && HAVE(0, 7, 0, 7, 4, 6, 5, 6, 4, 5, 7, 7));
    CHECK(spanned("", SMALL, ROOM, ROOM) == REGRESS_FRONT_OK && HAVE(0, 0, 0, 0, 0, 0));
    CHECK(spanned("\xC3\xA9" "b", SMALL, ROOM, ROOM) == REGRESS_FRONT_OK && HAVE(0, 2, 0, 2, 0, 1, 1, 2, 2, 2));
    mark_both();
    CHECK(regress_front_parse_with_spans(points, 2, SMALL, words, ROOM, &needed, spans, ROOM, &spans_needed, &kind,
                                         &position) == REGRESS_FRONT_OK && HAVE(0, 2, 0, 2, 0, 1, 2, 2));
    for (size_t room = 0; room < 6; room++) {
        CHECK(spanned("a", SMALL, room, ROOM) == REGRESS_FRONT_ROOM && needed == 6 && spans_needed == 3 && is_unchanged());
        CHECK(spanned("a", SMALL, 6, room) == (room < 3 ? REGRESS_FRONT_ROOM : REGRESS_FRONT_OK));
        CHECK(needed == 6 && spans_needed == 3 && (room >= 3 || is_unchanged()));
    }
    CHECK(spanned("\xC3\xA9)", SMALL, ROOM, ROOM) == REGRESS_FRONT_SYNTAX && position == 1 && is_unchanged());
    CHECK(kind == REGRESS_FRONT_KIND_UNBALANCED_PARENTHESIS && needed == 0 && spans_needed == 0);
    CHECK(spanned("\xFF", SMALL, ROOM, ROOM) == REGRESS_FRONT_BAD_INPUT && is_unchanged());
    CHECK(spanned("a", 64, ROOM, ROOM) == REGRESS_FRONT_BAD_INPUT && needed == 0 && spans_needed == 0);
    CHECK(regress_front_parse_with_spans(&past, 1, SMALL, words, ROOM, &needed, spans, ROOM, &spans_needed, &kind,
                                         &position) == REGRESS_FRONT_BAD_INPUT && is_unchanged());
    CHECK(regress_front_parse_with_spans(NULL, 0, SMALL, NULL, 0, &needed, NULL, 0, &spans_needed, &kind, &position)
              == REGRESS_FRONT_ROOM && needed == 5 && spans_needed == 3);
    CHECK(regress_front_parse_with_spans(NULL, 0, SMALL, words, ROOM, &needed, NULL, 1, &spans_needed, &kind, &position)
          == REGRESS_FRONT_BAD_INPUT);
}

/* All calls that parse report the same of a pattern: OK, or the same syntax error. */
static uint32_t agreed(const char *pattern, uint32_t flags) {
    static uint32_t many[4 * ROOM];
    char text[128];
    size_t length = strlen(pattern);
    uint32_t status = regress_front_parse_utf8(pattern, length, flags, 0, many, 4 * ROOM, &needed, &kind, &position);
    uint32_t first_kind = kind;
    size_t first_position = position;
    CHECK(regress_front_parse_utf8(pattern, length, flags, 1, many, 4 * ROOM, &needed, &kind, &position) == status);
    CHECK(kind == first_kind && position == first_position);
    CHECK(spanned(pattern, flags, ROOM, ROOM) == status && kind == first_kind && position == first_position);
    CHECK(told(pattern, flags, text, sizeof text) == status && kind == first_kind && position == first_position);
    return status;
}

/* With DIALECT_ECMA the calls accept what V8 accepts, and without it what the crate `regress` does. */
static void dialects(void) {
    const uint32_t ecma = SMALL | REGRESS_FRONT_DIALECT_ECMA, v = REGRESS_FRONT_UNICODE_SETS;
    const uint32_t points[] = {0x5C, 0x62, 0x2B}, stranger = SMALL | 0x20000u;
    static const struct {
        const char *pattern;
        uint32_t flags, in_ecma, in_regress;
    } examples[] = {
        {"\\b+", 0, REGRESS_FRONT_SYNTAX, REGRESS_FRONT_OK},
        {"[\\k](?<a>x)", 0, REGRESS_FRONT_SYNTAX, REGRESS_FRONT_OK},
        {"[\xF0\x9F\x98\x80-\xF0\x9F\x98\x8E]", 0, REGRESS_FRONT_SYNTAX, REGRESS_FRONT_OK},
        {"\\y", v, REGRESS_FRONT_SYNTAX, REGRESS_FRONT_OK},
        {"[a&&&]", v, REGRESS_FRONT_SYNTAX, REGRESS_FRONT_OK},
        {"[!#]", v, REGRESS_FRONT_OK, REGRESS_FRONT_SYNTAX},
        {"\\u{61}", 0, REGRESS_FRONT_OK, REGRESS_FRONT_OK},
        {"a)", 0, REGRESS_FRONT_SYNTAX, REGRESS_FRONT_SYNTAX},
    };
    char text[128];
    size_t bound = MARK;
    for (size_t i = 0; i < sizeof examples / sizeof *examples; i++) {
        CHECK(agreed(examples[i].pattern, ecma | examples[i].flags) == examples[i].in_ecma);
        CHECK(agreed(examples[i].pattern, SMALL | examples[i].flags) == examples[i].in_regress);
    }
    CHECK(told("\xC3\xA9\\b+", ecma, text, sizeof text) == REGRESS_FRONT_SYNTAX && position == 3);
    CHECK(kind == REGRESS_FRONT_KIND_QUANTIFIER_NOT_ALLOWED && strcmp(text, "Quantifier not allowed here") == 0);
    CHECK(regress_front_parse(points, 3, ecma, 0, words, ROOM, &needed, &kind, &position) == REGRESS_FRONT_SYNTAX);
    CHECK(kind == REGRESS_FRONT_KIND_QUANTIFIER_NOT_ALLOWED && position == 2);
    CHECK(regress_front_parse_with_spans(points, 3, ecma, words, ROOM, &needed, spans, ROOM, &spans_needed, &kind,
                                         &position) == REGRESS_FRONT_SYNTAX && position == 2);
    CHECK(regress_front_fault(points, 3, ecma, text, sizeof text, &needed, &kind, &position) == REGRESS_FRONT_SYNTAX);
    /* the escapes in a name are decoded */
    CHECK(told("(?<b>x)\\k<\\u0061>", ecma, text, sizeof text) == REGRESS_FRONT_SYNTAX && position == 10);
    CHECK(strcmp(text, "Backreference to invalid named capture group: a") == 0);
    /* without the flag u the braces are a quantifier */
    CHECK(parsed("\\u{61}", ecma, 0, ROOM) == REGRESS_FRONT_OK
          && ARE(6, 2, 0, 14, 0, 0, 1, 61, 0, 1, 61, 0, 2, 0x75, 1));
    CHECK(parsed("\\u{61}", SMALL, 0, ROOM) == REGRESS_FRONT_OK && ARE(6, 2, 0, 2, 0x61, 1));
    CHECK(spanned("\\u{3}", ecma, ROOM, ROOM) == REGRESS_FRONT_OK && HAVE(0, 5, 0, 5, 0, 2, 5, 5));
    CHECK(spanned("\\u{3}", SMALL, ROOM, ROOM) == REGRESS_FRONT_OK && HAVE(0, 5, 0, 5, 5, 5));
    CHECK(regress_front_node_bound_utf8("[a]", 3, ecma | v, &bound) == REGRESS_FRONT_OK && bound == 10);
    CHECK(regress_front_node_bound(points, 3, ecma, &bound) == REGRESS_FRONT_OK && bound == 6);
    /* the bit of regress_compile is none of these calls */
    CHECK(parsed("a", stranger, 0, ROOM) == REGRESS_FRONT_BAD_INPUT);
    CHECK(told("a", stranger, text, sizeof text) == REGRESS_FRONT_BAD_INPUT);
    CHECK(regress_front_node_bound_utf8("a", 1, stranger, &bound) == REGRESS_FRONT_BAD_INPUT);
}

/* As `refuse`, for a tree with spans. */
static void refuse_spans(const char *pattern, uint32_t expected) {
    uint32_t ample_words[ROOM];
    regress_front_span ample_spans[ROOM];
    size_t wanting = 0;
    requests = 0;
    CHECK(spanned(pattern, SMALL, ROOM, ROOM) == expected);
    memcpy(ample_words, words, sizeof ample_words);
    memcpy(ample_spans, spans, sizeof ample_spans);
    long most = requests;
    for (refused = 0; refused < most; refused++) {
        requests = 0;
        uint32_t status = spanned(pattern, SMALL, ROOM, ROOM);
        wanting += status == REGRESS_FRONT_MEMORY;
        CHECK(status == REGRESS_FRONT_MEMORY ? is_unchanged() && needed == 0 && spans_needed == 0 && kind == 0 && position == 0
                                             : status == expected && memcmp(words, ample_words, sizeof ample_words) == 0
                                                   && memcmp(spans, ample_spans, sizeof ample_spans) == 0);
    }
    refused = -1;
    CHECK(wanting > 0);
    printf("%s: out of memory in %zu of %ld trees with spans\n", pattern, wanting, most);
}

/* With each allocation failing in order, the status is MEMORY, or the result is that of a run without failures. */
static void refuse(const char *pattern, uint32_t flags, uint32_t optimize) {
    requests = 0;
    uint32_t ample = parsed(pattern, flags, optimize, ROOM);
    size_t ample_needed = needed, ample_position = position, wanting = 0;
    uint32_t expected[ROOM];
    long most = requests;
    memcpy(expected, words, sizeof expected);
    for (refused = 0; refused < most; refused++) {
        requests = 0;
        uint32_t status = parsed(pattern, flags, optimize, ROOM);
        if (status == REGRESS_FRONT_MEMORY) {
            wanting++;
            CHECK(words[0] == MARK && needed == 0 && kind == 0 && position == 0);
        } else {
            CHECK(status == ample && needed == ample_needed && position == ample_position);
            CHECK(memcmp(words, expected, sizeof expected) == 0);
        }
    }
    refused = -1;
    CHECK(wanting > 0);
    printf("%s: out of memory in %zu of %ld runs\n", pattern, wanting, most);
}

static void refuse_text(const char *pattern, uint32_t flags) {
    char text[128];
    size_t wanting = 0;
    requests = 0;
    uint32_t ample = told(pattern, flags, text, sizeof text);
    long most = requests;
    for (refused = 0; refused < most; refused++) {
        requests = 0;
        uint32_t status = told(pattern, flags, text, sizeof text);
        wanting += status == REGRESS_FRONT_MEMORY;
        CHECK(status == REGRESS_FRONT_MEMORY || status == ample);
    }
    refused = -1;
    CHECK(wanting > 0);
}

static void bounds(void) {
    const uint32_t points[] = {0x61, 0x7C, 0x62}, no_point = 0x110000;
    size_t bound = MARK;
    /* 3, one for each code point, and one more for the bar */
    CHECK(regress_front_node_bound(points, 3, SMALL, &bound) == REGRESS_FRONT_OK && bound == 7);
    CHECK(regress_front_node_bound_utf8("a|b", 3, SMALL, &bound) == REGRESS_FRONT_OK && bound == 7);
    CHECK(regress_front_node_bound_utf8("\xC3\xA9", 2, SMALL, &bound) == REGRESS_FRONT_OK && bound == 4);
    CHECK(regress_front_node_bound(NULL, 0, SMALL, &bound) == REGRESS_FRONT_OK && bound == 3);
    CHECK(regress_front_node_bound_utf8(NULL, 0, SMALL, &bound) == REGRESS_FRONT_OK && bound == 3);
    /* two for each of the two names at each of the references; a pattern that is rejected has a bound too */
    CHECK(regress_front_node_bound_utf8("(?<a>(?<b>\\k\\k", 14, SMALL, &bound) == REGRESS_FRONT_OK && bound == 25);
    CHECK(regress_front_node_bound_utf8("[a]", 3, SMALL, &bound) == REGRESS_FRONT_OK && bound == 6);
    CHECK(regress_front_node_bound_utf8("[a]", 3, REGRESS_FRONT_UNICODE_SETS, &bound) == REGRESS_FRONT_OK
          && bound == 10);
    CHECK(regress_front_node_bound(&no_point, 1, SMALL, &bound) == REGRESS_FRONT_BAD_INPUT && bound == 0);
    CHECK(regress_front_node_bound(points, 3, 64, &bound) == REGRESS_FRONT_BAD_INPUT && bound == 0);
    CHECK(regress_front_node_bound_utf8("\xFF", 1, SMALL, &bound) == REGRESS_FRONT_BAD_INPUT && bound == 0);
    CHECK(regress_front_node_bound_utf8("a", 1, 64, &bound) == REGRESS_FRONT_BAD_INPUT && bound == 0);
    bound = MARK;
    CHECK(regress_front_node_bound(NULL, 1, SMALL, &bound) == REGRESS_FRONT_BAD_INPUT && bound == 0);
    CHECK(regress_front_node_bound_utf8(NULL, 1, SMALL, &bound) == REGRESS_FRONT_BAD_INPUT && bound == 0);
    CHECK(regress_front_node_bound(points, 3, SMALL, NULL) == REGRESS_FRONT_BAD_INPUT);
    CHECK(regress_front_node_bound_utf8("a", 1, SMALL, NULL) == REGRESS_FRONT_BAD_INPUT);
    /* the code points of a pattern are allocated, and nothing else is */
    requests = 0;
    refused = 0;
    CHECK(regress_front_node_bound(points, 3, SMALL, &bound) == REGRESS_FRONT_OK && bound == 7 && requests == 0);
    CHECK(regress_front_node_bound_utf8("a|b", 3, SMALL, &bound) == REGRESS_FRONT_MEMORY && bound == 0);
    refused = -1;
}

int main(int count, char **arguments) {
    /* With `small`, the table of all of Unicode, which takes thousands of allocations, is skipped. */
    int small = count > 1 && strcmp(arguments[1], "small") == 0;
    kinds();
    skips();
    rooms();
    bad_input();
    null_numbers();
    faults();
    kinds_of_faults();
    bounds();
    trees_with_spans();
    dialects();
    refuse("(?<a>x)|(?<a>y)\\k<a>", SMALL, REGRESS_FRONT_PARSED);
    refuse("(?<=ab)c{2}[a-c]+|[^a]", SMALL | REGRESS_FRONT_ICASE, REGRESS_FRONT_OPTIMIZED);
    refuse("a)", SMALL, REGRESS_FRONT_PARSED);
    if (!small) {
        refuse("\\p{L}", REGRESS_FRONT_UNICODE, REGRESS_FRONT_OPTIMIZED);
    }
    refuse_text("\\k<b>(?<a>x)", SMALL);
    refuse_text("\\k<b>(?<a>x)", SMALL | REGRESS_FRONT_DIALECT_ECMA);
    refuse_spans("(?<a>x)|(?<a>y)\\k<a>|(?<=ab)c{2}", REGRESS_FRONT_OK);
    refuse_spans("[k])", REGRESS_FRONT_SYNTAX);
    if (wrong) {
        fprintf(stderr, "%d checks fail\n", wrong);
        return 1;
    }
    puts("all checks pass");
    return 0;
}
