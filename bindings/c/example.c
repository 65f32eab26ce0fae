/* Prints the tree of a pattern: example PATTERN [FLAGS], flags of imsuv. */

#include <inttypes.h>
#include <stdbool.h>
#include <stdio.h>
#include <stdlib.h>
#include <string.h>

#include <regress_front.h>

/* The remaining words. */
static const uint32_t *at;

static uint32_t word(void) {
    return *at++;
}

static uint64_t wide(void) {
    uint64_t low = word();
    return (uint64_t)word() << 32 | low;
}

static const char *truth(void) {
    return word() ? "true" : "false";
}

static void print_list(const char *form) {
    for (uint64_t left = wide(); left > 0; left--) {
        printf(form, word());
    }
}

static void print_quantifier(void) {
    const char *greedy = truth();
    printf(" at least %" PRIu64, wide());
    if (word()) {
        printf(", at most %" PRIu64, wide());
    }
    printf(", greedy: %s", greedy);
}

/* Prints a node and those inside it, at that nesting depth. */
static void print_node(unsigned depth) {
    for (unsigned level = 0; level < depth; level++) {
        printf("..");
    }
    uint64_t inside = 0;
    switch (word()) {
    case REGRESS_FRONT_EMPTY:
        printf("Empty");
        break;
    case REGRESS_FRONT_GOAL:
        printf("Goal");
        break;
    case REGRESS_FRONT_CHAR:
        printf("Char U+%04" PRIX32, word());
        break;
    case REGRESS_FRONT_BYTE_SEQUENCE:
        printf("ByteSequence");
        print_list(" %02" PRIX32);
        break;
    case REGRESS_FRONT_BYTE_SET:
        printf("ByteSet");
        print_list(" %02" PRIX32);
        break;
    case REGRESS_FRONT_CHAR_SET:
        printf("CharSet");
        print_list(" U+%04" PRIX32);
        break;
    case REGRESS_FRONT_CAT:
        inside = wide();
        printf("Cat");
        break;
    case REGRESS_FRONT_ALT:
        inside = 2;
        printf("Alt");
        break;
    case REGRESS_FRONT_MATCH_ANY:
        printf("MatchAny");
        break;
    case REGRESS_FRONT_MATCH_ANY_EXCEPT_LINE_TERMINATOR:
        printf("MatchAnyExceptLineTerminator");
        break;
    case REGRESS_FRONT_ANCHOR:
        printf("Anchor %s", word() ? "end of line" : "start of line");
        printf(", multiline: %s", truth());
        break;
    case REGRESS_FRONT_WORD_BOUNDARY:
        printf("WordBoundary invert: %s", truth());
        printf(", unicode_icase: %s", truth());
        break;
    case REGRESS_FRONT_CAPTURE_GROUP:
        inside = 1;
        printf("CaptureGroup %" PRIu32, word());
        if (word()) {
            printf(" \"");
            print_list("%c");
            printf("\"");
        }
        break;
    case REGRESS_FRONT_BRACKET:
        printf("Bracket invert: %s", truth());
        for (uint64_t left = wide(); left > 0; left--) {
            printf(" U+%04" PRIX32, word());
            printf("-U+%04" PRIX32, word());
        }
        break;
    case REGRESS_FRONT_LOOP:
        inside = 1;
        printf("Loop groups %" PRIu32, word());
        printf("..%" PRIu32, word());
        print_quantifier();
        break;
    case REGRESS_FRONT_LOOP_1_CHAR_BODY:
        inside = 1;
        printf("Loop1CharBody");
        print_quantifier();
        break;
    case REGRESS_FRONT_LOOKAROUND_ASSERTION:
        inside = 1;
        printf("LookaroundAssertion negate: %s", truth());
        printf(", backwards: %s", truth());
        printf(", groups %" PRIu32, word());
        printf("..%" PRIu32, word());
        break;
    case REGRESS_FRONT_BACK_REF:
        printf("BackRef %" PRIu32, word());
        printf(", icase: %s", truth());
        break;
    case REGRESS_FRONT_STRING_SET:
        printf("StringSet icase: %s", truth());
        for (uint64_t left = wide(); left > 0; left--) {
            printf(" [");
            print_list(" U+%04" PRIX32);
            printf(" ]");
        }
        break;
    }
    printf("\n");
    for (; inside > 0; inside--) {
        print_node(depth + 1);
    }
}

static bool read_flags(const char *letters, uint32_t *flags) {
    static const char known[] = "imsuv";
    for (*flags = 0; *letters; letters++) {
        const char *found = strchr(known, *letters);
        if (!found) {
            return false;
        }
        *flags |= 1u << (found - known);
    }
    return true;
}

/* The text, and the position of the same error. */
static int tell_fault(const char *pattern, size_t length, uint32_t flags) {
    char text[512];
    size_t needed, position;
    uint32_t kind;
    switch (regress_front_fault_utf8(pattern, length, flags, text, sizeof text, &needed, &kind, &position)) {
    case REGRESS_FRONT_SYNTAX:
        fprintf(stderr, "error at %zu: %.*s\n", position, (int)needed, text);
        return 1;
    case REGRESS_FRONT_ROOM:
        fprintf(stderr, "error at %zu: kind %" PRIu32 "\n", position, kind);
        return 1;
    default:
        fprintf(stderr, "out of memory\n");
        return 3;
    }
}

int main(int count, char **arguments) {
    uint32_t flags = 0;
    if (count < 2 || count > 3 || (count == 3 && !read_flags(arguments[2], &flags))) {
        fprintf(stderr, "usage: example PATTERN [FLAGS]\n");
        return 2;
    }
    const char *pattern = arguments[1];
    size_t length = strlen(pattern);
    uint32_t *words = NULL;
    size_t room = 0;
    for (;;) {
        size_t needed, position;
        uint32_t kind;
        switch (regress_front_parse_utf8(pattern, length, flags, REGRESS_FRONT_OPTIMIZED, words, room, &needed, &kind,
                                         &position)) {
        case REGRESS_FRONT_OK:
            at = words;
            print_node(0);
            free(words);
            return 0;
        case REGRESS_FRONT_SYNTAX:
            free(words);
            return tell_fault(pattern, length, flags);
        case REGRESS_FRONT_ROOM:
            free(words);
            room = needed;
            words = malloc(room * sizeof *words);
            if (words) {
                continue;
            }
            /* fall through */
        case REGRESS_FRONT_MEMORY:
            fprintf(stderr, "out of memory\n");
            return 3;
        default:
            free(words);
            fprintf(stderr, "the pattern is not UTF-8\n");
            return 2;
        }
    }
}
