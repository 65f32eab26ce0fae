/* Checks the syntax of a pattern of JavaScript: check PATTERN. The status is 0 if it is accepted, and 1 if it is
   rejected. */

#include <stdio.h>
#include <string.h>

#include <regress_front.h>

int main(int count, char **arguments) {
    if (count != 2) {
        fprintf(stderr, "usage: check PATTERN\n");
        return 2;
    }
    const char *pattern = arguments[1];
    size_t length = strlen(pattern), needed, position;
    uint32_t kind;
    const uint32_t flags = REGRESS_FRONT_DIALECT_ECMA;
    /* With a buffer of capacity 0 the call only reports the size of the tree. */
    switch (regress_front_parse_utf8(pattern, length, flags, REGRESS_FRONT_PARSED, NULL, 0, &needed, &kind,
                                     &position)) {
    case REGRESS_FRONT_ROOM:
        printf("accepted: the tree takes %zu words\n", needed);
        return 0;
    case REGRESS_FRONT_SYNTAX: {
        char text[512];
        if (regress_front_fault_utf8(pattern, length, flags, text, sizeof text, &needed, &kind, &position)
            != REGRESS_FRONT_SYNTAX) {
            needed = 0;
        }
        printf("rejected at code point %zu: %.*s\n", position, (int)needed, text);
        return 1;
    }
    case REGRESS_FRONT_MEMORY:
        fprintf(stderr, "out of memory\n");
        return 3;
    default:
        fprintf(stderr, "the pattern is not UTF-8\n");
        return 2;
    }
}
