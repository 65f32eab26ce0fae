/* Prints the matches of a pattern in a text, with their groups: example_regex PATTERN TEXT. */

#include <inttypes.h>
#include <stdio.h>
#include <stdlib.h>
#include <string.h>

#include <regress.h>

static void print_span(const char *text, size_t start, size_t end) {
    if (start == REGRESS_UNSET) {
        printf(" unset");
    } else {
        printf(" %zu-%zu \"%.*s\"", start, end, (int)(end - start), text + start);
    }
}

/* Prints a line for each match. */
static uint32_t print_matches(const regress_regex *regex, const char *text) {
    size_t needed, width = 2 * (regress_group_count(regex) + 1);
    regress_matches matches;
    uint32_t status = regress_matches_new(regex, (const uint8_t *)text, strlen(text), 0, &matches);
    if (status != REGRESS_OK) {
        return status;
    }
    size_t *spans = malloc(width * sizeof *spans);
    while (spans && regress_matches_next(&matches, spans, width, &needed) == REGRESS_OK) {
        for (size_t span = 0; span < width; span += 2) {
            print_span(text, spans[span], spans[span + 1]);
        }
        printf("\n");
    }
    status = spans ? REGRESS_OK : REGRESS_MEMORY;
    free(spans);
    regress_matches_free(&matches);
    return status;
}

int main(int count, char **arguments) {
    if (count != 3) {
        fprintf(stderr, "usage: example_regex PATTERN TEXT\n");
        return 2;
    }
    regress_regex regex;
    regress_limits limits = {0};
    uint32_t kind;
    size_t position;
    const char *pattern = arguments[1];
    uint32_t status = regress_compile((const uint8_t *)pattern, strlen(pattern), REGRESS_UNICODE, &limits, &regex,
                                      &kind, &position);
    if (status == REGRESS_SYNTAX) {
        uint8_t sentence[200];
        size_t needed = 0;
        regress_error_sentence((const uint8_t *)pattern, strlen(pattern), kind, position, sentence, sizeof sentence,
                               &needed);
        fprintf(stderr, "at position %zu: %.*s\n", position, (int)needed, (const char *)sentence);
        return 1;
    }
    if (status == REGRESS_OK) {
        status = print_matches(&regex, arguments[2]);
        regress_free(&regex);
    }
    if (status != REGRESS_OK) {
        fprintf(stderr, "no result: status %" PRIu32 "\n", status);
        return 3;
    }
    return 0;
}
