/* The program of docs/start-c.md: a first match, groups, replacements, patterns of users, steps and threads. */

#include <pthread.h>
#include <stdio.h>
#include <stdlib.h>
#include <string.h>

#include <regress.h>

static const char text[] = "from 2024-05-17 to 2025-01-02";

static const uint8_t *bytes(const char *string) { return (const uint8_t *)string; }

/* Compiles a pattern, and prints why it is rejected. The handle is zero then. */
static regress_regex compiled(const char *pattern, const regress_limits *limits) {
    regress_regex regex = {NULL};
    uint32_t kind;
    size_t position, length = strlen(pattern), needed;
    uint8_t sentence[200];
    switch (regress_compile(bytes(pattern), length, REGRESS_UNICODE, limits, &regex, &kind, &position)) {
    case REGRESS_OK:
        break;
    case REGRESS_SYNTAX:
        if (regress_error_sentence(bytes(pattern), length, kind, position, sentence, sizeof sentence, &needed)
            == REGRESS_OK) {
            printf("at byte %zu: %s\n", regress_byte_offset(bytes(pattern), length, position), (const char *)sentence);
        }
        break;
    case REGRESS_TOO_LARGE:
        printf("the pattern is too large\n");
        break;
    default:
        printf("the pattern is not UTF-8, or memory is short\n");
    }
    return regex;
}

/* A first match. */
static void first_match(const regress_regex *date) {
    size_t spans[8];
    if (regress_find(date, bytes(text), strlen(text), 0, spans, 8, NULL) == REGRESS_OK) {
        printf("%.*s at %zu\n", (int)(spans[1] - spans[0]), text + spans[0], spans[0]);
    }
}

/* All matches, one after the other, with their groups. Returns the number of matches. */
static size_t groups(const regress_regex *date) {
    size_t span[8], needed, count = 0;
    regress_matches matches;
    if (regress_matches_new(date, bytes(text), strlen(text), 0, &matches) != REGRESS_OK) {
        return 0;
    }
    while (regress_matches_next(&matches, span, 8, &needed) == REGRESS_OK) {
        printf("year %.*s, month %.*s\n", (int)(span[3] - span[2]), text + span[2], (int)(span[5] - span[4]),
               text + span[4]);
        count++;
    }
    regress_matches_free(&matches);
    return count;
}

/* Replacing by a template: the first call returns the size, the second one the text. */
static void replacing(const regress_regex *date) {
    const char *template = "$<day>.$<month>.$<year>";
    size_t needed = 0;
    regress_replace_all(date, bytes(text), strlen(text), bytes(template), strlen(template), NULL, 0, &needed);
    uint8_t *out = malloc(needed + 1);
    if (out && regress_replace_all(date, bytes(text), strlen(text), bytes(template), strlen(template), out, needed,
                                   &needed) == REGRESS_OK) {
        printf("%.*s\n", (int)needed, (const char *)out);
    }
    free(out);
}

/* Replacing by a function: what is between the matches is copied. */
static void next_years(const regress_regex *date) {
    size_t span[8], needed, from = 0;
    regress_matches matches;
    if (regress_matches_new(date, bytes(text), strlen(text), 0, &matches) == REGRESS_OK) {
        while (regress_matches_next(&matches, span, 8, &needed) == REGRESS_OK) {
            printf("%.*s%d", (int)(span[0] - from), text + from, atoi(text + span[2]) + 1);
            from = span[1];
        }
        regress_matches_free(&matches);
        printf("%s\n", text + from);
    }
}

/* Searches for a pattern of a user: within limits, and with a message for each error. */
static void search_for_user(const char *pattern, const char *searched) {
    const regress_limits limits = {.steps = 1000000, .nodes = 10000, .instructions = 10000};
    regress_regex regex = compiled(pattern, &limits);
    if (!regex.inside) {
        return;
    }
    switch (regress_is_match(&regex, bytes(searched), strlen(searched))) {
    case REGRESS_OK:
        printf("found\n");
        break;
    case REGRESS_NO_MATCH:
        printf("not found\n");
        break;
    case REGRESS_OUT_OF_STEPS:
        printf("no answer, so the text is rejected\n");
        break;
    default:
        printf("the text is not UTF-8, or memory is short\n");
    }
    regress_free(&regex);
}

/* Threads share a handle. */
static void *search_in_a_thread(void *date) {
    size_t spans[8];
    return regress_find(date, bytes(text), strlen(text), 6, spans, 8, NULL) == REGRESS_OK && spans[0] == 19 ? date : NULL;
}

static int threads(regress_regex *date) {
    pthread_t started[8];
    int count = 0, found = 0;
    while (count < 8 && pthread_create(&started[count], NULL, search_in_a_thread, date) == 0) {
        count++;
    }
    for (int i = 0; i < count; i++) {
        void *result;
        found += pthread_join(started[i], &result) == 0 && result;
    }
    return found;
}

int main(void) {
    regress_regex date = compiled("(?<year>\\d{4})-(?<month>\\d\\d)-(?<day>\\d\\d)", NULL);
    first_match(&date);
    printf("%zu matches\n", groups(&date));
    replacing(&date);
    next_years(&date);
    search_for_user("\\d+", text);
    search_for_user("a)", text);
    search_for_user("(?:(?:ab){9999999999}){9999999999}", text);
    search_for_user("(a|a)*b", "aaaaaaaaaaaaaaaaaaaaaaaaaaaaaaaaaaaaaaaa");
    search_for_user("(a|a)*\\1b", "aaaaaaaaaaaaaaaaaaaaaaaaaaaaaaaaaaaaaaaa");
    printf("%d threads have found it\n", threads(&date));
    regress_free(&date);
    return 0;
}
