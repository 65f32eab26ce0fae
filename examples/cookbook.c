/* The samples of docs/cookbook.md, and what they return: cookbook. */

#include <regress.h>
#include <stdio.h>
#include <stdlib.h>
#include <string.h>

/* Compiles a pattern, and returns a status of regress.h. */
static uint32_t compile(const char *pattern, uint32_t flags, regress_limits limits, regress_regex *regex) {
    uint32_t kind;
    size_t position;
    return regress_compile((const uint8_t *)pattern, strlen(pattern), flags, &limits, regex, &kind, &position);
}

static const regress_limits defaults = {0};

static int is_email(const char *text) {
    regress_regex email;
    if (compile("^[a-zA-Z0-9.!#$%&'*+\\/=?^_`{|}~-]+@[a-zA-Z0-9](?:[a-zA-Z0-9-]{0,61}[a-zA-Z0-9])?"
                "(?:\\.[a-zA-Z0-9](?:[a-zA-Z0-9-]{0,61}[a-zA-Z0-9])?)*$",
                0, defaults, &email)
        != REGRESS_OK) {
        return 0;
    }
    uint32_t status = regress_is_match(&email, (const uint8_t *)text, strlen(text));
    regress_free(&email);
    return status == REGRESS_OK;
}

static int month_of(const char *text) {
    regress_regex date;
    if (compile("^(\\d{4})-(0[1-9]|1[0-2])-(0[1-9]|[12]\\d|3[01])$", 0, defaults, &date) != REGRESS_OK) {
        return 0;
    }
    size_t spans[8], needed;
    uint32_t status = regress_find(&date, (const uint8_t *)text, strlen(text), 0, spans, 8, &needed);
    regress_free(&date);
    return status == REGRESS_OK ? atoi(text + spans[4]) : 0;
}

static void print_links(const char *text) {
    regress_regex link;
    regress_matches matches;
    size_t span[2], needed;
    if (compile("https?:\\/\\/[^\\s<>\"()]*[^\\s<>\"().,;:!?]", 0, defaults, &link) != REGRESS_OK) {
        return;
    }
    if (regress_matches_new(&link, (const uint8_t *)text, strlen(text), 0, &matches) == REGRESS_OK) {
        while (regress_matches_next(&matches, span, 2, &needed) == REGRESS_OK) {
            printf("%.*s\n", (int)(span[1] - span[0]), text + span[0]);
        }
        regress_matches_free(&matches);
    }
    regress_free(&link);
}

static uint32_t redact(const char *line, char *out, size_t room) {
    regress_regex secret;
    size_t length = 0;
    uint32_t status = compile("\\b(token|password|secret)=[^\\s&,]+", REGRESS_ICASE, defaults, &secret);
    if (status == REGRESS_OK) {
        status = regress_replace_all(&secret, (const uint8_t *)line, strlen(line), (const uint8_t *)"$1=***", 6,
                                     (uint8_t *)out, room - 1, &length);
        regress_free(&secret);
    }
    out[status == REGRESS_OK ? length : 0] = 0;
    return status;
}

static int contains(const char *text, const char *search) {
    regress_regex regex;
    char pattern[256];
    size_t length;
    if (regress_escape((const uint8_t *)search, strlen(search), (uint8_t *)pattern, sizeof pattern - 1, &length)
        != REGRESS_OK) {
        return 0;
    }
    pattern[length] = 0;
    if (compile(pattern, REGRESS_ICASE, defaults, &regex) != REGRESS_OK) {
        return 0;
    }
    uint32_t status = regress_is_match(&regex, (const uint8_t *)text, strlen(text));
    regress_free(&regex);
    return status == REGRESS_OK;
}

/* Prints the capture of the group with this name that is set. */
static void print_capture(regress_regex *regex, const char *wanted, const char *text, const size_t *spans) {
    for (size_t group = 1; group <= regress_group_count(regex); group++) {
        uint8_t name[64];
        size_t length;
        if (regress_group_name(regex, group, name, sizeof name, &length) == REGRESS_OK && length == strlen(wanted)
            && memcmp(name, wanted, length) == 0 && spans[2 * group] != REGRESS_UNSET) {
            printf("%.*s\n", (int)(spans[2 * group + 1] - spans[2 * group]), text + spans[2 * group]);
        }
    }
}

static const char *search_for_a_user(const char *pattern, const char *text) {
    regress_limits limits = {.steps = 1000000, .nodes = 10000, .instructions = 10000};
    regress_regex regex;
    uint32_t status = compile(pattern, REGRESS_UNICODE, limits, &regex);
    if (status == REGRESS_OK) {
        status = regress_is_match(&regex, (const uint8_t *)text, strlen(text));
        regress_free(&regex);
    }
    switch (status) {
    case REGRESS_OK: return "a match";
    case REGRESS_NO_MATCH: return "no match";
    case REGRESS_SYNTAX: return "the pattern is wrong";
    case REGRESS_TOO_LARGE: return "the pattern is too large";
    case REGRESS_OUT_OF_STEPS: return "no answer: the text is rejected";
    default: return "no result";
    }
}

/* Ends the program if something does not hold. */
static void check(int holds) {
    if (!holds) {
        fprintf(stderr, "a sample of the cookbook in C returns something else\n");
        exit(1);
    }
}

int main(void) {
    char out[64];
    check(is_email("ann@example.org") && !is_email("ann@-example.org") && !is_email("@example.org"));
    check(month_of("2024-05-17") == 5 && month_of("2024-13-17") == 0);
    check(redact("GET /a?user=ann&Token=s3cr3t HTTP/1.1", out, sizeof out) == REGRESS_OK);
    check(strcmp(out, "GET /a?user=ann&Token=*** HTTP/1.1") == 0);
    check(contains("Is 1+1 = 2?", "1+1") && !contains("Is 11 = 2?", "1+1"));
    check(strcmp(search_for_a_user("\\d+", "on 17"), "a match") == 0);
    check(strcmp(search_for_a_user("a)", ""), "the pattern is wrong") == 0);
    check(strcmp(search_for_a_user("(?:(?:ab){9999999999}){9999999999}", ""), "the pattern is too large") == 0);
    check(strcmp(search_for_a_user("(a|a)*\\1b", "aaaaaaaaaaaaaaaaaaaaaaaaaaaaaaaaaaaaaaaa"),
                  "no answer: the text is rejected")
           == 0);
    print_links("see https://example.org/a?b=c, or (http://example.com/x).");
    const char *text = "in 5/2024";
    regress_regex date;
    size_t spans[8], needed;
    check(compile("(?<year>\\d{4})-(\\d)|\\d/(?<year>\\d{4})", 0, defaults, &date) == REGRESS_OK);
    check(regress_find(&date, (const uint8_t *)text, strlen(text), 0, spans, 8, &needed) == REGRESS_OK);
    print_capture(&date, "year", text, spans);
    regress_free(&date);
    printf("the samples of the cookbook in C return what they should\n");
    return 0;
}
