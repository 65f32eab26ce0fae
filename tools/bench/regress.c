/* regress FILE PATTERN FLAGS all|first|again|compile: prints the number of matches, and the CPU seconds and the seconds
   of the search, by the C library of this repository; with `again` of the first match by a searcher, with `compile` of
   compiling and of the first match together, each the mean of many runs. FLAGS are letters as in JavaScript. The status
   is 1 if the pattern is rejected, 2 if the search takes too many steps, and 3 if something else fails. */

#include <stdio.h>
#include <stdlib.h>
#include <string.h>
#include <time.h>

#include <regress.h>

/* How long it is run again and again, in seconds. */
#define SPENT 0.05

/* How often a search is repeated between two looks at the clock. */
#define REPEATED 100

struct text {
    uint8_t *bytes;
    size_t length;
};

/* Returns whether a file was read. */
static int read_text(const char *path, struct text *text) {
    FILE *file = fopen(path, "rb");
    if (!file || fseek(file, 0, SEEK_END)) {
        return 0;
    }
    text->length = (size_t)ftell(file);
    text->bytes = malloc(text->length + 1);
    rewind(file);
    return text->bytes && fread(text->bytes, 1, text->length, file) == text->length;
}

static uint32_t flags_of(const char *letters) {
    uint32_t flags = 0;
    flags |= strchr(letters, 'i') ? REGRESS_ICASE : 0;
    flags |= strchr(letters, 'm') ? REGRESS_MULTILINE : 0;
    flags |= strchr(letters, 's') ? REGRESS_DOT_ALL : 0;
    flags |= strchr(letters, 'u') ? REGRESS_UNICODE : 0;
    flags |= strchr(letters, 'v') ? REGRESS_UNICODE | REGRESS_UNICODE_SETS : 0;
    return flags;
}

static int is_compiled(const char *pattern, uint32_t flags, regress_regex *regex) {
    regress_limits limits = {0};
    uint32_t kind;
    size_t position;
    return regress_compile((const uint8_t *)pattern, strlen(pattern), flags, &limits, regex, &kind, &position)
        == REGRESS_OK;
}

static double seconds(void) {
    struct timespec now;
    clock_gettime(CLOCK_MONOTONIC, &now);
    return (double)now.tv_sec + (double)now.tv_nsec / 1e9;
}

/* Searches for all matches or the first one, and prints their number and the time. Returns the library's status. */
static uint32_t search(regress_regex *regex, const struct text *text, int all) {
    uint32_t (*find)(const regress_regex *, const uint8_t *, size_t, size_t, size_t *, size_t, size_t *) =
        all ? regress_find_all : regress_find;
    size_t width = 2 * (regress_group_count(regex) + 1), needed;
    /* As many matches as there can be: with too small a buffer the library would have to search again. */
    size_t room = (text->length + 1) * width;
    size_t *spans = malloc(room * sizeof *spans);
    if (!spans) {
        return REGRESS_MEMORY;
    }
    double started = seconds();
    clock_t before = clock();
    uint32_t status = find(regex, text->bytes, text->length, 0, spans, room, &needed);
    double used = (double)(clock() - before) / CLOCKS_PER_SEC;
    if (status == REGRESS_OK || status == REGRESS_NO_MATCH) {
        printf("%zu %f %f\n", needed / width, used, seconds() - started);
    }
    free(spans);
    return status;
}

/* The status of this program for the library's. */
static int result_of(uint32_t status) {
    switch (status) {
    case REGRESS_OK:
    case REGRESS_NO_MATCH:
        return 0;
    case REGRESS_SYNTAX:
        return 1;
    case REGRESS_OUT_OF_STEPS:
        return 2;
    default:
        return 3;
    }
}

/* What is searched for, where, and with what. */
struct request {
    const char *pattern;
    uint32_t flags;
    const struct text *text;
    regress_regex regex;
    regress_searcher searcher;
};

/* Searches for the first match with a searcher. Returns the library's status. */
static uint32_t search_first(struct request *request) {
    size_t spans[256], needed;
    return regress_searcher_find(&request->searcher, &request->regex, request->text->bytes, request->text->length, 0,
                                 spans, 256, &needed);
}

/* Compiles the pattern and searches for its first match. Returns the library's status, or REGRESS_SYNTAX if the pattern
   is rejected. */
static uint32_t compile_and_search(struct request *request) {
    size_t spans[256], needed;
    regress_regex regex;
    if (!is_compiled(request->pattern, request->flags, &regex)) {
        return REGRESS_SYNTAX;
    }
    uint32_t status = regress_find(&regex, request->text->bytes, request->text->length, 0, spans, 256, &needed);
    regress_free(&regex);
    return status;
}

/* Runs a search again and again, `times` times between two looks at the clock, until SPENT seconds are used. Prints the
   number of matches and the mean time. Returns the library's status. */
static uint32_t repeat(uint32_t (*search)(struct request *), struct request *request, size_t times) {
    size_t runs = 0;
    uint32_t status = REGRESS_OK;
    clock_t before = clock();
    double used = 0;
    while (used < SPENT) {
        for (size_t i = 0; i < times; i++) {
            status = search(request);
            if (status != REGRESS_OK && status != REGRESS_NO_MATCH) {
                return status;
            }
        }
        runs += times;
        used = (double)(clock() - before) / CLOCKS_PER_SEC;
    }
    printf("%d %.9f %.9f\n", status == REGRESS_OK, used / (double)runs, used / (double)runs);
    return status;
}

int main(int count, char **arguments) {
    struct text text;
    if (count != 5 || !read_text(arguments[1], &text)) {
        return 3;
    }
    const char *mode = arguments[4];
    struct request request = {.pattern = arguments[2], .flags = flags_of(arguments[3]), .text = &text};
    if (!strcmp(mode, "compile")) {
        return result_of(repeat(compile_and_search, &request, 1));
    }
    if (!is_compiled(request.pattern, request.flags, &request.regex)) {
        return 1;
    }
    if (strcmp(mode, "again")) {
        return result_of(search(&request.regex, &text, !strcmp(mode, "all")));
    }
    uint32_t status = regress_searcher_new(&request.searcher);
    if (status != REGRESS_OK) {
        return result_of(status);
    }
    status = repeat(search_first, &request, REPEATED);
    regress_searcher_free(&request.searcher);
    return result_of(status);
}
