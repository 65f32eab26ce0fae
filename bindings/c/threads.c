/* Tests that threads use a handle at the same time: threads [COUNT [ITERATIONS]]. tools/check_bindings runs it under
   ThreadSanitizer, and under a detector that also sees what the library reads and writes. */

#include <pthread.h>
#include <stdio.h>
#include <stdlib.h>
#include <string.h>

#include <regress.h>

#define MOST 64

static regress_regex shared;
static int iterations = 200;

static const char text[] = "on 2024-05-17 and 2025-01-02";
static const char replaced[] = "on 17.05.2024 and 02.01.2025";

/* Makes each call that takes a const handle, and returns the number of those with another result. */
static int calls(void) {
    const uint8_t *bytes = (const uint8_t *)text;
    size_t length = strlen(text), spans[16], needed;
    uint8_t out[64];
    int wrong = 0;
    wrong += regress_find(&shared, bytes, length, 0, spans, 16, &needed) != REGRESS_OK || spans[0] != 3;
    wrong += regress_find_all(&shared, bytes, length, 4, spans, 16, &needed) != REGRESS_OK || spans[0] != 18;
    regress_matches matches;
    wrong += regress_matches_new(&shared, bytes, length, 4, &matches) != REGRESS_OK
             || regress_matches_left(&matches) != 8
             || regress_matches_next(&matches, spans, 16, &needed) != REGRESS_OK || spans[0] != 18
             || regress_matches_next(&matches, spans, 16, &needed) != REGRESS_NO_MATCH;
    regress_matches_free(&matches);
    wrong += regress_is_match(&shared, bytes, length) != REGRESS_OK;
    wrong += regress_replace_all(&shared, bytes, length, (const uint8_t *)"$3.$2.$1", 8, out, 64, &needed) != REGRESS_OK
             || needed != strlen(replaced) || memcmp(out, replaced, needed) != 0;
    wrong += regress_replace(&shared, bytes, length, NULL, 0, out, 64, &needed) != REGRESS_OK || needed != length - 10;
    size_t count;
    wrong += regress_replace_n(&shared, bytes, length, NULL, 0, 1, out, 64, &needed, &count) != REGRESS_OK || count != 1;
    regress_replaced made = {NULL};
    wrong += regress_replaced_new(&shared, bytes, length, (const uint8_t *)"$3.$2.$1", 8, 2, &made) != REGRESS_OK
             || regress_replaced_write(&made, out, 64, &needed) != REGRESS_OK || regress_replaced_count(&made) != 2
             || needed != strlen(replaced) || memcmp(out, replaced, needed) != 0;
    regress_replaced_free(&made);
    wrong += regress_find(&shared, bytes, length, 0, spans, 16, &needed) != REGRESS_OK
             || regress_expand(&shared, bytes, length, spans, needed, (const uint8_t *)"$1", 2, out, 64, &needed)
                    != REGRESS_OK || needed != 4 || memcmp(out, "2024", 4) != 0;
    wrong += regress_split(&shared, bytes, length, 1, &matches) != REGRESS_OK
             || regress_matches_next(&matches, spans, 2, &needed) != REGRESS_OK || spans[1] != 3;
    regress_matches_free(&matches);
    wrong += regress_group_count(&shared) != 3;
    wrong += regress_group_name(&shared, 1, out, 64, &needed) != REGRESS_OK || memcmp(out, "year", 5) != 0;
    wrong += regress_is_linear(&shared) != 1 || regress_nonlinear(&shared) != 0;
    wrong += regress_steps_per_byte(&shared) == 0 || regress_find_steps_per_byte(&shared) == 0;
    wrong += regress_is_exact_for(&shared, bytes, length) != 1;
    return wrong;
}

static void *run(void *argument) {
    int *wrong = argument;
    for (int i = 0; i < iterations; i++) {
        *wrong += calls();
    }
    return NULL;
}

int main(int count, char **arguments) {
    const char *pattern = "(?<year>\\d{4})-(\\d\\d)-(\\d\\d)";
    int threads = count > 1 ? atoi(arguments[1]) : 8, wrong[MOST] = {0}, sum = 0;
    pthread_t started[MOST];
    iterations = count > 2 ? atoi(arguments[2]) : iterations;
    if (threads < 1 || threads > MOST
        || regress_compile((const uint8_t *)pattern, strlen(pattern), REGRESS_UNICODE | REGRESS_SMALL_TABLE, NULL, &shared,
                           NULL, NULL) != REGRESS_OK) {
        return 2;
    }
    for (int i = 0; i < threads; i++) {
        if (pthread_create(&started[i], NULL, run, &wrong[i])) {
            return 2;
        }
    }
    for (int i = 0; i < threads; i++) {
        pthread_join(started[i], NULL);
        sum += wrong[i];
    }
    regress_free(&shared);
    if (sum) {
        fprintf(stderr, "%d calls have another result\n", sum);
        return 1;
    }
    printf("%d threads have used a handle at the same time\n", threads);
    return 0;
}
