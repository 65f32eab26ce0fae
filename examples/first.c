/* Finds a date, and prints it with its year. */

#include <regress.h>
#include <stdio.h>
#include <string.h>

int main(void) {
    const char *pattern = "(\\d{4})-(\\d\\d)-(\\d\\d)", *text = "from 2024-05-17 to 2025-01-02";
    regress_limits limits = {0}; /* the default of each */
    regress_regex date;
    uint32_t kind;
    size_t position, needed, spans[8]; /* the start and the end of the match and of three groups */
    if (regress_compile((const uint8_t *)pattern, strlen(pattern), REGRESS_UNICODE, &limits, &date, &kind, &position)
        != REGRESS_OK) {
        return 1;
    }
    if (regress_find(&date, (const uint8_t *)text, strlen(text), 0, spans, 8, &needed) == REGRESS_OK) {
        printf("%.*s, of %.*s\n", (int)(spans[1] - spans[0]), text + spans[0], (int)(spans[3] - spans[2]), text + spans[2]);
    }
    regress_free(&date);
    return 0;
}
