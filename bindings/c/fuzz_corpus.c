/* Runs the target of fuzz_regex.c on the inputs that tools/make_fuzz_corpus writes, read from standard input: each after
   its length, four bytes with the low one first. tools/check_bindings runs it under the sanitizers. */

#include <stdint.h>
#include <stdio.h>
#include <stdlib.h>

int LLVMFuzzerTestOneInput(const uint8_t *data, size_t size);

int main(void) {
    size_t count = 0;
    for (uint8_t head[4]; fread(head, 1, 4, stdin) == 4; count++) {
        size_t size = head[0] | (size_t)head[1] << 8 | (size_t)head[2] << 16 | (size_t)head[3] << 24;
        /* A block of its own, so that an access past its end is seen. */
        uint8_t *data = malloc(size);
        if (!data || fread(data, 1, size, stdin) != size) {
            fputs("the corpus is cut off\n", stderr);
            return 1;
        }
        LLVMFuzzerTestOneInput(data, size);
        free(data);
    }
    if (count == 0) {
        fputs("the corpus has no input\n", stderr);
        return 1;
    }
    printf("%zu inputs of the corpus are searched\n", count);
    return 0;
}
