/* For tests: linked into libregress.so with --wrap=malloc and --wrap=realloc, it counts the requests for memory of the
   library alone, and makes one of them fail. */

#include <stddef.h>

void *__real_malloc(size_t size);
void *__real_realloc(void *block, size_t size);

long regress_requests;
long regress_refused = -1;

void *__wrap_malloc(size_t size) {
    return regress_requests++ == regress_refused ? NULL : __real_malloc(size);
}

void *__wrap_realloc(void *block, size_t size) {
    return regress_requests++ == regress_refused ? NULL : __real_realloc(block, size);
}
