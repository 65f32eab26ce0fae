/* Replaces malloc and realloc of the C library: counts the allocations of a program from the start of `main` on, and makes
   one of them fail.

   REFUSED_GROWTH is the number of the allocation that fails, from 0; without it none does. When the program ends, the
   number of allocations is written to the file descriptor REQUESTS_TO. */

extern void *__libc_malloc(unsigned long size);
extern void *__libc_realloc(void *block, unsigned long size);
extern char *getenv(const char *name);
extern long atol(const char *text);
extern int dprintf(int file, const char *format, ...);

static int counts;
static long requests;
static long refused = -1;

static int is_refused(void) {
    return counts && requests++ == refused;
}

void *malloc(unsigned long size) {
    return is_refused() ? 0 : __libc_malloc(size);
}

void *realloc(void *block, unsigned long size) {
    return is_refused() ? 0 : __libc_realloc(block, size);
}

__attribute__((constructor)) static void start(void) {
    const char *number = getenv("REFUSED_GROWTH");
    if (number) {
        refused = atol(number);
    }
    counts = 1;
}

__attribute__((destructor)) static void end(void) {
    const char *file = getenv("REQUESTS_TO");
    counts = 0;
    if (file) {
        dprintf(atol(file), "%ld\n", requests);
    }
}
