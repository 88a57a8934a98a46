// What bench/memory.py puts before the program's calls of malloc and realloc: the call whose
// number the variable REFUSED has is refused.
#include <stdlib.h>
#include <unistd.h>

extern void *__libc_malloc(size_t size);
extern void *__libc_realloc(void *old, size_t size);

static long left;

__attribute__((constructor)) static void begin(void) {
    const char *word = getenv("REFUSED");
    left = word ? atol(word) : 0;
}

static int is_refused(void) {
    return left > 0 && --left == 0 && write(2, "refused", 7) == 7;
}

void *malloc(size_t size) {
    return is_refused() ? NULL : __libc_malloc(size);
}

void *realloc(void *old, size_t size) {
    return is_refused() ? NULL : __libc_realloc(old, size);
}
