// Stands between a program and the C library by LD_PRELOAD, and refuses the allocation whose number the variable
// REFUSED_ALLOCATION gives. Counting begins at 1 when the program begins. A refusal is told on standard error.
#define _GNU_SOURCE
#include <dlfcn.h>
#include <stdlib.h>
#include <unistd.h>

static long left;

__attribute__((constructor)) static void begin(void) {
    const char *number = getenv("REFUSED_ALLOCATION");
    left = number ? atol(number) : 0;
}

// Whether this is the allocation to refuse.
static int is_refused(void) {
    if (left == 0 || --left > 0) {
        return 0;
    }
    return write(STDERR_FILENO, "refused\n", 8) == 8;
}

void *malloc(size_t size) {
    static void *(*next)(size_t);
    if (!next) {
        next = dlsym(RTLD_NEXT, "malloc");
    }
    return is_refused() ? NULL : next(size);
}

void *realloc(void *block, size_t size) {
    static void *(*next)(void *, size_t);
    if (!next) {
        next = dlsym(RTLD_NEXT, "realloc");
    }
    return is_refused() ? NULL : next(block, size);
}
