// An allocator that refuses one allocation: LD_PRELOAD puts it before the C library's, and REFUSE says which, counted from 1. At the end it
// prints on standard error their number.
#define _GNU_SOURCE
#include <dlfcn.h>
#include <stdio.h>
#include <stdlib.h>

static unsigned long asked;

// Whether the requested allocation is the one to refuse.
static int is_refused(void) {
    const char *which = getenv("REFUSE");
    return which != NULL && strtoul(which, NULL, 10) == ++asked;
}

void *malloc(size_t size) {
    static void *(*next)(size_t);
    if (next == NULL)
        next = (void *(*)(size_t))dlsym(RTLD_NEXT, "malloc");
    return is_refused() ? NULL : next(size);
}

void *realloc(void *old, size_t size) {
    static void *(*next)(void *, size_t);
    if (next == NULL)
        next = (void *(*)(void *, size_t))dlsym(RTLD_NEXT, "realloc");
    return is_refused() ? NULL : next(old, size);
}

__attribute__((destructor)) static void tell(void) {
    fprintf(stderr, "allocations %lu\n", asked);
}
