// Stands before the C library's allocator: the FAIL_ALLOC-th call that asks for memory gets none. With FAIL_ALLOC 0 none fails. At its
// end the program leaves the number of calls in the file FAIL_ALLOC_COUNT.
#define _GNU_SOURCE
#include <dlfcn.h>
#include <errno.h>
#include <stddef.h>
#include <stdio.h>
#include <stdlib.h>

static unsigned long calls;

static int fails(void) {
    static long wanted = -1;
    if (wanted < 0) {
        const char *text = getenv("FAIL_ALLOC");
        wanted = text ? atol(text) : 0;
    }
    return ++calls == (unsigned long)wanted;
}

void *malloc(size_t size) {
    static void *(*next)(size_t);
    if (!next) next = (void *(*)(size_t))dlsym(RTLD_NEXT, "malloc");
    return fails() ? NULL : next(size);
}

void *realloc(void *old, size_t size) {
    static void *(*next)(void *, size_t);
    if (!next) next = (void *(*)(void *, size_t))dlsym(RTLD_NEXT, "realloc");
    return fails() ? NULL : next(old, size);
}

void *aligned_alloc(size_t align, size_t size) {
    static void *(*next)(size_t, size_t);
    if (!next) next = (void *(*)(size_t, size_t))dlsym(RTLD_NEXT, "aligned_alloc");
    return fails() ? NULL : next(align, size);
}

int posix_memalign(void **out, size_t align, size_t size) {
    static int (*next)(void **, size_t, size_t);
    if (!next) next = (int (*)(void **, size_t, size_t))dlsym(RTLD_NEXT, "posix_memalign");
    return fails() ? ENOMEM : next(out, align, size);
}

__attribute__((destructor)) static void leave_count(void) {
    unsigned long made = calls;
    const char *name = getenv("FAIL_ALLOC_COUNT");
    FILE *file = name ? fopen(name, "w") : NULL;
    if (!file) return;
    fprintf(file, "%lu\n", made);
    fclose(file);
}
