/* An allocator to be loaded before the C library's: the allocation of the number REFUSED_ALLOCATION, counted from 1,
 * gets no memory, and all others are served. Where COUNTED_ALLOCATIONS names a file, their number is written there
 * at the end. */
#define _GNU_SOURCE
#include <dlfcn.h>
#include <errno.h>
#include <stddef.h>
#include <stdio.h>
#include <stdlib.h>

static unsigned long made;

static int is_refused(void) {
    static long refused = -1;
    if (refused < 0) {
        const char *text = getenv("REFUSED_ALLOCATION");
        refused = text == NULL ? 0 : atol(text);
    }
    made += 1;
    return (long)made == refused;
}

void *malloc(size_t size) {
    static void *(*next)(size_t);
    if (next == NULL) next = (void *(*)(size_t))dlsym(RTLD_NEXT, "malloc");
    return is_refused() ? NULL : next(size);
}

void *calloc(size_t count, size_t size) {
    static void *(*next)(size_t, size_t);
    if (next == NULL) next = (void *(*)(size_t, size_t))dlsym(RTLD_NEXT, "calloc");
    return is_refused() ? NULL : next(count, size);
}

void *realloc(void *old, size_t size) {
    static void *(*next)(void *, size_t);
    if (next == NULL) next = (void *(*)(void *, size_t))dlsym(RTLD_NEXT, "realloc");
    return is_refused() ? NULL : next(old, size);
}

void *aligned_alloc(size_t alignment, size_t size) {
    static void *(*next)(size_t, size_t);
    if (next == NULL) next = (void *(*)(size_t, size_t))dlsym(RTLD_NEXT, "aligned_alloc");
    return is_refused() ? NULL : next(alignment, size);
}

int posix_memalign(void **place, size_t alignment, size_t size) {
    static int (*next)(void **, size_t, size_t);
    if (next == NULL) next = (int (*)(void **, size_t, size_t))dlsym(RTLD_NEXT, "posix_memalign");
    return is_refused() ? ENOMEM : next(place, alignment, size);
}

__attribute__((destructor)) static void tell(void) {
    unsigned long all = made;
    const char *path = getenv("COUNTED_ALLOCATIONS");
    FILE *file = path == NULL ? NULL : fopen(path, "w");
    if (file != NULL) {
        fprintf(file, "%lu\n", all);
        fclose(file);
    }
}
