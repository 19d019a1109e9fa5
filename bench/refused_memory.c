// Refuses one growth of memory: with FAIL_ALLOC=N the N-th call fails, counted from 1; with FAIL_COUNT the calls are counted at the end.
#define _GNU_SOURCE
#include <dlfcn.h>
#include <stdio.h>
#include <stdlib.h>
#include <unistd.h>

static long calls, refused = -2;
static void *(*real_malloc)(size_t), *(*real_realloc)(void *, size_t), *(*real_calloc)(size_t, size_t), *(*real_aligned)(size_t, size_t);
static int (*real_memalign)(void **, size_t, size_t);

static int fails(void) {
    if (refused == -2) {
        refused = -1;
        const char *number = getenv("FAIL_ALLOC");
        if (number) refused = atol(number);
        real_malloc = dlsym(RTLD_NEXT, "malloc");
        real_realloc = dlsym(RTLD_NEXT, "realloc");
        real_calloc = dlsym(RTLD_NEXT, "calloc");
        real_aligned = dlsym(RTLD_NEXT, "aligned_alloc");
        real_memalign = dlsym(RTLD_NEXT, "posix_memalign");
    }
    return ++calls == refused;
}

void *malloc(size_t size) { return fails() ? NULL : real_malloc(size); }
void *realloc(void *old, size_t size) { return fails() ? NULL : real_realloc(old, size); }
void *aligned_alloc(size_t align, size_t size) { return fails() ? NULL : real_aligned(align, size); }
int posix_memalign(void **out, size_t align, size_t size) { return fails() ? 12 : real_memalign(out, align, size); }

void *calloc(size_t count, size_t size) {
    static char early[4096];
    if (refused == -2 && !real_calloc && count * size <= sizeof early) {
        static int given;
        if (!given++) return early;
    }
    return fails() ? NULL : real_calloc(count, size);
}

__attribute__((destructor)) static void tell(void) {
    if (getenv("FAIL_COUNT")) {
        char text[64];
        int length = snprintf(text, sizeof text, "allocations %ld\n", calls);
        if (write(2, text, length) < 0) return;
    }
}
