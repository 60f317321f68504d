/* Refuses the request for memory with the number in REFUSE, counted from 1, once: for LD_PRELOAD. */
#define _GNU_SOURCE
#include <dlfcn.h>
#include <stdlib.h>

static long left = -1;

static int refuses(void) {
    if (left < 0) {
        const char *word = getenv("REFUSE");
        left = word ? atol(word) : 0;
    }
    return left > 0 && --left == 0;
}

void *malloc(size_t size) {
    static void *(*next)(size_t);
    if (!next) next = (void *(*)(size_t))dlsym(RTLD_NEXT, "malloc");
    return refuses() ? NULL : next(size);
}

void *realloc(void *old, size_t size) {
    static void *(*next)(void *, size_t);
    if (!next) next = (void *(*)(void *, size_t))dlsym(RTLD_NEXT, "realloc");
    return refuses() ? NULL : next(old, size);
}
