// A library to load before a program (LD_PRELOAD) that refuses growths of its memory: the one of the number in REFUSE,
// counted from 1, or with two dots behind the number that one and all after it.
#define _GNU_SOURCE
#include <dlfcn.h>
#include <errno.h>
#include <stdatomic.h>
#include <stdlib.h>
#include <string.h>

static atomic_long growths;
static long first;
static int and_all_after;
static void *(*grow)(size_t);
static void *(*regrow)(void *, size_t);

__attribute__((constructor)) static void begin(void) {
    const char *which = getenv("REFUSE");
    grow = dlsym(RTLD_NEXT, "malloc");
    regrow = dlsym(RTLD_NEXT, "realloc");
    first = which ? atol(which) : 0;
    and_all_after = which && strstr(which, "..");
}

// Growths before the program begins are the dynamic linker's, and aren't counted.
static int is_refused(void) {
    long number = atomic_fetch_add(&growths, 1) + 1;
    if (first == 0 || (and_all_after ? number < first : number != first)) return 0;
    errno = ENOMEM;
    return 1;
}

void *malloc(size_t size) {
    if (!grow) return ((void *(*)(size_t))dlsym(RTLD_NEXT, "malloc"))(size);
    return is_refused() ? NULL : grow(size);
}

void *realloc(void *held, size_t size) {
    if (!regrow) return ((void *(*)(void *, size_t))dlsym(RTLD_NEXT, "realloc"))(held, size);
    return is_refused() ? NULL : regrow(held, size);
}
