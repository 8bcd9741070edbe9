/* Refuses one request for memory of a program that loads this first (LD_PRELOAD): the one whose number REFUSE
   says, counted from 1; none where it is 0. At the end the number of requests goes to the descriptor COUNT_TO. */
#define _GNU_SOURCE
#include <dlfcn.h>
#include <errno.h>
#include <stdatomic.h>
#include <stdio.h>
#include <stdlib.h>
#include <unistd.h>

static atomic_long asked;
static long refused = -1;

static int is_refused(void) {
    if (refused < 0) {
        const char *word = getenv("REFUSE");
        refused = word ? atol(word) : 0;
    }
    return atomic_fetch_add(&asked, 1) + 1 == refused;
}

#define NEXT(name, ...)                                   \
    static void *(*next)(__VA_ARGS__);                    \
    if (!next) next = dlsym(RTLD_NEXT, name);             \
    if (is_refused()) { errno = ENOMEM; return NULL; }

void *malloc(size_t size) {
    NEXT("malloc", size_t)
    return next(size);
}

void *realloc(void *old, size_t size) {
    NEXT("realloc", void *, size_t)
    return next(old, size);
}

void *aligned_alloc(size_t alignment, size_t size) {
    NEXT("aligned_alloc", size_t, size_t)
    return next(alignment, size);
}

int posix_memalign(void **made, size_t alignment, size_t size) {
    static int (*next)(void **, size_t, size_t);
    if (!next) next = dlsym(RTLD_NEXT, "posix_memalign");
    if (is_refused()) return ENOMEM;
    return next(made, alignment, size);
}

__attribute__((destructor)) static void tell(void) {
    const char *word = getenv("COUNT_TO");
    if (word) dprintf(atoi(word), "%ld\n", atomic_load(&asked));
}
