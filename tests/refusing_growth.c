// Loaded before the C library, refuses one growth of memory: that whose number, from 0, the variable
// REFUSED_GROWTH has. It says so by a line on the descriptor 9, before it answers.
#define _GNU_SOURCE
#include <dlfcn.h>
#include <errno.h>
#include <stdatomic.h>
#include <stdlib.h>
#include <unistd.h>

static atomic_long growths;

static int is_refused(void) {
    const char *number = getenv("REFUSED_GROWTH");
    if (!number || atomic_fetch_add(&growths, 1) != atol(number)) return 0;
    ssize_t written = write(9, "refused\n", 8);
    (void)written;
    errno = ENOMEM;
    return 1;
}

void *malloc(size_t size) {
    void *(*next)(size_t) = (void *(*)(size_t))dlsym(RTLD_NEXT, "malloc");
    return is_refused() ? NULL : next(size);
}

void *realloc(void *block, size_t size) {
    void *(*next)(void *, size_t) = (void *(*)(void *, size_t))dlsym(RTLD_NEXT, "realloc");
    return is_refused() ? NULL : next(block, size);
}
