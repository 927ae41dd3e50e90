// Loaded before the C library, has standard input or standard output fail: a read once READ_BYTES bytes were
// read, a write once WRITE_BYTES bytes were taken. With FAILS_ONCE it fails once and works from then on, and
// with TAKES_NONE a write takes no byte where it would fail.
#define _GNU_SOURCE
#include <dlfcn.h>
#include <errno.h>
#include <stdlib.h>
#include <unistd.h>

struct end {
    const char *name;
    long passed;
    int has_failed;
};

static struct end input = {"READ_BYTES", 0, 0};
static struct end output = {"WRITE_BYTES", 0, 0};

// How many of so many bytes may pass; less than none where the call fails.
static ssize_t room(struct end *end, size_t count) {
    const char *limit = getenv(end->name);
    if (!limit || count == 0 || (end->has_failed && getenv("FAILS_ONCE"))) return (ssize_t)count;
    long left = atol(limit) - end->passed;
    if (left <= 0) {
        end->has_failed = 1;
        return -1;
    }
    return left < (long)count ? left : (ssize_t)count;
}

ssize_t read(int from, void *to, size_t count) {
    ssize_t (*next)(int, void *, size_t) = (ssize_t (*)(int, void *, size_t))dlsym(RTLD_NEXT, "read");
    if (from != STDIN_FILENO) return next(from, to, count);
    ssize_t most = room(&input, count);
    if (most < 0) {
        errno = EIO;
        return -1;
    }
    ssize_t found = next(from, to, (size_t)most);
    if (found > 0) input.passed += found;
    return found;
}

ssize_t write(int to, const void *from, size_t count) {
    ssize_t (*next)(int, const void *, size_t) = (ssize_t (*)(int, const void *, size_t))dlsym(RTLD_NEXT, "write");
    if (to != STDOUT_FILENO) return next(to, from, count);
    ssize_t most = room(&output, count);
    if (most < 0) {
        if (getenv("TAKES_NONE")) return 0;
        errno = EIO;
        return -1;
    }
    ssize_t taken = next(to, from, (size_t)most);
    if (taken > 0) output.passed += taken;
    return taken;
}
