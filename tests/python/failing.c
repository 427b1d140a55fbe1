/* Preloaded: one request for memory, one read of standard input or one write to standard output fails.
 *
 * In a program the environment says which: REFUSE is how many requests for memory pass before one is refused, FAIL_READ and FAIL_WRITE
 * are how many calls pass before one fails, STOPS=1 lets a write take nothing in place of failing, and MOST is the most bytes that a
 * call moves. In the library `refused_with` says it. */
#define _GNU_SOURCE
#include <dlfcn.h>
#include <errno.h>
#include <stdint.h>
#include <stdlib.h>
#include <sys/types.h>

static _Thread_local long left = -1; /* requests that pass before one is refused; none is if it is below 0 */
static long reads = -1, writes = -1; /* calls that pass */
static size_t most = SIZE_MAX;       /* bytes a call */
static int stops;                    /* whether a write takes nothing in place of failing */
extern void *__libc_malloc(size_t), *__libc_realloc(void *, size_t);

static long from(const char *name) {
    const char *word = getenv(name);
    return word ? atol(word) : -1;
}

__attribute__((constructor)) static void begin(void) {
    reads = from("FAIL_READ");
    writes = from("FAIL_WRITE");
    stops = from("STOPS") > 0;
    if (from("MOST") > 0) most = (size_t)from("MOST");
    left = from("REFUSE");
}

static int is_refused(void) { return left >= 0 && left-- == 0; }

void *malloc(size_t size) { return is_refused() ? NULL : __libc_malloc(size); }

void *realloc(void *old, size_t size) { return is_refused() ? NULL : __libc_realloc(old, size); }

ssize_t read(int file, void *to, size_t size) {
    static ssize_t (*next)(int, void *, size_t);
    if (!next) next = dlsym(RTLD_NEXT, "read");
    if (file == 0 && reads >= 0 && reads-- == 0) {
        errno = EIO;
        return -1;
    }
    return next(file, to, size < most ? size : most);
}

ssize_t write(int file, const void *of, size_t size) {
    static ssize_t (*next)(int, const void *, size_t);
    if (!next) next = dlsym(RTLD_NEXT, "write");
    if (file == 1 && writes >= 0 && writes-- == 0) {
        if (stops) return 0;
        errno = EIO;
        return -1;
    }
    return next(file, of, size < most ? size : most);
}

/* A call of the library in which the request for memory after `passed` others is refused. *unused becomes 1 if there were not so many. */
uint32_t refused_with(uint32_t (*call)(const void *, size_t, const void *, void *, size_t, size_t *), long passed, const void *text,
                      size_t length, const void *options, void *buffer, size_t room, size_t *used, int *unused) {
    left = passed;
    uint32_t status = call(text, length, options, buffer, room, used);
    *unused = left >= 0;
    left = -1;
    return status;
}
