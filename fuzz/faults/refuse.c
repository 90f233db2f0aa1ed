// Refuses one call: that of the number REFUSE_AT, counted from 1, among the calls of the kind REFUSE_KIND, which is memory,
// open, read or write. It is preloaded in front of the C library.
//
//     cc -O2 -shared -fPIC -o refuse.so refuse.c -ldl
//     REFUSE_KIND=memory REFUSE_AT=5 LD_PRELOAD=./refuse.so PROGRAM WORDS..
#define _GNU_SOURCE
#include <dlfcn.h>
#include <errno.h>
#include <fcntl.h>
#include <stdarg.h>
#include <stdlib.h>
#include <string.h>
#include <sys/types.h>

static int is_refused(const char *kind) {
    static long at = -1, calls;
    static const char *refused;
    if (at < 0) {
        const char *text = getenv("REFUSE_AT");
        at = text ? atol(text) : 0;
        refused = getenv("REFUSE_KIND");
    }
    return refused && !strcmp(kind, refused) && ++calls == at;
}

void *malloc(size_t size) {
    static void *(*next)(size_t);
    if (!next) next = dlsym(RTLD_NEXT, "malloc");
    if (!is_refused("memory")) return next(size);
    errno = ENOMEM;
    return NULL;
}

void *realloc(void *old, size_t size) {
    static void *(*next)(void *, size_t);
    if (!next) next = dlsym(RTLD_NEXT, "realloc");
    if (!is_refused("memory")) return next(old, size);
    errno = ENOMEM;
    return NULL;
}

int posix_memalign(void **out, size_t alignment, size_t size) {
    static int (*next)(void **, size_t, size_t);
    if (!next) next = dlsym(RTLD_NEXT, "posix_memalign");
    return is_refused("memory") ? ENOMEM : next(out, alignment, size);
}

static int open_by(const char *name, const char *path, int flags, mode_t mode) {
    if (is_refused("open")) {
        errno = EIO;
        return -1;
    }
    int (*next)(const char *, int, ...) = dlsym(RTLD_NEXT, name);
    return next(path, flags, mode);
}

static mode_t mode_of(int flags, va_list words) {
    return flags & (O_CREAT | __O_TMPFILE) ? va_arg(words, mode_t) : 0;
}

int open(const char *path, int flags, ...) {
    va_list words;
    va_start(words, flags);
    mode_t mode = mode_of(flags, words);
    va_end(words);
    return open_by("open", path, flags, mode);
}

int open64(const char *path, int flags, ...) {
    va_list words;
    va_start(words, flags);
    mode_t mode = mode_of(flags, words);
    va_end(words);
    return open_by("open64", path, flags, mode);
}

ssize_t read(int file, void *to, size_t size) {
    static ssize_t (*next)(int, void *, size_t);
    if (!next) next = dlsym(RTLD_NEXT, "read");
    if (!is_refused("read")) return next(file, to, size);
    errno = EIO;
    return -1;
}

ssize_t write(int file, const void *from, size_t size) {
    static ssize_t (*next)(int, const void *, size_t);
    if (!next) next = dlsym(RTLD_NEXT, "write");
    if (!is_refused("write")) return next(file, from, size);
    errno = EIO;
    return -1;
}
