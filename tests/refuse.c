// Refuses a call of the program that it is loaded into: of the kind that REFUSE names (`memory`, `thread`, `read` or `write`), the one that
// TURN numbers from 1, and, where ON is set, each one behind it. Where BYTES is set, no read or write is of more bytes than that. It says
// on standard error that it did. For tests/refuse.
#define _GNU_SOURCE
#include <dlfcn.h>
#include <errno.h>
#include <pthread.h>
#include <stdatomic.h>
#include <stdint.h>
#include <stdlib.h>
#include <string.h>
#include <unistd.h>

extern void *__libc_malloc(size_t size);
extern void *__libc_calloc(size_t count, size_t size);
extern void *__libc_realloc(void *memory, size_t size);
extern void *__libc_memalign(size_t alignment, size_t size);

static const char *kind = "";
static atomic_long left;
static int on;
static size_t bytes;

__attribute__((constructor)) static void set_up(void) {
    const char *turn = getenv("TURN");
    const char *most = getenv("BYTES");
    const char *word = getenv("REFUSE");
    bytes = most ? strtoul(most, NULL, 10) : SIZE_MAX;
    on = getenv("ON") != NULL;
    atomic_store(&left, turn ? atol(turn) : 0);
    kind = word ? word : "";
}

static ssize_t real_write(int file, const void *from, size_t count) {
    static ssize_t (*next)(int, const void *, size_t);
    if (!next) {
        next = (ssize_t(*)(int, const void *, size_t))dlsym(RTLD_NEXT, "write");
    }
    return next(file, from, count);
}

static int refused(const char *what) {
    if (strcmp(kind, what) != 0) {
        return 0;
    }
    long place = atomic_fetch_sub(&left, 1);
    if (place != 1 && !(on && place < 1)) {
        return 0;
    }
    if (real_write(2, "refused\n", 8) < 0) {
        abort();
    }
    return 1;
}

static int no_memory(void) {
    if (!refused("memory")) {
        return 0;
    }
    errno = ENOMEM;
    return 1;
}

void *malloc(size_t size) { return no_memory() ? NULL : __libc_malloc(size); }

void *calloc(size_t count, size_t size) { return no_memory() ? NULL : __libc_calloc(count, size); }

void *realloc(void *memory, size_t size) { return no_memory() ? NULL : __libc_realloc(memory, size); }

void *memalign(size_t alignment, size_t size) { return no_memory() ? NULL : __libc_memalign(alignment, size); }

void *aligned_alloc(size_t alignment, size_t size) { return no_memory() ? NULL : __libc_memalign(alignment, size); }

int posix_memalign(void **memory, size_t alignment, size_t size) {
    if (no_memory()) {
        return ENOMEM;
    }
    *memory = __libc_memalign(alignment, size);
    return *memory ? 0 : ENOMEM;
}

int pthread_create(pthread_t *thread, const pthread_attr_t *how, void *(*starts)(void *), void *with) {
    static int (*next)(pthread_t *, const pthread_attr_t *, void *(*)(void *), void *);
    if (!next) {
        next = (int (*)(pthread_t *, const pthread_attr_t *, void *(*)(void *), void *))dlsym(RTLD_NEXT, "pthread_create");
    }
    return refused("thread") ? EAGAIN : next(thread, how, starts, with);
}

ssize_t read(int file, void *to, size_t count) {
    static ssize_t (*next)(int, void *, size_t);
    if (!next) {
        next = (ssize_t(*)(int, void *, size_t))dlsym(RTLD_NEXT, "read");
    }
    if (refused("read")) {
        errno = EIO;
        return -1;
    }
    return next(file, to, count < bytes ? count : bytes);
}

ssize_t write(int file, const void *from, size_t count) {
    if (file == 2) {
        return real_write(file, from, count);
    }
    if (refused("write")) {
        errno = ENOSPC;
        return -1;
    }
    return real_write(file, from, count < bytes ? count : bytes);
}
