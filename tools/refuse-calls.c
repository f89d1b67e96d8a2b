/* A library that is put before the C library: it counts requests for memory and for threads, and opened files, reads,
 * writes and syncs, and refuses one of them, or has one read or write move a single byte. tools/refuse-calls.py builds it.
 *
 * REFUSE_MEMORY=N, REFUSE_CALL=N, SHORT_CALL=N, REFUSE_THREAD=N: the Nth one, from 1; REFUSE_ON=1: all from it on.
 * COUNT_TO=FILE: how many requests for memory, calls and threads there were, once the process ends. */
#define _GNU_SOURCE
#include <dlfcn.h>
#include <errno.h>
#include <fcntl.h>
#include <pthread.h>
#include <stdarg.h>
#include <stdatomic.h>
#include <stdlib.h>
#include <string.h>
#include <sys/syscall.h>
#include <sys/types.h>
#include <unistd.h>

static atomic_ulong requests, calls, threads;
static unsigned long refused_request, refused_call, short_call, refused_thread, refuses_on;
static const char *count_to;

static void *(*real_malloc)(size_t);
static void *(*real_calloc)(size_t, size_t);
static void *(*real_realloc)(void *, size_t);
static ssize_t (*real_read)(int, void *, size_t);
static ssize_t (*real_write)(int, const void *, size_t);
static int (*real_fsync)(int);
static int (*real_open)(const char *, int, ...);
static int (*real_pthread_create)(pthread_t *, const pthread_attr_t *, void *(*)(void *), void *);

static unsigned long number_of(const char *name) {
    const char *text = getenv(name);
    return text ? strtoul(text, NULL, 10) : 0;
}

/* Requests that come before this belong to the loader, and to dlsym itself. */
static atomic_int ready;

__attribute__((constructor)) static void begin(void) {
    real_malloc = dlsym(RTLD_NEXT, "malloc");
    real_calloc = dlsym(RTLD_NEXT, "calloc");
    real_realloc = dlsym(RTLD_NEXT, "realloc");
    real_read = dlsym(RTLD_NEXT, "read");
    real_write = dlsym(RTLD_NEXT, "write");
    real_fsync = dlsym(RTLD_NEXT, "fsync");
    real_open = dlsym(RTLD_NEXT, "open");
    real_pthread_create = dlsym(RTLD_NEXT, "pthread_create");
    refused_request = number_of("REFUSE_MEMORY");
    refused_call = number_of("REFUSE_CALL");
    short_call = number_of("SHORT_CALL");
    refused_thread = number_of("REFUSE_THREAD");
    refuses_on = number_of("REFUSE_ON");
    count_to = getenv("COUNT_TO");
    atomic_store(&ready, 1);
}

static void tell(void) {
    if (count_to == NULL)
        return;
    unsigned long counts[3] = {atomic_load(&requests), atomic_load(&calls), atomic_load(&threads)};
    int file = real_open(count_to, O_WRONLY | O_CREAT | O_TRUNC, 0666);
    real_write(file, counts, sizeof counts);
    close(file);
}

/* By this call the program ends. */
void _exit(int code) {
    tell();
    for (;;)
        syscall(SYS_exit_group, code);
}

static int is_refused(unsigned long number, unsigned long refused) {
    return refused != 0 && (number == refused || (refuses_on && number > refused));
}

static int refuses_memory(void) {
    if (!atomic_load(&ready) || !is_refused(atomic_fetch_add(&requests, 1) + 1, refused_request))
        return 0;
    errno = ENOMEM;
    return 1;
}

/* 0 for a call that goes through, 1 for one that is refused, 2 for one that moves one byte. */
static int refuses_call(void) {
    if (!atomic_load(&ready))
        return 0;
    unsigned long number = atomic_fetch_add(&calls, 1) + 1;
    if (number == short_call)
        return 2;
    if (!is_refused(number, refused_call))
        return 0;
    errno = EIO;
    return 1;
}

/* Before `begin` dlsym may ask for memory: from here, which is never given back. */
static char early[65536] __attribute__((aligned(16)));
static size_t early_used;

static int is_early(const void *at) {
    return (const char *)at >= early && (const char *)at < early + sizeof early;
}

static void *early_memory(size_t size) {
    size_t begins = (early_used + 15) & ~(size_t)15;
    if (begins + size > sizeof early)
        _exit(99);
    early_used = begins + size;
    return early + begins;
}

void *malloc(size_t size) {
    if (real_malloc == NULL)
        return early_memory(size);
    return refuses_memory() ? NULL : real_malloc(size);
}

void *calloc(size_t count, size_t size) {
    if (real_calloc == NULL)
        return early_memory(count * size);
    return refuses_memory() ? NULL : real_calloc(count, size);
}

void *realloc(void *at, size_t size) {
    if (is_early(at)) {
        void *moved = malloc(size);
        if (moved != NULL)
            memcpy(moved, at, size < sizeof early - (size_t)((char *)at - early) ? size : 0);
        return moved;
    }
    return refuses_memory() ? NULL : real_realloc(at, size);
}

void free(void *at) {
    static void (*real_free)(void *);
    if (at == NULL || is_early(at))
        return;
    if (real_free == NULL)
        real_free = dlsym(RTLD_NEXT, "free");
    real_free(at);
}

int open(const char *path, int flags, ...) {
    va_list rest;
    va_start(rest, flags);
    int mode = flags & O_CREAT ? va_arg(rest, int) : 0;
    va_end(rest);
    return refuses_call() == 1 ? -1 : real_open(path, flags, mode);
}

ssize_t read(int file, void *bytes, size_t size) {
    int refuses = refuses_call();
    if (refuses == 1)
        return -1;
    return real_read(file, bytes, refuses == 2 && size > 1 ? 1 : size);
}

ssize_t write(int file, const void *bytes, size_t size) {
    int refuses = refuses_call();
    if (refuses == 1)
        return -1;
    return real_write(file, bytes, refuses == 2 && size > 1 ? 1 : size);
}

int fsync(int file) {
    return refuses_call() == 1 ? -1 : real_fsync(file);
}

int pthread_create(pthread_t *thread, const pthread_attr_t *how, void *(*work)(void *), void *with) {
    if (is_refused(atomic_fetch_add(&threads, 1) + 1, refused_thread))
        return EAGAIN;
    return real_pthread_create(thread, how, work, with);
}
