/* A library to preload that makes calls of a run fail. Of each kind, calls are counted from 1 over all threads:
 *
 *     REFUSE  malloc, realloc and pthread_create
 *     READ    read of a regular file that is not empty, in which standard input may be one
 *     WRITE   write to standard output
 *     STORE   write to a file that the run opened
 *     SAY     write to standard error
 *     OPEN    open of a file or a folder
 *     STAT    statx, which looks at a file
 *     MAKE    mkdir
 *     SYNC    fsync
 *     CLOSE   close, which is done all the same
 *     PLACE   rename
 *     LIST    getdents64, which lists a folder
 *     REMOVE  unlink, unlinkat and rmdir
 *
 * KIND_AT=K makes call K of a kind fail, and with KIND_ON=1 each behind it too. None fails whose number is left out or
 * 0. KIND_AS is the number of the error, if that is not the one that stands with the kind below. Where it is 0 a read
 * or a write takes half of what it is given, or the one byte of one. Where it is -1 the process stops, and makes the
 * call once it is told to go on. The file that REFUSE_COUNT names keeps how many calls of each kind there were, as
 * numbers of 64 bits in this order, also where the process ends by _exit. */
#define _GNU_SOURCE
#include <dirent.h>
#include <dlfcn.h>
#include <errno.h>
#include <fcntl.h>
#include <pthread.h>
#include <signal.h>
#include <stdarg.h>
#include <stdatomic.h>
#include <stdio.h>
#include <stdlib.h>
#include <sys/mman.h>
#include <sys/stat.h>
#include <unistd.h>

typedef void *(*thread_body)(void *);

enum kind { CALLS, READS, WRITES, STORES, SAYS, OPENS, STATS, MAKES, SYNCS, CLOSES, PLACES, LISTS, REMOVALS, KINDS };

struct kind_of_call {
    const char *name;
    int error;
    long first;
    int goes_on;
};

static struct kind_of_call kinds[KINDS] = {
    [CALLS] = {"REFUSE", ENOMEM, 0, 0}, [READS] = {"READ", EIO, 0, 0},    [WRITES] = {"WRITE", ENOSPC, 0, 0},
    [STORES] = {"STORE", ENOSPC, 0, 0}, [SAYS] = {"SAY", ENOSPC, 0, 0},   [OPENS] = {"OPEN", EMFILE, 0, 0},
    [STATS] = {"STAT", EACCES, 0, 0},   [MAKES] = {"MAKE", EACCES, 0, 0}, [SYNCS] = {"SYNC", EIO, 0, 0},
    [CLOSES] = {"CLOSE", EIO, 0, 0},    [PLACES] = {"PLACE", EIO, 0, 0},  [LISTS] = {"LIST", EIO, 0, 0},
    [REMOVALS] = {"REMOVE", EIO, 0, 0},
};

static _Atomic long own_counts[KINDS];
static _Atomic long *counts = own_counts;

/* The function of this name that the program would call without this library. */
#define REAL(call, answer, ...) \
    static answer (*real)(__VA_ARGS__); \
    if (!real) real = (answer(*)(__VA_ARGS__))dlsym(RTLD_NEXT, call)

/* Keeps the counts in the file from here on, where it can be mapped. */
static void share_counts(const char *path) {
    int file = open(path, O_RDWR | O_CREAT | O_TRUNC, 0644);
    if (file < 0) return;
    if (ftruncate(file, sizeof own_counts) == 0) {
        void *shared = mmap(NULL, sizeof own_counts, PROT_READ | PROT_WRITE, MAP_SHARED, file, 0);
        if (shared != MAP_FAILED) counts = shared;
    }
    close(file);
}

/* The number of a variable of the environment. */
static long number_of(const char *name, const char *end, long otherwise) {
    char whole[32];
    snprintf(whole, sizeof whole, "%s_%s", name, end);
    const char *text = getenv(whole);
    return text ? atol(text) : otherwise;
}

__attribute__((constructor)) static void start(void) {
    const char *path = getenv("REFUSE_COUNT");
    if (path) share_counts(path);
    for (struct kind_of_call *kind = kinds; kind < kinds + KINDS; kind++) {
        kind->goes_on = number_of(kind->name, "ON", 0) != 0;
        kind->error = (int)number_of(kind->name, "AS", kind->error);
        kind->first = number_of(kind->name, "AT", 0);
    }
    for (int kind = 0; kind < KINDS; kind++) atomic_store(&counts[kind], 0);
}

/* Whether the next call of a kind fails. Then the error is set. */
static int fails(enum kind kind) {
    long call = atomic_fetch_add(&counts[kind], 1) + 1, first = kinds[kind].first;
    if (first == 0 || call < first || (call > first && !kinds[kind].goes_on)) return 0;
    errno = kinds[kind].error;
    if (errno >= 0) return 1;
    raise(SIGSTOP);
    return 0;
}

/* Half of a size, and 1 of 1. */
static size_t half_of(size_t size) { return size - size / 2; }

/* Files of the system that are made as they are read are empty. */
static int is_filled(int file) {
    struct stat found;
    return fstat(file, &found) == 0 && S_ISREG(found.st_mode) && found.st_size > 0;
}

void *malloc(size_t size) {
    REAL("malloc", void *, size_t);
    return fails(CALLS) ? NULL : real(size);
}

void *realloc(void *old, size_t size) {
    REAL("realloc", void *, void *, size_t);
    return fails(CALLS) ? NULL : real(old, size);
}

int pthread_create(pthread_t *thread, const pthread_attr_t *attributes, thread_body body, void *argument) {
    REAL("pthread_create", int, pthread_t *, const pthread_attr_t *, thread_body, void *);
    return fails(CALLS) ? EAGAIN : real(thread, attributes, body, argument);
}

ssize_t read(int file, void *bytes, size_t size) {
    REAL("read", ssize_t, int, void *, size_t);
    if (!is_filled(file) || !fails(READS)) return real(file, bytes, size);
    return errno ? -1 : real(file, bytes, half_of(size));
}

ssize_t write(int file, const void *bytes, size_t size) {
    REAL("write", ssize_t, int, const void *, size_t);
    if (!fails(file == STDOUT_FILENO ? WRITES : file == STDERR_FILENO ? SAYS : STORES)) return real(file, bytes, size);
    return errno ? -1 : real(file, bytes, half_of(size));
}

int open(const char *path, int flags, ...) {
    REAL("open", int, const char *, int, ...);
    va_list rest;
    va_start(rest, flags);
    mode_t mode = flags & O_CREAT ? va_arg(rest, mode_t) : 0;
    va_end(rest);
    return fails(OPENS) ? -1 : real(path, flags, mode);
}

int openat(int folder, const char *path, int flags, ...) {
    REAL("openat", int, int, const char *, int, ...);
    va_list rest;
    va_start(rest, flags);
    mode_t mode = flags & O_CREAT ? va_arg(rest, mode_t) : 0;
    va_end(rest);
    return fails(OPENS) ? -1 : real(folder, path, flags, mode);
}

int statx(int folder, const char *restrict path, int flags, unsigned mask, struct statx *restrict found) {
    REAL("statx", int, int, const char *restrict, int, unsigned, struct statx *restrict);
    return fails(STATS) ? -1 : real(folder, path, flags, mask, found);
}

int mkdir(const char *path, mode_t mode) {
    REAL("mkdir", int, const char *, mode_t);
    return fails(MAKES) ? -1 : real(path, mode);
}

int fsync(int file) {
    REAL("fsync", int, int);
    return fails(SYNCS) ? -1 : real(file);
}

int close(int file) {
    REAL("close", int, int);
    if (!fails(CLOSES)) return real(file);
    real(file);
    errno = kinds[CLOSES].error;
    return -1;
}

int rename(const char *from, const char *to) {
    REAL("rename", int, const char *, const char *);
    return fails(PLACES) ? -1 : real(from, to);
}

ssize_t getdents64(int folder, void *entries, size_t size) {
    REAL("getdents64", ssize_t, int, void *, size_t);
    return fails(LISTS) ? -1 : real(folder, entries, size);
}

int unlink(const char *path) {
    REAL("unlink", int, const char *);
    return fails(REMOVALS) ? -1 : real(path);
}

int unlinkat(int folder, const char *path, int flags) {
    REAL("unlinkat", int, int, const char *, int);
    return fails(REMOVALS) ? -1 : real(folder, path, flags);
}

int rmdir(const char *path) {
    REAL("rmdir", int, const char *);
    return fails(REMOVALS) ? -1 : real(path);
}
