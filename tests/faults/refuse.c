/*
 * A library that is loaded into a program by LD_PRELOAD, and refuses it memory or calls of the system. tests/faults/run
 * compiles it. Environment variables, which are read once, before main, say when it refuses what:
 *
 *   REFUSE_ALLOCATION=N    The N-th allocation is refused, counted from 1. An allocation is a request for memory:
 *                          malloc, calloc, realloc, posix_memalign and aligned_alloc count together.
 *   REFUSE_CALL='NAME N E' The N-th call of this name, counted from 1, is not made and fails with error E, a number.
 *                          NAME is statx, fstat (a statx of an open file), open, create (an open that makes the
 *                          file), read, write, mkdir, link, fsync or close.
 *   REFUSE_LATER=1         Each later allocation, or each later call of this name, is refused as well.
 *   REFUSE_LOG=FILE        A line for each of these calls is appended: its name, what it answered (an error as
 *                          -E), and its path or descriptor. Of link it has the new path, and after it the old.
 *                          The line of a refused one begins with '!'.
 *   REFUSE_COUNTS=FILE     When the program ends, a line 'armed An allocations G refused R' is appended: how often the
 *                          allocations began to be counted, how many came while they were, and how many of them were
 *                          refused.
 *
 * Only what main does is counted, and so nothing of the loader, nor of libc's start and end.
 *
 * A test can choose the allocation by itself: a request of 2^62 + N bytes, which no machine can grant, is refused, and
 * has the N-th allocation after it refused. A request of 2^62 bytes ends that; then a request of 1,000,003 bytes is
 * refused where an allocation was. Without the library the first two are refused too, and no other allocation is.
 *
 * The program has one thread, so the counts are plain numbers.
 */
#define _GNU_SOURCE
#include <dlfcn.h>
#include <errno.h>
#include <fcntl.h>
#include <limits.h>
#include <stdarg.h>
#include <stdint.h>
#include <stdio.h>
#include <stdlib.h>
#include <string.h>
#include <sys/stat.h>
#include <sys/syscall.h>
#include <unistd.h>

/* Appends a line to a file. The calls are made directly, so that they neither count nor are refused. */
static void append(const char *path, const char *line)
{
    int saved = errno;
    long file = syscall(SYS_openat, AT_FDCWD, path, O_WRONLY | O_CREAT | O_APPEND | O_CLOEXEC, 0666);

    /* Who reads the file sees that the line is missing. */
    if (file < 0 || syscall(SYS_write, file, line, strlen(line)) < 0)
        syscall(SYS_write, 2, "refuse: cannot append\n", 22);
    syscall(SYS_close, file);
    errno = saved;
}

/* ---- What is refused ---- */

static unsigned long allocation_to_refuse, call_to_refuse;
static char call_name[16];
static int call_error;
static int refuses_later;
static const char *log_path, *counts_path;

/* Does main run? */
static int has_begun;

static int is_chosen(unsigned long count, unsigned long chosen)
{
    return chosen != 0 && (count == chosen || (refuses_later && count > chosen));
}

static void read_settings(void)
{
    const char *allocation = getenv("REFUSE_ALLOCATION"), *call = getenv("REFUSE_CALL");

    refuses_later = getenv("REFUSE_LATER") != NULL;
    log_path = getenv("REFUSE_LOG");
    counts_path = getenv("REFUSE_COUNTS");
    if (allocation != NULL)
        allocation_to_refuse = strtoul(allocation, NULL, 10);
    if (call != NULL && sscanf(call, "%15s %lu %d", call_name, &call_to_refuse, &call_error) != 3) {
        append("/dev/stderr", "refuse: REFUSE_CALL is not 'NAME N E'\n");
        _exit(125);
    }
}

/* ---- Allocations ---- */

/* The functions of libc under their other names. */
extern void *__libc_malloc(size_t size);
extern void *__libc_calloc(size_t count, size_t size);
extern void *__libc_realloc(void *old, size_t size);
extern void *__libc_memalign(size_t alignment, size_t size);

static const size_t request_to_arm = (size_t)1 << 62;
static const size_t request_to_tell = 1000003;
static int is_armed;
static unsigned long armed, allocations, refused;
/* How many allocations there were, and how many were refused, when it was armed last. */
static unsigned long allocations_before, refused_before;

static void arm(unsigned long chosen)
{
    is_armed = 1;
    armed += 1;
    allocations_before = allocations;
    refused_before = refused;
    allocation_to_refuse = chosen;
}

static int refuses_allocation(size_t size)
{
    if (size == request_to_arm) {
        is_armed = 0;
        return 1;
    }
    if (size > request_to_arm && size - request_to_arm <= UINT32_MAX) {
        arm(size - request_to_arm);
        return 1;
    }
    if (!is_armed)
        return size == request_to_tell && refused > refused_before;
    allocations += 1;
    if (!is_chosen(allocations - allocations_before, allocation_to_refuse))
        return 0;
    refused += 1;
    return 1;
}

static void *no_memory(void)
{
    errno = ENOMEM;
    return NULL;
}

void *malloc(size_t size) { return refuses_allocation(size) ? no_memory() : __libc_malloc(size); }

void *calloc(size_t count, size_t size)
{
    size_t all;

    if (__builtin_mul_overflow(count, size, &all) || refuses_allocation(all))
        return no_memory();
    return __libc_calloc(count, size);
}

void *realloc(void *old, size_t size) { return refuses_allocation(size) ? no_memory() : __libc_realloc(old, size); }

void *aligned_alloc(size_t alignment, size_t size)
{
    return refuses_allocation(size) ? no_memory() : __libc_memalign(alignment, size);
}

int posix_memalign(void **place, size_t alignment, size_t size)
{
    void *granted = refuses_allocation(size) ? NULL : __libc_memalign(alignment, size);

    if (granted == NULL)
        return ENOMEM;
    *place = granted;
    return 0;
}

/* ---- Calls of the system ---- */

/* How many calls there were of the name that is to be refused. */
static unsigned long calls;

/* The error that a call of this name is to fail with, or 0. */
static int error_of(const char *name)
{
    if (!has_begun || strcmp(name, call_name) != 0)
        return 0;
    calls += 1;
    return is_chosen(calls, call_to_refuse) ? call_error : 0;
}

/* Gives the answer of a call as libc does, and tells it: an error is -1, with the error in errno. */
static long answer(const char *name, const char *of, long result, int error)
{
    char line[2 * PATH_MAX + 64];

    if (error != 0) {
        errno = error;
        result = -1;
    }
    if (has_begun && log_path != NULL) {
        snprintf(line, sizeof line, "%s%s %ld %s\n", error != 0 ? "!" : "", name,
                 result < 0 ? -(long)errno : result, of);
        append(log_path, line);
    }
    return result;
}

/* The same for a call that has a descriptor. */
static long answer_of(const char *name, int file, long result, int error)
{
    char of[16];

    snprintf(of, sizeof of, "%d", file);
    return answer(name, of, result, error);
}

int open(const char *path, int flags, ...)
{
    const char *name = flags & O_CREAT ? "create" : "open";
    int error = error_of(name);
    mode_t mode = 0;
    va_list rest;

    if (flags & O_CREAT) {
        va_start(rest, flags);
        mode = va_arg(rest, mode_t);
        va_end(rest);
    }
    return answer(name, path, error ? 0 : syscall(SYS_openat, AT_FDCWD, path, flags, mode), error);
}

/* A look at an open file is logged as `fstat`, with its descriptor. */
int statx(int folder, const char *restrict path, int flags, unsigned int mask, struct statx *restrict found)
{
    int is_open = flags & AT_EMPTY_PATH, error = error_of(is_open ? "fstat" : "statx");
    long result = error ? 0 : syscall(SYS_statx, folder, path, flags, mask, found);

    return is_open ? answer_of("fstat", folder, result, error) : answer("statx", path, result, error);
}

int mkdir(const char *path, mode_t mode)
{
    int error = error_of("mkdir");

    return answer("mkdir", path, error ? 0 : syscall(SYS_mkdirat, AT_FDCWD, path, mode), error);
}

int link(const char *old, const char *new)
{
    char of[2 * PATH_MAX + 2];
    int error = error_of("link");

    snprintf(of, sizeof of, "%s %s", new, old);
    return answer("link", of, error ? 0 : syscall(SYS_linkat, AT_FDCWD, old, AT_FDCWD, new, 0), error);
}

ssize_t read(int file, void *bytes, size_t size)
{
    int error = error_of("read");

    return answer_of("read", file, error ? 0 : syscall(SYS_read, file, bytes, size), error);
}

ssize_t write(int file, const void *bytes, size_t size)
{
    int error;

    /* What is written to the error output is always written. */
    if (file == 2)
        return syscall(SYS_write, file, bytes, size);
    error = error_of("write");
    /* A disc that is full still takes the first part of what fills it, and nothing later. */
    if (error == ENOSPC && refuses_later && calls == call_to_refuse && size > 1) {
        size /= 2;
        error = 0;
    }
    return answer_of("write", file, error ? 0 : syscall(SYS_write, file, bytes, size), error);
}

/* It is answered and not made: a disc may take longer for it than for all else, and what it has stored shows only
 * after a power cut. */
int fsync(int file)
{
    int error = error_of("fsync");

    return answer_of("fsync", file, error ? 0 : syscall(SYS_fcntl, file, F_GETFD) < 0 ? -1 : 0, error);
}

/* Linux has closed the file also where it answers an error. */
int close(int file)
{
    return answer_of("close", file, syscall(SYS_close, file), error_of("close"));
}

/* ---- Begin and end ---- */

static int (*real_main)(int, char **, char **);

static int main_that_counts(int argc, char **argv, char **environment)
{
    int status;

    read_settings();
    has_begun = 1;
    if (allocation_to_refuse != 0)
        arm(allocation_to_refuse);
    status = real_main(argc, argv, environment);
    has_begun = 0;
    is_armed = 0;
    return status;
}

typedef int start(int (*)(int, char **, char **), int, char **, void (*)(void), void (*)(void), void (*)(void), void *);

int __libc_start_main(int (*main)(int, char **, char **), int argc, char **argv, void (*init)(void),
                      void (*fini)(void), void (*loader_fini)(void), void *stack_end)
{
    start *real_start;

    /* ISO C has no conversion of what dlsym gives to a function, and POSIX has this one. */
    *(void **)&real_start = dlsym(RTLD_NEXT, "__libc_start_main");
    if (real_start == NULL)
        _exit(125);
    real_main = main;
    return real_start(main_that_counts, argc, argv, init, fini, loader_fini, stack_end);
}

__attribute__((destructor)) static void tell_counts(void)
{
    char line[96];

    if (counts_path == NULL)
        return;
    snprintf(line, sizeof line, "armed %lu allocations %lu refused %lu\n", armed, allocations, refused);
    append(counts_path, line);
}
