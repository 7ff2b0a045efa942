/* What the program calls of the kit's crate os (c.rt) and the C library has not. All else that the kit's crates declare
 * and the program calls, the C library has by that name: tests/aarch64/run compares the names with those for x86-64. */
#define _GNU_SOURCE
#include <errno.h>
#include <fcntl.h>
#include <signal.h>
#include <stddef.h>
#include <string.h>
#include <sys/stat.h>
#include <sys/types.h>
#include <time.h>

int rattle_errno(void) { return errno; }
void rattle_set_errno(int number) { errno = number; }

static char **words;
static size_t count;

/* The C library calls it before main, with the words of main. */
__attribute__((constructor)) static void keep(int given, char **from)
{
    words = from;
    count = (size_t)given;
}

/* Answers the length of a word, -1 where there is no such word, or -2 where it does not fit, and then `to` is full. */
ssize_t rattle_arg(size_t number, void *to, size_t room)
{
    if (number >= count)
        return -1;
    size_t length = strlen(words[number]);
    memcpy(to, words[number], length < room ? length : room);
    return length <= room ? (ssize_t)length : -2;
}

/* The numbers and structs of the kit's crate libc (lib.rt, types.rt) are the same for each processor. Here they are. */
#define IS(name, number) _Static_assert((name) == (number), #name);
IS(O_RDONLY, 0) IS(O_WRONLY, 1) IS(O_RDWR, 2) IS(O_CREAT, 0100) IS(O_EXCL, 0200) IS(O_NOCTTY, 0400)
IS(O_TRUNC, 01000) IS(O_APPEND, 02000) IS(O_NONBLOCK, 04000) IS(O_CLOEXEC, 02000000)
IS(AT_FDCWD, -100) IS(AT_EMPTY_PATH, 0x1000) IS(AT_SYMLINK_NOFOLLOW, 0x100)
IS(STATX_BASIC_STATS, 0x7ff) IS(STATX_BTIME, 0x800)
IS(S_IFMT, 0170000) IS(S_IFREG, 0100000) IS(S_IFDIR, 040000) IS(S_IFLNK, 0120000) IS(S_IFIFO, 010000)
IS(S_IFCHR, 020000) IS(S_IFBLK, 060000) IS(S_IFSOCK, 0140000)
IS(CLOCK_REALTIME, 0) IS(CLOCK_MONOTONIC, 1) IS(SIGPIPE, 13)
IS(EPERM, 1) IS(ENOENT, 2) IS(EINTR, 4) IS(EIO, 5) IS(EBADF, 9) IS(EAGAIN, 11) IS(ENOMEM, 12) IS(EACCES, 13)
IS(EEXIST, 17) IS(EXDEV, 18) IS(ENOTDIR, 20) IS(EISDIR, 21) IS(EINVAL, 22) IS(EMFILE, 24) IS(EFBIG, 27)
IS(ENOSPC, 28) IS(ESPIPE, 29) IS(EROFS, 30) IS(EPIPE, 32) IS(ERANGE, 34) IS(ENAMETOOLONG, 36) IS(ENOTEMPTY, 39)
IS(ELOOP, 40)
IS(sizeof(struct timespec), 16) IS(offsetof(struct timespec, tv_nsec), 8)
#define STATX(member, place) IS(offsetof(struct statx, member), place)
IS(sizeof(struct statx), 256) IS(sizeof(struct statx_timestamp), 16) IS(offsetof(struct statx_timestamp, tv_nsec), 8)
STATX(stx_mask, 0) STATX(stx_nlink, 16) STATX(stx_mode, 28) STATX(stx_ino, 32) STATX(stx_size, 40)
STATX(stx_atime, 64) STATX(stx_btime, 80) STATX(stx_ctime, 96) STATX(stx_mtime, 112)
STATX(stx_rdev_major, 128) STATX(stx_rdev_minor, 132) STATX(stx_dev_major, 136) STATX(stx_dev_minor, 140)
