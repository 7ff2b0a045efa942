/* The calls of the system that the program makes, as the kit's crates libc and os declare them, over those of the host.
 * Whatever the host answers, each keeps what these crates say of its answer. */
#include "host.h"

enum { EIO = 5, CREATES = 0100, AT_EMPTY_PATH = 0x1000, AT_SYMLINK_NOFOLLOW = 0x100, MOST = 1 << 30 };
static int error;
int rattle_errno(void) { return error; }
void rattle_set_errno(int number) { error = number; }

/* The host's answer, which is at most `most`. */
static long answer(long it, size_t most) {
    if (it >= 0 && (size_t)it <= most) return it;
    error = it < 0 ? (int)-it : EIO;
    return -1;
}
static size_t room(size_t bytes) { return bytes < MOST ? bytes : MOST; }
static ADDRESS length(const char *text) { return *text ? 1 + length(text + 1) : 0; }
#define PATH(path) AT(path), length(path)

int open(const char *path, int flags, ...) {
    __builtin_va_list rest;
    __builtin_va_start(rest, flags);
    unsigned mode = flags & CREATES ? __builtin_va_arg(rest, unsigned) : 0;
    __builtin_va_end(rest);
    return (int)answer(host_open(PATH(path), flags, mode), MOST);
}
long read(int file, void *to, size_t n) { return answer(host_read(file, AT(to), (ADDRESS)room(n)), room(n)); }
long write(int file, const void *from, size_t n) { return answer(host_write(file, AT(from), (ADDRESS)room(n)), room(n)); }
int close(int file) { return (int)answer(host_close(file), 0); }
int fsync(int file) { return (int)answer(host_store(file), 0); }
int mkdir(const char *path, unsigned mode) { return (int)answer(host_folder(PATH(path), mode), 0); }
int link(const char *from, const char *to) { return (int)answer(host_link(PATH(from), PATH(to)), 0); }
int isatty(int file) { return host_terminal(file) == 1; }

/* Linux's struct statx, in words of 64 bits. What the host does not tell is 0. */
int statx(int file, const char *path, int flags, unsigned mask, size_t *to) {
    enum { MASK = 0, LINKS = 2, MODE = 3, INODE = 4, SIZE = 5, SECONDS = 14, NANOSECONDS = 15, DEVICE = 17, WORDS = 32 };
    struct seen it = {0};
    int open = flags & AT_EMPTY_PATH ? file : -1;
    if (answer(host_stat(open, PATH(path), !(flags & AT_SYMLINK_NOFOLLOW), AT(&it)), 0) < 0) return -1;
    __builtin_memset(to, 0, WORDS * sizeof *to);
    to[MASK] = mask & 0x7ff;
    to[LINKS] = (unsigned)it.links;
    to[MODE] = (it.mode & 0xffff) << 32;
    to[INODE] = it.inode;
    to[SIZE] = it.size;
    to[SECONDS] = it.seconds;
    to[NANOSECONDS] = (unsigned)it.nanoseconds;
    to[DEVICE] = it.device >> 32 | it.device << 32;
    return 0;
}

int clock_gettime(int clock, long *to) {
    long now = answer(host_clock(clock), ~(size_t)0 >> 1);
    if (now < 0) return -1;
    to[0] = now / 1000000000;
    to[1] = now % 1000000000;
    return 0;
}

/* The host answers -1 where there is no such word, and -2 where it does not fit. */
long rattle_arg(size_t number, void *to, size_t n) {
    int it = number < MOST ? host_word((ADDRESS)number, AT(to), (ADDRESS)room(n)) : -1;
    return it < -1 || it > (long)room(n) ? -2 : it;
}

int __xpg_strerror_r(int number, char *to, size_t n) {
    long it = n ? answer(host_words(number, AT(to), (ADDRESS)room(n - 1)), room(n - 1)) : -1;
    if (n) to[it < 0 ? 0 : it] = 0;
    return it < 0 ? error : 0;
}

/* A host has no signals. */
long __sysv_signal(int number, long action) { return (void)number, (void)action, 0; }

/* Where a host that waits has the stack unwound to: an address to go on from, one to stop at, and room. */
EXPORT(unwound) ADDRESS unwound_room(void) {
    static unsigned words[ROOM / 4];
    words[0] = (unsigned)AT(words + 2);
    words[1] = (unsigned)AT(words + ROOM / 4);
    return AT(words);
}
