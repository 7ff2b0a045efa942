/* Tries web/c, compiled for this machine, over a host and a memory that are made up. */
#include <stdint.h>
#include <stdio.h>
#include <stdlib.h>
#include <string.h>

#include "native.h"

/* web/c/host.h */
struct seen { size_t mode, links, inode, size, device, seconds, nanoseconds; };
struct tried { size_t ok; void *at; };
int rattle_errno(void), open(const char *, int, ...), close(int), fsync(int), mkdir(const char *, unsigned);
int link(const char *, const char *), isatty(int), statx(int, const char *, int, unsigned, void *);
int clock_gettime(int, long *), __xpg_strerror_r(int, char *, size_t);
void rattle_set_errno(int), rattle_dealloc(void *), limit_pages(unsigned);
long read(int, void *, size_t), write(int, const void *, size_t), rattle_arg(size_t, void *, size_t), __sysv_signal(int, long);
struct tried rattle_alloc(size_t, size_t), rattle_realloc(void *, size_t, size_t, size_t);
unsigned __int128 __multi3(unsigned __int128, unsigned __int128), __ashlti3(unsigned __int128, int);
unsigned __int128 __lshrti3(unsigned __int128, int);
ADDRESS unwound_room(void);

/* The memory: pages from a multiple of 64 KiB on, of which the heap has some. */
enum { PAGE = 1 << 16, PAGES = 2048, EIO = 5 };
_Alignas(PAGE) unsigned char __heap_base[PAGES * PAGE];
__asm__(".globl __heap_end\n.set __heap_end, __heap_base + 4 * 65536");
static size_t in_use = 4, most = PAGES;
size_t grow_memory(size_t pages) {
    if (pages > most - in_use) return 0xffffffff;
    in_use += pages;
    return in_use - pages;
}
static void limit(size_t pages) { limit_pages((unsigned)((size_t)__heap_base / PAGE + pages)); }

static int failures;
#define WANT(it) ((it) ? (void)0 : (void)(failures++, printf("NOT AS WANTED, line %d: %s\n", __LINE__, #it)))

/* What the host answers next, and what it was asked. */
static long answers;
static char asked[200];
static struct seen told;

static int said(const char *call, ADDRESS path, ADDRESS length, long a, long b) {
    snprintf(asked, sizeof asked, "%s %.*s %ld %ld", call, (int)length, (const char *)path, a, b);
    return (int)answers;
}
int host_open(ADDRESS path, ADDRESS length, int flags, unsigned mode) { return said("open", path, length, flags, mode); }
int host_read(int file, ADDRESS to, ADDRESS room) { return said("read", to, 0, file, (long)room); }
int host_write(int file, ADDRESS from, ADDRESS length) { return said("write", from, length < 9 ? length : 0, file, (long)length); }
int host_close(int file) { return said("close", 0, 0, file, 0); }
int host_store(int file) { return said("store", 0, 0, file, 0); }
int host_folder(ADDRESS path, ADDRESS length, unsigned mode) { return said("folder", path, length, mode, 0); }
int host_link(ADDRESS from, ADDRESS n, ADDRESS to, ADDRESS m) {
    snprintf(asked, sizeof asked, "link %.*s %.*s", (int)n, (char *)from, (int)m, (char *)to);
    return (int)answers;
}
int host_terminal(int file) { return said("terminal", 0, 0, file, 0); }
long host_clock(int which) { return said("clock", 0, 0, which, 0), answers; }
int host_word(ADDRESS number, ADDRESS to, ADDRESS room) {
    memcpy((void *)to, "list", room < 4 ? room : 4);
    return said("word", 0, 0, (long)number, (long)room);
}
int host_words(int number, ADDRESS to, ADDRESS room) {
    memcpy((void *)to, "No such file", room < 12 ? room : 12);
    return said("words", 0, 0, number, (long)room);
}
int host_stat(int file, ADDRESS path, ADDRESS length, int follows, ADDRESS to) {
    *(struct seen *)to = told;
    return said("stat", path, length, file, follows);
}

static int is(long answer, const char *question) {
    answers = answer;
    return strcmp(asked, question) == 0;
}
#define ASK(answer, call, wanted, question) \
    (answers = (answer), asked[0] = 0, rattle_set_errno(77), WANT((call) == (wanted)), WANT(is(answers, question)))

/* Each answer is one that the kit's crates allow, and an error leaves its number. */
static void try_calls(void) {
    char bytes[16] = "";
    ASK(5, open("a/b", 0), 5, "open a/b 0 0");
    ASK(6, open("a", 0301, 0666), 6, "open a 193 438");
    ASK(-17, open("a", 0301, 0600), -1, "open a 193 384");
    WANT(rattle_errno() == 17);
    ASK(16, read(3, bytes, 16), 16, "read  3 16");
    ASK(17, read(3, bytes, 16), -1, "read  3 16");
    WANT(rattle_errno() == EIO);
    ASK(-21, read(3, bytes, 16), -1, "read  3 16");
    WANT(rattle_errno() == 21);
    ASK(0, read(3, bytes, 1ul << 40), 0, "read  3 1073741824");
    ASK(2, write(1, "ab", 2), 2, "write ab 1 2");
    ASK(3, write(1, "ab", 2), -1, "write ab 1 2");
    ASK(-28, write(1, "ab", 2), -1, "write ab 1 2");
    WANT(rattle_errno() == 28);
    ASK(0, close(4), 0, "close  4 0");
    ASK(-5, fsync(4), -1, "store  4 0");
    ASK(1, fsync(4), -1, "store  4 0");
    ASK(0, mkdir("OUT", 0777), 0, "folder OUT 511 0");
    ASK(-95, link("from", "to"), -1, "link from to");
    ASK(1, isatty(2), 1, "terminal  2 0");
    ASK(-25, isatty(2), 0, "terminal  2 0");
    rattle_set_errno(3);
    WANT(rattle_errno() == 3);
    WANT(__sysv_signal(13, 1) == 0);
}

static void try_words(void) {
    char bytes[16];
    long time[2] = {0};
    ASK(4, rattle_arg(1, bytes, 16), 4, "word  1 16");
    ASK(-1, rattle_arg(9, bytes, 16), -1, "word  9 16");
    ASK(-2, rattle_arg(1, bytes, 3), -2, "word  1 3");
    ASK(-5, rattle_arg(1, bytes, 3), -2, "word  1 3");
    ASK(4, rattle_arg(1, bytes, 3), -2, "word  1 3");
    ASK(4, rattle_arg(1ul << 40, bytes, 3), -1, "");
    ASK(12, __xpg_strerror_r(2, bytes, 16), 0, "words  2 15");
    WANT(strcmp(bytes, "No such file") == 0);
    ASK(-34, __xpg_strerror_r(2, bytes, 8), 34, "words  2 7");
    WANT(bytes[0] == 0);
    ASK(1, clock_gettime(1, time), 0, "clock  1 0");
    answers = 1234567890123456789;
    WANT(clock_gettime(0, time) == 0 && time[0] == 1234567890 && time[1] == 123456789);
    ASK(-22, clock_gettime(0, time), -1, "clock  0 0");
}

/* The fields stand where the kit's crate libc has them. */
static void try_stat(void) {
    struct {
        uint32_t mask, block;
        uint64_t attributes;
        uint32_t links, owner, group;
        uint16_t mode, unused;
        uint64_t inode, size, blocks, attributes_mask;
        struct { int64_t seconds; uint32_t nanoseconds; int32_t unused; } times[4];
        uint32_t special[2], device[2];
        uint64_t rest[14];
    } it, none = {0};
    memset(&it, 9, sizeof it);
    told = (struct seen){0100644, 2, 7, 1ul << 33, 3ul << 32 | 4, 1700000000, 5};
    ASK(0, statx(-100, "a/b", 0x100, 0x7ff, (void *)&it), 0, "stat a/b -1 0");
    WANT(sizeof it == 256 && it.mask == 0x7ff && it.links == 2 && it.mode == 0100644 && it.inode == 7);
    WANT(it.size == 1ul << 33 && it.device[0] == 3 && it.device[1] == 4);
    WANT(it.times[3].seconds == 1700000000 && it.times[3].nanoseconds == 5);
    it.mask = it.links = it.mode = it.inode = it.size = it.device[0] = it.device[1] = 0;
    it.times[3].seconds = it.times[3].nanoseconds = 0;
    WANT(memcmp(&it, &none, sizeof it) == 0);
    ASK(0, statx(5, "", 0x1000, 0x7ff, (void *)&it), 0, "stat  5 1");
    ASK(-2, statx(-100, "a", 0, 0x7ff, (void *)&it), -1, "stat a -1 1");
    WANT(rattle_errno() == 2);
}

/* Blocks stand apart, keep their bytes, and are taken again. The numbers are random, and the same each time. */
static void try_heap(void) {
    enum { BLOCKS = 500, ROUNDS = 200000 };
    static struct { unsigned char *at; size_t bytes; } blocks[BLOCKS];
    srand(1);
    for (int round = 0; round < ROUNDS; round++) {
        int n = rand() % BLOCKS;
        size_t bytes = (size_t)rand() % (rand() % 50 ? 300 : 100000);
        struct tried tried = blocks[n].at ? rattle_realloc(blocks[n].at, blocks[n].bytes < bytes ? blocks[n].bytes : bytes, bytes, 16)
                                          : rattle_alloc(bytes, 16);
        WANT(tried.ok == 1 && (size_t)tried.at % 16 == 0);
        WANT((unsigned char *)tried.at + bytes <= __heap_base + in_use * PAGE);
        unsigned char *at = tried.at;
        size_t kept = blocks[n].at && blocks[n].bytes < bytes ? blocks[n].bytes : blocks[n].at ? bytes : 0;
        for (size_t k = 0; k < kept; k++) WANT(at[k] == (unsigned char)n);
        memset(at, n, bytes);
        blocks[n].at = at;
        blocks[n].bytes = bytes;
        if (rand() % 3 == 0) {
            rattle_dealloc(at);
            blocks[n].at = 0;
        }
    }
    WANT(in_use < 1024);
    for (int n = 0; n < BLOCKS; n++)
        if (blocks[n].at) rattle_dealloc(blocks[n].at);
}

/* What is refused is refused, and what was there stays. */
static void try_refusals(void) {
    unsigned char *block = rattle_alloc(100, 8).at;
    memset(block, 42, 100);
    struct tried tried = rattle_alloc(1ul << 40, 16);
    WANT(!tried.ok && tried.at);
    tried = rattle_alloc(~0ul >> 1, 16);
    WANT(!tried.ok && tried.at);
    tried = rattle_alloc((size_t)PAGES * PAGE, 16);
    WANT(!tried.ok && tried.at && in_use < PAGES);
    tried = rattle_realloc(block, 100, (size_t)PAGES * PAGE, 8);
    WANT(!tried.ok && tried.at && tried.at != block);
    for (int k = 0; k < 100; k++) WANT(block[k] == 42);
    unsigned char *large = rattle_alloc(128ul * PAGE, 16).at;
    most = in_use;
    tried = rattle_alloc(64ul * PAGE, 16);
    WANT(!tried.ok);
    while (rattle_alloc(PAGE, 16).ok) {}
    tried = rattle_realloc(large, 20ul * PAGE, 20ul * PAGE, 16);
    WANT(tried.ok && tried.at == large);
    most = PAGES;
    limit(in_use + 65);
    size_t before = in_use;
    tried = rattle_alloc(32ul * PAGE + 1, 16);
    WANT(tried.ok && in_use - before < 65);
    tried = rattle_alloc(1000ul * PAGE, 16);
    WANT(!tried.ok);
    limit(PAGES);
}

static void try_wide(void) {
    typedef unsigned __int128 wide;
    wide x = (wide)0x0123456789abcdef << 64 | 0xfedcba9876543210, y = (wide)0xdeadbeefcafebabe << 64 | 0x0f1e2d3c4b5a6978;
    for (int round = 0; round < 1000; round++, x = x * 6364136223846793005u + 1442695040888963407u, y = y * x + 99) {
        WANT(__multi3(x, y) == x * y);
        for (int by = 0; by < 128; by++) WANT(__ashlti3(x, by) == x << by && __lshrti3(x, by) == x >> by);
    }
    WANT(__multi3(~(wide)0, ~(wide)0) == 1);
}

int main(void) {
    limit(PAGES);
    try_calls();
    try_words();
    try_stat();
    try_heap();
    try_refusals();
    try_wide();
    unsigned *room = (unsigned *)unwound_room();
    WANT(room[1] - room[0] == ROOM - 8);
    printf("web/c: %d failed\n", failures);
    return failures != 0;
}
