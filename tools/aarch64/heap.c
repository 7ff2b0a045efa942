/* The heap, as the kit's crate libc declares it (heap.rt), over malloc of the C library, whose blocks are aligned to 16
 * bytes: every alignment that is asked for divides that. */
#include <stdbool.h>
#include <stddef.h>
#include <stdlib.h>

_Static_assert(_Alignof(max_align_t) == 16, "malloc aligns to 16 bytes");

/* What is answered. Where there is no memory `at` points to a byte that is not used. */
struct tried {
    bool ok;
    void *at;
};
static unsigned char none;

static struct tried answer(void *at) { return at ? (struct tried){true, at} : (struct tried){false, &none}; }

/* For 0 bytes malloc may answer NULL, and realloc free the block. */
static size_t room(size_t bytes) { return bytes ? bytes : 1; }

struct tried rattle_alloc(size_t bytes, size_t alignment)
{
    (void)alignment;
    return answer(malloc(room(bytes)));
}

/* realloc keeps what both blocks have room for, and so the first `kept` bytes. Where it fails the block stays. */
struct tried rattle_realloc(void *at, size_t kept, size_t bytes, size_t alignment)
{
    (void)kept, (void)alignment;
    return answer(realloc(at, room(bytes)));
}

void rattle_dealloc(void *at) { free(at); }
