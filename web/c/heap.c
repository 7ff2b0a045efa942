/* The heap, as the kit's crate libc declares it (heap.rt): blocks of 2^k and 3*2^k bytes, and of each size a list of the
 * free ones. New blocks come from the end of the memory, which grows. All are aligned to 16 bytes. */
#include "host.h"

/* What a block begins with, and what is answered. */
union block { size_t class; union block *next; };
struct tried { size_t ok; void *at; };
enum { HEAD = 16, SMALLEST = 5, PAGE = 1 << 16 };
extern unsigned char __heap_base[], __heap_end[];
static union block *free_blocks[2 * 34];
static size_t top = (size_t)__heap_base, end = (size_t)__heap_end, limit = PAGE;
static unsigned char none;
EXPORT(limit) void limit_pages(unsigned pages) { limit = pages; }

/* A lowered module answers -1 in 32 bits. */
static int grow(size_t pages) {
    if (end / PAGE + pages > limit || (unsigned)__builtin_wasm_memory_grow(0, pages) == ~0u) return 0;
    end += pages * PAGE;
    return 1;
}

/* Grows by a quarter of what there is, since each growth may copy all; where that is refused, by what is needed. */
static int has_room(size_t bytes) {
    if (bytes <= end - top) return 1;
    size_t needed = (bytes - (end - top) + PAGE - 1) / PAGE;
    return grow(needed + end / PAGE / 4) || grow(needed);
}

static size_t size_of(size_t class) { return (2 + class % 2) << (class / 2 - 1); }
static size_t class_of(size_t bytes) {
    size_t k = bytes <= 1 << SMALLEST ? SMALLEST : 64 - (size_t)__builtin_clzl(bytes - 1);
    return k > SMALLEST && bytes <= size_of(2 * k - 1) ? 2 * k - 1 : 2 * k;
}

static struct tried take(size_t bytes) {
    size_t class = bytes < (size_t)1 << 32 ? class_of(bytes + HEAD) : 0;
    union block *block = free_blocks[class];
    if (block) {
        free_blocks[class] = block->next;
    } else {
        if (!class || !has_room(size_of(class))) return (struct tried){0, &none};
        block = (union block *)top;
        top += size_of(class);
    }
    block->class = class;
    return (struct tried){1, (unsigned char *)block + HEAD};
}

static union block *block_of(void *at) { return (union block *)((unsigned char *)at - HEAD); }
struct tried rattle_alloc(size_t bytes, size_t alignment) { return (void)alignment, take(bytes); }
void rattle_dealloc(void *at) {
    size_t class = block_of(at)->class;
    block_of(at)->next = free_blocks[class];
    free_blocks[class] = block_of(at);
}

/* A block of which less than a quarter would be in use is left for a smaller one. */
struct tried rattle_realloc(void *at, size_t kept, size_t bytes, size_t alignment) {
    size_t room = size_of(block_of(at)->class) - HEAD;
    if (bytes <= room && bytes >= room / 4) return (struct tried){1, at};
    struct tried other = rattle_alloc(bytes, alignment);
    if (!other.ok) return bytes <= room ? (struct tried){1, at} : other;
    __builtin_memcpy(other.at, at, kept);
    rattle_dealloc(at);
    return other;
}
