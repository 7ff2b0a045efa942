/* Calls each function of dicomdir.h with its inputs and outputs right before pages without access. It gives no room,
 * the exact room, the room that dicomdir.h says suffices always, and each output one item short; then nothing may be
 * written. Each allocation is refused in turn.
 * Eight threads call at once, on small stacks.
 *
 *     guard DICOMDIR IMAGE
 *
 * With PLAIN, malloc is the system's, no allocation is refused, and valgrind can look in a while. */
#define _GNU_SOURCE
#include <dicomdir.h>
#include <pthread.h>
#include <stdio.h>
#include <stdlib.h>
#include <string.h>
#include <sys/mman.h>

#ifdef PLAIN
enum { TIMES = 1 };
#else
enum { TIMES = 20 };
#endif
enum { OUTPUTS = 4, PAGE = 4096, THREADS = 8, STACK = 64 << 10, FILLED = 0x5A };

/* The outputs of a call: where each is, and how many items it has room for. */
struct rooms {
    void *at[OUTPUTS];
    size_t items[OUTPUTS];
};

struct function {
    const char *name;
    uint32_t (*ask)(const struct rooms *, struct dicomdir_answer *);
    /* The bytes of an item of each output. */
    size_t sizes[OUTPUTS];
    void (*wanted)(const struct dicomdir_answer *, size_t *);
    /* How many items each output has at most. */
    void (*most)(size_t *);
};

static uint8_t *directory, *twice, *image, *contents, *uids;
static size_t directory_len, image_len, contents_len, uids_len;
static uint32_t *tags;
static uint64_t *directory_end, *uid_end;
static struct dicomdir_file *files;

static long refused = -1, allocations;
static __thread int counting;

#ifndef PLAIN
void *__libc_malloc(size_t);
void *__libc_realloc(void *, size_t);
void *malloc(size_t size) {
    return counting && allocations++ == refused ? NULL : __libc_malloc(size);
}
void *realloc(void *old, size_t size) {
    return counting && allocations++ == refused ? NULL : __libc_realloc(old, size);
}
#endif

/* Room for this many bytes, which a page without access follows. */
static void *fenced(size_t bytes) {
    size_t pages = (bytes + PAGE - 1) / PAGE * PAGE;
    char *at = mmap(NULL, pages + PAGE, PROT_READ | PROT_WRITE, MAP_PRIVATE | MAP_ANONYMOUS, -1, 0);
    if (at == MAP_FAILED || mprotect(at + pages, PAGE, PROT_NONE)) exit(2);
    return at + pages - bytes;
}

static void *fenced_copy(const void *from, size_t bytes) { return memcpy(fenced(bytes), from, bytes); }

static uint32_t list(const struct rooms *r, struct dicomdir_answer *a) {
    return dicomdir_list(directory, directory_len, r->at[0], r->items[0], a);
}
static uint32_t rows(const struct rooms *r, struct dicomdir_answer *a) {
    return dicomdir_rows(directory, directory_len, tags, 3, r->at[0], r->items[0], r->at[1], r->items[1], r->at[2],
                         r->items[2], a);
}
static uint32_t front(const struct rooms *r, struct dicomdir_answer *a) {
    uint64_t unreached;
    return dicomdir_front(directory, directory_len, r->at[0], r->items[0], r->at[1], r->items[1], &unreached, a);
}
static uint32_t spellings(const struct rooms *r, struct dicomdir_answer *a) {
    return dicomdir_spellings(uids, uids_len, r->at[0], r->items[0], r->at[1], r->items[1], a);
}
static uint32_t findings(const struct rooms *r, struct dicomdir_answer *a) {
    return dicomdir_findings(directory, directory_len, files, 2, contents, contents_len, 1, 1, r->at[0], r->items[0],
                             a);
}
static uint32_t of_image(const struct rooms *r, struct dicomdir_answer *a) {
    return dicomdir_of_image(image, image_len, r->at[0], r->items[0], a);
}
static uint32_t merge(const struct rooms *r, struct dicomdir_answer *a) {
    return dicomdir_merge(directory, directory_len, directory_end, 1, uids, 0, uids, 0, r->at[0], r->items[0],
                          r->at[1], r->items[1], r->at[2], r->items[2], r->at[3], r->items[3], a);
}
static uint32_t notes(const struct rooms *r, struct dicomdir_answer *a) {
    struct dicomdir_sum sum;
    return dicomdir_notes(twice, 2 * directory_len, directory_end, 2, uids, 0, uids, 0, r->at[0], r->items[0],
                          r->at[1], r->items[1], r->at[2], r->items[2], &sum, a);
}
static uint32_t withdraw(const struct rooms *r, struct dicomdir_answer *a) {
    return dicomdir_withdraw(directory, directory_len, uids, uids_len, uid_end, 1, uids, 0, uids, 0, r->at[0],
                             r->items[0], r->at[1], r->items[1], r->at[2], r->items[2], r->at[3], r->items[3], a);
}

static void of_text(const struct dicomdir_answer *a, size_t *items) { items[0] = a->text; }
static void of_rows(const struct dicomdir_answer *a, size_t *items) {
    items[0] = a->rows, items[1] = a->rows * 3, items[2] = a->text;
}
static void of_front(const struct dicomdir_answer *a, size_t *items) { items[0] = a->rows, items[1] = a->text; }
static void of_files(const struct dicomdir_answer *a, size_t *items) { items[0] = a->rows; }
static void of_made(const struct dicomdir_answer *a, size_t *items) {
    items[0] = a->text, items[1] = items[2] = a->rows, items[3] = a->files;
}

static void of_notes(const struct dicomdir_answer *a, size_t *items) {
    items[0] = a->rows, items[1] = a->files, items[2] = a->text;
}

/* As dicomdir.h has them. */
static void most_of_list(size_t *items) { items[0] = 12 * directory_len; }
static void most_of_rows(size_t *items) {
    items[0] = directory_len / 52, items[1] = directory_len / 52 * 3, items[2] = directory_len;
}
static void most_of_front(size_t *items) { items[0] = 3, items[1] = directory_len; }
static void most_of_spellings(size_t *items) { items[0] = 8, items[1] = 8 * uids_len + 12; }
static void most_of_findings(size_t *items) { items[0] = 2; }
static void most_of_image(size_t *items) { items[0] = 16384; }
static void most_of_merge(size_t *items) {
    items[0] = directory_len + directory_len / 5 + 1024, items[1] = items[2] = directory_len / 200;
    items[3] = directory_len / 3;
}
static void most_of_notes(size_t *items) {
    items[0] = 2 * directory_len / 200, items[1] = 2 * directory_len / 60, items[2] = 2 * directory_len;
}
static void most_of_withdrawal(size_t *items) { most_of_merge(items), items[0] += uids_len + 1; }

static const struct function functions[] = {
    {"list", list, {1}, of_text, most_of_list},
    {"rows", rows, {sizeof(struct dicomdir_row), 8, 1}, of_rows, most_of_rows},
    {"front", front, {8, 1}, of_front, most_of_front},
    {"spellings", spellings, {8, 1}, of_front, most_of_spellings},
    {"findings", findings, {sizeof(struct dicomdir_finding)}, of_files, most_of_findings},
    {"of_image", of_image, {1}, of_text, most_of_image},
    {"merge", merge, {1, 8, 8, 1}, of_made, most_of_merge},
    {"notes", notes, {sizeof(struct dicomdir_note), 8, 1}, of_notes, most_of_notes},
    {"withdraw", withdraw, {1, 8, 8, 1}, of_made, most_of_withdrawal},
};

static void fail(const struct function *f, const char *what, uint32_t status) {
    printf("guard: %s: %s: %u\n", f->name, what, status);
    exit(1);
}

/* Rooms of this many items, each filled. */
static struct rooms rooms_of(const struct function *f, const size_t *items) {
    struct rooms made = {{0}, {0}};
    for (int output = 0; output < OUTPUTS; output++) {
        made.items[output] = items[output];
        made.at[output] = fenced(items[output] * f->sizes[output]);
        memset(made.at[output], FILLED, items[output] * f->sizes[output]);
    }
    return made;
}

static void drop(const struct function *f, const struct rooms *r) {
    for (int output = 0; output < OUTPUTS; output++) {
        size_t bytes = r->items[output] * f->sizes[output], pages = (bytes + PAGE - 1) / PAGE * PAGE;
        munmap((char *)r->at[output] + bytes - pages, pages + PAGE);
    }
}

static int is_filled(const struct function *f, const struct rooms *r) {
    for (int output = 0; output < OUTPUTS; output++)
        for (size_t at = 0; at < r->items[output] * f->sizes[output]; at++)
            if (((uint8_t *)r->at[output])[at] != FILLED) return 0;
    return 1;
}

static int are_same(const struct function *f, const struct rooms *one, const struct rooms *other) {
    for (int output = 0; output < OUTPUTS; output++)
        if (memcmp(one->at[output], other->at[output], one->items[output] * f->sizes[output])) return 0;
    return 1;
}

/* The room that suffices always does. */
static void try_most(const struct function *f) {
    size_t most[OUTPUTS] = {0};
    struct dicomdir_answer answer;
    f->most(most);
    struct rooms room = rooms_of(f, most);
    uint32_t status = f->ask(&room, &answer);
    if (status) fail(f, "the room that suffices", status);
    drop(f, &room);
}

/* With each output one item short nothing is written, and the same sizes are answered. */
static void try_short(const struct function *f, const size_t *items) {
    for (int output = 0; output < OUTPUTS; output++) {
        size_t less[OUTPUTS], again[OUTPUTS] = {0};
        struct dicomdir_answer answer;
        if (!items[output]) continue;
        memcpy(less, items, sizeof less);
        less[output]--;
        struct rooms short_of = rooms_of(f, less);
        uint32_t status = f->ask(&short_of, &answer);
        if (status != DICOMDIR_NO_ROOM) fail(f, "one item short", status);
        f->wanted(&answer, again);
        if (memcmp(items, again, sizeof again)) fail(f, "other sizes", status);
        if (!is_filled(f, &short_of)) fail(f, "written without room", status);
        drop(f, &short_of);
    }
}

/* Each allocation refused in turn is 91 and writes nothing. How many were refused. */
static long try_refusals(const struct function *f, const size_t *items) {
    struct rooms room = rooms_of(f, items);
    struct dicomdir_answer answer;
    long tried = 0, all;
    counting = 1, allocations = 0, refused = -1;
    f->ask(&room, &answer);
    counting = 0, all = allocations;
    drop(f, &room);
    for (long at = 0; at < all; at += all > 2000 ? all / 500 : 1, tried++) {
        room = rooms_of(f, items);
        counting = 1, allocations = 0, refused = at;
        uint32_t status = f->ask(&room, &answer);
        counting = 0, refused = -1;
        if (status != 91 || answer.fault != 91) fail(f, "an allocation refused", status);
        if (!is_filled(f, &room)) fail(f, "written without memory", status);
        drop(f, &room);
    }
    return tried;
}

static void try_function(const struct function *f) {
    size_t items[OUTPUTS] = {0};
    struct dicomdir_answer answer;
    struct rooms none = rooms_of(f, items);
    uint32_t status = f->ask(&none, &answer);
    if (status > DICOMDIR_NO_ROOM) {
        if (answer.fault != status) fail(f, "another fault in the answer", answer.fault);
        printf("%s: refused by %u\n", f->name, status);
        return;
    }
    f->wanted(&answer, items);
    struct rooms exact = rooms_of(f, items), again = rooms_of(f, items);
    if ((status = f->ask(&exact, &answer))) fail(f, "the exact room", status);
    if (answer.fault | answer.within | answer.cause | answer.at | answer.tag) fail(f, "a fault of 0", answer.fault);
    try_most(f);
    try_short(f, items);
    long tried = try_refusals(f, items);
    if ((status = f->ask(&again, &answer)) || !are_same(f, &exact, &again)) fail(f, "not the same again", status);
    printf("%s: %zu %zu %zu %zu items, %ld allocations refused\n", f->name, items[0], items[1], items[2], items[3],
           tried);
    drop(f, &none), drop(f, &exact), drop(f, &again);
}

static void *work(void *given) {
    const struct function *f = given;
    size_t items[OUTPUTS] = {0};
    struct dicomdir_answer answer;
    struct rooms none = rooms_of(f, items);
    if (f->ask(&none, &answer) > DICOMDIR_NO_ROOM) return given;
    f->wanted(&answer, items);
    struct rooms first = rooms_of(f, items), other = rooms_of(f, items);
    if (f->ask(&first, &answer)) return NULL;
    for (int time = 0; time < TIMES; time++)
        if (f->ask(&other, &answer) || !are_same(f, &first, &other)) return NULL;
    return given;
}

static void try_threads(const struct function *f) {
    pthread_t threads[THREADS];
    pthread_attr_t small;
    pthread_attr_init(&small);
    if (pthread_attr_setstacksize(&small, STACK)) fail(f, "no such stack", 0);
    for (int at = 0; at < THREADS; at++)
        if (pthread_create(&threads[at], &small, work, (void *)f)) fail(f, "no thread", 0);
    for (int at = 0; at < THREADS; at++) {
        void *said;
        pthread_join(threads[at], &said);
        if (!said) fail(f, "another answer in a thread", 0);
    }
}

static uint8_t *read_all(const char *name, size_t *size) {
    static uint8_t bytes[1 << 24];
    FILE *from = fopen(name, "rb");
    if (!from) exit(2);
    *size = fread(bytes, 1, sizeof bytes, from);
    fclose(from);
    return fenced_copy(bytes, *size);
}

int main(int count, char **words) {
    static const uint32_t some_tags[3] = {0x00100020, 0x00041500, 0x00081140};
    if (count != 3 || dicomdir_interface() != DICOMDIR_INTERFACE) return 2;
    directory = read_all(words[1], &directory_len);
    image = read_all(words[2], &image_len);
    uids_len = strlen("1.2.3.4.6");
    uids = fenced_copy("1.2.3.4.6", uids_len);
    tags = fenced_copy(some_tags, sizeof some_tags);
    twice = fenced(2 * directory_len);
    memcpy(twice, directory, directory_len);
    memcpy(twice + directory_len, directory, directory_len);
    directory_end = fenced_copy((uint64_t[]){directory_len, 2 * directory_len}, 2 * sizeof(uint64_t));
    uid_end = fenced_copy(&(uint64_t){uids_len}, sizeof(uint64_t));
    /* The record of the first image, and its file twice: whole, and by a digest and a head. */
    contents_len = 2 * image_len + 32;
    contents = fenced(contents_len);
    memcpy(contents, image, image_len);
    memset(contents + image_len, 0, 32);
    memcpy(contents + image_len + 32, image, image_len);
    const struct dicomdir_file both[2] = {{3, image_len, DICOMDIR_WHOLE}, {3, contents_len, DICOMDIR_HEAD}};
    files = fenced_copy(both, sizeof both);
    for (size_t at = 0; at < sizeof functions / sizeof *functions; at++) {
        try_function(&functions[at]);
        try_threads(&functions[at]);
    }
    return 0;
}
