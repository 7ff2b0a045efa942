/* Answers of dicomdir.h in memory of their own. These functions are inline, tested, and not proved: they allocate by
 * malloc as much as always suffices, call once, and give back what is left over. */
#ifndef DICOMDIR_TABLE_H
#define DICOMDIR_TABLE_H

#include "dicomdir.h"
#include <stdlib.h>
#include <string.h>

#ifdef __cplusplus
extern "C" {
#endif

/* The fault 91 Memory of docs/FAULTS.md. */
#define DICOMDIR_NO_MEMORY 91

/* The records of a directory, and their values at some tags. */
struct dicomdir_table {
    size_t rows, tags;
    struct dicomdir_row *row;
    uint64_t *ends;
    uint8_t *text;
};

/* Some bytes of a table or of a merge. No zero byte ends them. */
struct dicomdir_value {
    const char *text;
    size_t length;
};

/* What a merge or a withdrawal makes: the DICOMDIR, and for each of its images which file is to be copied. */
struct dicomdir_made {
    uint8_t *directory;
    size_t directory_len, images;
    uint64_t *sets;
    uint64_t *file_ends;
    uint8_t *files;
};

/* Room for this many items; NULL only where an allocation is refused. */
static inline void *dicomdir_room(uint64_t items, size_t size) {
    if (items > (SIZE_MAX - 1) / size) return NULL;
    return malloc((size_t)items * size + 1);
}

/* The same room, cut to this many items. */
static inline void *dicomdir_cut(void *room, uint64_t items, size_t size) {
    void *cut = realloc(room, (size_t)items * size + 1);
    return cut ? cut : room;
}

/* How often a tag stands among these at most. */
static inline size_t dicomdir_most_alike(const uint32_t *tags, size_t tags_len) {
    size_t most = 1;
    for (size_t one = 0; one < tags_len; one++) {
        size_t alike = 0;
        for (size_t other = 0; other < tags_len; other++) alike += tags[other] == tags[one];
        if (alike > most) most = alike;
    }
    return most;
}

/* The value that is number `value` of a text with these ends. */
static inline struct dicomdir_value dicomdir_value_at(const uint8_t *text, const uint64_t *ends, size_t value) {
    uint64_t from = value ? ends[value - 1] : 0;
    struct dicomdir_value found;
    found.text = (const char *)text + from;
    found.length = (size_t)(ends[value] - from);
    return found;
}

/* Frees what dicomdir_read_table gave. A table of zeros may be freed too. */
static inline void dicomdir_free_table(struct dicomdir_table *table) {
    free(table->row);
    free(table->ends);
    free(table->text);
    memset(table, 0, sizeof *table);
}

/* Reads a directory: 0 and a table, which dicomdir_free_table frees, or a status and a table of zeros. */
static inline uint32_t dicomdir_read_table(const void *bytes, size_t length, const uint32_t *tags, size_t tags_len,
                                           struct dicomdir_table *table, struct dicomdir_answer *answer) {
    const size_t rows = length / 52, width = tags_len ? tags_len * sizeof *table->ends : 1;
    const size_t text = dicomdir_most_alike(tags, tags_len);
    uint32_t status = DICOMDIR_NO_MEMORY;
    memset(table, 0, sizeof *table);
    memset(answer, 0, sizeof *answer);
    answer->fault = status;
    table->tags = tags_len;
    table->row = (struct dicomdir_row *)dicomdir_room(rows, sizeof *table->row);
    table->text = (uint8_t *)dicomdir_room(length, text);
    if (tags_len <= SIZE_MAX / sizeof *table->ends) table->ends = (uint64_t *)dicomdir_room(rows, width);
    if (table->row && table->ends && table->text)
        status = dicomdir_rows((const uint8_t *)bytes, length, tags, tags_len, table->row, rows, table->ends,
                               rows * tags_len, table->text, length * text, answer);
    if (status) {
        dicomdir_free_table(table);
        return status;
    }
    table->rows = (size_t)answer->rows;
    table->row = (struct dicomdir_row *)dicomdir_cut(table->row, answer->rows, sizeof *table->row);
    table->ends = (uint64_t *)dicomdir_cut(table->ends, answer->rows, width);
    table->text = (uint8_t *)dicomdir_cut(table->text, answer->text, 1);
    return status;
}

/* The value of a row at a tag, by its place among the tags. */
static inline struct dicomdir_value dicomdir_value(const struct dicomdir_table *table, size_t row, size_t tag) {
    return dicomdir_value_at(table->text, table->ends, row * table->tags + tag);
}

/* Frees what dicomdir_make_merged gave. One of zeros may be freed too. */
static inline void dicomdir_free_made(struct dicomdir_made *made) {
    free(made->directory);
    free(made->sets);
    free(made->file_ends);
    free(made->files);
    memset(made, 0, sizeof *made);
}

/* Merges the directories in `bytes`, which end at `ends`: 0 and what was made, which dicomdir_free_made frees, or a
 * status and zeros. `id` and `uid` end in a zero byte, and may be empty. */
static inline uint32_t dicomdir_make_merged(const void *bytes, size_t length, const uint64_t *ends, size_t ends_len,
                                            const char *id, const char *uid, struct dicomdir_made *made,
                                            struct dicomdir_answer *answer) {
    const size_t text = length + length / 5 + 1024, images = length / 200, files = length / 3;
    uint32_t status = DICOMDIR_NO_MEMORY;
    memset(made, 0, sizeof *made);
    memset(answer, 0, sizeof *answer);
    answer->fault = status;
    made->directory = (uint8_t *)dicomdir_room(text, 1);
    made->sets = (uint64_t *)dicomdir_room(images, sizeof *made->sets);
    made->file_ends = (uint64_t *)dicomdir_room(images, sizeof *made->file_ends);
    made->files = (uint8_t *)dicomdir_room(files, 1);
    if (made->directory && made->sets && made->file_ends && made->files)
        status = dicomdir_merge((const uint8_t *)bytes, length, ends, ends_len, (const uint8_t *)id, strlen(id),
                                (const uint8_t *)uid, strlen(uid), made->directory, text, made->sets, images,
                                made->file_ends, images, made->files, files, answer);
    if (status) {
        dicomdir_free_made(made);
        return status;
    }
    made->directory_len = (size_t)answer->text;
    made->images = (size_t)answer->rows;
    made->directory = (uint8_t *)dicomdir_cut(made->directory, answer->text, 1);
    made->sets = (uint64_t *)dicomdir_cut(made->sets, answer->rows, sizeof *made->sets);
    made->file_ends = (uint64_t *)dicomdir_cut(made->file_ends, answer->rows, sizeof *made->file_ends);
    made->files = (uint8_t *)dicomdir_cut(made->files, answer->files, 1);
    return status;
}

/* The File ID of the file of an image, in the directory whose number is made->sets[image]. */
static inline struct dicomdir_value dicomdir_file_id(const struct dicomdir_made *made, size_t image) {
    return dicomdir_value_at(made->files, made->file_ends, image);
}

#ifdef __cplusplus
}
#endif
#endif
