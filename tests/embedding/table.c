/* The inline functions of dicomdir_table.h: the rows of a directory, values at tags, a merge, each allocation refused.
 *
 *     table DICOMDIR
 *
 * Prints the level, the offset and the File ID of each row, and the File IDs and the UID of the directory merged with
 * itself. */
#include <stdio.h>
#include <stdlib.h>

static int refused, allocations;

/* The inline functions allocate by this one. */
static void *counted_malloc(size_t size) { return ++allocations == refused ? NULL : malloc(size); }
#define malloc counted_malloc
#include <dicomdir_table.h>
#undef malloc

static void print(struct dicomdir_value value) { printf(" %.*s", (int)value.length, value.text); }

static void print_table(const uint8_t *bytes, size_t length) {
    static const uint32_t tags[] = {0x00041430, 0x00041500};
    struct dicomdir_table table;
    struct dicomdir_answer answer;
    if (dicomdir_read_table(bytes, length, tags, 2, &table, &answer)) exit(1);
    for (size_t row = 0; row < table.rows; row++) {
        printf("%u %u", table.row[row].level, table.row[row].at);
        print(dicomdir_value(&table, row, 0));
        print(dicomdir_value(&table, row, 1));
        puts("");
    }
    dicomdir_free_table(&table);
    dicomdir_free_table(&table);
    /* No tags, and no directory. */
    if (dicomdir_read_table(bytes, length, tags, 0, &table, &answer) || !table.rows) exit(1);
    dicomdir_free_table(&table);
    if (dicomdir_read_table(bytes, 100, tags, 2, &table, &answer) != 51 || answer.within != 21 || table.row) exit(1);
}

static void print_merge(const uint8_t *bytes, size_t length) {
    const uint64_t ends[2] = {length, 2 * length};
    uint8_t *twice = malloc(2 * length);
    struct dicomdir_made made;
    struct dicomdir_answer answer;
    if (!twice) exit(2);
    memcpy(twice, bytes, length);
    memcpy(twice + length, bytes, length);
    if (dicomdir_make_merged(twice, 2 * length, ends, 2, "M", "1.2.3", &made, &answer)) exit(1);
    for (size_t image = 0; image < made.images; image++) {
        printf("%llu", (unsigned long long)made.sets[image]);
        print(dicomdir_file_id(&made, image));
        puts("");
    }
    dicomdir_free_made(&made);
    dicomdir_free_made(&made);
    if (dicomdir_make_merged(twice, 2 * length, ends, 2, "m", "", &made, &answer) != 72 || made.sets) exit(1);
    if (dicomdir_make_merged(twice, length, ends, 2, "", "", &made, &answer) != DICOMDIR_ARGUMENTS) exit(1);
    free(twice);
}

/* Whether each call is 91 and leaves zeros where one of its three or four allocations is refused. */
static void try_refusals(const uint8_t *bytes, size_t length) {
    const uint32_t tag = 0x00100020;
    const uint64_t end = length;
    struct dicomdir_table table;
    struct dicomdir_made made;
    struct dicomdir_answer answer;
    for (int at = 1; at <= 3; at++) {
        allocations = 0, refused = at;
        if (dicomdir_read_table(bytes, length, &tag, 1, &table, &answer) != 91 || table.row || table.ends) exit(1);
    }
    for (int at = 1; at <= 4; at++) {
        allocations = 0, refused = at;
        if (dicomdir_make_merged(bytes, length, &end, 1, "", "", &made, &answer) != 91 || made.sets) exit(1);
    }
    refused = 0;
    if (dicomdir_room(SIZE_MAX, 8) || dicomdir_room(SIZE_MAX, 1)) exit(1);
}

int main(int count, char **words) {
    static uint8_t bytes[1 << 20];
    FILE *file = count == 2 ? fopen(words[1], "rb") : NULL;
    if (!file) return 2;
    size_t length = fread(bytes, 1, sizeof bytes, file);
    fclose(file);
    print_table(bytes, length);
    print_merge(bytes, length);
    try_refusals(bytes, length);
    return 0;
}
