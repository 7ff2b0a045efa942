/* Prints what is on a disc: cc tree.c $(pkg-config --cflags --libs dicomdir) -o tree && ./tree FOLDER */
#include <dicomdir_table.h>
#include <stdio.h>

enum { NAME, STUDY, MODALITY, FILE_ID, TAGS };
static const uint32_t tags[TAGS] = {0x00100010, 0x00081030, 0x00080060, 0x00041500};
/* What is shown of a record of each kind. */
static const size_t shown[] = {FILE_ID, NAME, STUDY, MODALITY, FILE_ID};

/* All bytes of the DICOMDIR of a folder, or NULL. */
static void *read_directory(const char *folder, size_t *size) {
    char path[4096], *bytes = NULL, *more;
    size_t room = 0, got = 1;
    *size = 0;
    if ((size_t)snprintf(path, sizeof path, "%s/DICOMDIR", folder) >= sizeof path) return NULL;
    FILE *file = fopen(path, "rb");
    while (file && got && (more = realloc(bytes, room += 1 << 20))) {
        bytes = more;
        *size += got = fread(bytes + *size, 1, room - *size, file);
    }
    if (!file || got || ferror(file)) free(bytes), bytes = NULL;
    if (file) fclose(file);
    return bytes;
}

static void print_value(struct dicomdir_value value) {
    for (size_t at = 0; at < value.length; at++) {
        unsigned char byte = (unsigned char)value.text[at];
        putchar(byte == '\\' ? '/' : byte < 0x20 || byte == 0x7F ? '?' : byte);
    }
}

int main(int argc, char **argv) {
    struct dicomdir_table table;
    struct dicomdir_answer answer;
    size_t size;
    void *bytes = argc == 2 ? read_directory(argv[1], &size) : NULL;
    if (!bytes) return fputs("tree: no DICOMDIR could be read\n", stderr), 2;
    uint32_t fault = dicomdir_read_table(bytes, size, tags, TAGS, &table, &answer);
    free(bytes);
    if (fault) return fprintf(stderr, "tree: fault %u %u %u at %u\n", fault, answer.within, answer.cause, answer.at), 1;
    for (size_t row = 0; row < table.rows; row++) {
        printf("%*s", 2 * (int)table.row[row].level, "");
        print_value(dicomdir_value(&table, row, shown[table.row[row].kind]));
        puts(table.row[row].in_use ? "" : " (not in use)");
    }
    dicomdir_free_table(&table);
    return 0;
}
