/* dicomdir: proved functions over the bytes of DICOMDIRs and DICOM image files (PS3.3 Annex F, PS3.10).
 *
 * What they have in common
 *
 * - They open no file and keep nothing between calls. There is no handle, and nothing to free.
 * - A table of items is a pointer and the number of its items. The caller owns all memory. No pointer is NULL, also
 *   where its number is 0. Outputs, *answer and inputs do not overlap, and nobody writes to an input meanwhile.
 * - The result is a status:
 *     0            the work is done, and *answer has the sizes of the outputs;
 *     1            no room: *answer has the sizes that are needed. Call again with these;
 *     2            arguments at fault, as the function says;
 *     31 and more  the fault of this number in docs/FAULTS.md.
 *   Where the status is not 0, nothing but *answer is written.
 * - Any number of calls may run at once, each with outputs of its own.
 *
 * Each function says how many items an output has at most, by the lengths of its inputs. Room for these always
 * suffices, so that no call answers 1. It may be large, but takes memory only where it is written. To ask for the
 * sizes first, with rooms of 0 items, is to have the work done twice. dicomdir_table.h makes a table and a merge so.
 * docs/EMBEDDING.md says what a caller must keep, and what is proved. */
#ifndef DICOMDIR_H
#define DICOMDIR_H

#include <stddef.h>
#include <stdint.h>

#ifdef __cplusplus
extern "C" {
#endif

/* What dicomdir_interface() answers. It rises with each function that is added; one that is gone, or does something
 * else, gives the library another name. */
#define DICOMDIR_INTERFACE 2

/* Statuses that no fault of docs/FAULTS.md has. */
enum { DICOMDIR_DONE = 0, DICOMDIR_NO_ROOM = 1, DICOMDIR_ARGUMENTS = 2 };

/* What a call answers beside its outputs. Whatever does not apply is 0. */
struct dicomdir_answer {
    uint64_t text;   /* how many bytes of text there are */
    uint64_t rows;   /* how many rows; of a merge, images; of the front, values; of findings, files; of spellings,
                        names */
    uint64_t files;  /* of a merge or a withdrawal: how many bytes all File IDs have; of notes, how many texts */
    uint64_t source; /* the number of the input at fault, from 0 */
    uint32_t fault;  /* the status again, where it is 2 or more */
    uint32_t within; /* the fault that is its cause: 21 to 27 */
    uint32_t cause;  /* the cause of that: 1 to 10 */
    uint32_t at;     /* the offset of the record at fault */
    uint32_t tag;    /* the tag at fault, as 0x00100020 for (0010,0020) */
};

/* The type of a record (0004,1430). */
enum { DICOMDIR_OTHER, DICOMDIR_PATIENT, DICOMDIR_STUDY, DICOMDIR_SERIES, DICOMDIR_IMAGE };

/* A record. */
struct dicomdir_row {
    uint32_t at;     /* where it starts: the offset of its Item tag from the first byte of the directory */
    uint32_t level;  /* how many records stand above it */
    uint32_t kind;   /* DICOMDIR_PATIENT to DICOMDIR_IMAGE, or DICOMDIR_OTHER */
    uint32_t in_use; /* 1 or 0 (0004,1410) */
};

/* What is given of the file of a record. */
enum { DICOMDIR_ABSENT, DICOMDIR_UNREADABLE, DICOMDIR_WHOLE, DICOMDIR_DIGEST, DICOMDIR_HEAD };

struct dicomdir_file {
    uint64_t row;   /* the number of the record among the rows of dicomdir_rows, from 0 */
    uint64_t end;   /* where what is given of it ends in `contents`, and what is given of the next file begins */
    uint32_t given; /* DICOMDIR_ABSENT: it could not be opened. DICOMDIR_UNREADABLE: a read failed. DICOMDIR_WHOLE:
                       all its bytes. DICOMDIR_DIGEST: the 32 bytes of its SHA-256. DICOMDIR_HEAD: these 32 bytes, and
                       then its head */
};

/* What is found of a file: the findings of `dicomdir check` in docs/FAULTS.md. */
enum {
    DICOMDIR_NOTHING,
    DICOMDIR_BADID,
    DICOMDIR_MISSING,
    DICOMDIR_NOT_READ,
    DICOMDIR_DIFFERS,
    DICOMDIR_MISLABELLED,
    DICOMDIR_NOT_DICOM,
    DICOMDIR_NODIGEST
};

struct dicomdir_finding {
    uint32_t kind;   /* DICOMDIR_NOTHING to DICOMDIR_NODIGEST. DICOMDIR_NOT_READ is the finding UNREADABLE, and
                        DICOMDIR_NOT_DICOM is MISLABELLED by the fault 31 */
    uint32_t tag;    /* of DICOMDIR_MISLABELLED the tag; of DICOMDIR_NOT_DICOM the tag of faults 23 and 24; else 0 */
    uint32_t within; /* of DICOMDIR_NOT_DICOM: 21 to 27 */
    uint32_t cause;  /* of DICOMDIR_NOT_DICOM: 1 to 10, or 0 */
};

/* What a merge notes: the lines NOTE of `dicomdir index`. */
enum { DICOMDIR_LEFT_OUT = 1, DICOMDIR_NAMES };

struct dicomdir_note {
    uint64_t kind;  /* DICOMDIR_LEFT_OUT: a file is left out, since other bytes are kept of its instance. It has three
                       texts: its File ID, the File ID of the kept file, and the SOP Instance UID of both.
                       DICOMDIR_NAMES: a Patient ID has several Patient's Names. It has the Patient ID and these names
                       as texts */
    uint64_t set;   /* of DICOMDIR_LEFT_OUT the number of the directory with the file, else 0 */
    uint64_t kept;  /* of DICOMDIR_LEFT_OUT the number of the directory with the kept file, else 0 */
    uint64_t names; /* of DICOMDIR_NAMES how many names there are, else 0 */
};

/* The images of the directories of a merge, by what became of them: the line SUM of `dicomdir merge`. */
struct dicomdir_sum {
    uint64_t images;    /* all of them */
    uint64_t kept;      /* those of the new directory, each once */
    uint64_t left_out;  /* those of whose instance other bytes are kept */
    uint64_t repeated;  /* the others: each repeats one that is kept */
    uint64_t withdrawn; /* those whose instance is withdrawn */
};

/* DICOMDIR_INTERFACE of the library. */
uint32_t dicomdir_interface(void);

/* Lists the records: gives the text that `dicomdir list` prints.
 *
 * bytes   a DICOMDIR of any producer
 * out     room for the text: answer->text bytes. At most 12 * bytes_len, as a byte of withdrawn UIDs may have a line
 *         of 12; and 2 * bytes_len where no UID is withdrawn
 *
 * 0, 1, 51 to 58, 91. */
uint32_t dicomdir_list(const uint8_t *bytes, size_t bytes_len, uint8_t *out, size_t out_len,
                       struct dicomdir_answer *answer);

/* Gives a row for each record, depth first, and its values at the tags that are asked for.
 *
 * tags    as 0x00100020, in any order; a tag may stand there twice
 * rows    room for answer->rows rows. At most bytes_len / 52, as no record has fewer bytes
 * ends    room for answer->rows * tags_len numbers, so at most bytes_len / 52 * tags_len. Value t of row r is number
 *         v = r * tags_len + t
 * text    room for answer->text bytes. Value v begins at v ? ends[v - 1] : 0, and ends before ends[v]. It has no
 *         padding, and is in the character set of its record (0008,0005). It is empty where the record has no such
 *         element, or a sequence there. At most bytes_len where no tag stands twice, as values stand in the bytes
 *
 * 0, 1, 51 to 58, 91. */
uint32_t dicomdir_rows(const uint8_t *bytes, size_t bytes_len, const uint32_t *tags, size_t tags_len,
                       struct dicomdir_row *rows, size_t rows_len, uint64_t *ends, size_t ends_len, uint8_t *text,
                       size_t text_len, struct dicomdir_answer *answer);

/* Gives what stands before the records.
 *
 * ends       room for answer->rows numbers, which are 3: where each value ends in `text`. Value 0 is the File-set ID
 *            (0004,1130), value 1 the UID (0002,0003), and value 2 has the withdrawn SOP Instance UIDs, divided by
 *            backslashes. A value that the directory lacks is empty
 * text       room for answer->text bytes. At most bytes_len, as they stand there
 * unreached  how many records no offset reaches; written as the outputs are
 *
 * 0, 1, 51 to 58, 91. */
uint32_t dicomdir_front(const uint8_t *bytes, size_t bytes_len, uint64_t *ends, size_t ends_len, uint8_t *text,
                        size_t text_len, uint64_t *unreached, struct dicomdir_answer *answer);

/* Gives the names under which a system may show a file or folder of a disc (ISO 9660), in the order in which the
 * program looks for them: the first that is there, and is no symbolic link, is taken.
 *
 * name  a part of a File ID
 * ends  room for answer->rows numbers, which are 8: where each name ends in `text`
 * text  room for answer->text bytes, which are 8 * name_len + 12
 *
 * 0, 1, 91. */
uint32_t dicomdir_spellings(const uint8_t *name, size_t name_len, uint64_t *ends, size_t ends_len, uint8_t *text,
                            size_t text_len, struct dicomdir_answer *answer);

/* Finds what `dicomdir check` would find of files, where the caller has read these.
 *
 * A large file need not be in memory. Its head is a DICOM file with its values at (0002,0002), (0002,0003),
 * (0002,0010), (0008,0016), (0008,0018), (0010,0020), (0020,000D) and (0020,000E). Its own bytes before the Pixel Data
 * (7FE0,0010) are one. By SHA-256 and head it has the finding that it has whole.
 *
 * bytes     the DICOMDIR
 * files     the files, each by the number of its record
 * contents  what is given of them, one after the other
 * keys      other than 0: compares these values too, of files that are given whole or with a head (`check --keys`)
 * strict    other than 0: finds records without a digest (`check --strict`)
 * findings  room for as many findings as files, which is answer->rows: findings[i] is of files[i]
 *
 * 0; 1; 51 to 58; 91; 2 where a row is no record, ends do not rise or pass `contents`, or `given` is above
 * DICOMDIR_HEAD. It is 2, too, where a digest has another length than 32 bytes. */
uint32_t dicomdir_findings(const uint8_t *bytes, size_t bytes_len, const struct dicomdir_file *files, size_t files_len,
                           const uint8_t *contents, size_t contents_len, uint32_t keys, uint32_t strict,
                           struct dicomdir_finding *findings, size_t findings_len, struct dicomdir_answer *answer);

/* Gives the directory of one image file: the DICOMDIR that `dicomdir index` makes of it alone, without a File-set ID.
 * Give it to dicomdir_merge, which needs no more of the file.
 *
 * bytes   the whole file
 * out     room for answer->text bytes. At most 16,384, as there are twelve keys of up to 1,024 bytes
 *
 * 0, 1, 31 to 37, 41 to 43, 91. */
uint32_t dicomdir_of_image(const uint8_t *bytes, size_t bytes_len, uint8_t *out, size_t out_len,
                           struct dicomdir_answer *answer);

/* Gives the directory of the images of several directories that this library or the program made. It is the one that
 * `dicomdir merge` makes. Of directories of one image each it is the one that `dicomdir index` makes.
 *
 * bytes      the directories, one after the other
 * ends       where each of them ends
 * id         the File-set ID, up to 16 characters of A to Z, 0 to 9 and _; empty for none
 * uid        the UID of the file-set; empty for the one that follows from the directory
 * out        room for answer->text bytes: the directory. At most bytes_len + bytes_len / 5 + 1024, as a File ID may
 *            become longer
 * sets       room for answer->rows numbers, one for each image in the order of its IMAGE records: the number of the
 *            directory whose file is to be copied, from 0. At most bytes_len / 200, as no such record has fewer bytes
 * file_ends  room for answer->rows numbers, too: where the File ID of that file ends in `files`, as ends in
 *            dicomdir_rows
 * files      room for answer->files bytes: the File IDs in those directories, their parts divided by a backslash. At
 *            most bytes_len / 3, as each has up to 71 bytes
 *
 * 0; 1; 2 where ends do not rise, or pass `bytes`; 72 for `id`, 71 for `uid`; 41 to 43; 51 to 65; 91. With 51 to 65
 * answer->source is the number of the directory. */
uint32_t dicomdir_merge(const uint8_t *bytes, size_t bytes_len, const uint64_t *ends, size_t ends_len,
                        const uint8_t *id, size_t id_len, const uint8_t *uid, size_t uid_len, uint8_t *out,
                        size_t out_len, uint64_t *sets, size_t sets_len, uint64_t *file_ends, size_t file_ends_len,
                        uint8_t *files, size_t files_len, struct dicomdir_answer *answer);

/* Gives what dicomdir_merge of the same directories leaves out, and the Patient IDs with several names.
 *
 * bytes, ends, id, uid  as in dicomdir_merge
 * notes      room for answer->rows notes: files that are left out, as they came, and then Patient IDs, rising. At most
 *            bytes_len / 200, as each is of another record
 * text_ends  room for answer->files numbers: where each text of the notes ends in `text`. At most bytes_len / 60, as
 *            most notes have three
 * text       room for answer->text bytes: the texts of the first note, then those of the next. A name is in the
 *            character set of its file. At most bytes_len
 * sum        how many images there are; written as the outputs are
 *
 * As dicomdir_merge. */
uint32_t dicomdir_notes(const uint8_t *bytes, size_t bytes_len, const uint64_t *ends, size_t ends_len,
                        const uint8_t *id, size_t id_len, const uint8_t *uid, size_t uid_len,
                        struct dicomdir_note *notes, size_t notes_len, uint64_t *text_ends, size_t text_ends_len,
                        uint8_t *text, size_t text_len, struct dicomdir_sum *sum, struct dicomdir_answer *answer);

/* Gives the directory of the images of one directory without some, which it names as withdrawn for good: the one that
 * `dicomdir withdraw` makes.
 *
 * uids      the SOP Instance UIDs to withdraw, one after the other
 * uid_ends  where each of them ends
 *
 * All else is as in dicomdir_merge; each of `sets` is 0, and `out` has at most uids_len + uid_ends_len bytes more.
 *
 * As dicomdir_merge; 2 also for uid_ends; 71 also where a text of `uids` is no UID, and answer->source is its
 * number. */
uint32_t dicomdir_withdraw(const uint8_t *bytes, size_t bytes_len, const uint8_t *uids, size_t uids_len,
                           const uint64_t *uid_ends, size_t uid_ends_len, const uint8_t *id, size_t id_len,
                           const uint8_t *uid, size_t uid_len, uint8_t *out, size_t out_len, uint64_t *sets,
                           size_t sets_len, uint64_t *file_ends, size_t file_ends_len, uint8_t *files,
                           size_t files_len, struct dicomdir_answer *answer);

#ifdef __cplusplus
}
#endif
#endif
