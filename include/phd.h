/* Portable heap dumps (PHD) of OpenJ9: reads them into tables, and writes tables as dumps or as classic text.
 *
 * A dump is read into two tables of 64-bit numbers in buffers of the caller: `rows`, with PHD_ROW_LEN numbers for each
 * record, and `refs`, with the references of all records. A row holds the index of its first reference in `refs` and their
 * count. Names are not copied: a row holds the place and the length of its name in the dump. A third buffer, `classes`,
 * gets one summary for each class: how many instances it has, and how many bytes they take. A truncated or damaged dump is
 * read up to the first record that is cut off or not valid.
 *
 * Typical use: read a dump, and print what its classes take. This also prints it as classic text: query the size of the
 * output, and write it. With phd_write_size and phd_write instead of phd_text_size and phd_text it would be a new dump.
 * (Tests of calloc and malloc are left out.)
 *
 *     uint64_t answer[16], header[PHD_HEADER_LEN];
 *     size_t max_rows = PHD_MAX_ROWS(dump_len), rows_len = max_rows * PHD_ROW_LEN, refs_len = PHD_MAX_REFS(dump_len);
 *     uint64_t *rows = calloc(rows_len + 1, sizeof *rows);    // + 1: not null, even for an empty table
 *     uint64_t *refs = calloc(refs_len + 1, sizeof *refs);
 *     struct phd_class *classes = calloc(max_rows + 1, sizeof *classes);
 *     uint64_t reply = phd_read(dump, dump_len, rows, rows_len, refs, refs_len, classes, max_rows, answer);
 *     if (reply != PHD_DONE)
 *         fprintf(stderr, "reply %d at byte %llu\n", (int)reply, (unsigned long long)answer[PHD_PLACE]);
 *     for (size_t i = 0; i < answer[PHD_CLASSES]; i++)
 *         printf("%s 0x%llx: %llu instances, %llu bytes\n", classes[i].mark == PHD_CLASS_WORD ? "class" : "primitive type",
 *                (unsigned long long)classes[i].word, (unsigned long long)classes[i].instances,
 *                (unsigned long long)classes[i].bytes);
 *     if (answer[PHD_BITS] != 0) {    // the header was read, so the records that were read can be written
 *         for (int i = 0; i < PHD_HEADER_LEN; i++)
 *             header[i] = answer[PHD_BITS + i];
 *         rows_len = answer[PHD_ROWS] * PHD_ROW_LEN;
 *         refs_len = answer[PHD_REFS];
 *         if (phd_text_size(header, rows, rows_len, refs, refs_len, dump, dump_len, answer) == PHD_DONE) {
 *             size_t out_len = answer[PHD_PLACE];
 *             uint8_t *out = malloc(out_len);
 *             phd_text(header, rows, rows_len, refs, refs_len, dump, dump_len, out, out_len, answer);
 *             fwrite(out, 1, out_len, stdout);
 *             free(out);
 *         }
 *     }
 *     free(rows);
 *     free(refs);
 *     free(classes);
 *
 * Rules of every function:
 * - It accepts any bytes, numbers and lengths; the caller need not validate anything first. It always returns, allocates
 *   nothing, and stays within the lengths.
 * - It fills all 16 numbers of `answer` (enum phd_answer), whatever the outcome, and returns the first of them, the reply
 *   (enum phd_reply).
 * - A length counts elements, not bytes. A pointer must point to that many elements. It must not be null, even if the
 *   length is 0; then it is not dereferenced.
 * - A buffer that is written to must not overlap any other buffer of the call.
 *
 * docs/FORMAT.md has the format and the rules: 4 Tables, 5 Reading, 6 Writing, 7 Classic text, 8 Replies.
 *
 * Link with crates/phd_c/out/libphd_c.a, which 'rt lib' builds in crates/phd_c (x86-64).
 */
#ifndef PHD_H
#define PHD_H

#include <stddef.h>
#include <stdint.h>

#ifdef __cplusplus
extern "C" {
#endif

/* The numbers of a row, by their place in the row. A number that a kind of record does not use is 0. */
enum phd_row {
    PHD_KIND = 0,         /* 1 class, 2 object, 3 object array, 4 primitive array */
    PHD_ADDRESS = 1,
    PHD_CLASS = 2,        /* the class word: the address of the class, and of a class that of its superclass */
    PHD_HASH_KIND = 3,    /* 0 none, 1 hashed but no hash is stored, 2 a 32-bit hash, 3 a 16-bit hash */
    PHD_HASH = 4,
    PHD_FIRST = 5,        /* the index of the first reference in `refs` */
    PHD_COUNT = 6,        /* how many references the record has; nulls are not stored */
    PHD_SIZE = 7,         /* of an array: its size in 32-bit words; of a class: the size of its instances in bytes */
    PHD_LENGTH = 8,       /* of an array: how many elements it has; of an object array these include its nulls */
    PHD_NAME_PLACE = 9,   /* of a class: where its name is, in the dump or in `names` */
    PHD_NAME_LENGTH = 10, /* of a class: how many bytes its name has */
    PHD_TYPE = 11,        /* of a primitive array: 0 to 7 for boolean, char, float, double, byte, short, int, long */
    PHD_OFFSET = 12,      /* where the tag of the record is in the dump from which it was read; ignored when writing */
    PHD_ROW_LEN           /* how many numbers make a row: 13 */
};

/* A class summary: what the rows of one class have together. There is one entry for each class word of objects and object
 * arrays, which share it, and one for each type of primitive arrays, in order of first use. A class row has no entry of its
 * own. */
struct phd_class {
    uint64_t word;      /* the class word, or the primitive type, 0 to 7 as in PHD_TYPE */
    uint64_t mark;      /* which of the two it is; see enum phd_mark */
    uint64_t instances; /* how many rows have it */
    uint64_t bytes;     /* the bytes of these rows, as in classic text: of an array 4 times its size; of an object the size
                         * in the first class row with its class word as address, or 0 if there is none */
    uint64_t refs;      /* how many references these rows have */
    uint64_t waiting;   /* how many of these rows are objects without such a class row: their bytes are not in `bytes` */
};

/* The marks of class summaries. */
enum phd_mark {
    PHD_CLASS_WORD = 0,
    PHD_PRIMITIVE_TYPE = 1
};

/* The numbers of `answer`, by their place. Numbers that are not used are 0. Every function sets the first two, and only
 * phd_read and phd_read_tables the others. */
enum phd_answer {
    PHD_REPLY = 0,
    PHD_PLACE = 1,       /* the place that the reply is about; see enum phd_reply */
    PHD_ROWS = 2,        /* how many rows were stored */
    PHD_REFS = 3,        /* how many references were stored */
    PHD_BITS = 4,        /* W, the width of addresses: 32 or 64; 0 if the header was not read completely, and then 5 to 9 are
                          * 0 too */
    PHD_ALL_HASHED = 5,  /* 1 if all objects are hashed, otherwise 0 */
    PHD_OPENJ9 = 6,      /* 1 if the dump is from OpenJ9, otherwise 0 */
    PHD_VM_PRESENT = 7,  /* 1 if the header has a VM string, otherwise 0 */
    PHD_VM_PLACE = 8,    /* where the VM string is in the dump */
    PHD_VM_LENGTH = 9,
    PHD_MISSING = 10,    /* of a cut dump: how many more bytes the field needs in which the dump ends. At least that many bytes
                          * of the dump are missing. Otherwise 0 */
    PHD_CLASSES = 11     /* how many entries of `classes` are in use; 0 from phd_read_tables */
};

/* The header to write has six numbers: W (32 or 64), all objects hashed, from OpenJ9, VM string present, and its place and
 * length in `names`. A flag is set if its number is not 0. After a read these are answer[PHD_BITS] to
 * answer[PHD_VM_LENGTH], with the dump as `names`. */
#define PHD_HEADER_LEN 6

/* The replies, each with its place. */
enum phd_reply {
    /* of all functions */
    PHD_DONE = 0,         /* all was read: the place is after the end tag. All was written: how many bytes. A size query: how
                           * many bytes the output has */

    /* of phd_read and phd_read_tables: the place is the tag of the record concerned, or 0 for the header */
    PHD_CUT = 1,          /* the dump is cut off in this record or in the header */
    PHD_OVER_LIMIT = 2,   /* the dump has more than 1,073,741,824 bytes; place 0 */
    PHD_NO_DUMP = 3,      /* it does not begin with the words "portable heap dump"; place 0 */
    PHD_BAD_VERSION = 4,  /* its version is not 6; place 0 */
    PHD_BAD_FLAG = 5,     /* its header has an unknown flag; place 0 */
    PHD_BAD_TAG = 6,      /* a tag is not allowed where it is */
    PHD_BAD_STRING = 7,   /* a name or the VM string has a byte that is not allowed, a class has no name, or there is a
                           * second VM string */
    PHD_OUT_OF_RANGE = 8, /* an address or a reference is outside the memory that W allows */
    PHD_NULL_REF = 9,     /* a reference is null */
    PHD_EMPTY_SLOT = 10,  /* an object names its class by a slot of the class cache that is still empty */
    PHD_HASH_BITS = 11,   /* a record has hash bits although all objects are hashed */
    PHD_BAD_COUNT = 12,   /* a count, a length or the instance size of a class is out of range */
    PHD_NO_ROW = 13,      /* `rows` has no capacity for this record. Read again with a larger table */
    PHD_NO_REFS = 14,     /* `refs` has too little capacity for this record. Read again with a larger table */
    PHD_NO_ENTRY = 20,    /* of phd_read: `classes` has no entry left for this record. Read again with a larger list. Checked
                           * last, after PHD_NO_ROW and PHD_NO_REFS */

    /* of the other functions */
    PHD_BAD_HEADER = 15,  /* the header cannot be written, or there are more than 2^30 rows or references; place 0 */
    PHD_BAD_ROW = 16,     /* a row cannot be written: the place is the first such row, counted from 0 */
    PHD_NO_OUTPUT = 17,   /* `out` is too small, or the dump would have more than 1,073,741,824 bytes; place 0. Of a size
                           * query only the second */
    PHD_NO_CLASS = 18     /* of a text: the class of a row is not among the rows. The place is the first such row, counted
                           * from 0 */
};

/* Compute the most rows, and the most references, that a dump of dump_len bytes can give: its header has at least 31 bytes,
 * a record at least two, and a reference at least one. With a capacity of PHD_MAX_ROWS(dump_len) rows a read never replies
 * PHD_NO_ROW, and with one of PHD_MAX_REFS(dump_len) references never PHD_NO_REFS. An entry of `classes` has at least one
 * row, so with PHD_MAX_ROWS(dump_len) entries it never replies PHD_NO_ENTRY. Few dumps need as much: you may try smaller
 * buffers first, and larger ones after one of these replies. */
#define PHD_MAX_REFS(dump_len) ((dump_len) < 31 ? 0 : (dump_len) - 31)
#define PHD_MAX_ROWS(dump_len) (PHD_MAX_REFS(dump_len) / 2)

/* Reads a dump: stores its rows at the start of `rows`, PHD_ROW_LEN numbers each, its references at the start of `refs`,
 * and their class summaries at the start of `classes`, which has classes_len entries. Whatever the reply, all records
 * before its place are stored completely, the entries in use are the summaries of the rows that are stored, wherever the
 * class rows are among them, and nothing else in the buffers has changed. It takes up to 530,000 bytes of stack, for a table
 * in which it finds entries: a thread that calls it needs at least 640 KiB of it, as for phd_text below. */
uint64_t phd_read(const uint8_t *dump, size_t dump_len, uint64_t *rows, size_t rows_len, uint64_t *refs, size_t refs_len,
                  struct phd_class *classes, size_t classes_len, uint64_t answer[16]);

/* Reads a dump without class summaries. Answer, rows and references are those of phd_read with a list that is never full,
 * but answer[PHD_CLASSES] is 0. */
uint64_t phd_read_tables(const uint8_t *dump, size_t dump_len, uint64_t *rows, size_t rows_len, uint64_t *refs,
                         size_t refs_len, uint64_t answer[16]);

/* Computes how many bytes phd_write would write: reply PHD_DONE, and the place is the size. Everything is checked as by
 * phd_write, so any other reply is also phd_write's, for every `out`. After a size, phd_write replies PHD_DONE with the same
 * place if out_len is at least that size, and PHD_NO_OUTPUT otherwise. A size query is optional: phd_write checks everything
 * itself. */
uint64_t phd_write_size(const uint64_t header[PHD_HEADER_LEN], const uint64_t *rows, size_t rows_len, const uint64_t *refs,
                        size_t refs_len, const uint8_t *names, size_t names_len, uint64_t answer[16]);

/* Computes how many bytes phd_text would write. It relates to phd_text as phd_write_size to phd_write. */
uint64_t phd_text_size(const uint64_t header[PHD_HEADER_LEN], const uint64_t *rows, size_t rows_len, const uint64_t *refs,
                       size_t refs_len, const uint8_t *names, size_t names_len, uint64_t answer[16]);

/* Writes a table of rows with their references as a dump, to the start of `out`. Numbers at the end of `rows` that are too few
 * for a row are ignored. Names are taken from `names`. Only PHD_DONE changes `out`, and then only as many bytes as were
 * written; a refused call changes nothing but `answer`.
 *
 * If a read has read a header (answer[PHD_BITS] is not 0), its tables pass every check: pass answer[PHD_BITS] to
 * answer[PHD_VM_LENGTH] as `header`, the first PHD_ROW_LEN * answer[PHD_ROWS] numbers of `rows`, the first answer[PHD_REFS]
 * of `refs`, and the dump as `names`. Then only PHD_NO_OUTPUT can refuse them, and for a text also PHD_NO_CLASS. */
uint64_t phd_write(const uint64_t header[PHD_HEADER_LEN], const uint64_t *rows, size_t rows_len, const uint64_t *refs,
                   size_t refs_len, const uint8_t *names, size_t names_len, uint8_t *out, size_t out_len, uint64_t answer[16]);

/* Writes a table of rows with their references as classic text, to the start of `out`. All rules of phd_write apply. phd_text
 * and phd_text_size each take up to 600,000 bytes of stack, for a table in which they find classes: a thread that calls them
 * needs at least 640 KiB of it. Where there is less, the system ends the program at the end of the stack, by a signal. */
uint64_t phd_text(const uint64_t header[PHD_HEADER_LEN], const uint64_t *rows, size_t rows_len, const uint64_t *refs,
                  size_t refs_len, const uint8_t *names, size_t names_len, uint8_t *out, size_t out_len, uint64_t answer[16]);

#ifdef __cplusplus
}
#endif

#endif
