/* Calls every function of include/phd.h: reads the dump on standard input into buffers of the largest size that it can need, with
 * class summaries, with a list of them that is too short by one, and without them; and writes it again and as text, each into a
 * buffer of exactly the size that a size query returned. Prints the answer of each call, the class summaries and the text. */
#include <phd.h>
#include <stdio.h>

enum { CAPACITY = 1 << 16 };

static uint8_t dump[CAPACITY], copy[CAPACITY], text[CAPACITY];
static uint64_t rows[CAPACITY], refs[CAPACITY], answer[16];
static struct phd_class classes[CAPACITY];

static void print_answer(const char *call, uint64_t reply) {
    printf("%s %d", call, (int)reply);
    for (int i = 0; i < 16; i++)
        printf(" %llu", (unsigned long long)answer[i]);
    printf("\n");
}

static void print_max(size_t size) {
    size_t max_rows = PHD_MAX_ROWS(size), max_refs = PHD_MAX_REFS(size);
    printf("max of %d: %d %d\n", (int)size, (int)max_rows, (int)max_refs);
}

static void print_classes(void) {
    for (size_t i = 0; i < answer[PHD_CLASSES]; i++) {
        const struct phd_class *c = &classes[i];
        uint64_t numbers[] = {c->word, c->mark, c->instances, c->bytes, c->refs, c->waiting};
        printf("%s", c->mark == PHD_CLASS_WORD ? "class" : "type");
        for (int at = 0; at < 6; at++)
            printf(" %llu", (unsigned long long)numbers[at]);
        printf("\n");
    }
}

int main(void) {
    size_t size = fread(dump, 1, CAPACITY, stdin);
    for (size_t n = 30; n < 36; n++)
        print_max(n);
    print_max(size);
    size_t max_numbers = PHD_MAX_ROWS(size) * PHD_ROW_LEN, max_refs = PHD_MAX_REFS(size);
    if (max_numbers > CAPACITY || max_refs > CAPACITY)
        return 5;
    uint64_t reply = phd_read(dump, size, rows, max_numbers, refs, max_refs, classes, PHD_MAX_ROWS(size), answer);
    print_answer("read", reply);
    print_classes();
    size_t too_few = answer[PHD_CLASSES] - 1;
    reply = phd_read(dump, size, rows, max_numbers, refs, max_refs, classes, too_few, answer);
    print_answer("read with a short list", reply);
    print_classes();
    if (reply != PHD_NO_ENTRY || answer[PHD_CLASSES] != too_few)
        return 6;
    reply = phd_read_tables(dump, size, rows, max_numbers, refs, max_refs, answer);
    print_answer("read tables", reply);
    if (answer[PHD_CLASSES] != 0)
        return 7;
    if (reply != PHD_DONE && reply != PHD_CUT)
        return 1;
    if ((reply == PHD_CUT) != (answer[PHD_MISSING] != 0))
        return 2;
    uint64_t header[PHD_HEADER_LEN];
    for (int i = 0; i < PHD_HEADER_LEN; i++)
        header[i] = answer[PHD_BITS + i];
    size_t rows_len = answer[PHD_ROWS] * PHD_ROW_LEN;
    size_t refs_len = answer[PHD_REFS];
    for (size_t i = 0; i < rows_len; i += PHD_ROW_LEN)
        printf("row at %llu\n", (unsigned long long)rows[i + PHD_OFFSET]);
    print_answer("write size", phd_write_size(header, rows, rows_len, refs, refs_len, dump, size, answer));
    if (answer[PHD_REPLY] != PHD_DONE || answer[PHD_PLACE] > CAPACITY)
        return 3;
    print_answer("write", phd_write(header, rows, rows_len, refs, refs_len, dump, size, copy, answer[PHD_PLACE], answer));
    print_answer("text size", phd_text_size(header, rows, rows_len, refs, refs_len, dump, size, answer));
    if (answer[PHD_REPLY] != PHD_DONE || answer[PHD_PLACE] > CAPACITY)
        return 4;
    print_answer("text", phd_text(header, rows, rows_len, refs, refs_len, dump, size, text, answer[PHD_PLACE], answer));
    fwrite(text, 1, answer[PHD_PLACE], stdout);
    return 0;
}
