/* calls I J: asks every call of petalbuzz.h about the file on standard input
 * and prints the answers; then again with a null pointer in each place of a run
 * or of room, with a length beside it that must not count. I and J are column
 * and row of the second corner. A corner that is not where the header says, a
 * name that has not its number, and a lent run that has changed get a line of
 * their own. It is C and C++ alike. */
#include "../include/petalbuzz.h"
#include <stdio.h>
#include <stdlib.h>
#include <string.h>
#include <unistd.h>

enum { ROWS = 257, UNTOUCHED = 0x77 };

static uint8_t file[1 << 16], as_read[sizeof file], out[1 << 16];
static char outside[] = "outside";
static size_t len;
static petalbuzz_row rows[ROWS];

/* The names of the verdicts and of the kinds, in the order of their numbers. */
static const uint32_t verdicts[] = {
    PETALBUZZ_ACCEPTED, PETALBUZZ_FILE_LENGTH, PETALBUZZ_BYTE_ORDER, PETALBUZZ_NOT_42,
    PETALBUZZ_DIRECTORY_OFFSET, PETALBUZZ_DIRECTORY_COUNT, PETALBUZZ_TAG_ORDER,
    PETALBUZZ_TAG_VALUE_PLACE, PETALBUZZ_NEXT_OFFSET, PETALBUZZ_TAG_ABSENT, PETALBUZZ_TAG_FORM,
    PETALBUZZ_TAG_VALUE, PETALBUZZ_TAGS_DISAGREE, PETALBUZZ_PIECE_PLACE, PETALBUZZ_PIECE_ON_LIST,
    PETALBUZZ_KEY_HEADER, PETALBUZZ_KEY_ORDER, PETALBUZZ_KEY_FORM, PETALBUZZ_KEY_ABSENT,
    PETALBUZZ_KEY_VALUE, PETALBUZZ_NO_GEOREFERENCE, PETALBUZZ_GEOREFERENCE, PETALBUZZ_CORNER,
    PETALBUZZ_FEW_ROWS, PETALBUZZ_BLOCK_INDEX, PETALBUZZ_BLOCK_ROOM, PETALBUZZ_NO_CITATION,
    PETALBUZZ_FAMILIES, PETALBUZZ_MASK, PETALBUZZ_NO_TEXT,
};
static const uint32_t kinds[] = {
    PETALBUZZ_SHORT, PETALBUZZ_DOUBLE, PETALBUZZ_ASCII, PETALBUZZ_OTHER,
};

static void check_names(const uint32_t *named, size_t n) {
    for (size_t i = 0; i < n; i++)
        if (named[i] != i) printf("name %zu has the number %u\n", i, named[i]);
}

static void print_part(const char *what, petalbuzz_part a) {
    printf("%s %u %u from %u at %zu '%.*s'\n", what, a.verdict, a.place, a.from, a.start,
           (int)a.length, (const char *)a.text);
}

static void print_read(const char *what, petalbuzz_block_read a) {
    printf("%s %u %u keys %u minor %u\n", what, a.verdict, a.place, a.keys, a.minor);
}

/* Column i and row j on the ground, as the header has it, against x and y. */
static void check_corner(const petalbuzz_grounded *a, double i, double j, const double *xy) {
    const double *n = a->six;
    double x = a->form == 0 ? n[2] + (i - n[0]) * n[4] : (n[0] * i + n[1] * j) + n[2];
    double y = a->form == 0 ? n[3] - (j - n[1]) * n[5] : (n[3] * i + n[4] * j) + n[5];
    if (x != xy[0] || y != xy[1]) printf("%.1f %.1f is at %.1f %.1f, no corner\n", i, j, x, y);
}

static petalbuzz_grounded ask_ground(const void *from) {
    petalbuzz_judged a = petalbuzz_judge_file(from, len);
    petalbuzz_grounded b = petalbuzz_ground_file(from, len);
    printf("judge %u %u\nground %u %u form %u", a.verdict, a.place, b.verdict, b.place, b.form);
    for (int i = 0; i < 6; i++) printf(" %.1f", b.six[i]);
    printf(" corners");
    for (int i = 0; i < 4; i++) printf(" %.1f", b.corners[i]);
    printf("\n");
    return b;
}

/* Prints the rows up to the last one that the call has changed. */
static void ask_rows(const void *from, petalbuzz_row *to, size_t room) {
    size_t end = 0;
    memset(rows, UNTOUCHED, sizeof rows);
    petalbuzz_counted a = petalbuzz_rows_file(from, len, to, room);
    printf("rows %u %u keys %u\n", a.verdict, a.place, a.keys);
    for (size_t i = 0; i < sizeof rows; i++)
        if (((const uint8_t *)rows)[i] != UNTOUCHED) end = i / sizeof rows[0] + 1;
    for (size_t i = 0; i < end; i++)
        printf("  %u %u %u %u %u\n", rows[i].key, rows[i].kind, rows[i].first, rows[i].length,
               rows[i].entry);
}

/* Prints how many bytes the call has changed, up to the last one. */
static petalbuzz_block ask_block(const void *from, uint8_t *to, size_t room) {
    size_t end = 0;
    memset(out, UNTOUCHED, sizeof out);
    petalbuzz_block a = petalbuzz_key_block_file(from, len, to, room);
    for (size_t i = 0; i < sizeof out; i++)
        if (out[i] != UNTOUCHED) end = i + 1;
    printf("block %u %u lengths %zu %zu %zu written %zu\n", a.verdict, a.place, a.lengths[0],
           a.lengths[1], a.lengths[2], end);
    return a;
}

/* Writes the block and reads it back, without one of its runs too; then
 * writes it with just enough room, with one byte less and with none. */
static void ask_blocks(void) {
    petalbuzz_block a = ask_block(file, out, sizeof out);
    size_t one = a.lengths[0], two = a.lengths[1], three = a.lengths[2];
    size_t needed = one + two + three;
    const uint8_t *second = out + one, *third = second + two;
    print_read("back", petalbuzz_read_block_runs(out, one, second, two, third, three));
    print_read("no directory", petalbuzz_read_block_runs(0, one, second, two, third, three));
    print_read("no doubles", petalbuzz_read_block_runs(out, one, 0, 99, third, three));
    print_read("no characters", petalbuzz_read_block_runs(out, one, second, two, 0, 99));
    print_read("no runs", petalbuzz_read_block_runs(0, one, 0, 99, 0, 99));
    ask_block(file, out, needed);
    ask_block(file, out, needed > 0 ? needed - 1 : 0);
    ask_block(file, 0, sizeof out);
}

/* The metadata texts of some numbers, beside a run of 7 bytes or none. */
static void ask_metadata(const char *beside) {
    static const uint32_t numbers[] = {0, 1, 2, 3, 4294967295};
    for (size_t i = 0; i < sizeof numbers / sizeof numbers[0]; i++)
        print_part("metadata", petalbuzz_metadata_file(file, len, beside, 7, numbers[i]));
}

static void ask_texts(void) {
    static const uint32_t keys[] = {1024, 1026, 2049, 3073, 4097, 65536 + 1026};
    for (size_t i = 0; i < sizeof keys / sizeof keys[0]; i++)
        print_part("citation", petalbuzz_citation_file(file, len, keys[i]));
    ask_metadata(outside);
    ask_metadata(0);
}

/* Every call on a null pointer for the file: an empty file. */
static void ask_nothing(void) {
    ask_ground(0);
    ask_rows(0, rows, ROWS);
    print_part("citation", petalbuzz_citation_file(0, len, 1026));
    print_part("metadata", petalbuzz_metadata_file(0, len, outside, 7, 0));
    print_part("metadata", petalbuzz_metadata_file(0, len, outside, 7, 1));
    print_part("metadata", petalbuzz_metadata_file(0, len, 0, 7, 0));
    ask_block(0, out, sizeof out);
}

int main(int argc, char **argv) {
    ssize_t n = read(0, file, sizeof file);
    if (n < 0 || argc != 3) return 2;
    len = (size_t)n;
    memcpy(as_read, file, sizeof file);
    check_names(verdicts, sizeof verdicts / sizeof verdicts[0]);
    check_names(kinds, sizeof kinds / sizeof kinds[0]);
    petalbuzz_grounded a = ask_ground(file);
    check_corner(&a, 0, 0, a.corners);
    check_corner(&a, strtod(argv[1], 0), strtod(argv[2], 0), a.corners + 2);
    ask_rows(file, rows, ROWS);
    ask_rows(file, rows, 2);
    ask_rows(file, 0, ROWS);
    ask_texts();
    ask_blocks();
    ask_nothing();
    if (memcmp(file, as_read, sizeof file) != 0) printf("the file has changed\n");
    if (strcmp(outside, "outside") != 0) printf("the outside text has changed\n");
    return 0;
}
