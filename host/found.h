/* What petalbuzz tells of a file. Verdict, place, georeference, rows, minor
 * revision, citations and metadata are the library's answers; the value of a key
 * is read at the place that its row names, and judged by nobody. */
#ifndef HOST_FOUND_H
#define HOST_FOUND_H

#include "../include/petalbuzz.h"
#include "files.h"
#include "words.h"

enum { MOST_KEYS = 256, RASTER_TYPE = 1025 };
enum { MOST_TEXTS = 1024 }; /* a directory has no more entries */
enum { DOUBLES = 34736, CHARACTERS = 34737 }; /* locations */

/* The most bytes of a key block: in each of its three parts the last value starts at
 * element 65,535 at most, by 24, and has at most 65,535 elements; they are SHORTs,
 * doubles and characters, of 2, 8 and 1 bytes. */
enum { MOST_VALUE = 65535, MOST_BLOCK = (2 + 8 + 1) * (MOST_VALUE + MOST_VALUE) };

/* Of a file that changes while its block is being written more may be written, behind
 * the room that is lent: at most 65,535 doubles for each key. */
enum { ASTRAY = MOST_KEYS * MOST_VALUE * 8 };

/* A value: numbers of 2 bytes, doubles, or a text, as they stand in the file. */
struct value {
    enum { NUMBERS, REALS, TEXT } form;
    const uint8_t *bytes;
    size_t length; /* in bytes */
    size_t count; /* of its numbers, doubles or characters */
    uint8_t own[8]; /* a short value, which is read once */
    char meaning[MEANING]; /* empty where none is known */
};

struct found {
    petalbuzz_grounded ground;
    char sentence[SENTENCE];
    /* of an accepted file: */
    uint32_t keys;
    petalbuzz_row rows[MOST_KEYS];
    struct value values[MOST_KEYS];
    petalbuzz_block block; /* refused where it cannot be written */
    uint32_t minor; /* the minor revision, where there is a block */
    petalbuzz_part citations[MOST_KEYS]; /* of the keys of kind ASCII */
    uint32_t texts;
    petalbuzz_part metadata[MOST_TEXTS]; /* the metadata texts of the file by their numbers */
    int is_big; /* the byte order */
    uint32_t raster; /* the value of key 1025 */
};

static const char changed[] = "changed while it was judged";

/* The number of 2 bytes at the start of a run, in the file's byte order. */
static uint32_t number_in(const struct found *f, const uint8_t *at) {
    return f->is_big ? at[0] * 256u + at[1] : at[1] * 256u + at[0];
}

/* The double at the start of a run. */
static double double_in(const struct found *f, const uint8_t *at) {
    uint64_t bits = 0;
    double value;
    for (int i = 0; i < 8; i++) bits = bits << 8 | at[f->is_big ? i : 7 - i];
    memcpy(&value, &bits, sizeof value);
    return value;
}

/* A part of the file, or null if it does not lie there: then the file has changed. */
static const uint8_t *part(const struct whole *file, size_t first, size_t length) {
    if (first > file->len || length > file->len - first) return NULL;
    return (const uint8_t *)file->bytes + first;
}

/* The location of a key of kind other, the second number of its entry. Answers null if
 * the file has changed. */
static const uint8_t *location_of(const struct whole *file, const struct found *f,
                                  const petalbuzz_row *row) {
    const uint8_t *entry = part(file, row->entry, 8);
    return entry && number_in(f, entry) == row->key ? entry + 2 : NULL;
}

/* Finds what the value of a row means. Of a key that only some values are allowed
 * for, each of them means something: else the file has changed. */
static int is_meant(struct found *f, uint32_t i) {
    struct value *value = &f->values[i];
    value->meaning[0] = 0;
    if (f->rows[i].kind != PETALBUZZ_SHORT) return 1;
    mean(value->meaning, f->rows[i].key, number_in(f, value->bytes));
    return value->meaning[0] || !find(keys, f->rows[i].key)->says[ALLOWED];
}

/* Finds the value of a row. Answers whether it is there. */
static int find_value(const struct whole *file, struct found *f, uint32_t i) {
    const petalbuzz_row *row = &f->rows[i];
    struct value *value = &f->values[i];
    value->bytes = part(file, row->first, row->length);
    value->length = row->length;
    value->form = row->kind == PETALBUZZ_DOUBLE ? REALS : row->kind == PETALBUZZ_ASCII ? TEXT : NUMBERS;
    if (row->kind == PETALBUZZ_OTHER) {
        const uint8_t *location = location_of(file, f, row);
        if (!location) return 0;
        if (number_in(f, location) == DOUBLES) value->form = REALS;
        if (number_in(f, location) == CHARACTERS) value->form = TEXT;
    }
    value->count = value->length / (value->form == NUMBERS ? 2 : value->form == REALS ? 8 : 1);
    if (!value->bytes || value->count == 0) return 0;
    if (value->length <= sizeof value->own)
        value->bytes = memcpy(value->own, value->bytes, value->length);
    return is_meant(f, i);
}

/* Asks for the text of a key of kind ASCII. Answers whether it is there. */
static int find_citation(const struct whole *file, struct found *f, uint32_t i) {
    petalbuzz_part *text = &f->citations[i];
    *text = petalbuzz_citation_file(file->bytes, file->len, f->rows[i].key);
    f->values[i].bytes = text->text;
    f->values[i].length = f->values[i].count = text->length;
    return text->verdict == 0;
}

/* Asks for the minor revision of the key header: the key block has it, and tells it when
 * it is read back. A file that has no block, by 24, leaves it open. Answers whether the
 * block is of the same keys as the rows. */
static int find_minor(const struct whole *file, struct found *f) {
    static uint8_t out[MOST_BLOCK + ASTRAY];
    f->block = petalbuzz_key_block_file(file->bytes, file->len, out, MOST_BLOCK);
    if (f->block.verdict != 0) return f->block.verdict == PETALBUZZ_BLOCK_INDEX;
    const size_t *len = f->block.lengths;
    const uint8_t *doubles = out + len[0], *characters = doubles + len[1];
    petalbuzz_block_read back =
        petalbuzz_read_block_runs(out, len[0], doubles, len[1], characters, len[2]);
    f->minor = back.minor;
    return back.verdict == 0 && back.keys == f->keys && back.minor < MINORS;
}

/* Asks for every metadata text of the file, by number, until there is none of a number
 * or it is the outside text. Answers whether the file is still accepted. */
static int find_texts(const struct whole *file, struct found *f) {
    for (f->texts = 0; f->texts < MOST_TEXTS; f->texts++) {
        petalbuzz_part *text = &f->metadata[f->texts];
        *text = petalbuzz_metadata_file(file->bytes, file->len, NULL, 0, f->texts);
        if (text->verdict == PETALBUZZ_NO_TEXT || text->from != 0) return 1;
        if (text->verdict != 0) return 0;
    }
    return 0;
}

/* Asks the library all that is told of a file. Answers null, or why the file is
 * not read: a later call disagrees with the first. */
static const char *look(const struct whole *file, struct found *f) {
    f->ground = petalbuzz_ground_file(file->bytes, file->len);
    say(f->sentence, f->ground.verdict, f->ground.place);
    if (f->ground.verdict != 0) return NULL;
    petalbuzz_counted counted = petalbuzz_rows_file(file->bytes, file->len, f->rows, MOST_KEYS);
    if (counted.verdict != 0 || !find_texts(file, f)) return changed;
    f->keys = counted.keys;
    if (!find_minor(file, f)) return changed;
    f->is_big = *(const uint8_t *)file->bytes == 'M';
    f->raster = 0;
    for (uint32_t i = 0; i < f->keys; i++) {
        if (!find_value(file, f, i)) return changed;
        if (f->rows[i].kind == PETALBUZZ_ASCII && !find_citation(file, f, i)) return changed;
        if (f->rows[i].key == RASTER_TYPE) f->raster = number_in(f, f->values[i].bytes);
    }
    return f->raster > 0 ? NULL : changed;
}

#endif
