/* petalbuzz: the judge of delivered GeoTIFF files, for C and C++ (C99 or C++11,
 * or later).
 *
 * A file is lent as one run of bytes. The judge only reads it, keeps nothing
 * of it and allocates nothing; all memory stays the caller's. A call may run
 * in any thread, on any bytes of any length, and always ends.
 *
 * Every function here asks two things of its caller. Memory lent for writing
 * overlaps nothing else that is lent. And nobody else writes or cuts what is
 * lent while the call runs: otherwise nothing here holds, the answers may be of
 * no state of the file, and a call on a mapped file that is cut ends in SIGBUS.
 *
 * Every call gives two numbers. The verdict is 0 for an accepted file, else
 * the number of the first broken rule. The place says where, as the rule has
 * it. Rules 1 to 7, then 27, then 9 to 22, then 28, which is of a transparency
 * mask, are the same in every call on a file; 23 to 26 and 29 come after all of
 * them and are told where a call has them. With any verdict but 0 all other
 * numbers are 0 and memory lent for writing keeps its bytes.
 *
 * A file may hold a mask: the directory of the image, at the offset in bytes 4
 * to 7, ends in a next offset, and where that is not 0 the directory of the mask
 * stands there. What a call answers is of the image, with a mask or without. The
 * mask keeps rules 4 to 8, 27 and 9 to 14 for itself, by a table of its own; 8 is
 * of the mask alone. A verdict depends on the length and on the reading list:
 * bytes 0 to 7, both directories and the values of their tables' tags, as far as
 * the rules were kept; with 1 to 22 or 27 nothing of the mask is on it. In an
 * accepted file no byte of either picture is.
 *
 * Map a file with the advice that access is random, as host/example.c does: else
 * the system reads ahead, and pages that hold only picture come off the card and
 * into memory. host/ahead.h shows how the long runs of many strips or tiles can
 * then be asked for at once, and nothing else.
 *
 * The functions named *_file or *_runs answer a struct: a host calls these.
 * Each of their pointers may be null, whatever length stands beside it: a null
 * run is an empty run, and null for memory to be written is no room. The plain
 * functions are the symbols of the library, with its own conditions on
 * pointers.
 *
 * Link with libpetalbuzz.a (x86-64, with the instructions of x86-64-v2); it needs
 * no other library. Take this header and the library from one commit, and compile
 * the host anew with them: a later one may have longer structs. */
#ifndef PETALBUZZ_H
#define PETALBUZZ_H

#include <stddef.h>
#include <stdint.h>

#ifdef __cplusplus
extern "C" {
#endif

/* Bytes of stack that a call takes at most, the frame of a *_file or *_runs
 * function included: measured. It does not depend on the length of the file. */
#define PETALBUZZ_STACK 4096

/* The verdicts: what is wrong, and behind a colon what the place is, the first
 * one of several; without a colon the place is 0. A piece is a strip or a tile,
 * counted from 0; outside is below byte 8 or past the end of the file. 4 to 14
 * and 27 are also the places of PETALBUZZ_MASK, and 8 is nothing else. */
enum petalbuzz_verdict {
    PETALBUZZ_ACCEPTED = 0,
    PETALBUZZ_FILE_LENGTH = 1,      /* below 8 or above 4,294,967,295 bytes */
    PETALBUZZ_BYTE_ORDER = 2,       /* bytes 0-1 are neither "II" nor "MM" */
    PETALBUZZ_NOT_42 = 3,           /* bytes 2-3 are not the number 42 */
    PETALBUZZ_DIRECTORY_OFFSET = 4, /* the directory starts odd or outside */
    PETALBUZZ_DIRECTORY_COUNT = 5,  /* it has 0 or over 1,024 entries, or ends outside */
    PETALBUZZ_TAG_ORDER = 6,        /* a tag is smaller than the one before, or equal and not
                                     * 50909: the later tag */
    PETALBUZZ_TAG_VALUE_PLACE = 7,  /* a value is empty, starts odd or lies outside: its tag */
    PETALBUZZ_NEXT_OFFSET = 8,      /* no verdict: behind the mask another directory is said to
                                     * follow */
    PETALBUZZ_TAG_ABSENT = 9,       /* a needed tag is absent: the tag */
    PETALBUZZ_TAG_FORM = 10,        /* a tag has another type or count: the tag */
    PETALBUZZ_TAG_VALUE = 11,       /* a tag's value is not allowed: the tag */
    PETALBUZZ_TAGS_DISAGREE = 12,   /* a tag does not fit the others: the tag */
    PETALBUZZ_PIECE_PLACE = 13,     /* a piece is empty or lies outside: its index */
    PETALBUZZ_PIECE_ON_LIST = 14,   /* a piece shares a byte with what the judge reads: its index;
                                     * as a place of 28 a piece of either picture */
    PETALBUZZ_KEY_HEADER = 15,      /* the key directory's first four numbers are absent or wrong */
    PETALBUZZ_KEY_ORDER = 16,       /* a key is not greater than the one before: the later key */
    PETALBUZZ_KEY_FORM = 17,        /* a key's location, count or value index is wrong: the key */
    PETALBUZZ_KEY_ABSENT = 18,      /* a needed key is absent: the key */
    PETALBUZZ_KEY_VALUE = 19,       /* a key's value is not allowed: the key */
    PETALBUZZ_NO_GEOREFERENCE = 20, /* neither scale and tiepoint alone nor a matrix alone */
    PETALBUZZ_GEOREFERENCE = 21,    /* a number of scale, tiepoint or matrix is wrong: its tag */
    PETALBUZZ_CORNER = 22,          /* a corner's coordinate is not finite */
    PETALBUZZ_FEW_ROWS = 23,        /* fewer rows are lent than there are keys: K, their number */
    PETALBUZZ_BLOCK_INDEX = 24,     /* a value's new start index would exceed 65535: its key */
    PETALBUZZ_BLOCK_ROOM = 25,      /* the memory lent is too short: the bytes needed */
    PETALBUZZ_NO_CITATION = 26,     /* the key is absent or no ASCII key: the key asked for */
    PETALBUZZ_FAMILIES = 27,        /* tags of both strips and tiles, or of neither */
    PETALBUZZ_MASK = 28,            /* the transparency mask breaks a rule: that rule's number */
    PETALBUZZ_NO_TEXT = 29,         /* there is no text of that number: the number asked for */
};

/* The kinds of keys. */
enum petalbuzz_kind {
    PETALBUZZ_SHORT = 0,
    PETALBUZZ_DOUBLE = 1,
    PETALBUZZ_ASCII = 2,
    PETALBUZZ_OTHER = 3, /* none of the 45 known keys */
};

/* One key of an accepted file, with the places of its value and of its entry in the
 * key directory, tag 34735. An entry is four numbers of 2 bytes in the file's byte
 * order: key, location, count and value index. */
typedef struct petalbuzz_row {
    uint32_t key;
    uint32_t kind;   /* as petalbuzz_kind has it */
    uint32_t first;  /* the value's first byte in the file */
    uint32_t length; /* in bytes */
    uint32_t entry;  /* the entry's first byte in the file, wherever the value is */
} petalbuzz_row;

/* The symbols of the library. No pointer is null: an empty run has some
 * pointer too, with length 0. Numbers and rows are aligned as C aligns them. */

/* Writes the verdict and the place. */
void petalbuzz_judge(const uint8_t *file, size_t len, uint32_t *verdict, uint32_t *place);

/* Writes the verdict and the place, and where the picture lies on the ground:
 * how column I and row J become X and Y, each operation rounded once, in the
 * order in which it is written here.
 * form 0, scaled: six holds ti, tj, tx, ty, sx, sy.
 *     X = tx + (I - ti) * sx
 *     Y = ty - (J - tj) * sy
 * ti and tj are column and row of the tiepoint in the picture, tx and ty its X
 * and Y on the ground, sx and sy width and height of a pixel there.
 * form 1, affine: six holds m1, m2, m4, m5, m6, m8.
 *     X = (m1 * I + m2 * J) + m4
 *     Y = (m5 * I + m6 * J) + m8
 * corners holds X and Y of the first corner, (I, J) = (0, 0), then X and Y of
 * the second. Where key 1025 is 1, PixelIsArea, that is (width, length), and
 * both are outer corners, of the first and the last pixel; where it is 2,
 * PixelIsPoint, it is (width - 1, length - 1), and both are their centres.
 * With any verdict but 0, form is 0 and all ten doubles are +0. */
void petalbuzz_ground(const uint8_t *file, size_t len, uint32_t *verdict, uint32_t *place,
                      uint32_t *form, double six[6], double corners[4]);

/* Writes the verdict and the place, K, the number of keys, and the first K of
 * the lent rows, in the order of the key directory; the rows behind them keep
 * their content. K is at most 256. Its own verdict: PETALBUZZ_FEW_ROWS. */
void petalbuzz_rows(const uint8_t *file, size_t len, petalbuzz_row *rows, size_t room,
                    uint32_t *verdict, uint32_t *place, uint32_t *keys);

/* Writes the verdict and the place, and the part of the file that holds the
 * text of an ASCII key (1026, 2049, 3073 or 4097), less its final "|". Its own
 * verdict: PETALBUZZ_NO_CITATION. */
void petalbuzz_citation(const uint8_t *file, size_t len, uint32_t key, uint32_t *verdict,
                        uint32_t *place, size_t *start, size_t *length);

/* Writes the verdict and the place, and which part is the metadata text of a
 * number. A file may have several, as tag 50909 may stand more than once. With
 * from 0 the text is a part of the file: text number k is the value of the tag's
 * entry number k, counted from 0 in the order of the directory. With from 1 it
 * is the whole outside text, which serves only where there is no tag 50909 at
 * all, and only as number 0. Its own verdict: PETALBUZZ_NO_TEXT, its place the
 * number asked for. To have all texts, ask for number 0, 1, 2 and so on until
 * the verdict is not 0: of an accepted file it is then PETALBUZZ_NO_TEXT. There
 * are at most 1,013. */
void petalbuzz_metadata(const uint8_t *file, size_t len, const uint8_t *outside, size_t outside_len,
                        uint32_t number, uint32_t *verdict, uint32_t *place, uint32_t *from,
                        size_t *start, size_t *length);

/* Writes the verdict and the place, the key block at the start of out, and
 * the lengths in bytes of its three runs, which stand one behind the other:
 * directory, doubles, characters. The header of the directory has the minor
 * revision that was read in the file. The block has at most 1,441,770 bytes;
 * those behind it stay. Its own verdicts: PETALBUZZ_BLOCK_INDEX, then
 * PETALBUZZ_BLOCK_ROOM. */
void petalbuzz_key_block(const uint8_t *file, size_t len, uint8_t *out, size_t room,
                         uint32_t *verdict, uint32_t *place, size_t lengths[3]);

/* Reads the three runs of a key block without a file: writes the verdict, of
 * rules 15 to 19 alone, the place, K, the number of keys, and the minor revision
 * of the key header, 0 or 1; it is 0 beside any verdict but 0. An empty run of
 * doubles or characters is an absent tag. To have the minor revision of a file,
 * write its key block and read that. */
void petalbuzz_read_block(const uint8_t *directory, size_t directory_len, const uint8_t *doubles,
                          size_t doubles_len, const uint8_t *characters, size_t characters_len,
                          uint32_t *verdict, uint32_t *place, uint32_t *keys, uint32_t *minor);

/* What the *_file and *_runs functions answer. */

typedef struct petalbuzz_judged {
    uint32_t verdict; /* 0: accepted */
    uint32_t place;
} petalbuzz_judged;

typedef struct petalbuzz_grounded {
    uint32_t verdict; /* 0: accepted */
    uint32_t place;
    uint32_t form; /* 0 scaled, 1 affine */
    double six[6];
    double corners[4];
} petalbuzz_grounded;

typedef struct petalbuzz_counted {
    uint32_t verdict; /* 0: accepted */
    uint32_t place;
    uint32_t keys; /* K */
} petalbuzz_counted;

typedef struct petalbuzz_part {
    uint32_t verdict; /* 0: accepted */
    uint32_t place;
    uint32_t from; /* 0 a part of the file, 1 of the outside text */
    size_t start;  /* its first byte there */
    size_t length;
    const uint8_t *text; /* the part itself; never null */
} petalbuzz_part;

typedef struct petalbuzz_block {
    uint32_t verdict; /* 0: accepted */
    uint32_t place;
    size_t lengths[3]; /* in bytes: directory, doubles, characters */
} petalbuzz_block;

typedef struct petalbuzz_block_read {
    uint32_t verdict; /* 0: accepted */
    uint32_t place;
    uint32_t keys;  /* K */
    uint32_t minor; /* the minor revision, 0 or 1 */
} petalbuzz_block_read;

/* The run to lend for a pointer that may be null. */
static inline const uint8_t *petalbuzz_lent(const void *run, size_t *len) {
    static const uint8_t nothing = 0;
    if (run) return (const uint8_t *)run;
    *len = 0;
    return &nothing;
}

/* Judges a file. */
static inline petalbuzz_judged petalbuzz_judge_file(const void *file, size_t len) {
    petalbuzz_judged answer;
    const uint8_t *lent = petalbuzz_lent(file, &len);
    petalbuzz_judge(lent, len, &answer.verdict, &answer.place);
    return answer;
}

/* Judges a file and answers its place on the ground as well. */
static inline petalbuzz_grounded petalbuzz_ground_file(const void *file, size_t len) {
    petalbuzz_grounded answer;
    const uint8_t *lent = petalbuzz_lent(file, &len);
    petalbuzz_ground(lent, len, &answer.verdict, &answer.place, &answer.form, answer.six,
                     answer.corners);
    return answer;
}

/* Judges a file and fills rows of its keys. */
static inline petalbuzz_counted petalbuzz_rows_file(const void *file, size_t len,
                                                    petalbuzz_row *rows, size_t room) {
    petalbuzz_counted answer;
    petalbuzz_row nothing;
    const uint8_t *lent = petalbuzz_lent(file, &len);
    if (!rows) room = 0;
    petalbuzz_rows(lent, len, rows ? rows : &nothing, room, &answer.verdict, &answer.place,
                   &answer.keys);
    return answer;
}

/* Judges a file and answers the text of an ASCII key. */
static inline petalbuzz_part petalbuzz_citation_file(const void *file, size_t len, uint32_t key) {
    petalbuzz_part answer;
    const uint8_t *lent = petalbuzz_lent(file, &len);
    petalbuzz_citation(lent, len, key, &answer.verdict, &answer.place, &answer.start,
                       &answer.length);
    answer.from = 0;
    answer.text = lent + answer.start;
    return answer;
}

/* Judges a file and answers its metadata text of a number, or the outside
 * text. */
static inline petalbuzz_part petalbuzz_metadata_file(const void *file, size_t len,
                                                     const void *outside, size_t outside_len,
                                                     uint32_t number) {
    petalbuzz_part answer;
    const uint8_t *lent = petalbuzz_lent(file, &len);
    const uint8_t *other = petalbuzz_lent(outside, &outside_len);
    petalbuzz_metadata(lent, len, other, outside_len, number, &answer.verdict, &answer.place,
                       &answer.from, &answer.start, &answer.length);
    answer.text = (answer.from == 0 ? lent : other) + answer.start;
    return answer;
}

/* Judges a file and writes its key block. */
static inline petalbuzz_block petalbuzz_key_block_file(const void *file, size_t len, void *out,
                                                       size_t room) {
    petalbuzz_block answer;
    uint8_t nothing;
    const uint8_t *lent = petalbuzz_lent(file, &len);
    if (!out) room = 0;
    petalbuzz_key_block(lent, len, out ? (uint8_t *)out : &nothing, room, &answer.verdict,
                        &answer.place, answer.lengths);
    return answer;
}

/* Judges the three runs of a key block. */
static inline petalbuzz_block_read petalbuzz_read_block_runs(const void *directory,
                                                             size_t directory_len,
                                                             const void *doubles,
                                                             size_t doubles_len,
                                                             const void *characters,
                                                             size_t characters_len) {
    petalbuzz_block_read answer;
    const uint8_t *first = petalbuzz_lent(directory, &directory_len);
    const uint8_t *second = petalbuzz_lent(doubles, &doubles_len);
    const uint8_t *third = petalbuzz_lent(characters, &characters_len);
    petalbuzz_read_block(first, directory_len, second, doubles_len, third, characters_len,
                         &answer.verdict, &answer.place, &answer.keys, &answer.minor);
    return answer;
}

#ifdef __cplusplus
}
#endif

#endif
