/* Asks the system for long runs of a mapped file at once. A file is mapped for access
 * at random (files.h), so each page is fetched by itself when it is looked at: that is
 * 1,954 requests for the offsets and byte counts of 1,000,000 strips. Asked for at once
 * the same pages came in 17, in a tenth of the time (docs/SPEED.md).
 *
 * No page is asked for that holds no byte of the reading list: where rules 1 to 7 are
 * kept, the values of the table's tags are on it, whatever the verdict. Whether they are
 * kept is looked for here, rule by rule, and only at what is on the list so far; where it
 * is not sure, nothing is asked for. Nothing of a mask is, since it is on the list only
 * where the image keeps all rules. This is a hint and judges nothing: a wrong one would
 * cost time, and change no answer. */
#ifndef HOST_AHEAD_H
#define HOST_AHEAD_H

#include <stdint.h>
#include "files.h"

enum {
    PAGE = 4096, /* of x86-64. A longer value has several, and to ask pays from two on */
    AT_ONCE = 131072, /* bytes of one call: of more Linux may fetch the beginning alone */
    MOST_ASKED = 4000000 /* bytes of one value, 1,000,000 LONGs: where 27 or 9 to 12 refuses
                          * a file, it was fetched and is not read */
};

/* A file, and whether the highest byte of its numbers comes first. */
struct numbers {
    const uint8_t *bytes;
    uint64_t len;
    int is_big;
};

/* The number of so many bytes at a place. */
static inline uint64_t number_at(const struct numbers *in, uint64_t at, int width) {
    uint64_t number = 0;
    for (int i = 0; i < width; i++)
        number = number << 8 | in->bytes[at + (uint64_t)(in->is_big ? i : width - 1 - i)];
    return number;
}

/* The length of an entry's value; 0 also for one of a type that is not known. */
static inline uint64_t value_length(const struct numbers *in, uint64_t entry) {
    static const uint8_t sizes[] = {0, 1, 1, 2, 4, 8, 1, 1, 2, 4, 8, 4, 8};
    uint64_t type = number_at(in, entry + 2, 2);
    return type < sizeof sizes ? sizes[type] * number_at(in, entry + 4, 4) : 0;
}

/* Whether the value of an entry surely keeps rule 7. */
static inline int is_placed(const struct numbers *in, uint64_t entry) {
    uint64_t length = value_length(in, entry), first = number_at(in, entry + 8, 4);
    if (length <= 4) return length > 0;
    return first % 2 == 0 && first >= 8 && first + length <= in->len;
}

/* Whether the entries surely keep rules 6 and 7. */
static inline int are_placed(const struct numbers *in, uint64_t first, uint64_t end) {
    enum { METADATA = 50909 }; /* may stand more than once */
    uint64_t before = 0, tag;
    for (uint64_t entry = first; entry < end; entry += 12, before = tag) {
        tag = number_at(in, entry, 2);
        if (tag < before || (tag == before && tag != METADATA)) return 0;
        if (!is_placed(in, entry)) return 0;
    }
    return 1;
}

/* Finds the entries of the image's directory: where the first one starts and the last
 * one ends. Answers whether rules 1 to 7 are surely kept. */
static inline int find_entries(struct numbers *in, uint64_t *first, uint64_t *end) {
    if (in->len < 8 || in->len >> 32 > 0) return 0;
    in->is_big = memcmp(in->bytes, "MM\0*", 4) == 0;
    if (!in->is_big && memcmp(in->bytes, "II*\0", 4) != 0) return 0;
    uint64_t at = number_at(in, 4, 4);
    if (at % 2 != 0 || at < 8 || at + 2 > in->len) return 0;
    uint64_t count = number_at(in, at, 2);
    if (count < 1 || count > 1024 || at + 2 + 12 * count + 4 > in->len) return 0;
    *first = at + 2;
    *end = at + 2 + 12 * count;
    return are_placed(in, *first, *end);
}

/* Whether an entry is of offsets or byte counts, of type SHORT or LONG. */
static inline int tells_places(const struct numbers *in, uint64_t entry) {
    uint64_t tag = number_at(in, entry, 2), type = number_at(in, entry + 2, 2);
    return (tag == 273 || tag == 279 || tag == 324 || tag == 325) && (type == 3 || type == 4);
}

/* Asks for the pages of a run of the file. */
static inline void ask_for(const struct whole *file, uint64_t at, uint64_t length) {
    size_t first = (size_t)((char *)file->bytes - (char *)file->map) + at;
    size_t end = first + (length < MOST_ASKED ? length : MOST_ASKED);
    for (first -= first % PAGE; first < end; first += AT_ONCE)
        posix_madvise((char *)file->map + first, end - first < AT_ONCE ? end - first : AT_ONCE,
                      POSIX_MADV_WILLNEED);
}

/* Asks for the offsets and byte counts of the strips or tiles, where there are many, of
 * a file that is mapped: all of a stream is in memory. It reads the file, as the judge
 * does, so bytes that cannot be read come as a signal here too. */
static inline void ask_ahead(const struct whole *file) {
    struct numbers in = {file->bytes, file->len, 0};
    uint64_t entry, end;
    if (file->fd < 0 || !find_entries(&in, &entry, &end)) return;
    for (; entry < end; entry += 12) {
        uint64_t length = value_length(&in, entry);
        if (length > PAGE && tells_places(&in, entry))
            ask_for(file, number_at(&in, entry + 8, 4), length);
    }
}

#endif
