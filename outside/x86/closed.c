/* closed FILE, under valgrind's memcheck: makes every call on each file that
 * the program `lists` wrote to FILE, with every byte closed to reading that is
 * not on its reading list. A read of such a byte, or of one outside the file,
 * is an error that memcheck counts; only errors inside the calls are counted
 * here. */
#include "../../include/petalbuzz.h"
#include <stdio.h>
#include <stdlib.h>
#include <string.h>
#include <valgrind/memcheck.h>

static FILE *in;

/* Reads n bytes; 0 at the end of the file, and stops in the middle of one. */
static int take(void *to, size_t n, int first) {
    size_t got = fread(to, 1, n, in);
    if (got == n) return 1;
    if (got == 0 && first) return 0;
    fprintf(stderr, "closed: the list of files is cut\n");
    exit(2);
}

struct sums {
    unsigned files, closed, errors, wrong;
};

/* The calls on a file: each gives its verdict and place. */

static void judge(const uint8_t *file, size_t len, uint32_t got[2]) {
    petalbuzz_judge(file, len, &got[0], &got[1]);
}

static void ground(const uint8_t *file, size_t len, uint32_t got[2]) {
    uint32_t form;
    double six[6], corners[4];
    petalbuzz_ground(file, len, &got[0], &got[1], &form, six, corners);
}

static void rows(const uint8_t *file, size_t len, uint32_t got[2]) {
    static petalbuzz_row lent[256];
    uint32_t keys;
    petalbuzz_rows(file, len, lent, 256, &got[0], &got[1], &keys);
}

static void citation(const uint8_t *file, size_t len, uint32_t got[2]) {
    size_t start, length;
    petalbuzz_citation(file, len, 1026, &got[0], &got[1], &start, &length);
}

/* The metadata text of that number, with an empty outside text. */
static void text(const uint8_t *file, size_t len, uint32_t number, uint32_t got[2]) {
    uint32_t from;
    size_t start, length;
    petalbuzz_metadata(file, len, file, 0, number, &got[0], &got[1], &from, &start, &length);
}

static void first_text(const uint8_t *file, size_t len, uint32_t got[2]) { text(file, len, 0, got); }

static void second_text(const uint8_t *file, size_t len, uint32_t got[2]) { text(file, len, 1, got); }

static void no_text(const uint8_t *file, size_t len, uint32_t got[2]) { text(file, len, UINT32_MAX, got); }

static void key_block(const uint8_t *file, size_t len, uint32_t got[2]) {
    static uint8_t out[1 << 21];
    size_t lengths[3];
    petalbuzz_key_block(file, len, out, sizeof out, &got[0], &got[1], lengths);
}

static const struct call {
    const char *name;
    void (*ask)(const uint8_t *file, size_t len, uint32_t got[2]);
} calls[] = {
    {"judge", judge},           {"ground", ground},           {"rows", rows},
    {"citation", citation},     {"metadata 0", first_text},   {"metadata 1", second_text},
    {"metadata past", no_text}, {"key_block", key_block},
};

/* Asks one call on the file as it lies there. A verdict from 23 to 26, or 29, is
 * one of the call's own, on an accepted file. */
static void ask(const struct call *call, const uint8_t *file, size_t len, const uint32_t want[2], struct sums *sums) {
    uint32_t got[2] = {99, 99};
    unsigned before = VALGRIND_COUNT_ERRORS;
    call->ask(file, len, got);
    unsigned errors = VALGRIND_COUNT_ERRORS - before;
    int own = want[0] == 0 && ((got[0] > 22 && got[0] < 27) || got[0] == 29);
    if (!own && (got[0] != want[0] || got[1] != want[1])) {
        printf("%s gives verdict %u place %u, not %u %u\n", call->name, got[0], got[1], want[0], want[1]);
        sums->wrong++;
    }
    if (errors) printf("verdict %u place %u, %zu bytes: %u errors in %s\n", want[0], want[1], len, errors, call->name);
    sums->errors += errors;
}

/* Closes a copy of the file, opens its list and makes every call on it. */
static void one(size_t len, const uint32_t want[2], uint32_t parts, struct sums *sums) {
    uint32_t (*list)[2] = calloc(parts + 1, sizeof *list);
    uint8_t *file = malloc(len ? len : 1);
    if (!list || !file) exit(2);
    take(list, parts * sizeof *list, 0);
    if (len) take(file, len, 0);
    VALGRIND_MAKE_MEM_NOACCESS(file, len ? len : 1);
    unsigned open = 0;
    for (uint32_t i = 0; i < parts; i++)
        VALGRIND_MAKE_MEM_DEFINED(file + list[i][0], list[i][1] - list[i][0]);
    for (size_t i = 0; i < len; i++) {
        uint8_t bits;
        open += VALGRIND_GET_VBITS(file + i, &bits, 1) == 1;
    }
    for (size_t i = 0; i < sizeof calls / sizeof calls[0]; i++) ask(&calls[i], file, len, want, sums);
    sums->files++;
    sums->closed += (unsigned)len - open;
    VALGRIND_MAKE_MEM_DEFINED(file, len ? len : 1);
    free(file);
    free(list);
}

static volatile uint8_t kept; /* a read that nothing uses would be left out */

/* Whether a read of a closed byte is seen, as everything here rests on it. */
static int seen(void) {
    volatile uint8_t *byte = malloc(1);
    unsigned before = VALGRIND_COUNT_ERRORS;
    if (!byte) exit(2);
    VALGRIND_MAKE_MEM_NOACCESS(byte, 1);
    kept = *byte;
    return VALGRIND_COUNT_ERRORS == before + 1;
}

int main(int argc, char **argv) {
    struct sums sums = {0, 0, 0, 0};
    uint32_t head[4];
    in = argc == 2 ? fopen(argv[1], "rb") : NULL;
    if (!in || !RUNNING_ON_VALGRIND) {
        fprintf(stderr, "closed FILE, under valgrind\n");
        return 2;
    }
    if (!seen()) {
        fprintf(stderr, "closed: memcheck does not see a read of a closed byte\n");
        return 2;
    }
    while (take(head, sizeof head, 1)) one(head[0], head + 1, head[3], &sums);
    printf("%u files, %u bytes closed: %u errors, %u wrong verdicts\n", sums.files, sums.closed, sums.errors,
           sums.wrong);
    return sums.files == 0 || sums.errors || sums.wrong;
}
