/* fetched ADDRESS FILE CALL...: maps a file at this address, in hexadecimal, makes
 * these calls of the library on it, one after the other, and prints verdict and
 * place of each. Nothing else in this program touches the file's bytes, so that
 * outside/fetches sees which of them a call loads, and how often.
 * Status: 0, or 2 where the file is not read or a call is none of those here. */
#include "../include/petalbuzz.h"
#include <fcntl.h>
#include <stdio.h>
#include <stdlib.h>
#include <string.h>
#include <sys/mman.h>
#include <sys/stat.h>

enum { ROWS = 256, CITED = 1026 };

/* What the calls are lent and what they answer. */
static const uint8_t *file;
static size_t len;
static petalbuzz_row lent[ROWS];
static uint8_t out[1 << 21];
static uint32_t verdict, place, number;
static size_t sizes[3];
static double six[6], corners[4];

static void judge(void) { petalbuzz_judge(file, len, &verdict, &place); }
static void ground(void) { petalbuzz_ground(file, len, &verdict, &place, &number, six, corners); }
static void rows(void) { petalbuzz_rows(file, len, lent, ROWS, &verdict, &place, &number); }
static void citation(void) {
    petalbuzz_citation(file, len, CITED, &verdict, &place, &sizes[0], &sizes[1]);
}
static void metadata(void) {
    petalbuzz_metadata(file, len, out, 0, 0, &verdict, &place, &number, &sizes[0], &sizes[1]);
}
static void key_block(void) {
    petalbuzz_key_block(file, len, out, sizeof out, &verdict, &place, sizes);
}

static const struct {
    const char *name;
    void (*ask)(void);
} calls[] = {
    {"judge", judge},       {"ground", ground},     {"rows", rows},
    {"citation", citation}, {"metadata", metadata}, {"key_block", key_block},
};

/* Maps the file of that name at an address; 0 where it cannot be there. */
static int map_at(void *address, const char *path) {
    struct stat about;
    int fd = open(path, O_RDONLY);
    if (fd < 0 || fstat(fd, &about) != 0) return 0;
    len = (size_t)about.st_size;
    file = mmap(address, len, PROT_READ, MAP_PRIVATE, fd, 0);
    return file == address;
}

/* Makes the call of that name and prints its answer; 0 where there is none. */
static int make(const char *call) {
    for (size_t i = 0; i < sizeof calls / sizeof calls[0]; i++)
        if (strcmp(calls[i].name, call) == 0) {
            calls[i].ask();
            printf("verdict %u place %u\n", verdict, place);
            return 1;
        }
    fprintf(stderr, "fetched: no call %s\n", call);
    return 0;
}

int main(int argc, char **argv) {
    if (argc < 4) {
        fprintf(stderr, "fetched ADDRESS FILE CALL...\n");
        return 2;
    }
    if (!map_at((void *)strtoul(argv[1], NULL, 16), argv[2])) {
        fprintf(stderr, "fetched: %s: cannot be mapped at %s\n", argv[2], argv[1]);
        return 2;
    }
    for (int i = 3; i < argc; i++)
        if (!make(argv[i])) return 2;
    return 0;
}
