/* stack FILE...: measures the stack of every call of petalbuzz.h. Prints a line
 * a call, the most bytes over all files, then the most of all.
 * Status: 0 where PETALBUZZ_STACK is at least that and less than twice that, 1
 * where not, 2 where a file is not read.
 *
 * Each call runs on a stack of its own, memory that is painted with one byte
 * before. What the call takes reaches from the top down to the lowest byte
 * that it has changed: arguments, return addresses, frames and the bytes below
 * the last frame that a function may use on x86-64. */
#include "../include/petalbuzz.h"
#include <fcntl.h>
#include <stdio.h>
#include <string.h>
#include <sys/mman.h>
#include <sys/stat.h>
#include <unistd.h>

/* Far more stack than a call takes, so that one that takes too much is seen. */
enum { DEPTH = 4 * PETALBUZZ_STACK, PAINT = 0xA5, ROWS = 256 };

static uint8_t painted[DEPTH] __attribute__((aligned(16)));

/* What the calls are lent and what they answer. */
static const uint8_t *file;
static size_t len;
static const uint8_t outside[] = "outside";
static uint32_t number; /* of the metadata text that is asked for */
static petalbuzz_row rows[ROWS];
static uint8_t out[1 << 20];
static petalbuzz_judged judged;
static petalbuzz_grounded grounded;
static petalbuzz_counted counted;
static petalbuzz_part part;
static petalbuzz_block block;
static petalbuzz_block_read back;
static size_t one, two, three; /* lengths of the file's own block, which is in out */

static void judge(void) { petalbuzz_judge(file, len, &judged.verdict, &judged.place); }
static void ground(void) {
    petalbuzz_ground(file, len, &grounded.verdict, &grounded.place, &grounded.form, grounded.six,
                     grounded.corners);
}
static void fill(void) {
    petalbuzz_rows(file, len, rows, ROWS, &counted.verdict, &counted.place, &counted.keys);
}
static void cite(void) {
    petalbuzz_citation(file, len, 1026, &part.verdict, &part.place, &part.start, &part.length);
}
static void text(void) {
    petalbuzz_metadata(file, len, outside, sizeof outside, number, &part.verdict, &part.place,
                       &part.from, &part.start, &part.length);
}
static void write_block(void) {
    petalbuzz_key_block(file, len, out, sizeof out, &block.verdict, &block.place, block.lengths);
}
static void read_block(void) {
    petalbuzz_read_block(out, one, out + one, two, out + one + two, three, &back.verdict,
                         &back.place, &back.keys, &back.minor);
}

static void judge_file(void) { judged = petalbuzz_judge_file(file, len); }
static void ground_file(void) { grounded = petalbuzz_ground_file(file, len); }
static void fill_file(void) { counted = petalbuzz_rows_file(file, len, rows, ROWS); }
static void cite_file(void) { part = petalbuzz_citation_file(file, len, 1026); }
static void text_file(void) {
    part = petalbuzz_metadata_file(file, len, outside, sizeof outside, number);
}
static void write_block_file(void) {
    block = petalbuzz_key_block_file(file, len, out, sizeof out);
}
static void read_block_runs(void) {
    back = petalbuzz_read_block_runs(out, one, out + one, two, out + one + two, three);
}

static struct {
    const char *name;
    void (*run)(void);
    size_t most;
} calls[] = {
    {"petalbuzz_judge", judge, 0},
    {"petalbuzz_ground", ground, 0},
    {"petalbuzz_rows", fill, 0},
    {"petalbuzz_citation", cite, 0},
    {"petalbuzz_metadata", text, 0},
    {"petalbuzz_key_block", write_block, 0},
    {"petalbuzz_read_block", read_block, 0},
    {"petalbuzz_judge_file", judge_file, 0},
    {"petalbuzz_ground_file", ground_file, 0},
    {"petalbuzz_rows_file", fill_file, 0},
    {"petalbuzz_citation_file", cite_file, 0},
    {"petalbuzz_metadata_file", text_file, 0},
    {"petalbuzz_key_block_file", write_block_file, 0},
    {"petalbuzz_read_block_runs", read_block_runs, 0},
};
enum { CALLS = sizeof calls / sizeof calls[0] };

/* Runs it on the painted stack and answers how many bytes it has taken. */
static size_t depth_of(void (*run)(void)) {
    size_t whole = 0;
    memset(painted, PAINT, DEPTH);
    /* rbx keeps the stack pointer: every function gives it back as it was. */
    __asm__ volatile("movq %%rsp, %%rbx\n\t"
                     "movq %[top], %%rsp\n\t"
                     "callq *%[run]\n\t"
                     "movq %%rbx, %%rsp"
                     :
                     : [run] "r"(run), [top] "r"(painted + DEPTH)
                     : "memory", "cc", "rax", "rbx", "rcx", "rdx", "rsi", "rdi", "r8", "r9", "r10",
                       "r11", "xmm0", "xmm1", "xmm2", "xmm3", "xmm4", "xmm5", "xmm6", "xmm7",
                       "xmm8", "xmm9", "xmm10", "xmm11", "xmm12", "xmm13", "xmm14", "xmm15");
    while (whole < DEPTH && painted[whole] == PAINT) whole++;
    return DEPTH - whole;
}

/* Measures every call on the file of that name; 0 where it is not read. */
static int measure(const char *path) {
    struct stat about;
    void *map = NULL;
    int fd = open(path, O_RDONLY);
    if (fd < 0) return 0;
    int known = fstat(fd, &about) == 0;
    len = known ? (size_t)about.st_size : 0;
    if (len > 0) map = mmap(NULL, len, PROT_READ, MAP_PRIVATE, fd, 0);
    close(fd);
    if (!known || map == MAP_FAILED) return 0;

    file = petalbuzz_lent(map, &len);
    block = petalbuzz_key_block_file(file, len, out, sizeof out);
    one = block.lengths[0], two = block.lengths[1], three = block.lengths[2];
    for (number = 0; number < 2; number++)
        for (size_t i = 0; i < CALLS; i++) {
            size_t depth = depth_of(calls[i].run);
            if (depth > calls[i].most) calls[i].most = depth;
        }
    if (map) munmap(map, len);
    return 1;
}

int main(int argc, char **argv) {
    size_t most = 0;
    for (int i = 1; i < argc; i++)
        if (!measure(argv[i])) {
            fprintf(stderr, "stack: %s: is not read\n", argv[i]);
            return 2;
        }
    for (size_t i = 0; i < CALLS; i++) {
        printf("%s %zu\n", calls[i].name, calls[i].most);
        if (calls[i].most > most) most = calls[i].most;
    }
    printf("PETALBUZZ_STACK is %d, the most %zu\n", PETALBUZZ_STACK, most);
    return most <= PETALBUZZ_STACK && PETALBUZZ_STACK < 2 * most ? 0 : 1;
}
