/* The host: maps each named file and prints the verdict on it.
 *
 *   host FILE...            one line a file: PATH verdict V place P
 *   host --serve            answers frames on standard input, for the tests
 *
 * Status: 0 all accepted, 1 some refused, 2 some not read. */
#define _POSIX_C_SOURCE 200809L
#include "../include/petalbuzz.h"
#include "ahead.h"

static int not_read(const char *path, const char *why) {
    dprintf(2, "host: %s: %s\n", path, why);
    return NOT_READ;
}

/* Judges the file of that name and prints its line. */
static int judge_path(const char *path) {
    struct whole file;
    const char *wrong = map_path(path, &file);
    if (wrong) return not_read(path, wrong);
    ask_ahead(&file);
    petalbuzz_judged answer = petalbuzz_judge_file(file.bytes, file.len);
    give_back(&file);
    printf("%s verdict %u place %u\n", path, answer.verdict, answer.place);
    return answer.verdict == 0 ? ACCEPTED : REFUSED;
}

/* ---- frames ----
 * A frame is a head of numbers of 4 bytes, the lowest first, then the bytes
 * that are lent: the memory to be written and three runs. The answer to each
 * is one record of fixed size, its numbers as the machine has them, and the
 * lent bytes again, as they are after the call. What a call fails to write
 * in the record keeps the byte 0xA5. */

/* The numbers of the head: which call; the key of the citation or the number
 * of the metadata text that is asked for; the bytes at either end of the memory
 * that are not lent; the length of the memory and of each run. */
enum { CALL, ASKED, MARGIN, MEMORY, RUN, HEAD = RUN + 3 };

struct question {
    uint32_t asked;
    uint8_t *out;
    size_t room;
    const uint8_t *run[3];
    size_t len[3];
};

struct record {
    uint32_t verdict, place, third, fourth;
    union {
        double doubles[10];
        size_t sizes[10];
    } wide;
};

/* Each call of the library in this one shape. */

static void ask_judge(const struct question *q, struct record *r) {
    petalbuzz_judge(q->run[0], q->len[0], &r->verdict, &r->place);
}

static void ask_ground(const struct question *q, struct record *r) {
    petalbuzz_ground(q->run[0], q->len[0], &r->verdict, &r->place, &r->third, r->wide.doubles,
                     r->wide.doubles + 6);
}

static void ask_rows(const struct question *q, struct record *r) {
    petalbuzz_row *rows = (void *)q->out;
    petalbuzz_rows(q->run[0], q->len[0], rows, q->room / sizeof *rows, &r->verdict, &r->place,
                   &r->third);
}

static void ask_citation(const struct question *q, struct record *r) {
    petalbuzz_citation(q->run[0], q->len[0], q->asked, &r->verdict, &r->place, &r->wide.sizes[0],
                       &r->wide.sizes[1]);
}

static void ask_metadata(const struct question *q, struct record *r) {
    petalbuzz_metadata(q->run[0], q->len[0], q->run[1], q->len[1], q->asked, &r->verdict,
                       &r->place, &r->third, &r->wide.sizes[0], &r->wide.sizes[1]);
}

static void ask_key_block(const struct question *q, struct record *r) {
    petalbuzz_key_block(q->run[0], q->len[0], q->out, q->room, &r->verdict, &r->place,
                        r->wide.sizes);
}

static void ask_read_block(const struct question *q, struct record *r) {
    petalbuzz_read_block(q->run[0], q->len[0], q->run[1], q->len[1], q->run[2], q->len[2],
                         &r->verdict, &r->place, &r->third, &r->fourth);
}

/* The calls by their number in the head. */
static void (*const calls[])(const struct question *, struct record *) = {
    ask_judge, ask_ground, ask_rows, ask_citation, ask_metadata, ask_key_block, ask_read_block,
};

static uint8_t answers[1 << 16]; /* not yet written */
static size_t answered;

static int write_answers(void) {
    size_t at = 0;
    while (at < answered) {
        ssize_t n = write(1, answers + at, answered - at);
        if (n < 0 && errno != EINTR) return 0;
        if (n > 0) at += (size_t)n;
    }
    answered = 0;
    return 1;
}

/* Adds bytes to the answers, and writes these when they are full. */
static int put(const void *bytes, size_t n) {
    const uint8_t *next = bytes;
    while (n > 0) {
        if (answered == sizeof answers && !write_answers()) return 0;
        size_t part = sizeof answers - answered;
        if (part > n) part = n;
        memcpy(answers + answered, next, part);
        answered += part;
        next += part;
        n -= part;
    }
    return 1;
}

/* The lent bytes of one frame, copied to an address that is aligned for rows. */
static uint8_t *lent;
static size_t lent_size;

static int lend(const uint8_t *bytes, size_t n) {
    if (lent_size < n + 1) {
        uint8_t *moved = realloc(lent, n + 1);
        if (!moved) return 0;
        lent = moved;
        lent_size = n + 1;
    }
    memcpy(lent, bytes, n);
    return 1;
}

/* Asks the call on the lent bytes: first the memory, then the runs. */
static void ask(const uint32_t head[HEAD], struct record *record) {
    struct question q = {.asked = head[ASKED], .out = lent + head[MARGIN]};
    const uint8_t *next = lent + head[MEMORY];
    q.room = head[MEMORY] - 2 * (size_t)head[MARGIN];
    for (int i = 0; i < 3; i++) {
        q.run[i] = next;
        q.len[i] = head[RUN + i];
        next += q.len[i];
    }
    memset(record, 0xA5, sizeof *record);
    calls[head[CALL]](&q, record);
}

/* Answers one frame: null, or what is wrong. */
static const char *answer_frame(const uint32_t head[HEAD], const uint8_t *bytes, size_t n) {
    struct record record;
    if (head[CALL] >= sizeof calls / sizeof calls[0]) return "no such call";
    if (head[MEMORY] < 2 * (size_t)head[MARGIN]) return "no such memory";
    if (!lend(bytes, n)) return strerror(errno);
    ask(head, &record);
    return put(&record, sizeof record) && put(lent, n) ? NULL : "cannot write";
}

/* Bytes read and not yet used: from `from` up to `to`. */
static uint8_t *room;
static size_t size, from, to;

/* Reads the head, if it is there, and gives the size of the frame; else that
 * of a head. */
static size_t frame_size(uint32_t head[HEAD]) {
    size_t frame = 4 * HEAD;
    if (to - from < frame) return frame;
    for (int i = 0; i < HEAD; i++) {
        head[i] = 0;
        for (int j = 3; j >= 0; j--) head[i] = head[i] << 8 | room[from + 4 * i + j];
        if (i >= MEMORY) frame += head[i];
    }
    return frame;
}

/* Makes room for a frame of so many bytes and reads what there is: 1, 0 at
 * the end, -1 on failure. */
static int read_more(size_t frame) {
    if (from > 0) {
        memmove(room, room + from, to - from);
        to -= from;
        from = 0;
    }
    if (size < frame || size == to) {
        size_t larger = (frame > size ? frame : size) * 2 + (1 << 20);
        uint8_t *moved = realloc(room, larger);
        if (!moved) return -1;
        room = moved;
        size = larger;
    }
    for (;;) {
        ssize_t n = read(0, room + to, size - to);
        if (n < 0 && errno == EINTR) continue;
        if (n > 0) to += (size_t)n;
        return n > 0 ? 1 : (int)n;
    }
}

/* Answers every whole frame at hand before it writes and waits for more. */
static int serve(void) {
    for (;;) {
        uint32_t head[HEAD];
        size_t frame;
        while (frame = frame_size(head), to - from >= frame) {
            const char *wrong = answer_frame(head, room + from + 4 * HEAD, frame - 4 * HEAD);
            if (wrong) return not_read("--serve", wrong);
            from += frame;
        }
        if (!write_answers()) return not_read("--serve", "cannot write");
        int more = read_more(frame);
        if (more < 0) return not_read("--serve", strerror(errno));
        if (more == 0) return to == from ? ACCEPTED : not_read("--serve", "the last frame is cut");
    }
}

int main(int argc, char **argv) {
    if (argc < 2) {
        dprintf(2, "host FILE...\nhost --serve\n");
        return NOT_READ;
    }
    if (strcmp(argv[1], "--serve") == 0) return serve();
    int worst = ACCEPTED;
    for (int i = 1; i < argc; i++) {
        int status = judge_path(argv[i]);
        if (status > worst) worst = status;
    }
    if (fflush(NULL) != 0) return not_read("standard output", strerror(errno));
    return worst;
}
