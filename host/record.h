/* Records: what is said of one file is made in memory and written whole, so that
 * an output never holds half of one. */
#ifndef HOST_RECORD_H
#define HOST_RECORD_H

#include "files.h"
#include <poll.h>
#include <sys/file.h>

struct record {
    char *bytes;
    size_t len, room;
    int failed; /* there was no memory for all of it */
};

static inline void add_bytes(struct record *to, const void *from, size_t n) {
    if (to->failed) return;
    if (n > to->room - to->len) {
        size_t room = 2 * (to->len + n) + 4096;
        char *moved = realloc(to->bytes, room);
        if (!moved) {
            to->failed = 1;
            return;
        }
        to->bytes = moved;
        to->room = room;
    }
    memcpy(to->bytes + to->len, from, n);
    to->len += n;
}

static inline void add(struct record *to, const char *words) { add_bytes(to, words, strlen(words)); }

static inline void add_number(struct record *to, size_t number) {
    char digits[20];
    size_t at = sizeof digits;
    do digits[--at] = (char)('0' + number % 10);
    while (number /= 10);
    add_bytes(to, digits + at, sizeof digits - at);
}

/* Adds blanks up to a width, of at most 64, behind a place in the record. */
static inline void pad(struct record *to, size_t from, size_t width) {
    static const char blanks[] = "                                                                ";
    if (to->len < from + width) add_bytes(to, blanks, from + width - to->len);
}

/* ---- writing ----
 * A signal to end is kept back until the record is written; a second one is not. */

static volatile sig_atomic_t writing, ended_by;

static inline void end_by(int number) {
    signal(number, SIG_DFL);
    if (writing)
        ended_by = number;
    else
        raise(number);
}

/* A signal that is ignored stays so, as under nohup. */
static inline void keep_records_whole(void) {
    static const int ends[] = {SIGINT, SIGTERM, SIGHUP};
    for (size_t i = 0; i < sizeof ends / sizeof ends[0]; i++)
        if (signal(ends[i], end_by) == SIG_IGN) signal(ends[i], SIG_IGN);
}

/* A pipe takes a long record piece by piece. Programs that share one take turns
 * by a lock on it, through a descriptor of their own; -1 where there is none. */
static inline int lock_of(int fd) {
    struct stat about;
    char name[40];
    if (fstat(fd, &about) != 0 || !S_ISFIFO(about.st_mode)) return -1;
    snprintf(name, sizeof name, "/proc/self/fd/%d", fd);
    return open(name, O_WRONLY | O_NONBLOCK);
}

/* Waits until an output takes more, where its other end asked not to be waited for. */
static inline int waits(int fd) {
    struct pollfd output = {.fd = fd, .events = POLLOUT, .revents = 0};
    return errno == EAGAIN && poll(&output, 1, -1) >= 0;
}

/* Writes a record whole and empties it. Answers whether it could be written. */
static inline int write_record(int fd, struct record *from) {
    static int known[3], lock[3]; /* for descriptors 1 and 2 */
    size_t done = 0;
    ssize_t n = 0;
    if (!known[fd]) lock[fd] = lock_of(fd);
    known[fd] = 1;
    writing = 1;
    if (lock[fd] >= 0) flock(lock[fd], LOCK_EX);
    while (done < from->len && (n >= 0 || errno == EINTR || waits(fd))) {
        n = write(fd, from->bytes + done, from->len - done);
        if (n > 0) done += (size_t)n;
    }
    if (lock[fd] >= 0) flock(lock[fd], LOCK_UN);
    writing = 0;
    if (ended_by) raise(ended_by);
    int whole = done == from->len;
    from->len = 0;
    return whole;
}

#endif
