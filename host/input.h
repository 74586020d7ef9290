/* Standard input as a file that is lent to the judge. */
#ifndef HOST_INPUT_H
#define HOST_INPUT_H

#include "files.h"

/* From this length on rule 1 decides, whatever the bytes are. */
static const size_t TOO_LONG = (size_t)1 << 32;

/* How many bytes of a stream are kept: what PETALBUZZ_MEMORY says, else most of
 * the memory that the system has free, else 256 MiB. */
static inline size_t most_kept(void) {
    const char *said = getenv("PETALBUZZ_MEMORY");
    if (said) return strtoul(said, NULL, 10);
    char text[4096] = "";
    int fd = open("/proc/meminfo", O_RDONLY);
    ssize_t n = fd < 0 ? -1 : read(fd, text, sizeof text - 1);
    if (fd >= 0) close(fd);
    text[n > 0 ? n : 0] = 0;
    const char *line = strstr(text, "MemAvailable:");
    return line ? strtoul(line + strlen("MemAvailable:"), NULL, 10) * 1024 / 8 * 7 : (size_t)1 << 28;
}

/* Reads what is left of a stream, as far as its bytes or rule 1 can decide. What
 * exceeds the memory is counted and not kept. Answers null, or why it is not
 * read. */
static inline const char *read_stream(int fd, struct whole *file) {
    static char spare[65536], why[120];
    size_t most = most_kept();
    ssize_t n = 1;
    *file = no_file;
    void *map = mmap(NULL, TOO_LONG, PROT_READ | PROT_WRITE,
                     MAP_PRIVATE | MAP_ANONYMOUS | MAP_NORESERVE, -1, 0);
    if (map == MAP_FAILED) return strerror(errno);
    file->bytes = file->map = map;
    file->map_len = TOO_LONG;
    while (n != 0 && file->len < TOO_LONG) {
        int kept = file->len < most;
        size_t left = (kept && most < TOO_LONG ? most : TOO_LONG) - file->len;
        n = read(fd, kept ? (char *)map + file->len : spare,
                 left < sizeof spare ? left : sizeof spare);
        if (n < 0 && errno != EINTR) return fails(file, strerror(errno));
        if (n > 0) file->len += (size_t)n;
    }
    if (file->len <= most || file->len >= TOO_LONG) return NULL;
    snprintf(why, sizeof why, "is longer than the %zu bytes that memory is free for: name a file, "
             "which is mapped", most);
    return fails(file, why);
}

/* Lends standard input: a regular file is mapped from where it stands, and left
 * at its end. Answers null, or why it is not read. */
static inline const char *lend_input(struct whole *file) {
    struct stat about;
    if (fstat(0, &about) != 0) return strerror(errno);
    if (!S_ISREG(about.st_mode)) return read_stream(0, file);
    off_t from = lseek(0, 0, SEEK_CUR);
    if (from < 0) return strerror(errno);
    const char *wrong = map_open(dup(0), (size_t)from, file);
    if (!wrong) lseek(0, 0, SEEK_END);
    return wrong;
}

#endif
