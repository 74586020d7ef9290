/* Files as they are lent to the judge: whole, and only for reading. */
#ifndef HOST_FILES_H
#define HOST_FILES_H

#include <dirent.h>
#include <errno.h>
#include <fcntl.h>
#include <setjmp.h>
#include <signal.h>
#include <stdio.h>
#include <stdlib.h>
#include <string.h>
#include <sys/mman.h>
#include <sys/stat.h>
#include <unistd.h>

/* The status of the programs: the worst of all files. */
enum { ACCEPTED = 0, REFUSED = 1, NOT_READ = 2 };

/* One run of bytes. An empty one is null: nothing can be mapped of it. */
struct whole {
    void *bytes;
    size_t len;
    void *map; /* the memory behind it, to be given back, or null */
    size_t map_len;
    int fd; /* the mapped file, or -1 */
    struct stat before; /* of that file, when it was mapped */
};

static const struct whole no_file = {.bytes = NULL, .len = 0, .map = NULL, .map_len = 0, .fd = -1};

static inline void give_back(struct whole *file) {
    if (file->map) munmap(file->map, file->map_len);
    if (file->fd >= 0) close(file->fd);
    *file = no_file;
}

/* Gives back what was had so far and hands on why it is not read. */
static inline const char *fails(struct whole *file, const char *why) {
    give_back(file);
    return why;
}

/* Maps an open regular file from a byte on; the descriptor becomes the run's. The
 * advice that access is random keeps the system from reading ahead: only pages that are
 * looked at come into memory, which are those of the reading list. It may fail, since it
 * changes no answer. Answers null, or why it is not read. */
static inline const char *map_open(int fd, size_t from, struct whole *file) {
    *file = no_file;
    if (fd < 0) return strerror(errno);
    file->fd = fd;
    if (fstat(fd, &file->before) != 0) return fails(file, strerror(errno));
    if (S_ISDIR(file->before.st_mode)) return fails(file, "is a directory");
    if (!S_ISREG(file->before.st_mode)) return fails(file, "is not a regular file");
    size_t size = (size_t)file->before.st_size;
    if (size <= from) return NULL;
    void *map = mmap(NULL, size, PROT_READ, MAP_PRIVATE, fd, 0);
    if (map == MAP_FAILED) return fails(file, strerror(errno));
    posix_madvise(map, size, POSIX_MADV_RANDOM);
    file->map = map;
    file->map_len = size;
    file->bytes = (char *)map + from;
    file->len = size - from;
    return NULL;
}

/* Maps the file of that name. Answers null, or why it is not read. */
static inline const char *map_path(const char *path, struct whole *file) {
    /* without waiting, so that a pipe without a writer is named and not waited for */
    return map_open(open(path, O_RDONLY | O_NONBLOCK), 0, file);
}

static inline int same_time(const struct timespec *one, const struct timespec *other) {
    return one->tv_sec == other->tv_sec && one->tv_nsec == other->tv_nsec;
}

/* Whether a mapped file is as it was, as far as its length and its times tell. */
static inline int is_unchanged(const struct whole *file) {
    struct stat now;
    if (file->fd < 0) return 1;
    return fstat(file->fd, &now) == 0 && now.st_size == file->before.st_size &&
           same_time(&now.st_mtim, &file->before.st_mtim) &&
           same_time(&now.st_ctim, &file->before.st_ctim);
}

#endif
