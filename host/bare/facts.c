/* The facts of the C library that bare/system.h states. Compiled with it and
 * with the library's own headers, this gives the same code, or system.h is
 * wrong. */
#include <stddef.h>
#include <stdint.h>
#include <dirent.h>
#include <errno.h>
#include <fcntl.h>
#include <poll.h>
#include <setjmp.h>
#include <signal.h>
#include <stdio.h>
#include <stdlib.h>
#include <string.h>
#include <sys/file.h>
#include <sys/mman.h>
#include <sys/stat.h>
#include <unistd.h>

const long facts[] = {
    O_RDONLY,
    O_WRONLY,
    O_NONBLOCK,
    SEEK_CUR,
    SEEK_END,
    LOCK_EX,
    LOCK_UN,
    POLLOUT,
    PROT_READ,
    PROT_WRITE,
    MAP_PRIVATE,
    MAP_ANONYMOUS,
    MAP_NORESERVE,
    (long)MAP_FAILED,
    POSIX_MADV_RANDOM,
    POSIX_MADV_WILLNEED,
    EINTR,
    EAGAIN,
    SIGHUP,
    SIGINT,
    SIGBUS,
    SIGSEGV,
    SIGTERM,
    (long)SIG_DFL,
    (long)SIG_IGN,
    sizeof(sigjmp_buf),
    S_ISDIR(0040755),
    S_ISDIR(0100644),
    S_ISREG(0100644),
    S_ISREG(0140644),
    S_ISLNK(0120777),
    S_ISLNK(0100644),
    S_ISFIFO(0010600),
    S_ISFIFO(0100644),
    sizeof(struct stat),
    offsetof(struct stat, st_mode),
    offsetof(struct stat, st_size),
    offsetof(struct stat, st_mtim),
    offsetof(struct stat, st_ctim),
    sizeof(struct timespec),
    offsetof(struct timespec, tv_nsec),
    sizeof(struct pollfd),
    offsetof(struct pollfd, events),
    offsetof(struct pollfd, revents),
    offsetof(struct dirent, d_name),
    sizeof(((struct dirent *)0)->d_name),
    sizeof(uint8_t) + 16 * sizeof(uint32_t) + 256 * sizeof(uint64_t) + 4096 * sizeof(size_t),
};

#define IS(name, ...) _Static_assert(__builtin_types_compatible_p(__typeof__(name), __VA_ARGS__), #name)
IS(((struct stat *)0)->st_mode, unsigned);
IS(((struct stat *)0)->st_size, long);
IS(((struct timespec *)0)->tv_sec, long);
IS(((struct timespec *)0)->tv_nsec, long);
IS(((struct pollfd *)0)->events, short);
IS((sig_atomic_t)0, int);
IS(signal, void (*(int, void (*)(int)))(int));
IS(raise, int(int));
IS(__errno_location, int *(void));
IS(open, int(const char *, int, ...));
IS(fstat, int(int, struct stat *));
IS(stat, int(const char *, struct stat *));
IS(lstat, int(const char *, struct stat *));
IS(opendir, DIR *(const char *));
IS(readdir, struct dirent *(DIR *));
IS(closedir, int(DIR *));
IS(close, int(int));
IS(dup, int(int));
IS(flock, int(int, int));
IS(poll, int(struct pollfd *, unsigned long, int));
IS(lseek, long(int, long, int));
IS(read, long(int, void *, size_t));
IS(write, long(int, const void *, size_t));
IS(mmap, void *(void *, size_t, int, int, int, long));
IS(munmap, int(void *, size_t));
IS(posix_madvise, int(void *, size_t, int));
IS(malloc, void *(size_t));
IS(realloc, void *(void *, size_t));
IS(free, void(void *));
IS(qsort, void(void *, size_t, size_t, int (*)(const void *, const void *)));
IS(strtod, double(const char *, char **));
IS(strtoul, unsigned long(const char *, char **, int));
IS(getenv, char *(const char *));
IS(exit, void(int));
IS(memset, void *(void *, int, size_t));
IS(memmove, void *(void *, const void *, size_t));
IS(memcpy, void *(void *, const void *, size_t));
IS(memcmp, int(const void *, const void *, size_t));
IS(strlen, size_t(const char *));
IS(strpbrk, char *(const char *, const char *));
IS(strstr, char *(const char *, const char *));
IS(strcmp, int(const char *, const char *));
IS(strerror, char *(int));
IS(printf, int(const char *, ...));
IS(fprintf, int(FILE *, const char *, ...));
IS(dprintf, int(int, const char *, ...));
IS(snprintf, int(char *, size_t, const char *, ...));
IS(fwrite, size_t(const void *, size_t, size_t, FILE *));
IS(fflush, int(FILE *));
IS(ferror, int(FILE *));
IS(stdout, FILE *);
IS(stderr, FILE *);
