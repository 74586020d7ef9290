/* What the host uses of the C library of Linux on x86-64, for a compiler that
 * comes without its headers. Each header of its name here stands for this one;
 * host/test compares it with the library's own. */
#ifndef BARE_SYSTEM_H
#define BARE_SYSTEM_H

#include <stddef.h>

#ifdef __cplusplus
extern "C" {
#endif

#define NULL ((void *)0)

#define O_RDONLY 0
#define O_WRONLY 1
#define O_NONBLOCK 04000
#define SEEK_CUR 1
#define SEEK_END 2
#define LOCK_EX 2
#define LOCK_UN 8
#define POLLOUT 4
#define PROT_READ 1
#define PROT_WRITE 2
#define MAP_PRIVATE 2
#define MAP_ANONYMOUS 0x20
#define MAP_NORESERVE 0x4000
#define MAP_FAILED ((void *)-1)
#define POSIX_MADV_RANDOM 1
#define POSIX_MADV_WILLNEED 3
#define EINTR 4
#define EAGAIN 11
#define SIGHUP 1
#define SIGINT 2
#define SIGBUS 7
#define SIGSEGV 11
#define SIGTERM 15
#define SIG_DFL ((void (*)(int))0)
#define SIG_IGN ((void (*)(int))1)
#define S_ISDIR(mode) (((mode) & 0170000) == 0040000)
#define S_ISREG(mode) (((mode) & 0170000) == 0100000)
#define S_ISLNK(mode) (((mode) & 0170000) == 0120000)
#define S_ISFIFO(mode) (((mode) & 0170000) == 0010000)

typedef long ssize_t;
typedef long off_t;
typedef int sig_atomic_t;

struct timespec {
    long tv_sec, tv_nsec;
};

struct stat {
    unsigned long st_dev, st_ino, st_nlink;
    unsigned int st_mode, st_uid, st_gid, bare_gap;
    unsigned long st_rdev;
    off_t st_size;
    long st_blksize, st_blocks;
    struct timespec st_atim, st_mtim, st_ctim;
    long bare_rest[3];
};

struct pollfd {
    int fd;
    short events, revents;
};

struct dirent {
    unsigned long d_ino, bare_next;
    unsigned short bare_length;
    unsigned char d_type;
    char d_name[256];
};

typedef struct {
    long bare[25];
} sigjmp_buf[1];
int __sigsetjmp(sigjmp_buf here, int mask) __attribute__((__returns_twice__));
#define sigsetjmp(here, mask) __sigsetjmp(here, mask)
void siglongjmp(sigjmp_buf there, int answer) __attribute__((__noreturn__));
void (*signal(int number, void (*handler)(int)))(int);
int raise(int number);

int *__errno_location(void);
#define errno (*__errno_location())

int open(const char *path, int flags, ...);
int fstat(int fd, struct stat *to);
int stat(const char *path, struct stat *to);
int lstat(const char *path, struct stat *to);
int close(int fd);
int dup(int fd);
int flock(int fd, int how);
int poll(struct pollfd *of, unsigned long n, int milliseconds);
off_t lseek(int fd, off_t to, int from);
ssize_t read(int fd, void *to, size_t n);
ssize_t write(int fd, const void *from, size_t n);
void *mmap(void *at, size_t len, int protection, int flags, int fd, off_t from);
int munmap(void *at, size_t len);
int posix_madvise(void *at, size_t len, int advice);

typedef struct bare_folder DIR;
DIR *opendir(const char *path);
struct dirent *readdir(DIR *folder);
int closedir(DIR *folder);

void *malloc(size_t n);
void *realloc(void *old, size_t n);
void free(void *old);
void qsort(void *from, size_t n, size_t size, int (*order)(const void *, const void *));
double strtod(const char *from, char **end);
unsigned long strtoul(const char *from, char **end, int base);
char *getenv(const char *name);
void exit(int status) __attribute__((__noreturn__));

void *memset(void *to, int byte, size_t n);
void *memmove(void *to, const void *from, size_t n);
void *memcpy(void *to, const void *from, size_t n);
int memcmp(const void *one, const void *other, size_t n);
size_t strlen(const char *from);
char *strpbrk(const char *from, const char *any);
char *strstr(const char *from, const char *part);
int strcmp(const char *one, const char *other);
char *strerror(int number);

typedef struct bare_stream FILE;
extern FILE *stdout, *stderr;
int printf(const char *format, ...);
int fprintf(FILE *stream, const char *format, ...);
int dprintf(int fd, const char *format, ...);
int snprintf(char *to, size_t n, const char *format, ...);
size_t fwrite(const void *from, size_t size, size_t n, FILE *stream);
int fflush(FILE *stream);
int ferror(FILE *stream);

#ifdef __cplusplus
}
#endif

#endif
