/* probe FILE: maps a file with the advice that access is random, by calls of its own,
 * and reads the byte in its middle. Where more than one page then is in memory, nothing
 * can be seen there of what a program reads: host/test-pages asks. */
#include <fcntl.h>
#include <stddef.h>
#include <sys/mman.h>
#include <sys/stat.h>

int main(int argc, char **argv) {
    struct stat about;
    int fd = argc == 2 ? open(argv[1], O_RDONLY) : -1;
    if (fd < 0 || fstat(fd, &about) != 0) return 2;

    size_t len = (size_t)about.st_size;
    const volatile char *file = mmap(NULL, len, PROT_READ, MAP_PRIVATE, fd, 0);
    if (file == MAP_FAILED || posix_madvise((void *)file, len, POSIX_MADV_RANDOM) != 0) return 2;
    return file[len / 2];
}
