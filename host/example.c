/* example FILE: maps a file read-only, judges it, prints verdict and place. */
#include <fcntl.h>
#include <petalbuzz.h>
#include <stdio.h>
#include <sys/mman.h>
#include <sys/stat.h>

int main(int argc, char **argv) {
    struct stat about;
    int fd = argc == 2 ? open(argv[1], O_RDONLY) : -1;
    if (fd < 0 || fstat(fd, &about) != 0) return 2;

    size_t len = (size_t)about.st_size;
    void *file = len > 0 ? mmap(NULL, len, PROT_READ, MAP_PRIVATE, fd, 0) : NULL;
    if (file == MAP_FAILED) return 2;
    posix_madvise(file, len, POSIX_MADV_RANDOM); /* so that nothing is read ahead */

    petalbuzz_judged answer = petalbuzz_judge_file(file, len);
    printf("verdict %u place %u\n", answer.verdict, answer.place);
    return answer.verdict == 0 ? 0 : 1;
}
