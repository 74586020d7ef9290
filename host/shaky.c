/* A library to load before the C library, for tests: it brings about in the midst of
 * telling of a file what else happens by chance. Without SHAKY the first file's bytes
 * cannot be read to the end, as on a bad page, or with ASTRAY, bytes behind its end are
 * read; else the file that SHAKY names changes as soon as its first verdict is worded:
 * key 1025 of file A becomes 3. */
#include <fcntl.h>
#include <signal.h>
#include <stdio.h>
#include <stdlib.h>
#include <string.h>
#include <sys/mman.h>

int vsnprintf(char *to, size_t n, const char *format, __builtin_va_list words);

char *strpbrk(const char *from, const char *any) {
    static int calls;
    if (++calls == 3 && !getenv("SHAKY")) raise(getenv("ASTRAY") ? SIGSEGV : SIGBUS);
    for (; *from; from++)
        for (const char *each = any; *each; each++)
            if (*from == *each) return (char *)from;
    return NULL;
}

static void change(const char *path) {
    enum { SHARED = 1, READ_AND_WRITE = 2, AT = 252 };
    char *file = mmap(NULL, AT + 1, PROT_READ | PROT_WRITE, SHARED, open(path, READ_AND_WRITE), 0);
    if (file != MAP_FAILED) file[AT] = 3;
}

int snprintf(char *to, size_t n, const char *format, ...) {
    static int calls;
    __builtin_va_list words;
    __builtin_va_start(words, format);
    int done = vsnprintf(to, n, format, words);
    __builtin_va_end(words);
    if (++calls == 1 && getenv("SHAKY")) change(getenv("SHAKY"));
    return done;
}
