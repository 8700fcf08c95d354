// Cuts short what a program reads and writes: each read and each write moves at most one, two or three bytes, in turn.
// At the end it writes how many reads and how many writes it cut into the file that CUT names, on one line. For
// LD_PRELOAD; hostile.sh builds it.
#define _GNU_SOURCE
#include <dlfcn.h>
#include <stdio.h>
#include <stdlib.h>
#include <unistd.h>

static unsigned long reads, writes;

static size_t shorter(size_t length, unsigned long *cut) {
    size_t most = 1 + *cut % 3;
    if (length <= most) return length;
    ++*cut;
    return most;
}

ssize_t read(int from, void *room, size_t length) {
    static ssize_t (*real)(int, void *, size_t);
    if (real == NULL) real = (ssize_t (*)(int, void *, size_t))dlsym(RTLD_NEXT, "read");
    return real(from, room, shorter(length, &reads));
}

ssize_t write(int to, const void *bytes, size_t length) {
    static ssize_t (*real)(int, const void *, size_t);
    if (real == NULL) real = (ssize_t (*)(int, const void *, size_t))dlsym(RTLD_NEXT, "write");
    return real(to, bytes, shorter(length, &writes));
}

__attribute__((destructor)) static void tell(void) {
    const char *file = getenv("CUT");
    FILE *to = file == NULL ? NULL : fopen(file, "w");
    if (to == NULL) return;
    fprintf(to, "%lu %lu\n", reads, writes);
    fclose(to);
}
