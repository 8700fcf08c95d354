// Refuses one request for memory of a program: that of the number in REFUSED, counted from 0. At the end it writes the
// number of all requests into the file that REQUESTS names. For LD_PRELOAD; hostile.sh builds it.
#define _GNU_SOURCE
#include <dlfcn.h>
#include <errno.h>
#include <fcntl.h>
#include <stdlib.h>
#include <unistd.h>

static unsigned long requests;

static int is_refused(void) {
    const char *refused = getenv("REFUSED");
    unsigned long number = requests++;
    return refused != NULL && strtoul(refused, NULL, 10) == number;
}

void *malloc(size_t size) {
    static void *(*real)(size_t);
    if (real == NULL) real = (void *(*)(size_t))dlsym(RTLD_NEXT, "malloc");
    if (is_refused()) {
        errno = ENOMEM;
        return NULL;
    }
    return real(size);
}

void *realloc(void *old, size_t size) {
    static void *(*real)(void *, size_t);
    if (real == NULL) real = (void *(*)(void *, size_t))dlsym(RTLD_NEXT, "realloc");
    if (is_refused()) {
        errno = ENOMEM;
        return NULL;
    }
    return real(old, size);
}

__attribute__((destructor)) static void tell(void) {
    const char *file = getenv("REQUESTS");
    char digits[20];
    int length = 0;
    if (file == NULL) return;
    unsigned long rest = requests;
    do {
        digits[sizeof digits - 1 - length++] = (char)('0' + rest % 10);
        rest /= 10;
    } while (rest > 0);
    int to = open(file, O_WRONLY | O_CREAT | O_TRUNC, 0600);
    if (to < 0) return;
    if (write(to, digits + sizeof digits - length, (size_t)length) < 0) _exit(99);
    close(to);
}
