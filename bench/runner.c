/*
 * Runs commands in turn, and prints for each run what it cost.
 *
 *     runner ROUNDS INPUT :: WORD .. :: WORD ..
 *
 * Each command has its standard input from the file INPUT, and its output and errors go to /dev/null. A line is printed
 * for each run: the number of the command, microseconds of the processor, nanoseconds by the clock, the peak of its
 * memory in kB (not below that of this program, which is small) and its status.
 */
#define _GNU_SOURCE
#include <fcntl.h>
#include <stdio.h>
#include <stdlib.h>
#include <string.h>
#include <sys/resource.h>
#include <sys/wait.h>
#include <time.h>
#include <unistd.h>

static void fail(const char *what)
{
    perror(what);
    exit(1);
}

static void become(char **words, const char *input)
{
    int in = open(input, O_RDONLY), out = open("/dev/null", O_WRONLY);
    if (in < 0 || out < 0 || dup2(in, 0) < 0 || dup2(out, 1) < 0 || dup2(out, 2) < 0) _exit(127);
    execv(words[0], words);
    _exit(127);
}

static long long nanos(void)
{
    struct timespec now;
    clock_gettime(CLOCK_MONOTONIC, &now);
    return now.tv_sec * 1000000000LL + now.tv_nsec;
}

static long long micros(struct timeval time)
{
    return time.tv_sec * 1000000LL + time.tv_usec;
}

static void run(int number, char **words, const char *input)
{
    struct rusage used;
    int status;
    long long start = nanos();
    pid_t child = fork();
    if (child < 0) fail("fork");
    if (child == 0) become(words, input);
    if (wait4(child, &status, 0, &used) < 0) fail("wait4");
    long long clock = nanos() - start;
    if (WIFEXITED(status) && WEXITSTATUS(status) == 127) fail(words[0]);
    printf("%d %lld %lld %ld %d\n", number, micros(used.ru_utime) + micros(used.ru_stime), clock, used.ru_maxrss,
           WIFEXITED(status) ? WEXITSTATUS(status) : -1);
    fflush(stdout);
}

int main(int argc, char **argv)
{
    if (argc < 5) {
        fprintf(stderr, "usage: runner ROUNDS INPUT :: WORD .. :: WORD ..\n");
        return 2;
    }
    for (int i = 3; i < argc; i++)
        if (!strcmp(argv[i], "::")) argv[i] = NULL; /* the end of a command's words, and the begin of others */
    for (int round = atoi(argv[1]); round > 0; round--) {
        int number = 0;
        for (int i = 4; i < argc; i++)
            if (!argv[i - 1]) run(number++, &argv[i], argv[2]);
    }
    return 0;
}
