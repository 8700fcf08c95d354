/*
 * How many tokens a second the C library verifies on some threads:
 *
 *     calls POLICY TOKEN SECONDS THREADS
 *
 * Each thread has a handle of its own. The one line that is printed is the calls of all threads a second.
 */
#include <pthread.h>
#include <stdatomic.h>
#include <stdio.h>
#include <stdlib.h>
#include <time.h>

#include "sdjwt.h"

enum { MOST = 64, ROOM = 1 << 20 };

struct file {
    uint8_t *bytes;
    size_t len;
};

static struct file policy, token;
static atomic_int ended;

static void fail(const char *what)
{
    fprintf(stderr, "calls: %s\n", what);
    exit(1);
}

static struct file read_file(const char *name)
{
    struct file file = {malloc(ROOM), 0};
    FILE *stream = fopen(name, "rb");
    if (!stream || !file.bytes) fail(name);
    file.len = fread(file.bytes, 1, ROOM, stream);
    fclose(stream);
    return file;
}

/* Verifies until the time is over, and leaves the number of calls in its argument. */
static void *work(void *argument)
{
    unsigned long *calls = argument;
    sdjwt_policy handle;
    size_t len;
    uint8_t *out = malloc(ROOM);
    if (!out || sdjwt_policy_new(&handle, policy.bytes, policy.len, out, ROOM, &len) != SDJWT_DONE) fail("the policy");
    while (!atomic_load_explicit(&ended, memory_order_relaxed)) {
        uint64_t now = (uint64_t)time(NULL);
        if (sdjwt_policy_verify(&handle, token.bytes, token.len, now, out, ROOM, &len) != SDJWT_DONE) fail("the token");
        ++*calls;
    }
    sdjwt_policy_free(&handle);
    free(out);
    return NULL;
}

static double seconds(void)
{
    struct timespec now;
    clock_gettime(CLOCK_MONOTONIC, &now);
    return (double)now.tv_sec + (double)now.tv_nsec / 1e9;
}

int main(int argc, char **argv)
{
    pthread_t threads[MOST];
    static unsigned long calls[MOST][16]; /* a line of the cache for each */
    if (argc != 5) fail("usage: calls POLICY TOKEN SECONDS THREADS");
    policy = read_file(argv[1]);
    token = read_file(argv[2]);
    double most = atof(argv[3]);
    int count = atoi(argv[4]);
    if (count < 1 || count > MOST) fail("too many threads, or none");
    double start = seconds();
    for (int i = 0; i < count; i++)
        if (pthread_create(&threads[i], NULL, work, &calls[i][0])) fail("a thread");
    struct timespec pause = {(time_t)most, (long)((most - (double)(time_t)most) * 1e9)};
    nanosleep(&pause, NULL);
    atomic_store(&ended, 1);
    unsigned long sum = 0;
    for (int i = 0; i < count; i++) {
        pthread_join(threads[i], NULL);
        sum += calls[i][0];
    }
    printf("%.0f\n", (double)sum / (seconds() - start));
    return 0;
}
