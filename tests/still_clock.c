// Lets the clock of a program stand at the moment that MOMENT names, in seconds since 1970. For LD_PRELOAD;
// documents.sh builds it. Clocks that tell no moment, as the monotonic one, go on.
#define _GNU_SOURCE
#include <stdlib.h>
#include <sys/syscall.h>
#include <sys/time.h>
#include <time.h>
#include <unistd.h>

static time_t moment(void) {
    const char *named = getenv("MOMENT");
    if (named == NULL) abort();
    return (time_t)strtoll(named, NULL, 10);
}

int clock_gettime(clockid_t clock, struct timespec *now) {
    if (clock != CLOCK_REALTIME && clock != CLOCK_REALTIME_COARSE) return (int)syscall(SYS_clock_gettime, clock, now);
    now->tv_sec = moment();
    now->tv_nsec = 0;
    return 0;
}

int gettimeofday(struct timeval *restrict now, void *restrict zone) {
    (void)zone;
    now->tv_sec = moment();
    now->tv_usec = 0;
    return 0;
}

time_t time(time_t *now) {
    if (now != NULL) *now = moment();
    return moment();
}
