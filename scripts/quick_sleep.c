/* Loaded before the C library: a sleep lasts as many times less long as QUICKER says, and the clock that only goes on runs as many times faster. */
#define _GNU_SOURCE
#include <dlfcn.h>
#include <stdlib.h>
#include <time.h>

static long quicker = 1;
static long long begun;
static int (*real_sleep)(const struct timespec *, struct timespec *);
static int (*real_clock)(clockid_t, struct timespec *);

static long long nanoseconds(const struct timespec *time) {
    return time->tv_sec * 1000000000LL + time->tv_nsec;
}

static struct timespec timespec_of(long long whole) {
    return (struct timespec){whole / 1000000000, whole % 1000000000};
}

__attribute__((constructor)) static void begin(void) {
    const char *text = getenv("QUICKER");
    quicker = text && atol(text) > 0 ? atol(text) : 1;
    *(void **)&real_sleep = dlsym(RTLD_NEXT, "nanosleep");
    *(void **)&real_clock = dlsym(RTLD_NEXT, "clock_gettime");
    struct timespec now;
    real_clock(CLOCK_MONOTONIC, &now);
    begun = nanoseconds(&now);
}

int nanosleep(const struct timespec *asked, struct timespec *left) {
    struct timespec less = timespec_of(nanoseconds(asked) / quicker);
    return real_sleep(&less, left);
}

int clock_gettime(clockid_t clock, struct timespec *now) {
    int failed = real_clock(clock, now);
    if (!failed && clock == CLOCK_MONOTONIC) {
        *now = timespec_of(begun + (nanoseconds(now) - begun) * quicker);
    }
    return failed;
}
