/* set_clock.so, for hosts/tests/try_site: LD_PRELOAD of a program. SET_AFTER seconds after it starts, the clock of the host is set by SET_BY
   seconds, as this program sees it. */
#define _GNU_SOURCE
#include <stdlib.h>
#include <sys/syscall.h>
#include <time.h>
#include <unistd.h>

static struct timespec started;
static long set_by, set_after;

__attribute__((constructor)) static void begin(void) {
    const char *by = getenv("SET_BY"), *after = getenv("SET_AFTER");
    set_by = by == NULL ? 0 : atol(by);
    set_after = after == NULL ? 0 : atol(after);
    syscall(SYS_clock_gettime, CLOCK_MONOTONIC, &started);
}

static int is_set(void) {
    struct timespec now;
    syscall(SYS_clock_gettime, CLOCK_MONOTONIC, &now);
    return now.tv_sec - started.tv_sec - (now.tv_nsec < started.tv_nsec) >= set_after;
}

int clock_gettime(clockid_t clock, struct timespec *now) {
    int result = (int)syscall(SYS_clock_gettime, clock, now);
    if (clock == CLOCK_REALTIME && result == 0 && is_set()) now->tv_sec += set_by;
    return result;
}
