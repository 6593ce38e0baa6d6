/* A time that no one sets. It has 64 bits on every machine. */
#pragma once

#include <stdint.h>
#include <time.h>

static inline int64_t nanoseconds(void) {
    struct timespec now;
    clock_gettime(CLOCK_MONOTONIC, &now);
    return (int64_t)now.tv_sec * 1000000000 + now.tv_nsec;
}

static inline int64_t milliseconds(void) { return nanoseconds() / 1000000; }
