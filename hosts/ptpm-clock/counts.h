/* What ptpm-clock counts from its start on, and prints at its end and when it is asked: what is not 0, in this order. */
#pragma once

#include <stdint.h>

enum count {
    DROPPED,                    /* messages that no socket took */
    NOT_ON_LINK, NOT_PASSED_ON_AGAIN, OVER_RATE_PASSED_ON, OVER_RATE_ANSWERED,
    OVER_RATE_OF_MANAGERS,      /* also what finds no room, or is a copy of what waits */
    SAVES, SAVES_FAILED, LEAST_SAVE, MEAN_SAVE, MOST_SAVE,         /* and microseconds */
    AGREED, OBJECTED, SILENT, NOT_TAKEN_MEANWHILE,              /* the device, or its limits */
    OBSERVED, NOT_OBSERVED, COUNTS
};
extern unsigned long long counts[COUNTS];

void count_answer(uint32_t answer);

void print_counts(void);
