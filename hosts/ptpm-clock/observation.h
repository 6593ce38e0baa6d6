/* What a text says of a clock and of its ports, as an observation for ptpm_clock_observe: a line for each member. */
#pragma once

#include "ptpm.h"
#include <stdbool.h>
#include <stddef.h>

struct observation {
    struct ptpm_observed_clock clock;
    struct ptpm_observed_port ports[PTPM_MOST_PORTS];
    size_t port_count;          /* up to the last port that has an observation */
    unsigned grandmaster;       /* which members of a grandmaster are given, a bit each */
    size_t printed_port;        /* the latest that a portIdentity named; 0 if none did */
};

/* Reads it from lines, the text's own: `MEMBER VALUE` of struct ptpm_observed_clock, and `port PORT MEMBER VALUE` of struct
   ptpm_observed_port. Or the lines are as ptpm-manage prints them, those of a port after its portIdentity. An empty line and one
   that begins with # say nothing. Of two lines about one member the later counts. Whether every line is right. If one is wrong
   there is no observation, and each wrong one is said on standard error, after `name` and its number. */
bool read_observation(struct observation *observation, const char *name, char *text);
