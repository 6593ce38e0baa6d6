/* The command line of ptpm-clock. */
#pragma once

#include "network_limits.h"
#include "peers.h"
#include "ports.h"
#include "privileges.h"
#include "ptpm.h"
#include <stdbool.h>
#include <stdint.h>

enum { MANAGERS = PTPM_MOST_MANAGERS, VALUES = 64 };

/* An id that the clock lacks, and the file that has its value at a port; port 0 is the clock. */
struct value { uint16_t id, port; const char *path; };

struct options {
    struct ptpm_clock_settings settings;
    struct ptpm_manager_settings managers[MANAGERS];
    size_t manager_count;
    char **interfaces;
    size_t interface_count;
    enum transport transport;
    struct meeting meeting;             /* without a path: no Unix socket */
    const char *owner;                  /* the path of the owner's socket, or NULL */
    struct limits limits;
    struct privileges privileges;
    const char *state;                  /* the file that the clock is saved to, or NULL */
    bool has_domain;                    /* -d is given */
    const char *limits_file;            /* the values that the hardware has, or NULL */
    const char *device_program;         /* the program that is asked for each change, or NULL, and how many seconds it may take */
    long device_seconds;
    const char *ptp4l;                  /* the Unix socket of the ptp4l that the clock answers for, or NULL */
    uint16_t diverted_port;             /* the UDP port to which management messages are diverted then */
    struct value values[VALUES];
    size_t value_count;
    struct ptpm_relayed_id relayed[PTPM_MOST_IDS];      /* ids that the program is asked to set or command */
    size_t relayed_count;
    bool is_asked_for_rules;            /* it prints rules of the firewall, and ends */
    const char *source;                 /* what the clock observes: a file, a pipe, or NULL */
    bool is_verbose;                    /* a line for each datagram */
    int64_t end;                        /* when it ends by itself, in milliseconds; 0 if it doesn't */
};

/* What the command line says. */
extern const struct options *const options;

/* How many ports the clock has. One that is heard only on its Unix socket has a port too. */
size_t clock_ports(void);

/* Reads it whole, or ends the program: with status 2 if something is wrong, which is said. */
void read_options(int argc, char **argv);
