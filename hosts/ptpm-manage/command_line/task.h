/* What a command line of ptpm-manage asks for. */
#pragma once

#include "ptpm.h"
#include <stdbool.h>
#include <stdint.h>

/* SITE_HOPS: how many boundary clocks pass on what `collect` and `status` ask, if no --hops is given. */
enum { MOST_INTERFACES = 8, DOMAINS = 256, SITE_HOPS = 7 };

/* How a site is shown: as a text, JSON, a picture in SVG, a page in HTML, numbers in OpenMetrics, or a line of Nagios. */
enum shown_as { AS_TEXT, AS_JSON, AS_DRAWING, AS_PAGE, AS_NUMBERS, AS_PLUGIN };

/* What a command line of `collect` and `status` says beyond that of a survey. */
struct site_options {
    bool is_collected, is_shown;                /* `collect`; `status` */
    uint8_t first_domain, last_domain;
    bool is_every_domain;                       /* those in which clocks are heard or answer, and 0 and 127 */
    uint16_t sdo;                               /* the sdoId of these domains */
    bool is_sdo_named, is_every_sdo;            /* it was given; those in which clocks are heard, and 0 */
    long listen, watch;                         /* in milliseconds: for clocks, or -1 by default; between two looks, or 0 */
    long duration;                              /* of looks that are shown as one, at least */
    int64_t forget;                             /* how long a clock is gone */
    enum shown_as form;                         /* how it is shown, except by `--json` */
    bool is_once, is_as_far_as_named;           /* it does not look a second time; nor any further than by the hops that were named */
    const char *output, *lines;                 /* the files that get what is printed, and the lines of the latest look, or NULL */
    const char *max_offset, *max_delay, *tai_utc, *settle, *profile, *inventory;               /* as they are written, or NULL */
    char *ignored;                              /* the names of all --ignore, or NULL */
    bool is_all;                                /* the text has what follows from a finding too */
    const char *given;                          /* an option only of `status` that was given, or NULL */
};

/* What is changed at several clocks by a file. */
enum plan_verb { NO_PLAN, PLAN, APPLY, RESUME, ROLLBACK, APPLIES };
struct plan_options {
    enum plan_verb verb;
    const char *word;                           /* the file, or the apply that is rolled back or shown; NULL if each is */
    const char *expected;                       /* the id of the plan that was approved, or NULL */
    bool is_probed;                             /* each clock is asked whether it takes SETs from this manager */
    bool tells_changes;                         /* by a status of its own: there are some */
    bool skips_unreached;                       /* what is not reached is left out */
    bool keeps_going;                           /* at other clocks if one fails */
    bool is_dry;                                /* a rollback only says what it would do */
    const char *check;                          /* the path of a program that is run before it goes on at another clock, or NULL */
    uint8_t (*limits)[8];                       /* the only clocks that are changed, */
    size_t limit_count;                         /* and how many these are; 0 if all are changed */
    long kept;                                  /* how many journals with an end stay, or -1 if all do */
};

struct task {
    bool is_survey;                             /* every clock is asked, or one, at every port */
    bool is_of_clock;                           /* a survey of one clock */
    struct site_options site;                   /* of a survey that collects, and what is shown of it */
    struct plan_options plan;
    uint8_t action;                             /* PTPM_GET, PTPM_SET or PTPM_COMMAND, if it is not a survey */
    uint16_t id;
    uint16_t port;                              /* the clock's; 0 if none is named */
    size_t size;
    uint8_t octets[PTPM_MOST_OCTETS];           /* the dataField */
    struct ptpm_session_settings settings;      /* the number of the first request is 0 until one is drawn */
    bool has_manager;                           /* whether settings name the manager */
    bool is_kept;                               /* by a manager that is the same in each run: a file keeps its session */
    bool is_letting_go;                         /* what an earlier run asked without an answer is not finished */
    const char *interfaces[MOST_INTERFACES];    /* the way: interfaces; only `collect` and `status` may have several, */
    int interface_count;
    const char *address, *path;                 /* an address, with one of these or none, or a Unix socket */
    const char *own_socket;                     /* the Unix socket of a clock on this host, asked beside the interfaces of a site, or NULL */
    bool is_six, is_ethernet;                   /* at an interface IPv6, or IEEE 802.3, instead of IPv4 */
    bool is_any_source;                         /* over UDP also what comes from addresses that are not on the link */
    bool is_near_alone;                         /* and of unicast only what no router has passed on */
    const char *numbers;                        /* the file that keeps the session, or NULL */
    long wait;                                  /* how long a session waits that has no such file yet, in milliseconds */
    long timeout;                               /* how long an answer is waited for, in milliseconds */
    long times;                                 /* how often the request is made again */
    bool is_in_octets, is_json;                 /* answers are printed as octets; as objects of JSON */
};

/* Reads it from a command line. Ends the program with status 2 if it is none, and with 0 after --help and --version. */
void read_task(struct task *task, int argc, char **argv);

/* What is asked, such as `set PRIORITY1` or `command DISABLE_PORT at port 2`. The text is there until the next call. */
const char *task_words(const struct task *task);

/* Prints the text of --help, and ends the program. */
_Noreturn void print_help(void);

/* Prints the version, and ends the program. */
_Noreturn void print_version(void);
