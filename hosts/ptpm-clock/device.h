/* The device's say: whether it can do what a manager asks. The limits of its hardware (--limits) say that, and then a program of its
   own (--ask). The program is asked about one change at a time. Other changes wait for it meanwhile, one of each manager. With -s it is
   asked for each once. If what it did is not known, it is asked whether it has the change, and never for the change again. */
#pragma once

#include "options.h"
#include "ptpm.h"
#include "rounds.h"
#include <stdbool.h>
#include <stddef.h>

/* Whether a device is asked at all. Each turn at a manager's request looks at it, so it is not a call. */
extern bool has_device;

/* Reads the limits, if there is a file of them. Ends the program with status 2 if something is wrong with it, which is said. */
void start_device(void);

/* What is to be polled for the limits; -1 if there is nothing. */
int limits_event(void);

/* Reads the limits again, if their file has changed. If something is wrong with it, they stay as they were. */
void read_limits(void);

/* Once a second: the same if what leads to the file has changed. */
void follow_limits(void);

/* What the limits object to a change; NULL if they don't. It stays until the next call. */
const struct ptpm_say *objection_of_limits(const struct ptpm_question *asked);

/* Whether the device has a program, or is a ptp4l. Either is asked after the limits. */
bool has_program(void);

/* Whether a change of the manager that sent this waits for the program. Then nothing else of it is taken, which is counted. */
bool is_passed_over(const struct heard *heard);

/* Copies a change of another manager after those that wait. */
void wait_for_program(const struct heard *change);

/* The change that the program is to be asked about; NULL if there is none, or one is being asked or decided. */
struct heard *change_to_ask(void);

/* Whether the next change is of a program of this host. */
bool is_next_of_peer(void);

/* Whether the program may be asked about it. A ptp4l may have to be asked later. If it can't be asked, or need not be, the change is
   dropped or decided. */
bool may_ask(const struct ptpm_question *asked);

/* Asks the program about it, or a ptp4l to carry it out. If that can't be done the change is refused, or dropped without -s. */
void ask_program(const struct ptpm_question *asked);

/* An earlier run may have asked for this change: it is decided by whether the device has it. Beside a ptp4l it waits for that. */
void settle_earlier(const struct ptpm_question *asked);

/* What the ptp4l says of it. */
void take_word(const struct ptpm_say *say);

/* Or it is decided without the program, by what the device says; NULL if the device is not asked. */
void decide_change(const struct ptpm_say *say);

/* A run of the program has ended, and the change is decided by what it said. If it said nothing, the change is looked for, or dropped
   without -s. */
void hear_program(void);

/* Takes the change that is decided, with what the device says; that is NULL if it was not asked. Its octets stay until another change
   waits. NULL if none is decided. */
struct heard *take_change(const struct ptpm_say **say);

/* What a text says of the values that the hardware has, as limits for ptpm_limits_say. It has a line for each id at all ports, and
   for each id at one port. */

/* As many as there are ids of the profile, for all ports together and for each. */
enum { MOST_LIMITS = 32 * (1 + PTPM_MOST_PORTS) };

struct device_limits {
    struct ptpm_limit all[MOST_LIMITS];
    int lines[MOST_LIMITS];             /* which line each is of */
    size_t count;
};

/* Reads them from lines, the text's own: `ID VALUE..`, or `port PORT ID VALUE..` for one port. A VALUE is one of the id as
   ptpm-manage takes it, or a range of numbers such as -4..1. Only `never` is for an id that is not set, or a command that is not
   carried out. An empty line and one that begins with # say nothing. Whether every line is right, and there is a limit. If not,
   each wrong line is said on standard error, after `name` and its number. */
bool read_device_limits(struct device_limits *limits, const char *name, char *text);

/* The program of the device (--ask PROGRAM), which is asked for each change. A process beside the clock starts it, one run after
   another. That process is made before the clock has any socket, file or filter of system calls. So a run inherits none of these,
   and may make other calls than the clock. */

/* What became of a run. It exited with a status, a signal ended it, or its time was up. Or it could not be started, as an errno
   says. Before that it has begun, with the number of its process. */
enum run_end { RUN_EXITED, RUN_KILLED, RUN_TOOK_TOO_LONG, RUN_NOT_STARTED, RUN_BEGUN };

struct run { enum run_end end; int number; };

/* Makes the process, which becomes the user of the clock and keeps no capability. A run takes the seconds of --ask-time at most. Ends the program
   with status 2 if that can't be had. Comes before anything is opened. */
void open_device_program(void);

/* Sees that the program is there, with the rights that the clock keeps. If not, ends the clock with status 2. */
void check_device_program(void);

/* What is to be polled: it can be read once a run has ended. -1 if there is no program. */
int device_program_event(void);

/* Starts a run about a change, or one that looks whether the device has it; whether it could. */
bool start_run(const struct ptpm_question *asked, bool is_look);

/* How a run has ended; whether one has. Ends the clock with status 2 if the process beside it is gone. */
bool end_run(struct run *run);

/* Ends the run that is under way, if there is one, and the process. */
void close_device_program(void);
