/* The clock that the library holds, for the ports and the Unix socket: what becomes of datagrams and of observations. */
#pragma once

#include "options.h"
#include "ports.h"
#include <stdbool.h>

/* Starts it with a port for each interface, afresh or as the file of its state has it. Ends the program with status 1, and says
   why, if the library does not start it. */
void start_clock(void);

/* It is saved, if it has a file of its state. What an earlier run may have asked its device for is looked for. */
void save_clock(void);

/* A line on standard error if another clock of this machine has its identity. */
void report_twin(void);

/* A line on standard error: its identity, its interfaces, the states of its ports, and how many managers it has. */
void say_started(void);

/* Takes the datagrams that have come in at a port, or on the Unix socket if there is none. Sends their answers, and what is
   forwarded, also during a save. What shows a change waits for that to be saved. What the device's owner asks is carried out as that
   of a manager with every right, and waits as theirs does. It is passed on to nobody. */
void take_round(const struct port *port, int socket, bool is_of_owner);

/* The same for datagrams that were sent over UDP to this host by unicast. */
void take_unicast_round(void);

/* How many datagrams may be taken from the Unix sockets, so that there are places for all of their answers. While saves fail it is any
   number, since others than managers are to be answered all the same. */
size_t room_for_peers(void);

/* Asks the device about changes that wait for it, and begins a save if it is time for one. Sends answers for which a program of this host
   had no room. In how many milliseconds it may be time for one of these; -1 if nothing waits, or only for a save that is under way. */
long take_waiting(void);

/* The save that was begun is done: sends what waited for it. Asks the device for the change that is under way, if it is time for that. */
void take_saved(void);

/* The clock observes what a text says, all of it or nothing. */
void observe(char *text);

void stop_clock(void);
