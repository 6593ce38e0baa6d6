/* Signals that ask a program to end, and waits and writes that they end. */
#pragma once

#include <poll.h>
#include <signal.h>
#include <stddef.h>
#include <stdint.h>
#include <sys/types.h>

/* The signal that asks the program to end, SIGHUP, SIGINT or SIGTERM; 0 before it. */
extern volatile sig_atomic_t stopped;

/* From now on these signals set `stopped`, and come in while one of the two below waits and not elsewhere. One that was ignored when the
   program began stays so. If nobody reads what the program prints, a write fails, and no SIGPIPE ends it. */
void catch_signals(void);

/* poll, for this many milliseconds at most, and until a signal comes in. */
int wait_for(struct pollfd *waits, nfds_t count, int64_t milliseconds);

/* write, until a signal comes in. */
ssize_t write_until_signal(int to, const void *octets, size_t size);

/* From now on a signal of `catch_signals` also ends a write that waits for its reader, for example for a terminal that was stopped. What the
   reader does not take at once is then dropped, and the stream has an error. */
void let_signals_end_writes(void);
