/* What is reported to the service manager, if one started this program (sd_notify(3)): that it is ready, is still running, and
   ends. */
#pragma once

#include <stdint.h>

/* Finds out to whom it is reported, and how often; to nobody if no one asks for it. Comes before rights are dropped. */
void open_service(void);

/* Reports a state: READY=1 once its sockets are open, STOPPING=1 at the end. */
void report_state(const char *state);

/* Reports that it is still running, when half of the time has passed in which it has to. */
void report_alive(int64_t now);

/* In how many milliseconds it has to be reported again that the program is still running, at most `most`. */
int64_t until_alive(int64_t now, int64_t most);
