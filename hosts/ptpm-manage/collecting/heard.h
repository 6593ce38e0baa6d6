/* What comes in while a site is asked, or between two times, beside answers that are taken. Strangers may send without end. So there is
   room for a number of messages of each type, which no other type takes, and what comes after that is counted.
   Clocks send by themselves: of that the latest Announce, Sync and Follow_Up of each port are kept, and the latest Delay_Req of each
   clock. So a clock shows itself that answers no management message. */
#pragma once

#include "domains.h"
#include "task.h"
#include <stdbool.h>
#include <stddef.h>
#include <stdint.h>
#include <stdio.h>

/* Forgets each message whose port should have sent four more by now. */
void forget_silent(void);

/* Keeps the message that came in last, if it is one of these, and from whom is asked; whether it is. Octets may follow it. */
bool keep_heard(const uint8_t *datagram, size_t size);

/* The clocks that sent an Announce, a Sync or a Follow_Up, in the order in which they came, each perhaps several times. NULL after the
   last. */
const uint8_t *heard_clock(size_t place, struct domain *domain);

/* The domain of the message at a place; whether there is one. */
bool heard_domain(size_t place, struct domain *domain);

/* Writes a line of each message that is kept, or only of those that came after the last time. Then a collection ends: messages that found no
   room for it are said. */
void write_heard(FILE *to, bool is_of_all);

/* The types, and how many messages of each found no room for the latest collection. */
enum heard_type { ANNOUNCES, SYNCS, FOLLOW_UPS, DELAY_REQS, HEARD_TYPES };
unsigned long unheard(enum heard_type type);

/* Why an answer was not taken. Its sender's address is not on the link; it came when its request was asked no more; or the library can't
   read it. */
enum untaken { OFF_LINK, LATE, UNREADABLE };

/* From now on this sourcePortIdentity asks. */
void ask_as(const uint8_t source[10]);

/* Notes the datagram that came in last, if it is an answer to that one by a clock that is not seen. Of each clock the latest of each kind
   is kept. */
void note_untaken(enum untaken why, const uint8_t *datagram, size_t size);

/* Says once that a clock answers late, if it is not seen. */
void tell_late(const struct task *task);

/* Writes a line of each whose clock is not seen, and forgets them. Those that found no room are among the unseen answers then. */
void write_untaken(FILE *to);
