/* Beside a ptp4l (--ptp4l PATH): the clock answers for it under its identity. The ptp4l has to be the one that the command line means: its
   clockIdentity, and an interface for each of its ports. It is asked for them again in each of its lives. */
#pragma once

#include "options.h"
#include "ptpm.h"
#include "rounds.h"
#include <stdbool.h>
#include <stddef.h>
#include <stdint.h>

/* A ptp4l of this host (--ptp4l PATH), which is asked on its Unix socket. The socket here is connected, so it belongs to one life of the
   ptp4l. It hears no other process, and after the end of that life each send is refused. A ptp4l waits for a client that does not
   read its answers, and its servo waits too. So there is one GET at a time, and no event is subscribed to. */

/* How many milliseconds a GET waits for its answer. */
enum { PTP4L_PATIENCE = 100 };

/* Ids that it answers and a clock of the library lacks: of the standard, and of linuxptp. */
enum {
    CLOCK_DESCRIPTION = 0x0001, TRACEABILITY_PROPERTIES = 0x2012, TIMESCALE_PROPERTIES = 0x2013, TIME_STATUS_NP = 0xc000,
    GRANDMASTER_SETTINGS_NP = 0xc001, PORT_DATA_SET_NP = 0xc002, PORT_PROPERTIES_NP = 0xc004, PORT_STATS_NP = 0xc005,
    SYNCHRONIZATION_UNCERTAIN_NP = 0xc006
};

/* An answer of the ptp4l. It stays until the next one is heard. */
struct ptp4l_answer {
    uint16_t port;                      /* of sourcePortIdentity, which is 0 for an id of the clock */
    uint16_t number, id;                /* sequenceId and managementId */
    uint16_t error;                     /* managementErrorId, or 0 */
    const uint8_t *field;               /* the dataField */
    size_t size;
};

/* Takes an answer that nobody waits for. */
typedef void ptp4l_taker(const struct ptp4l_answer *answer);

/* From now on the ptp4l at this path is asked, in this domain. */
void open_ptp4l(const char *path, uint8_t domain, ptp4l_taker *taker);

/* That domain. */
uint8_t ptp4l_domain(void);

/* What is to be polled; -1 while there is no ptp4l. */
int ptp4l_socket(void);

/* Connects to the ptp4l if it is there; whether it is. */
bool connect_ptp4l(void);

/* Whether it is there, and can't be asked. The kernel's reason is in errno then. */
bool is_ptp4l_closed(void);

/* The number of its life: another one after each of its starts, and 0 before the first. */
unsigned ptp4l_life(void);

/* Whether the life that was asked last is over. */
bool is_ptp4l_gone(void);

/* Lets go of it if it is. */
void leave_ended_ptp4l(void);

/* Asks the clock of this identity once. Its sequenceId is in *number. Whether the ptp4l has the question in its socket now. It has no GET
   there while an earlier one is not answered. */
bool ask_ptp4l(const uint8_t clock[8], uint8_t action, uint16_t id, uint16_t port, const uint8_t *field, size_t size, uint16_t *number);

/* Waits for the next answer to a question, until that time; whether it has come. */
bool hear_ptp4l(uint16_t number, int64_t end, struct ptp4l_answer *answer);

/* Takes all answers that have come in. */
void take_answers(void);

/* Each turn looks at it, so it is not a call. */
extern bool has_ptp4l;

/* Starts it for a clock in this domain. Ends the program with status 2 if the ptp4l has other ports than the command line. */
void start_ptp4l(uint8_t domain);

/* Sees to what is to be done by that time; in how many milliseconds there is more. */
int64_t watch_ptp4l(int64_t now);

/* What is at the path. If it is not the right one, standard error says why, once for each reason. */
enum found { IS_NOT_THERE, IS_CLOSED, IS_SILENT, IS_ANOTHER_CLOCK, HAS_OTHER_PORTS, IS_OURS };
enum found find_ptp4l(void);

/* Asks it for a value, as ask_ptp4l does, if it is the right one. */
bool get_from_ptp4l(uint16_t id, uint16_t port, uint16_t *number);

/* A change of a manager beside a ptp4l, which is asked for it at most once. After a restart of this program nothing is asked again. A look
   at the value shows what became of a change that was under way. This is tested, and not proved. */

/* Whether the ptp4l may be asked for a change. It is not to be asked if `say` says it all. Or it can't be asked yet, or not at all. */
enum judged { MAY_BE_ASKED, IS_SAID, IS_TOO_EARLY, IS_LOST };
enum judged judge_change(const struct ptpm_question *asked, const struct ptpm_say **say);

/* Asks it; whether it has the question in its socket now. */
bool ask_for_change(const struct ptpm_question *asked);

/* Takes the answer to the change under way. */
ptp4l_taker take_answer_to_change;

/* Sees whether the ptp4l has ended since it was asked. */
void watch_change(int64_t now);

/* Whether it has the value of a change that an earlier run may have asked it for. Waits for the ptp4l without end, unless its life is
   over. */
bool has_ptp4l_changed(const struct ptpm_question *asked);

/* Whether the ptp4l is mute: it hears no management messages from the network, so that only this agent answers them. Rules of
   the firewall divert them. Or it ignores them itself: over Ethernet libptpm_mute.so sees to that. Whether it is mute is found by
   what it counts (PORT_STATS_NP). */

/* Probes it: at each of its starts, each minute, and every two seconds while it is not mute. A probe is a message to the group that does
   not leave this host. None is sent if nothing is diverted. */
void watch_mute(int64_t now);

/* When it is to be called again, in milliseconds of the monotonic clock. */
int64_t mute_due(void);

/* Whether a probe has begun and not ended. */
bool is_probing(void);

/* Whether the ptp4l has heard nothing until now. What waits at its ports it takes before what waits on its Unix socket. So if it has heard
   the request that is handled, it has counted that. */
bool is_ptp4l_mute(void);

/* Prints the rules of nftables that divert them to this UDP port (--ptp4l-rules); whether it could. */
bool print_rules(uint16_t port);

/* What GETs are answered with beside a ptp4l: the dataField that the ptp4l has, octet for octet. It is asked after a GET came in, and the
   answer that the clock makes gets these octets. So nothing that the clock holds itself is shown. */

void start_ptp4l_values(void);

/* What was learned for a datagram. */
struct learned {
    size_t place;                       /* of the id in the table of those that the ptp4l is asked for */
    bool is_known;                      /* whether the ptp4l has answered */
    size_t size;                        /* of what is used of it: one of few ports is short */
    struct { size_t size; uint8_t octets[PTPM_MOST_READ]; } at[1 + PORTS];      /* by ports, or in the first place if it is of the clock */
};

/* Asks the ptp4l for what a datagram is to be answered with, if it is a GET of this clock. Whether that may be taken: if the ptp4l says
   nothing, nothing is answered. What is asked of every clock is passed on nevertheless. */
bool learn_value(struct heard *heard);

/* What the latest call of that learned. It stays until the next one. */
const struct learned *value_learned(void);

/* What the ptp4l says of that datagram, if it is a GET of an id that the clock itself lacks; NULL if it says nothing. It stays until the
   next call. */
const struct ptpm_say *learned_to_give(const struct ptpm_clock *clock, const struct heard *heard);

/* Puts what was learned for a datagram into the answers to it, and leaves out those for which nothing was. How many messages are left. */
size_t show_value(const struct learned *value, const struct heard *heard, struct ptpm_sent *sent, size_t count);
