#include "ptp4l.h"
#include "message_places.h"
#include "monotonic.h"
#include "output.h"
#include "words.h"
#include <errno.h>
#include <stdlib.h>
#include <string.h>

/* The members of DEFAULT_DATA_SET and PORT_PROPERTIES_NP that are compared: a number or an identity, and a text. In CLOCK_DESCRIPTION it is the
   networkProtocol of the protocolAddress, after clockType, a text and an address. */
enum { NUMBER_PORTS_AT = 2, IDENTITY_AT = 10, DEFAULT_OCTETS = 20, NAME_SIZE_AT = 12, NAME_AT = 13, LAYER_SIZE_AT = 2, LAYER_AT = 3 };

bool has_ptp4l;

static unsigned life;                   /* the one that the verdict is about */
static enum found verdict;
static bool is_told_closed, is_told_silent, is_told_missing, is_told_other;

/* Any clock has to answer, so that one with another identity shows itself. */
static bool ask_any(uint16_t id, uint16_t *number) {
    return ask_ptp4l(every_clock, PTPM_GET, id, EVERY_PORT, NULL, 0, number);
}

static enum found judge_clock(void) {
    struct ptp4l_answer answer;
    uint16_t number;
    if (!ask_any(PTPM_ID_DEFAULT_DATA_SET, &number) || !hear_ptp4l(number, milliseconds() + PTP4L_PATIENCE, &answer)) return IS_SILENT;
    if (answer.size < DEFAULT_OCTETS) return IS_SILENT;
    size_t ports_found = number_at(answer.field + NUMBER_PORTS_AT);
    if (memcmp(answer.field + IDENTITY_AT, options->settings.identity, sizeof options->settings.identity) != 0) {
        say("%s: the ptp4l is clock %s, and not %s: nothing is answered", options->ptp4l, identity_text(answer.field + IDENTITY_AT),
            identity_text(options->settings.identity));
        return IS_ANOTHER_CLOCK;
    }
    if (ports_found == clock_ports()) return IS_OURS;
    say("%s: the ptp4l has %zu port%s, and not %zu", options->ptp4l, ports_found, ports_found == 1 ? "" : "s", clock_ports());
    return HAS_OTHER_PORTS;
}

static enum found judge_port(const struct ptp4l_answer *answer) {
    size_t size = answer->size > NAME_SIZE_AT ? answer->field[NAME_SIZE_AT] : 0;
    if (answer->port == 0 || answer->port > clock_ports() || NAME_AT + size > answer->size) return IS_SILENT;
    const char *name = (const char *)answer->field + NAME_AT, *given = options->interfaces[answer->port - 1];
    if (strlen(given) == size && memcmp(name, given, size) == 0) return IS_OURS;
    say("%s: port %u of the ptp4l is at %.*s, and not at %s", options->ptp4l, answer->port, (int)size, name, given);
    return HAS_OTHER_PORTS;
}

static enum found judge_ports(void) {
    struct ptp4l_answer answer;
    enum found found = IS_OURS;
    int64_t end = milliseconds() + PTP4L_PATIENCE;
    uint16_t number;
    if (!ask_any(PORT_PROPERTIES_NP, &number)) return IS_SILENT;
    for (size_t i = 0; i < clock_ports(); i++) {
        if (!hear_ptp4l(number, end, &answer)) return IS_SILENT;
        enum found one = judge_port(&answer);
        if (one != IS_OURS) found = one;
    }
    return found;
}

/* The networkProtocol of a port (IEEE 1588-2019, 7.4.1), or 0. */
static unsigned protocol_of(const struct ptp4l_answer *answer) {
    size_t at = LAYER_AT;
    if (answer->size > LAYER_SIZE_AT) at += answer->field[LAYER_SIZE_AT];
    if (answer->size >= at + 2) at += 2 + number_at(answer->field + at);
    return answer->size >= at + 2 ? number_at(answer->field + at) : 0;
}

/* Says where a port is over another transport than this program, which hears other managers then. */
static void compare_transports(void) {
    static const char *const names[] = { [UDP_IPV4] = "UDP with IPv4", [UDP_IPV6] = "UDP with IPv6", [ETHERNET] = "Ethernet" };
    struct ptp4l_answer answer;
    int64_t end = milliseconds() + PTP4L_PATIENCE;
    uint16_t number;
    if (!ask_any(CLOCK_DESCRIPTION, &number)) return;
    for (size_t i = 0; i < clock_ports() && hear_ptp4l(number, end, &answer); i++) {
        unsigned protocol = protocol_of(&answer);
        if (answer.port == 0 || answer.port > clock_ports() || protocol == 0 || protocol > sizeof names / sizeof *names) continue;
        if (protocol - 1 == (unsigned)options->transport) continue;
        say("the ptp4l is over %s at %s, and this program over %s: -2 and -6 say over what it is", names[protocol - 1],
            options->interfaces[answer.port - 1], names[options->transport]);
    }
}

/* A reason that may last is said once. */
static void tell(bool *is_told, bool is_so, const char *what, const char *why) {
    if (is_so && !*is_told) say("%s: %s%s", options->ptp4l, what, why);
    *is_told = is_so;
}

/* One that is not this clock is asked nothing more. So it is seen otherwise that it has ended, and another may be there. */
enum found find_ptp4l(void) {
    if (is_told_other) leave_ended_ptp4l();
    bool is_connected = connect_ptp4l(), is_closed = !is_connected && is_ptp4l_closed();
    tell(&is_told_closed, is_closed, strerror(errno), ": --unix-group names the group of this socket");
    if (is_connected && is_told_missing) say("%s: a ptp4l is there now", options->ptp4l);
    tell(&is_told_missing, !is_connected && !is_closed, "no ptp4l is there, and nothing is answered", "");
    if (!is_connected) return is_closed ? IS_CLOSED : IS_NOT_THERE;
    if (ptp4l_life() != life) verdict = IS_SILENT;
    life = ptp4l_life();
    if (verdict != IS_SILENT) return verdict;
    verdict = judge_clock();
    if (verdict == IS_OURS) verdict = judge_ports();
    if (verdict == IS_OURS) compare_transports();
    tell(&is_told_silent, verdict == IS_SILENT, "the ptp4l does not answer: ", "is -d its domainNumber, and its transportSpecific 0?");
    if (verdict == IS_OURS && is_told_other) say("%s: the ptp4l of this clock is there now", options->ptp4l);
    is_told_other = verdict == IS_ANOTHER_CLOCK || verdict == HAS_OTHER_PORTS || (is_told_other && verdict == IS_SILENT);
    return verdict;
}

/* A ptp4l that was started again is found by a send that is refused. */
bool get_from_ptp4l(uint16_t id, uint16_t port, uint16_t *number) {
    for (int tries = 0; tries < 2 && find_ptp4l() == IS_OURS; tries++) {
        if (ask_ptp4l(options->settings.identity, PTPM_GET, id, port, NULL, 0, number)) return true;
    }
    return false;
}

void start_ptp4l(uint8_t domain) {
    if (options->ptp4l == NULL) return;
    has_ptp4l = true;
    open_ptp4l(options->ptp4l, domain, take_answer_to_change);
    start_ptp4l_values();
    if (options->state == NULL) say("without -s a SET may be made again after a restart of this program");
    if (find_ptp4l() == HAS_OTHER_PORTS) exit(2);
}

int64_t watch_ptp4l(int64_t now) {
    if (!has_ptp4l) return INT64_MAX;
    watch_change(now);
    watch_mute(now);
    return mute_due() > now ? mute_due() - now : 0;
}
