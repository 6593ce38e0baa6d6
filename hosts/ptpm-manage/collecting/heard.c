#include "heard.h"
#include "lines.h"
#include "message_places.h"
#include "monotonic.h"
#include "notices.h"
#include "program.h"
#include "random.h"
#include "seen.h"
#include "transport.h"
#include "words.h"
#include <net/if.h>
#include <stdlib.h>
#include <string.h>

/* versionPTP, the messageTypes beside Announce, and how many octets these messages have at least (IEEE 1588-2019, 13.3 to 13.7). */
enum { VERSION = 2, SYNC = 0, DELAY_REQ = 1, FOLLOW_UP = 8, TIMED_SIZE = 44, ANNOUNCE_SIZE = 64 };

/* Room for messages of this many ports, for the Delay_Req of this many clocks, and for answers that are not taken. Three quarters of the
   places stay free. No longer message is kept. */
enum { MOST_OF_PORTS = 1024, MOST_OF_CLOCKS = 4096, MOST_KEPT_MESSAGES = 3 * MOST_OF_PORTS + MOST_OF_CLOCKS, PLACES = 32768 };
enum { MOST_UNTAKEN = 64, MOST_OCTETS_KEPT = 1500, MOST_SENDER = 64 };

/* A message is sent again after two to its logMessageInterval, in seconds (13.3.2.14). What is less than a second counts as one, and what
   is more than the standard's greatest of an Announce as that. So does 0x7F, by which a Delay_Req says nothing. */
enum { SENDINGS = 4, SECOND = 1000000000, MOST_INTERVAL = 4 };

struct kept {
    int64_t at;                 /* when it was heard */
    bool is_written;
    enum untaken why;           /* of an answer */
    char from[MOST_SENDER], on[IF_NAMESIZE];
    size_t size;
    uint8_t *message;
};

static struct kept all[MOST_KEPT_MESSAGES];
static uint16_t places[PLACES];                     /* of a message, plus one; 0 in a place that is free */
static size_t kept_count, counts[HEARD_TYPES];
static int64_t forgotten_at;                        /* when silent ones were forgotten last */
static unsigned long dropped[HEARD_TYPES], unheard_before[HEARD_TYPES];     /* since the latest collection; for it */
static uint64_t seed;                               /* which nobody else knows, so that nobody fills one place again and again */

static unsigned type_of(const uint8_t *message) { return message[TYPE_AT] & LOWER_HALF; }

static size_t length_of(const uint8_t *message) { return number_at(message + LENGTH_AT); }

/* The place of a messageType among those that are kept; HEARD_TYPES if it is none of them. */
static enum heard_type heard_type(const uint8_t *message) {
    switch (type_of(message)) {
    case ANNOUNCE_TYPE: return ANNOUNCES;
    case SYNC: return SYNCS;
    case FOLLOW_UP: return FOLLOW_UPS;
    case DELAY_REQ: return DELAY_REQS;
    default: return HEARD_TYPES;
    }
}

/* Keeps the message that came in last. */
static void keep(struct kept *kept, const uint8_t *message, size_t size) {
    kept->at = nanoseconds();
    kept->is_written = false;
    kept->size = size;
    kept->message = needed(realloc(kept->message, size), "what is heard");
    memcpy(kept->message, message, size);
    snprintf(kept->from, sizeof kept->from, "%s", sender_text());
    snprintf(kept->on, sizeof kept->on, "%s", came_in_at() == NULL ? "" : came_in_at());
}

static void write_kept(FILE *to, const struct kept *kept, const char *taken) {
    write_line(to, &(struct message_line){
        .at = kept->at, .from = kept->from, .on = *kept->on == '\0' ? NULL : kept->on, .taken = taken, .message = kept->message,
        .size = kept->size,
    });
}

/* ---- what clocks send by themselves */

/* Whether it is a message that is kept, whole and of this version. */
static bool is_to_keep(const uint8_t *datagram, size_t size) {
    if (size < TIMED_SIZE || heard_type(datagram) == HEARD_TYPES || (datagram[VERSION_AT] & LOWER_HALF) != VERSION) return false;
    size_t length = length_of(datagram), least = type_of(datagram) == ANNOUNCE_TYPE ? ANNOUNCE_SIZE : TIMED_SIZE;
    return length >= least && length <= size;
}

/* How many octets of the sourcePortIdentity count: the ports of a clock share the place of its Delay_Req. */
static size_t source_size(const uint8_t *message) { return type_of(message) == DELAY_REQ ? CLOCK_IDENTITY : PORT_IDENTITY; }

/* Whether they are of one port or clock, domain, sdoId and messageType. */
static bool is_like(const uint8_t *one, const uint8_t *other) {
    return type_of(one) == type_of(other) && is_same_domain(domain_of(one), domain_of(other))
           && memcmp(one + SOURCE_AT, other + SOURCE_AT, source_size(one)) == 0;
}

/* The place that a message has, or may take. */
static size_t place_of(const uint8_t *message) {
    uint8_t head[] = { message[TYPE_AT], message[DOMAIN_AT], message[SDO_AT] };
    uint64_t sum = sum_of(sum_of(seed, head, sizeof head), message + SOURCE_AT, source_size(message));
    size_t place = (sum ^ sum >> 32) % PLACES;
    while (places[place] != 0 && !is_like(all[places[place] - 1].message, message)) place = (place + 1) % PLACES;
    return place;
}

/* How long it is kept, in nanoseconds. */
static int64_t lasting(const uint8_t *message) {
    int interval = (int8_t)message[INTERVAL_AT];
    if (interval < 0) interval = 0;
    return (int64_t)SENDINGS * SECOND << (interval < MOST_INTERVAL ? interval : MOST_INTERVAL);
}

void forget_silent(void) {
    size_t left = 0;
    forgotten_at = nanoseconds();
    memset(places, 0, sizeof places);
    memset(counts, 0, sizeof counts);
    for (size_t i = 0; i < kept_count; i++) {
        if (forgotten_at - all[i].at >= lasting(all[i].message)) {
            free(all[i].message);
            continue;
        }
        all[left] = all[i];
        counts[heard_type(all[left].message)]++;
        places[place_of(all[left].message)] = (uint16_t)(left + 1);
        left++;
    }
    kept_count = left;
}

static bool is_full(enum heard_type type) { return counts[type] == (type == DELAY_REQS ? MOST_OF_CLOCKS : MOST_OF_PORTS); }

/* The one that this message replaces, or a new one. NULL if there is no room, even if the silent ones are forgotten. That is done each second at
   most. */
static struct kept *find_kept(const uint8_t *message) {
    enum heard_type type = heard_type(message);
    if (length_of(message) > MOST_OCTETS_KEPT) return NULL;
    if (seed == 0) draw_octets((uint8_t *)&seed, sizeof seed);
    bool is_new = places[place_of(message)] == 0;
    if (is_new && is_full(type) && nanoseconds() - forgotten_at >= SECOND) forget_silent();
    size_t place = place_of(message);
    if (places[place] != 0) return &all[places[place] - 1];
    if (is_full(type)) return NULL;
    counts[type]++;
    all[kept_count] = (struct kept){ 0 };
    places[place] = (uint16_t)++kept_count;
    return &all[kept_count - 1];
}

bool keep_heard(const uint8_t *datagram, size_t size) {
    if (!came_from_asked() || !is_to_keep(datagram, size)) return false;
    struct kept *kept = find_kept(datagram);
    if (kept == NULL) dropped[heard_type(datagram)]++;
    else keep(kept, datagram, length_of(datagram));
    return true;
}

const uint8_t *heard_clock(size_t place, struct domain *domain) {
    for (size_t i = 0; i < kept_count; i++) {
        if (type_of(all[i].message) == DELAY_REQ || place-- > 0) continue;
        *domain = domain_of(all[i].message);
        return all[i].message + SOURCE_AT;
    }
    return NULL;
}

bool heard_domain(size_t place, struct domain *domain) {
    if (place >= kept_count) return false;
    *domain = domain_of(all[place].message);
    return true;
}

unsigned long unheard(enum heard_type type) { return unheard_before[type]; }

/* Says which messages found no room for a collection that ends. */
static void tell_unheard(void) {
    memcpy(unheard_before, dropped, sizeof dropped);
    memset(dropped, 0, sizeof dropped);
    unsigned long of_ports = unheard(ANNOUNCES) + unheard(SYNCS) + unheard(FOLLOW_UPS), of_clocks = unheard(DELAY_REQS);
    if (of_ports > 0) complain("there is room for %d of each Announce, Sync and Follow_Up: %lu more are left out", MOST_OF_PORTS, of_ports);
    if (of_clocks > 0) complain("there is room for %d Delay_Req: %lu more are left out", MOST_OF_CLOCKS, of_clocks);
}

void write_heard(FILE *to, bool is_of_all) {
    for (size_t i = 0; i < kept_count; i++) {
        if (all[i].is_written && !is_of_all) continue;
        all[i].is_written = true;
        write_kept(to, &all[i], NULL);
    }
    if (!is_of_all) tell_unheard();
}

/* ---- answers that are not taken */

static struct kept untaken[MOST_UNTAKEN];
static size_t untaken_count;
static unsigned long without_room;
static uint8_t asker[PORT_IDENTITY];

void ask_as(const uint8_t source[10]) { memcpy(asker, source, sizeof asker); }

static bool is_answer(const uint8_t *datagram, size_t size) {
    return size > ACTION_AT && type_of(datagram) == MANAGEMENT_TYPE && (datagram[ACTION_AT] & LOWER_HALF) == RESPONSE
           && memcmp(datagram + TARGET_AT, asker, sizeof asker) == 0;
}

static bool is_seen_by_now(const uint8_t *message) { return is_seen(domain_of(message), message + SOURCE_AT); }

static bool is_of_clock(const uint8_t *one, const uint8_t *other) {
    return is_same_domain(domain_of(one), domain_of(other)) && memcmp(one + SOURCE_AT, other + SOURCE_AT, CLOCK_IDENTITY) == 0;
}

static struct kept *find_untaken(enum untaken why, const uint8_t *datagram) {
    for (size_t i = 0; i < untaken_count; i++) {
        if (untaken[i].why == why && is_of_clock(untaken[i].message, datagram)) return &untaken[i];
    }
    return untaken_count < MOST_UNTAKEN ? &untaken[untaken_count++] : NULL;
}

void note_untaken(enum untaken why, const uint8_t *datagram, size_t size) {
    if (!is_answer(datagram, size) || is_seen_by_now(datagram)) return;
    struct kept *kept = find_untaken(why, datagram);
    without_room += kept == NULL;
    if (kept == NULL) return;
    kept->why = why;
    keep(kept, datagram, size < MOST_OCTETS_KEPT ? size : MOST_OCTETS_KEPT);
}

void tell_late(const struct task *task) {
    static bool is_told;
    for (size_t i = 0; i < untaken_count && !is_told; i++) {
        if (untaken[i].why != LATE || is_seen_by_now(untaken[i].message)) continue;
        is_told = true;
        complain("an answer from %s came too late, and is ignored: --timeout waits longer for each answer, %ld ms here",
                 identity_text(untaken[i].message + SOURCE_AT), task->timeout);
    }
}

void write_untaken(FILE *to) {
    static const char *const words[] = { "off_link", "late", "unreadable" };
    for (size_t i = 0; i < untaken_count; i++) {
        if (!is_seen_by_now(untaken[i].message)) write_kept(to, &untaken[i], words[untaken[i].why]);
    }
    if (without_room > 0) complain("%lu more ignored answers have no line", without_room);
    add_unseen(without_room);
    untaken_count = 0;
    without_room = 0;
}
