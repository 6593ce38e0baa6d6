#include "askers.h"
#include <string.h>

/* The places are used by turns. Each has a message at least, so there are enough. */
static struct asker askers[MOST_WAITING];
static size_t first, count, of_ports, of_peers;

void add_asker(const struct heard *heard, uint16_t port, const struct ptpm_taken *taken, const struct learned *value) {
    struct asker *asker = &askers[(first + count++) % MOST_WAITING];
    asker->heard = *heard;
    memcpy(asker->request, heard->octets + SOURCE_AT, sizeof asker->request);
    asker->heard.octets = NULL;
    asker->port = port;
    if (heard->station != NULL) asker->heard.station = memcpy(asker->station, heard->station, STATION);
    asker->count = (size_t)taken->waiting;
    asker->changed = taken->changed;
    if (value != NULL) memcpy(&asker->value, value, value->size);
    if (heard->port == NULL) of_peers++;
    else of_ports += (size_t)taken->waiting;
}

const struct asker *next_asker(void) {
    struct asker *asker = &askers[first];
    bool is_last = --asker->count == 0;
    if (asker->heard.port != NULL) of_ports--;
    else of_peers -= is_last;
    if (is_last) {
        first = (first + 1) % MOST_WAITING;
        count--;
    }
    return asker;
}

bool is_asking(const struct heard *heard) {
    for (size_t i = 0; i < count && heard->size >= LEAST_MESSAGE; i++) {
        const struct asker *asker = &askers[(first + i) % MOST_WAITING];
        if (memcmp(asker->request, heard->octets + SOURCE_AT, sizeof asker->request) == 0) return true;
    }
    return false;
}

size_t port_messages(void) { return of_ports; }

size_t peers_asking(void) { return of_peers; }
