#include "values.h"
#include "message_places.h"
#include "network_limits.h"
#include "output.h"
#include "source.h"
#include <errno.h>
#include <string.h>
#include <sys/stat.h>
#include <unistd.h>

enum { TARGET_PORT_AT = TARGET_AT + CLOCK_IDENTITY };

static bool is_told[VALUES];            /* that the file of this value has none */

/* What the device says of the latest GET: of the clock (port 0), or of each port that answers. */
static struct { uint16_t port; struct ptpm_say say; } said[PORTS];
static size_t said_count;

static bool is_action(const struct heard *heard, uint8_t action) {
    return heard->size >= LEAST_MESSAGE && (heard->octets[ACTION_AT] & LOWER_HALF) == action;
}

/* Whether a request names this value. */
static bool is_named(const struct heard *heard, const struct value *value) {
    if (number_at(heard->octets + ID_AT) != value->id) return false;
    uint16_t port = number_at(heard->octets + TARGET_PORT_AT);
    return value->port == 0 || port == EVERY_PORT || port == value->port;
}

static bool is_asked(const struct heard *heard, const struct value *value) { return is_action(heard, PTPM_GET) && is_named(heard, value); }

/* Reads what a file has, as far as there is room. Why it can't, or NULL. */
static const char *read_file(const char *path, uint8_t *octets, size_t room, size_t *size) {
    struct stat found;
    int file = open_to_read(path, &found);
    *size = 0;
    if (file < 0) return strerror(errno);
    const char *fault = S_ISREG(found.st_mode) ? NULL : "it is not a regular file";
    while (fault == NULL && *size < room) {
        ssize_t count = read(file, octets + *size, room - *size);
        if (count == 0) break;
        if (count > 0) *size += (size_t)count;
        else if (errno != EINTR) fault = strerror(errno);
    }
    close(file);
    return fault;
}

/* Has the device give what a file has. Why it can't, or NULL. */
static const char *read_value(const char *path, struct ptpm_say *say) {
    static uint8_t octets[sizeof say->octets + 1];
    size_t size;
    const char *fault = read_file(path, octets, sizeof octets, &size);
    if (fault != NULL) return fault;
    if (size == 0) return "it is empty";
    if (size > sizeof say->octets) return "it has more than 1418 octets";
    if (size % 2 != 0) return "it has an odd number of octets";
    say->kind = PTPM_GIVES;
    say->size = (uint16_t)size;
    memcpy(say->octets, octets, size);
    return NULL;
}

/* Whether the answer is kept, for a manager or since the owner asks like one. Then there is one, also to a GET of every port. */
static bool is_kept(const struct heard *heard) { return heard->is_of_owner || is_of_manager(heard); }

/* Reads the value at this place; whether the device gives it. */
static bool give(size_t place) {
    const struct value *value = &options->values[place];
    const char *fault = read_value(value->path, &said[said_count].say);
    if (fault != NULL && !is_told[place]) say_at_times("%s: %s, and a GET of %04x is answered with NO_SUCH_ID", value->path, fault, value->id);
    is_told[place] = fault != NULL;
    said[said_count].port = value->port;
    return fault == NULL;
}

const struct ptpm_say *value_to_give(const struct ptpm_clock *clock, struct heard *heard) {
    struct ptpm_question asked;
    said_count = 0;
    for (size_t place = 0; place < options->value_count && said_count < PORTS; place++) {
        const struct value *value = &options->values[place];
        if (!is_asked(heard, value)) continue;
        if (ptpm_clock_ask(clock, ingress_of(heard), heard->octets, heard->size, &asked) != PTPM_ASKED_VALUE) return NULL;
        if (value->port != 0 && asked.port == EVERY_PORT && is_kept(heard) && value->port != ingress_of(heard)) continue;
        if (!admit_answer_ahead(heard)) break;
        said_count += give(place);
    }
    return said_count > 0 ? &said[0].say : NULL;
}

/* Whether it is a SET or COMMAND of an id of --relay that ports have. */
static bool is_relayed_to_port(const struct heard *heard) {
    if (!is_action(heard, PTPM_SET) && !is_action(heard, PTPM_COMMAND)) return false;
    for (size_t place = 0; place < options->relayed_count; place++) {
        const struct ptpm_relayed_id *id = &options->relayed[place];
        if (id->id == number_at(heard->octets + ID_AT)) return id->scope == PTPM_OF_PORT;
    }
    return false;
}

const struct ptpm_say *value_by_now(const struct heard *change, const struct ptpm_say *say) {
    static struct ptpm_say now;
    for (size_t place = 0; place < options->value_count; place++) {
        const struct value *value = &options->values[place];
        if (is_action(change, PTPM_SET) && is_named(change, value) && read_value(value->path, &now) == NULL) return &now;
    }
    return say;
}

uint16_t port_asked(const struct heard *heard) {
    uint16_t port = number_at(heard->octets + TARGET_PORT_AT);
    bool is_of_port = is_relayed_to_port(heard) && port >= 1 && port <= clock_ports();
    if (is_of_port && memcmp(heard->octets + TARGET_AT, options->settings.identity, 8) == 0) return port;
    for (size_t place = 0; place < options->value_count; place++) {
        const struct value *value = &options->values[place];
        bool is_here = is_asked(heard, value) && value->port == number_at(heard->octets + TARGET_PORT_AT);
        if (is_here && memcmp(heard->octets + TARGET_AT, options->settings.identity, 8) == 0) return value->port;
    }
    return ingress_of(heard);
}

size_t answer_from_ports(struct ptpm_clock *clock, const struct heard *heard, struct ptpm_sent *places, size_t count) {
    static struct ptpm_sent made[TURN];
    struct ptpm_taken taken;
    if (count == 0 || said[0].port == 0 || is_kept(heard) || port_asked(heard) != ingress_of(heard)) return count;
    count--;
    for (size_t i = 0; i < said_count; i++) {
        ptpm_clock_take(clock, said[i].port, heard->octets, heard->size, &said[i].say, heard->is_of_owner, made, TURN, &taken);
        if (taken.count == 0) continue;
        places[count] = made[taken.count - 1];          /* the copies that are passed on come before it */
        places[count++].port = ingress_of(heard);
    }
    return count;
}
