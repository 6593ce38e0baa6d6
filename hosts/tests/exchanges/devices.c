/* Commands of what a clock's device is asked, and of the values that its hardware has. */
#include "commands.h"
#include <stddef.h>
#include <string.h>

enum { MOST_LIMITS = 8 };

/* What the device was asked last. */
static struct ptpm_question asked;

static bool are_zeros(const uint8_t *octets, size_t size) {
    for (size_t i = 0; i < size; i++) if (octets[i] != 0) return false;
    return true;
}

/* What the device is asked is said as the fields of its request. */
static void say_asked(uint32_t answer) {
    static const struct ptpm_question nothing;
    say_outcome(answer, "ASKED_NOTHING");
    if (answer != PTPM_ASKED_CHANGE && answer != PTPM_ASKED_VALUE) {
        if (memcmp(&asked, &nothing, offsetof(struct ptpm_question, octets) + sizeof asked.octets) != 0) say("it writes what is not asked\n");
        return;
    }
    say_octets(asked.manager, sizeof asked.manager);
    say(" %04x %04x %02x %04x %04x ", asked.manager_port, asked.number, asked.action, asked.port, asked.id);
    say_octets(asked.octets, asked.size);
    say("\n");
    if (!are_zeros(asked.octets + asked.size, sizeof asked.octets - asked.size)) say("it leaves what was there after the dataField\n");
}

static void run_question(char *words, enum ptpm_asking (*call)(struct ptpm_clock *, uint16_t, const uint8_t *, size_t, struct ptpm_question *)) {
    static struct octets datagram;
    uint16_t port = (uint16_t)next_number(&words, 0);
    read_octets(&words, &datagram);
    memset(&asked, 0xee, sizeof asked);
    say_asked(call(&clock_of_page, port, datagram.at, datagram.size, &asked));
}

static enum ptpm_asking ask(struct ptpm_clock *clock, uint16_t port, const uint8_t *datagram, size_t size, struct ptpm_question *question) {
    return ptpm_clock_ask(clock, port, datagram, size, question);
}

/* `ask-device PORT OCTETS`. */
static void run_ask_device(char *words) { run_question(words, ask); }

/* `undertake PORT OCTETS`. */
static void run_undertake(char *words) { run_question(words, ptpm_clock_undertake); }

static void run_under_way(char *words) {
    (void)words;
    memset(&asked, 0xee, sizeof asked);
    say_asked(ptpm_clock_under_way(&clock_of_page, &asked));
}

/* `range LEAST MOST`. The values are said as octets. */
static void run_range(char *words) {
    struct ptpm_limit limit = { .id = 0x200b, .port = 2 };
    memset(limit.values, 0xee, sizeof limit.values);
    int32_t least = (int32_t)next_number(&words, 0);
    ptpm_limit_range(&limit, least, (int32_t)next_number(&words, 0));
    if (limit.id != 0x200b || limit.port != 2) say("it writes more than the values\n");
    say_octets(limit.values, sizeof limit.values);
    say("\n");
}

/* A limit of the words ID PORT and LEAST MOST, or ID PORT none. */
static void read_limit(char **words, struct ptpm_limit *limit) {
    limit->id = next_hex(words);
    limit->port = next_hex(words);
    memset(limit->values, 0, sizeof limit->values);
    if (takes_word(words, "none")) return;
    int32_t least = (int32_t)next_number(words, 0);
    ptpm_limit_range(limit, least, (int32_t)next_number(words, 0));
}

/* `limits LIMIT, LIMIT ..`: what they say of what the device was asked last, by the standard's name of the error. */
static void run_limits(char *words) {
    static struct ptpm_limit limits[MOST_LIMITS];
    size_t count = 0;
    for (char *limit; count < MOST_LIMITS && (limit = strsep(&words, ",")) != NULL; count++) read_limit(&limit, &limits[count]);
    uint16_t error = ptpm_limits_say(limits, count, &asked);
    clear_room();
    size_t size = ptpm_error_name(error, (char *)room, PTPM_MOST_NAME);
    say("%.*s\n", size == 0 ? 7 : (int)size, size == 0 ? "nothing" : (const char *)room);
}

const struct command device_commands[] = {
    { "ask-device", run_ask_device }, { "undertake", run_undertake }, { "under-way", run_under_way }, { "range", run_range }, { "limits", run_limits }, { NULL, NULL },
};
