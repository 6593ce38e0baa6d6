/* Commands of names and of dataFields as text, of the messages that are passed on, and of a bucket of tokens. */
#include "commands.h"
#include <string.h>

/* A table of a page has as many places at most. */
enum { MOST_PLACES = 64, SEED = 1588 };

static struct ptpm_passed_on passed_on;
static uint64_t places[MOST_PLACES][6];
static struct ptpm_rate rate;

void stop_network(void) {
    memset(&passed_on, 0, sizeof passed_on);
    memset(places, 0, sizeof places);
}

/* A name that a call wrote, or a minus sign for none. */
static void say_name(size_t size) {
    if (!wrote_alone(size)) say("it writes more than that\n");
    say("%.*s\n", size == 0 ? 1 : (int)size, size == 0 ? "-" : (const char *)room);
}

static void say_id(uint32_t id) {
    if (id == PTPM_NO_ID) say("-\n");
    else say("%04x\n", id);
}

/* `id NAME`; `id-of OCTETS` of a name as octets. */
static void run_id(char *words) { say_id(ptpm_id_named(words == NULL ? "" : words, words == NULL ? 0 : strlen(words))); }

static void run_id_of(char *words) {
    static struct octets name;
    read_octets(&words, &name);
    say_id(ptpm_id_named((const char *)name.at, name.size));
}

/* The name that a call gives the number of these words. */
static void say_name_by(size_t name(uint16_t number, char *text, size_t room), char *words) {
    size_t octets = next_room(&words, PTPM_MOST_NAME);
    uint16_t number = next_hex(&words);
    clear_room();
    say_name(name(number, (char *)room, octets));
}

static void run_id_name(char *words) { say_name_by(ptpm_id_name, words); }

/* All ids that a call gives, in their order. */
static void say_ids(uint32_t id_at(size_t place)) {
    for (size_t place = 0; id_at(place) != PTPM_NO_ID; place++) say("%s%04x", place == 0 ? "" : " ", id_at(place));
    say("\n");
}

/* `other-id NAME`, `other-id-name ID` and `other-ids`: the same for the ids that other clocks have. */
static void run_other_id(char *words) { say_id(ptpm_other_id_named(words == NULL ? "" : words, words == NULL ? 0 : strlen(words))); }

static void run_other_id_name(char *words) { say_name_by(ptpm_other_id_name, words); }

static void run_other_ids(char *words) {
    (void)words;
    say_ids(ptpm_other_id_at);
}

static void run_answer_name(char *words) {
    clear_room();
    say_name(ptpm_answer_name((uint32_t)next_number(&words, 0), (char *)room, PTPM_MOST_NAME));
}

static void run_error_name(char *words) { say_name_by(ptpm_error_name, words); }

static void run_ids(char *words) {
    (void)words;
    say_ids(ptpm_id_at);
}

/* What a person types: the rest of the command, or after the word octets these octets. */
static const struct octets *typed_text(char **words) {
    static struct octets text;
    if (takes_word(words, "octets")) {
        read_octets(words, &text);
        return &text;
    }
    text.size = *words == NULL ? 0 : strlen(*words);
    if (text.size > 0) memcpy(text.at, *words, text.size);
    return &text;
}

/* `typed-id TEXT`; `number-named NAMES NAME` of the names with this number. */
static void run_typed_id(char *words) {
    const struct octets *text = typed_text(&words);
    say_id(ptpm_id_parse((const char *)text->at, text->size));
}

static void run_number_named(char *words) {
    uint32_t names = (uint32_t)next_number(&words, 0);
    const struct octets *name = typed_text(&words);
    uint32_t number = ptpm_number_named(names, (const char *)name->at, name->size);
    if (number == PTPM_NO_NUMBER) say("-\n");
    else say("%u\n", number);
}

/* `identity TEXT`: the clock; `port-identity TEXT`: the clock and its port. What is none is written nowhere. */
static void run_identity(char *words) {
    const struct octets *text = typed_text(&words);
    clear_room();
    bool is_one = ptpm_identity_parse((const char *)text->at, text->size, room);
    if (!wrote_alone(is_one ? 8 : 0)) say("it writes more than that\n");
    say_octets(room, is_one ? 8 : 0);
    say("\n");
}

static void run_port_identity(char *words) {
    const struct octets *text = typed_text(&words);
    uint16_t port = 0xeeee;
    clear_room();
    bool is_one = ptpm_port_identity_parse((const char *)text->at, text->size, room, &port);
    if (!wrote_alone(is_one ? 8 : 0) || (!is_one && port != 0xeeee)) say("it writes more than that\n");
    say_octets(room, is_one ? 8 : 0);
    if (is_one) say(" port %u", port);
    say("\n");
}

/* `takes ID PLACE`: what a SET takes for a member. */
static void run_takes(char *words) {
    size_t octets = next_room(&words, PTPM_MOST_TAKES);
    uint16_t id = next_hex(&words);
    size_t place = (size_t)next_number(&words, 0);
    clear_room();
    size_t size = ptpm_field_takes(id, place, (char *)room, octets);
    if (size == 0) clear_room();            /* without room anything may be there */
    say_name(size);
}

/* `kinds ID OCTETS`: what the value of each member of a dataField is. */
static void run_kinds(char *words) {
    static struct octets field;
    uint16_t id = next_hex(&words);
    enum ptpm_member_kind kind;
    read_octets(&words, &field);
    if (ptpm_member_kind(id, field.at, field.size, 0) == PTPM_NO_MEMBER) say("-");
    for (size_t place = 0; (kind = ptpm_member_kind(id, field.at, field.size, place)) != PTPM_NO_MEMBER; place++) {
        say("%s%d", place == 0 ? "" : " ", (int)kind);
    }
    say("\n");
}

/* `text ID OCTETS`: the members of a dataField. */
static void run_text(char *words) {
    static struct octets field;
    size_t octets = next_room(&words, PTPM_MOST_FIELD_TEXT);
    uint16_t id = next_hex(&words);
    read_octets(&words, &field);
    clear_room();
    size_t size = ptpm_field_text(id, field.at, field.size, (char *)room, octets);
    say("%.*s", size == 0 ? 2 : (int)size, size == 0 ? "-\n" : (const char *)room);
    if (size > 0 && !wrote_alone(size)) say("it writes more than that\n");
}

/* `parse ID WORD|WORD|..`: the dataField of what is typed; `raw ID OCTETS` of octets that may be no words. */
static void parse(uint16_t id, const uint8_t *typed, size_t typed_size, size_t octets) {
    size_t size = 1, member = 0xee;
    clear_room();
    uint32_t answer = ptpm_field_parse(id, (const char *)typed, typed_size, room, octets, &size, &member);
    say_written(answer, "PARSED", size, say_octets);
    if (member != 0 || answer == PTPM_OTHER_NAME || answer == PTPM_NO_VALUE) say("member: %zu\n", member);
}

static void run_parse(char *words) {
    uint8_t typed[MOST_OCTETS / 8];
    size_t size = 0, octets = next_room(&words, PTPM_MOST_READ);
    uint16_t id = next_hex(&words);
    for (char *word; (word = strsep(&words, "|")) != NULL;) {
        size_t length = strlen(word) + 1;
        if (size + length > sizeof typed) return;
        memcpy(typed + size, word, length);
        size += length;
    }
    parse(id, typed, size, octets);
}

static void run_raw(char *words) {
    static struct octets typed;
    size_t octets = next_room(&words, PTPM_MOST_READ);
    uint16_t id = next_hex(&words);
    read_octets(&words, &typed);
    parse(id, typed.at, typed.size, octets);
}

/* `first NOW TIME OCTETS`: whether the message is to be passed on. */
static void run_first(char *words) {
    static struct octets message;
    uint64_t now = (uint64_t)next_number(&words, 0), time = (uint64_t)next_number(&words, 0);
    read_octets(&words, &message);
    say("%s\n", ptpm_passed_on_is_first(&passed_on, message.at, message.size, now, time) ? "yes" : "no");
}

/* `first-of COUNT NOW TIME OCTETS`: the same by a table of COUNT places. What is kept back changes none, and a message at most one. */
static void run_first_of(char *words) {
    static struct octets message;
    static uint64_t before[MOST_PLACES][6];
    size_t count = (size_t)next_number(&words, 0), changed = 0;
    uint64_t now = (uint64_t)next_number(&words, 0), time = (uint64_t)next_number(&words, 0);
    read_octets(&words, &message);
    memcpy(before, places, sizeof places);
    bool is_first = ptpm_passed_on_is_first_of(SEED, places, count, message.at, message.size, now, time);
    for (size_t i = 0; i < MOST_PLACES; i++)
        if (memcmp(before[i], places[i], sizeof places[i]) != 0) changed += i < count ? 1 : 2;
    if (changed > is_first) say("it writes more than one place\n");
    say("%s\n", is_first ? "yes" : "no");
}

/* `bucket TOKENS NOW` makes one; `tokens NOW ASKED` says how many of some it gives. */
static void run_bucket(char *words) {
    uint64_t tokens = (uint64_t)next_number(&words, 0);
    ptpm_rate_start(&rate, tokens, (uint64_t)next_number(&words, 0));
}

static void run_tokens(char *words) {
    uint64_t now = (uint64_t)next_number(&words, 0);
    long long asked = next_number(&words, 0), given = 0;
    for (long long i = 0; i < asked; i++) given += ptpm_rate_take(&rate, now);
    say("%lld\n", given);
}

const struct command text_commands[] = {
    { "id", run_id }, { "id-of", run_id_of }, { "id-name", run_id_name }, { "answer-name", run_answer_name }, { "error-name", run_error_name },
    { "other-id", run_other_id }, { "other-id-name", run_other_id_name }, { "other-ids", run_other_ids },
    { "typed-id", run_typed_id }, { "number-named", run_number_named }, { "identity", run_identity },
    { "port-identity", run_port_identity }, { "takes", run_takes }, { "kinds", run_kinds },
    { "ids", run_ids }, { "text", run_text }, { "parse", run_parse }, { "raw", run_raw }, { "first", run_first },
    { "first-of", run_first_of },
    { "bucket", run_bucket }, { "tokens", run_tokens }, { NULL, NULL },
};
