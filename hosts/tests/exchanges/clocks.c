/* Commands of a clock. Each datagram comes in at a second and a third clock too, which are restored from the image of the first. All have
   to answer, send and become the same. */
#include "commands.h"
#include <string.h>

/* The places of the sender's identity and of a dataField in a message. How many messages that are alike have a line each. */
enum { SENDER = 20, FIELD = 54, FEW = 8 };

struct ptpm_clock clock_of_page;
struct start start_of_page;

/* What came of a datagram. */
struct turn { uint32_t answer; struct ptpm_taken taken; struct ptpm_sent sent[PLACES]; };

static struct turn turn;
static struct ptpm_changed changed;

/* How many messages may wait in the clock of the page, if it saves; otherwise 0. */
static size_t places_to_wait;

/* The ids of its device. One more than a clock takes, so that a page can give too many. */
struct relayed { size_t count; struct ptpm_relayed_id ids[PTPM_MOST_IDS + 1]; };

static struct relayed relayed;

void stop_clock(void) {
    places_to_wait = 0;
    relayed.count = 0;
    ptpm_clock_stop(&clock_of_page);
}

static uint32_t start(void *given) {
    const struct start *as = given;
    return ptpm_clock_start_sized(&clock_of_page, &as->clock, as->ports, as->port_count, as->managers.of, as->managers.count);
}

static void run_start(char *words) {
    read_start(&words, &start_of_page);
    places_to_wait = 0;
    relayed.count = 0;
    say_outcome(refusing(start, &start_of_page, NULL), "STARTED");
}

static size_t image_of(const struct ptpm_clock *clock, uint8_t *octets) {
    size_t size;
    return ptpm_clock_image(clock, octets, MOST_OCTETS, &size) == PTPM_SAVED ? size : 0;
}

static size_t state(uint8_t *octets) { return image_of(&clock_of_page, octets); }

/* Starts the second clock from the first one's image, and saves it as the first; whether there is one. There is none while the
   first is unsaved, since the others are saved. */
static bool restores_second(struct ptpm_clock *second) {
    static uint8_t image[MOST_OCTETS];
    const struct start *as = &start_of_page;
    size_t gone, size = ptpm_clock_unsaved(&clock_of_page) ? 0 : state(image);
    if (size == 0) return false;
    bool is_restored = ptpm_clock_restore(second, as->clock.identity, as->port_count, as->managers.of, as->managers.count, image, size,
                                          &gone) == PTPM_RESTORED && gone == 0
                       && ptpm_clock_relay(second, relayed.ids, relayed.count) == PTPM_RELAYING
                       && (places_to_wait == 0 || ptpm_clock_saving(second, places_to_wait) == PTPM_SAVING);
    if (!is_restored) say("no clock is restored from its image\n");
    return is_restored;
}

static bool is_same_message(const struct ptpm_sent *one, const struct ptpm_sent *other) {
    return one->port == other->port && one->size == other->size && memcmp(one->octets, other->octets, one->size) == 0;
}

static bool is_same_turn(const struct turn *one, const struct turn *other) {
    if (one->answer != other->answer || one->taken.count != other->taken.count) return false;
    for (size_t i = 0; i < one->taken.count; i++) {
        if (!is_same_message(&one->sent[i], &other->sent[i])) return false;
    }
    return true;
}

static bool is_same_clock(const struct ptpm_clock *other) {
    static uint8_t one[MOST_OCTETS], two[MOST_OCTETS];
    size_t size = state(one);
    return image_of(other, two) == size && memcmp(one, two, size) == 0;
}

/* Says if a call has written to a place that has no message. If `waiting` messages wait, as many places have zeros. */
static void check_places(size_t written, size_t waiting) {
    const uint8_t *octets = (const uint8_t *)&turn.sent[written], *blank = (const uint8_t *)&turn.sent[written + waiting],
                  *end = (const uint8_t *)&turn.sent[PLACES];
    while (octets < end && *octets == (octets < blank ? 0 : 0xee)) octets++;
    if (octets < end) say("it writes to a place that has no message\n");
}

/* A datagram, with what the device says of it, and whether it is its owner's. Or what the device says of the change under way. */
struct coming { uint16_t port; struct octets datagram; struct ptpm_say said; bool is_of_owner, is_under_way; };

static uint32_t take(struct ptpm_clock *clock, const struct coming *in, struct turn *into, size_t places) {
    if (in->is_under_way) return ptpm_clock_decide(clock, &in->said, into->sent, places, &into->taken);
    return ptpm_clock_take(clock, in->port, in->datagram.at, in->datagram.size, &in->said, in->is_of_owner, into->sent, places, &into->taken);
}

/* Whether ptpm_clock_handle takes a datagram like that, at a clock that sends at once. */
static bool is_simple(const struct coming *in) {
    return places_to_wait == 0 && relayed.count == 0 && in->said.kind == PTPM_AGREES && !in->is_of_owner && !in->is_under_way;
}

/* Hands a datagram in at the second clock: by ptpm_clock_handle if that takes it. */
static void take_again(struct ptpm_clock *second, const struct coming *in, struct turn *into, size_t places) {
    size_t count = 1;
    if (!is_simple(in)) {
        into->answer = take(second, in, into, places);
        return;
    }
    into->answer = ptpm_clock_handle(second, in->port, in->datagram.at, in->datagram.size, into->sent, places, &count);
    into->taken = (struct ptpm_taken){ .count = count };
}

static void put_message(struct ptpm_sent *sent, size_t port, const uint8_t *octets, size_t size) {
    sent->port = (uint16_t)port;
    sent->size = (uint16_t)size;
    memcpy(sent->octets, octets, size);
}

/* Hands a datagram in by ptpm_clock_handle_shared. The messages are those that its host sends then. */
static void take_shared(struct ptpm_clock *clock, const struct coming *in, struct turn *into, size_t places) {
    static struct ptpm_answer answers[PTPM_MOST_PORTS];
    static struct octets datagram;
    struct ptpm_shared shared;
    size_t count = 0;
    datagram = in->datagram;
    into->answer = ptpm_clock_handle_shared(clock, in->port, datagram.at, datagram.size, answers, places, &shared);
    for (size_t place = 0; place < PTPM_MOST_PORTS; place++) {
        if (shared.ports >> place & 1) put_message(&into->sent[count++], place + 1, datagram.at, (size_t)shared.size);
    }
    for (size_t i = 0; i < shared.count; i++) put_message(&into->sent[count++], answers[i].port, answers[i].octets, answers[i].size);
    into->taken = (struct ptpm_taken){ .count = count };
}

static void check_again(const struct ptpm_clock *other, const struct turn *again) {
    if (!is_same_turn(&turn, again) || !is_same_clock(other)) say("the clock that was restored does something else\n");
}

/* Hands a datagram in at all three clocks; at the third only if ptpm_clock_handle takes it. */
static void handle(const struct coming *in, size_t places) {
    static struct turn again;
    struct ptpm_clock second = { 0 }, third = { 0 };
    bool is_twice = restores_second(&second);
    bool is_shared = is_twice && is_simple(in) && places == PLACES && restores_second(&third);
    memset(&turn, 0xee, sizeof turn);
    turn.answer = take(&clock_of_page, in, &turn, places);
    changed = turn.taken.changed;
    check_places((size_t)turn.taken.count, (size_t)turn.taken.waiting);
    if (is_twice && turn.answer != PTPM_UNSAVED) {
        take_again(&second, in, &again, places);
        check_again(&second, &again);
    }
    if (is_shared) {
        take_shared(&third, in, &again, PTPM_MOST_PORTS);
        check_again(&third, &again);
    }
    ptpm_clock_stop(&second);
    ptpm_clock_stop(&third);
}

static void say_sent(const struct ptpm_sent *sent) {
    say("%u: ", sent->port);
    say_message(sent->octets, sent->size);
    note_message(sent->octets, sent->size);
}

/* Whether a message is the one before it, and goes out at the next port. */
static bool is_next_copy(const struct ptpm_sent *sent) {
    const struct ptpm_sent *before = sent - 1;
    return sent->port == before->port + 1 && sent->size == before->size && memcmp(sent->octets, before->octets, sent->size) == 0;
}

/* Puts the next port in a portNumber if the identity before it is the sender's. */
static void count_port(uint8_t *message, size_t place) {
    if (memcmp(message + place - 8, message + SENDER, 8) == 0 && ++message[place + 1] == 0) message[place]++;
}

/* Whether a message is the one before it, as the next port of the clock answers at the same port. */
static bool is_next_answer(const struct ptpm_sent *sent) {
    struct ptpm_sent next = sent[-1];
    count_port(next.octets, SENDER + 8);
    if (next.size >= FIELD + 10) count_port(next.octets, FIELD + 8);
    return sent->port == next.port && sent->size == next.size && memcmp(sent->octets, next.octets, next.size) == 0;
}

/* How many messages after this one are like it. */
static size_t alike(const struct ptpm_sent *sent, size_t count, bool (*is_next)(const struct ptpm_sent *sent)) {
    size_t found = 0;
    while (found + 1 < count && is_next(sent + found + 1)) found++;
    return found;
}

/* What is sent, a line each. Of more than eight that are alike the first has one, and all others together. */
static void say_all_sent(const struct ptpm_sent *sent, size_t count) {
    while (count > 0) {
        size_t copies = alike(sent, count, is_next_copy), answers = alike(sent, count, is_next_answer), done = 1;
        unsigned from = 256u * sent->octets[SENDER + 8] + sent->octets[SENDER + 9];
        say_sent(sent);
        if (copies >= FEW) say("%u to %zu: the same\n", sent->port + 1, sent->port + copies);
        else if (answers >= FEW) say("%u: the same of ports %u to %zu\n", sent->port, from + 1, from + answers);
        if (copies >= FEW || answers >= FEW) done += copies > answers ? copies : answers;
        sent += done;
        count -= done;
    }
}

/* What came of it: what is sent, and how many messages wait. */
static void say_turn(void) {
    say_outcome(turn.answer, "0");
    say_all_sent(turn.sent, (size_t)turn.taken.count);
    if (turn.taken.waiting > 0) say("waiting: %llu\n", (unsigned long long)turn.taken.waiting);
}

/* Hands in the datagram of these words. */
static void run_datagram(char *words, struct coming *in, size_t places) {
    read_octets(&words, &in->datagram);
    handle(in, places);
    note_message(in->datagram.at, in->datagram.size);
    say_turn();
}

static void run_in(char *words) {
    static struct coming in;
    size_t places = next_room(&words, PLACES);
    in.port = (uint16_t)next_number(&words, 0);
    run_datagram(words, &in, places);
}

/* `in-shared PORT OCTETS`: what ptpm_clock_handle_shared has its host send. */
static void run_in_shared(char *words) {
    static struct coming in;
    size_t places = next_room(&words, PTPM_MOST_PORTS);
    in.port = (uint16_t)next_number(&words, 0);
    read_octets(&words, &in.datagram);
    take_shared(&clock_of_page, &in, &turn, places);
    say_turn();
}

/* `transit PORT OCTETS`: the copies that are passed on of what the library does not read, or `nothing`. */
static void run_transit(char *words) {
    static struct octets datagram;
    size_t places = next_room(&words, PLACES);
    uint16_t port = (uint16_t)next_number(&words, 0);
    read_octets(&words, &datagram);
    memset(&turn, 0xee, sizeof turn);
    size_t count = ptpm_clock_transit(&clock_of_page, port, datagram.at, datagram.size, turn.sent, places);
    check_places(count, 0);
    if (count == 0) say("nothing\n");
    say_all_sent(turn.sent, count);
}

/* `in-owner PORT OCTETS`. */
static void run_in_owner(char *words) {
    static struct coming in = { .is_of_owner = true };
    size_t places = next_room(&words, PLACES);
    in.port = (uint16_t)next_number(&words, 0);
    run_datagram(words, &in, places);
}

/* `in-said PORT KIND ERROR OCTETS`. */
static void run_in_said(char *words) {
    static struct coming in;
    size_t places = next_room(&words, PLACES);
    in.port = (uint16_t)next_number(&words, 0);
    in.said.kind = (uint8_t)next_number(&words, 0);
    in.said.error = (uint16_t)next_number(&words, 0);
    run_datagram(words, &in, places);
}

static void read_given(char **words, struct ptpm_say *said) {
    static struct octets value;
    read_octets(words, &value);
    *said = (struct ptpm_say){ .kind = PTPM_GIVES, .size = (uint16_t)value.size };
    memcpy(said->octets, value.at, value.size < sizeof said->octets ? value.size : sizeof said->octets);
}

/* `in-given PORT VALUE, OCTETS`: the device gives the octets of a value. */
static void run_in_given(char *words) {
    static struct coming in;
    size_t places = next_room(&words, PLACES);
    in.port = (uint16_t)next_number(&words, 0);
    char *given = strsep(&words, ",");
    read_given(&given, &in.said);
    if (words == NULL) say_misspelt("in-given");
    else run_datagram(words, &in, places);
}

/* `decide KIND ERROR`. */
static void run_decide(char *words) {
    static struct coming in = { .is_under_way = true };
    size_t places = next_room(&words, PLACES);
    in.said.kind = (uint8_t)next_number(&words, 0);
    in.said.error = (uint16_t)next_number(&words, 0);
    handle(&in, places);
    say_turn();
}

/* `decide-given VALUE`: the device gives the octets of a value. */
static void run_decide_given(char *words) {
    static struct coming in = { .is_under_way = true };
    read_given(&words, &in.said);
    handle(&in, PLACES);
    say_turn();
}

/* The members whose bits are set, by the names that the refusals of a start give them after BAD_. */
static void say_members(uint32_t members, uint32_t first) {
    for (uint32_t bit = 0; bit < 32; bit++) {
        if (members >> bit & 1) say(" %s", answer_name(first + bit, "") + strlen("BAD_"));
    }
    say("\n");
}

static void run_changed(char *words) {
    (void)words;
    if (changed.clock != 0) {
        say("clock:");
        say_members(changed.clock, PTPM_BAD_IDENTITY);
    }
    for (unsigned port = 0; port < sizeof changed.ports; port++) {
        if (changed.ports[port] == 0) continue;
        say("port %u:", port + 1);
        say_members(changed.ports[port], PTPM_BAD_STATE);
    }
}

/* `set-here ACTION ID PORT OCTETS`. What changed is said at once. */
static void run_set_here(char *words) {
    static struct octets field;
    uint16_t error = 0xeeee;
    uint8_t action = next_action(&words);
    uint16_t id = next_hex(&words), port = next_hex(&words);
    read_octets(&words, &field);
    memset(&changed, 0xee, sizeof changed);
    uint32_t answer = ptpm_clock_set(&clock_of_page, action, id, port, field.at, field.size, &changed, &error);
    if (answer == PTPM_SET_REFUSED) say("%s %04x\n", answer_name(answer, ""), error);
    else say("%s\n%s", answer_name(answer, "SET_HERE"), error == 0 ? "" : "it has an error\n");
    run_changed(words);
}

static void run_observe(char *words) {
    struct observation seen;
    uint64_t left = 0xee;
    read_observation(&words, &seen);
    uint32_t answer = ptpm_clock_observe(&clock_of_page, &seen.clock, seen.ports, seen.port_count, &left);
    say_outcome(answer, "OBSERVED");
    if (left != 0) say("left: %llu\n", (unsigned long long)left);
}

static void run_read(char *words) {
    size_t size = 1, octets = next_room(&words, PTPM_MOST_READ);
    uint16_t id = next_hex(&words), port = (uint16_t)next_number(&words, 0);
    clear_room();
    uint32_t answer = ptpm_clock_read(&clock_of_page, id, port, room, octets, &size);
    say_written(answer, "READ", size, say_octets);
}

/* The most octets of an image of the page's clock. */
static size_t image_bound(void) {
    size_t bound = PTPM_CLOCK_IMAGE_BOUND(start_of_page.port_count, start_of_page.managers.count);
    return bound < MOST_OCTETS ? bound : MOST_OCTETS;
}

static void run_image(char *words) {
    size_t size = 1, octets = next_room(&words, image_bound());
    clear_room();
    uint32_t answer = ptpm_clock_image(&clock_of_page, room, octets, &size);
    put_name("IMAGE", room, size);
    say_written(answer, "SAVED", size, say_octets);
}

/* `image-is OCTETS`: what `image` does, with nothing shown of octets that are these. */
static void run_image_is(char *words) {
    static struct octets wanted;
    size_t size = 1, place = 0;
    read_octets(&words, &wanted);
    clear_room();
    uint32_t answer = ptpm_clock_image(&clock_of_page, room, image_bound(), &size);
    put_name("IMAGE", room, size);
    while (place < size && place < wanted.size && room[place] == wanted.at[place]) place++;
    if (!wrote_alone(size)) say("it writes more than that\n");
    if (size == wanted.size && place == size) say("%s\n", answer_name(answer, "SAVED"));
    else say("%s: of %zu octets, and not of %zu: at %zu is %02x\n", answer_name(answer, "SAVED"), size, wanted.size, place, room[place]);
}

static uint32_t begin_saving(void *given) {
    const size_t *places = given;
    return ptpm_clock_saving(&clock_of_page, *places);
}

static uint32_t relay(void *given) {
    const struct relayed *as = given;
    return ptpm_clock_relay(&clock_of_page, as->ids, as->count);
}

/* `relay ID SCOPE ACTIONS RIGHT LEAST MOST, ID ..`. */
static void run_relay(char *words) {
    static struct relayed given;
    given.count = 0;
    for (char *row; given.count <= PTPM_MOST_IDS && (row = strsep(&words, ",")) != NULL; given.count++) {
        struct ptpm_relayed_id *id = &given.ids[given.count];
        id->id = next_hex(&row);
        id->scope = (uint8_t)next_number(&row, 0);
        id->actions = (uint8_t)next_number(&row, 0);
        id->right = (uint8_t)next_number(&row, 0);
        id->least = (uint16_t)next_number(&row, 0);
        id->most = (uint16_t)next_number(&row, 0);
    }
    uint32_t answer = refusing(relay, &given, state);
    say_outcome(answer, "RELAYING");
    if (answer == PTPM_RELAYING) relayed = given;
}

/* `saving PLACES`; PTPM_MOST_SENT of them if none are said. */
static void run_saving(char *words) {
    size_t places = (size_t)next_number(&words, PTPM_MOST_SENT);
    uint32_t answer = refusing(begin_saving, &places, state);
    if (answer == PTPM_SAVING && places_to_wait == 0) places_to_wait = places;
    say_outcome(answer, "SAVING");
}

/* The image is what `image` shows, so only its token is shown, and whether it is another. */
static void run_image_of(char *words) {
    static uint8_t image[MOST_OCTETS];
    size_t size = 1, octets = next_room(&words, image_bound());
    uint64_t token = 0xee;
    clear_room();
    uint32_t answer = ptpm_clock_image_of(&clock_of_page, room, octets, &size, &token);
    say("%s %llu\n", answer_name(answer, "SAVED"), (unsigned long long)token);
    if (!wrote_alone(size)) say("it writes past what it says\n");
    if (answer == PTPM_SAVED && (image_of(&clock_of_page, image) != size || memcmp(room, image, size) != 0)) say("it is another image\n");
}

/* `saved TOKEN`. */
static void run_saved(char *words) {
    say_outcome(ptpm_clock_saved(&clock_of_page, (uint64_t)next_number(&words, 0)), "SAVED");
}

/* The message that is given, or `nothing`. */
static void run_next(char *words) {
    (void)words;
    memset(&turn, 0xee, sizeof turn);
    size_t count = ptpm_clock_next(&clock_of_page, turn.sent);
    check_places(count, 0);
    if (count == 0) say("nothing\n");
    else say_sent(turn.sent);
}

/* How many more messages may wait, or `any`. */
static void run_free(char *words) {
    (void)words;
    size_t count = ptpm_clock_free(&clock_of_page);
    if (count == SIZE_MAX) say("any\n");
    else say("%zu\n", count);
}

static void run_unsaved(char *words) {
    (void)words;
    say("%u\n", ptpm_clock_unsaved(&clock_of_page));
}

struct restore { uint8_t identity[8]; size_t ports; struct managers managers; struct octets image; size_t gone; };

static uint32_t restore(void *given) {
    struct restore *from = given;
    from->gone = 0xee;
    uint32_t answer = ptpm_clock_restore(&clock_of_page, from->identity, from->ports, from->managers.of, from->managers.count,
                                         from->image.at, from->image.size, &from->gone);
    if (answer != PTPM_RESTORED && from->gone != 0) say("it is refused, and lets %zu go\n", from->gone);
    return answer;
}

/* `restore K 2 manager M 0001 7 from OCTETS`. */
static void run_restore(char *words) {
    static struct restore from;
    read_exactly(next_word(&words), from.identity, 8);
    from.ports = (size_t)next_number(&words, 0);
    read_managers(&words, &from.managers);
    if (!takes_word(&words, "from")) say_misspelt(words);
    read_octets(&words, &from.image);
    uint32_t answer = refusing(restore, &from, state);
    say_outcome(answer, "RESTORED");
    if (answer != PTPM_RESTORED) return;
    places_to_wait = 0;
    relayed.count = 0;
    if (from.gone != 0) say("gone: %zu\n", from.gone);
    memcpy(start_of_page.clock.identity, from.identity, 8);
    start_of_page.port_count = from.ports;
    start_of_page.managers = from.managers;
}

static void run_most_sent(char *words) {
    (void)words;
    say("%zu\n", ptpm_clock_most_sent(&clock_of_page));
}

const struct command clock_commands[] = {
    { "clock", run_start }, { "in", run_in }, { "in-shared", run_in_shared }, { "transit", run_transit }, { "in-owner", run_in_owner }, { "in-said", run_in_said }, { "in-given", run_in_given }, { "decide", run_decide }, { "decide-given", run_decide_given }, { "changed", run_changed }, { "observe", run_observe },
    { "set-here", run_set_here }, { "read", run_read }, { "image", run_image }, { "image-is", run_image_is }, { "restore", run_restore }, { "relay", run_relay }, { "saving", run_saving }, { "image-of", run_image_of },
    { "saved", run_saved }, { "next", run_next }, { "free", run_free }, { "unsaved", run_unsaved }, { "most-sent", run_most_sent }, { NULL, NULL },
};
