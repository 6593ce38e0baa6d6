/* Commands of an asker. What it hands out is said with its message, and with what it reports. */
#include "commands.h"
#include <string.h>

/* How many octets are drawn for an asker: this many are always given. */
enum { DRAWN = 26 };

static struct ptpm_asker asker;
static struct ptpm_handed handed;

struct opening { struct ptpm_asker_settings settings; uint8_t drawn[DRAWN]; struct octets image; };

void stop_asker(void) { ptpm_asker_stop(&asker); }

/* What the answer says that was reported. */
static void say_told(void) {
    static uint8_t field[PTPM_MOST_OCTETS];
    size_t size;
    uint16_t error;
    uint32_t answer = ptpm_asker_report(&asker, field, sizeof field, &size, &error);
    say("%s", answer_name(answer, "VALUE"));
    if (answer == PTPM_REFUSED) say(" %u", error);
    if (answer == PTPM_VALUE) { say(" "); say_octets(field, size); }
    say("\n");
}

static void say_sent(const char *what) {
    size_t size = 1;
    say("%s, until %llu: ", what, (unsigned long long)handed.time);
    clear_room();
    if (ptpm_asker_message(&asker, room, PTPM_MOST_OCTETS, &size) == PTPM_ASKED && wrote_alone(size)) say_message(room, size);
    else say("\n");
}

/* What is handed out. */
static void say_handed(void) {
    unsigned long long tag = handed.tag;
    switch (handed.what) {
    case PTPM_NOTHING: say("nothing\n"); break;
    case PTPM_NOTE_BEGUN: say("begun: request %llu, number %u\n", tag, handed.number); break;
    case PTPM_SAVE_IT: say("save\n"); break;
    case PTPM_SEND_IT: say_sent("send"); break;
    case PTPM_SEND_READ: say_sent("read"); break;
    case PTPM_WAIT: say("wait, until %llu\n", (unsigned long long)handed.time); break;
    case PTPM_NOTE_ANSWER:
        say("answered: request %llu, number %u: ", tag, handed.number);
        say_told();
        break;
    case PTPM_FAILED:
        say("failed: %s, %s\n", handed.was_sent ? "sent" : "not sent", handed.is_read_answered ? "reads were answered" : "no read was");
        break;
    default: say("%u\n", handed.what);
    }
}

static void say_answer(uint32_t answer) {
    if (answer != PTPM_ASKED) say_outcome(answer, "ASKED");
    if (answer == PTPM_ASKED || handed.what != PTPM_NOTHING) say_handed();
}

/* The session as it is saved, and what an earlier run left. */
static size_t state(uint8_t *octets) {
    size_t size;
    uint8_t there;
    if (ptpm_asker_image(&asker, octets, PTPM_SESSION_IMAGE_OCTETS, &size) != PTPM_ASKED) return 0;
    octets[size++] = (uint8_t)ptpm_asker_earlier(&asker, 0, &there);
    return size;
}

/* `clock=M .. nobody=N timeout=N wait=N`, and then `drawn OCTET`, which is drawn 26 times. */
static void read_opening(char **words, struct opening *opening) {
    memset(opening, 0, sizeof *opening);
    read_asker(words, &opening->settings);
    memset(opening->drawn, takes_word(words, "drawn") ? next_hex(words) : 0, DRAWN);
}

static uint32_t start(void *given) {
    const struct opening *opening = given;
    return ptpm_asker_start_sized(&asker, &opening->settings, opening->drawn);
}

static void run_asker(char *words) {
    static struct opening opening;
    read_opening(&words, &opening);
    say_outcome(refusing(start, &opening, NULL), "STARTED");
}

static uint32_t restore(void *given) {
    const struct opening *from = given;
    return ptpm_asker_restore(&asker, &from->settings, from->drawn, from->image.at, from->image.size);
}

/* `restore-asker clock=M .. drawn OCTET from OCTETS`. */
static void run_restore(char *words) {
    static struct opening from;
    read_opening(&words, &from);
    if (!takes_word(&words, "from")) say_misspelt(words);
    read_octets(&words, &from.image);
    say_outcome(refusing(restore, &from, state), "RESTORED");
}

struct asked { uint64_t now, tag; uint8_t action, domain; uint16_t id, port; struct octets field; };

static uint32_t ask(void *given) {
    const struct asked *asked = given;
    return ptpm_asker_ask(&asker, asked->now, asked->tag, asked->action, asked->id, asked->port, asked->field.at, asked->field.size,
                          asked->domain, &handed);
}

/* `ask NOW TAG DOMAIN GET 2005 0 OCTETS`: the action by its name or number, the id, the port, and the dataField. */
static void run_ask(char *words) {
    static struct asked asked;
    asked.now = (uint64_t)next_number(&words, 0);
    asked.tag = (uint64_t)next_number(&words, 0);
    asked.domain = (uint8_t)next_number(&words, 0);
    asked.action = next_action(&words);
    asked.id = next_hex(&words);
    asked.port = (uint16_t)next_number(&words, 0);
    read_octets(&words, &asked.field);
    say_answer(refusing(ask, &asked, state));
}

/* `settle NOW TAG DOMAIN`. */
static void run_settle(char *words) {
    uint64_t now = (uint64_t)next_number(&words, 0), tag = (uint64_t)next_number(&words, 0);
    say_answer(ptpm_asker_settle(&asker, now, tag, (uint8_t)next_number(&words, 0), &handed));
}

static void run_let_go(char *words) {
    (void)words;
    say_answer(ptpm_asker_let_go(&asker, &handed));
}

static uint32_t hear(void *given) {
    const struct octets *datagram = given;
    return ptpm_asker_hear(&asker, datagram->at, datagram->size, &handed);
}

static void run_hear(char *words) {
    static struct octets datagram;
    read_octets(&words, &datagram);
    say_answer(refusing(hear, &datagram, state));
}

static uint32_t wake(void *given) { return ptpm_asker_wake(&asker, *(const uint64_t *)given, &handed); }

static void run_wake(char *words) {
    uint64_t now = (uint64_t)next_number(&words, 0);
    say_answer(refusing(wake, &now, state));
}

static void run_unsent(char *words) {
    (void)words;
    say_answer(ptpm_asker_unsent(&asker, &handed));
}

static void run_saved(char *words) { say_answer(ptpm_asker_saved(&asker, (uint64_t)next_number(&words, 0), &handed)); }

static uint32_t noted(void *given) {
    (void)given;
    return ptpm_asker_noted(&asker, &handed);
}

static void run_noted(char *words) {
    (void)words;
    say_answer(refusing(noted, NULL, state));
}

static void run_image(char *words) {
    size_t size = 1, octets = next_room(&words, PTPM_SESSION_IMAGE_OCTETS);
    clear_room();
    uint32_t answer = ptpm_asker_image(&asker, room, octets, &size);
    put_name("IMAGE", room, size);
    say_written(answer, "SAVED", size, say_octets);
}

/* `earlier DOMAIN`: what an earlier run left, and the domain in which it is settled. */
static void run_earlier(char *words) {
    static const char *const left[] = { "nothing", "a question", "a GET", "a change" };
    uint8_t there = 0;
    uint32_t what = ptpm_asker_earlier(&asker, (uint8_t)next_number(&words, 0), &there);
    say("%s, in domain %u\n", left[what & 3], there);
}

const struct command asker_commands[] = {
    { "asker", run_asker }, { "restore-asker", run_restore }, { "ask-clock", run_ask }, { "settle", run_settle },
    { "let-go", run_let_go }, { "hear", run_hear }, { "wake", run_wake }, { "unsent", run_unsent }, { "asker-saved", run_saved },
    { "noted", run_noted }, { "asker-image", run_image }, { "earlier", run_earlier },
    { NULL, NULL },
};
