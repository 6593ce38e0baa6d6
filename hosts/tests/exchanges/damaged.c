/* Commands of damaged datagrams: a message cut short at each octet, and with each octet replaced by every other. What is to become
   of each is said by places.c. Whatever is not a new request leaves the clock's image as it is, and a GET changes no member. */
#include "commands.h"
#include <stdlib.h>
#include <string.h>

enum { MOST_ANSWERS = 32, ACTION = 46, MOST_SHOWN = 10, MOST_NOTED = 1024 };

/* A message that was noted. */
struct noted { size_t size; uint8_t *octets; };

static struct noted noted[MOST_NOTED];
static size_t noted_count;

static struct octets taken, datagram;
static unsigned counts[MOST_ANSWERS], shown;

/* The clock before a damaged datagram comes in. */
static uint8_t image[MOST_OCTETS];
static size_t image_size;

static void complain(const char *what, size_t place) {
    if (shown++ < MOST_SHOWN) say("%s: of %zu octets, %02x at %zu\n", what, datagram.size, datagram.at[place], place);
}

static bool has_image(struct ptpm_clock *clock) {
    static uint8_t own[MOST_OCTETS];
    size_t size;
    return ptpm_clock_image(clock, own, sizeof own, &size) == PTPM_SAVED && size == image_size && memcmp(own, image, size) == 0;
}

static void go_back(struct ptpm_clock *clock) {
    const struct start *as = &start_of_page;
    size_t gone;
    if (ptpm_clock_restore(clock, as->clock.identity, as->port_count, as->managers.of, as->managers.count, image, image_size, &gone) !=
        PTPM_RESTORED) {
        say("the clock does not go back\n");
    }
}

static bool is_nothing(const struct ptpm_changed *changed) {
    static const struct ptpm_changed nothing;
    return memcmp(changed, &nothing, sizeof nothing) == 0;
}

/* What was taken is answered again, and then the clock is as it was before it. */
static void after_new_one(struct ptpm_clock *clock, size_t place, const struct ptpm_changed *changed) {
    static struct ptpm_sent sent[PTPM_MOST_SENT];
    size_t count;
    if (datagram.at[ACTION] % 16 == PTPM_GET && !is_nothing(changed)) complain("a GET changes a member", place);
    if (ptpm_clock_handle(clock, 1, datagram.at, datagram.size, sent, PTPM_MOST_SENT, &count) != PTPM_ANSWERED_REPEAT) {
        complain("a copy is no repeat", place);
    }
    go_back(clock);
}

/* Hands in a datagram that is damaged at a place. */
static void hand_in(struct ptpm_clock *clock, size_t place) {
    static struct ptpm_sent sent[PTPM_MOST_SENT];
    static const struct ptpm_say nothing;
    struct ptpm_taken came;
    uint32_t wanted = due_answer(&start_of_page, &taken, &datagram);
    uint32_t answer = ptpm_clock_take(clock, 1, datagram.at, datagram.size, &nothing, 0, sent, PTPM_MOST_SENT, &came);
    if (answer < MOST_ANSWERS) counts[answer]++;
    if (answer != wanted) complain(answer_name(answer, "0"), place);
    if (!are_due(&start_of_page, &datagram, answer, sent, (size_t)came.count)) complain("other messages are due", place);
    if (answer == PTPM_ANSWERED_NEW) after_new_one(clock, place, &came.changed);
    else if (!is_nothing(&came.changed)) complain("a member changes", place);
}

static void cut_short(struct ptpm_clock *clock) {
    size_t whole = datagram.size;
    for (datagram.size = 0; datagram.size < whole; datagram.size++) hand_in(clock, datagram.size);
    datagram.size = whole;
    if (!has_image(clock)) complain("the clock changes", 0);
}

static void replace_each(struct ptpm_clock *clock) {
    for (size_t place = 0; place < datagram.size; place++) {
        uint8_t whole = datagram.at[place];
        for (unsigned octet = 0; octet < 256; octet++) {
            datagram.at[place] = (uint8_t)octet;
            if (octet != whole) hand_in(clock, place);
        }
        datagram.at[place] = whole;
        if (!has_image(clock)) complain("the clock changes", place);
    }
}

/* `taken OCTETS`: the request that the clock took of each manager; `taken -` for none. */
static void run_taken(char *words) { read_octets(&words, &taken); }

void note_message(const uint8_t *octets, size_t size) {
    if (size > PTPM_MOST_OCTETS || noted_count == MOST_NOTED || counted >= 0) return;
    datagram.size = size;
    memcpy(datagram.at, octets, size);
    if (refusal_of(&datagram) != 0) return;
    for (size_t i = 0; i < noted_count; i++) {
        if (noted[i].size == size && memcmp(noted[i].octets, octets, size) == 0) return;
    }
    noted[noted_count] = (struct noted){ size, malloc(size) };
    if (noted[noted_count].octets == NULL) exit(2);
    memcpy(noted[noted_count++].octets, octets, size);
}

void forget_messages(void) {
    while (noted_count > 0) free(noted[--noted_count].octets);
}

static void damage(void) {
    cut_short(&clock_of_page);
    replace_each(&clock_of_page);
}

/* `damage OCTETS`; `damage all` for each message that came in or was sent in this page. */
static void run_damage(char *words) {
    unsigned count = 0;
    bool is_all = takes_word(&words, "all");
    memset(counts, 0, sizeof counts);
    shown = 0;
    if (ptpm_clock_image(&clock_of_page, image, sizeof image, &image_size) != PTPM_SAVED) say("there is no clock\n");
    if (!is_all) {
        read_octets(&words, &datagram);
        damage();
    }
    for (size_t i = 0; is_all && i < noted_count; i++) {
        datagram.size = noted[i].size;
        memcpy(datagram.at, noted[i].octets, datagram.size);
        damage();
    }
    for (size_t i = 0; i < MOST_ANSWERS; i++) count += counts[i];
    if (is_all) say("%zu messages, ", noted_count);
    say("%u datagrams\n", count);
}

/* How many of the datagrams that came in last got each answer. */
static void run_answers(char *words) {
    (void)words;
    for (uint32_t i = 0; i < MOST_ANSWERS; i++) {
        if (counts[i] > 0) say("%u %s\n", counts[i], answer_name(i, "0"));
    }
}

const struct command damage_commands[] = { { "taken", run_taken }, { "damage", run_damage }, { "answers", run_answers }, { NULL, NULL } };
