#include "driving.h"
#include "exchange.h"
#include "message_places.h"
#include "monotonic.h"
#include "names.h"
#include "notices.h"
#include "stopping.h"

static uint64_t time_of(struct driver *driver) { return (uint64_t)(driver->now = milliseconds()); }

static void see_to(enum ptpm_asked answer) {
    if (answer != PTPM_ASKED) refuse("nothing was asked: %s", answer_name(answer));
}

void begin_driving(struct driver *driver) {
    driver->sent = 0;
    driver->is_unsent = driver->is_way_said = false;
}

void say_noted(struct driver *driver) { see_to(ptpm_asker_noted(driver->asker, &driver->handed)); }

bool say_saved(struct driver *driver) {
    ptpm_asker_saved(driver->asker, time_of(driver), &driver->handed);
    return driver->handed.what == PTPM_NOTHING;
}

void ask_request(struct driver *driver, uint64_t tag, const struct task *request) {
    uint64_t now = driver->opened != 0 ? (uint64_t)(driver->now = driver->opened) : time_of(driver);
    driver->opened = 0;
    see_to(ptpm_asker_ask(driver->asker, now, tag, request->action, request->id, request->port, request->octets, request->size,
                          request->settings.domain, &driver->handed));
}

void settle_request(struct driver *driver, uint64_t tag, uint8_t domain) {
    see_to(ptpm_asker_settle(driver->asker, time_of(driver), tag, domain, &driver->handed));
}

/* The asker is woken that much later than it says: a time-out begins when the message left. */
static void set_wake(struct driver *driver) { driver->wake = (int64_t)driver->handed.time + (milliseconds() - driver->now); }

/* Counts how often a number goes out. */
static void count_attempt(struct driver *driver, const uint8_t *message) {
    uint16_t number = number_at(message + SEQUENCE_AT);
    driver->attempt = number == driver->number && driver->attempt > 0 ? driver->attempt + 1 : 1;
    driver->number = number;
    if (driver->attempt > 1) show_progress("no answer yet: attempt %d of %d", driver->attempt, driver->task->settings.attempts);
}

/* Sends a message. If the socket has no room for the first one, it waits for room, as long as for answers. */
static enum sending send_first(const struct driver *driver, const uint8_t *message, size_t size) {
    enum sending sending = NO_ROOM;
    for (int attempt = 0; sending == NO_ROOM && attempt < driver->task->settings.attempts && !stopped; attempt++) {
        if (attempt > 0) wait_for(NULL, 0, driver->task->timeout);
        sending = send_message(message, size);
    }
    return sending;
}

/* Nothing left so far, and nothing is to be sent. */
static void turn_back(struct driver *driver, enum sending sending) {
    if (sending == NO_TRANSPORT) say_not_sent();
    driver->is_way_said = sending == NO_TRANSPORT;
    driver->is_unsent = true;
    ptpm_asker_unsent(driver->asker, &driver->handed);
}

/* Sends the message that is handed out. */
static void send_handed(struct driver *driver) {
    static uint8_t message[PTPM_MOST_OCTETS];
    size_t size;
    bool is_read = driver->handed.what == PTPM_SEND_READ, is_first = driver->sent == 0 && !is_read;
    see_to(ptpm_asker_message(driver->asker, message, sizeof message, &size));
    if (!is_read) count_attempt(driver, message);
    name_target(message);
    enum sending sending = is_first ? send_first(driver, message, size) : send_message(message, size);
    if (is_first && sending != OUT) {
        turn_back(driver, sending);
        return;
    }
    driver->sent += !is_read && sending == OUT;
    set_wake(driver);
    driver->handed.what = PTPM_NOTHING;
}

/* A signal came. What was handed out is taken back if nothing of the request left; whether it was. */
static bool is_taken_back(struct driver *driver) {
    if (driver->handed.what != PTPM_SEND_IT || driver->sent > 0) return false;
    turn_back(driver, NONE_LEFT);
    return true;
}

/* A new session lets what is on its way come in. */
static void wait_for_copies(struct driver *driver) {
    driver->wake = (int64_t)driver->handed.time;
    long wait = (long)(driver->wake - milliseconds());
    if (wait >= 1000) show_progress("a new session waits %ld s, until no copy of an earlier one is on its way", (wait + 999) / 1000);
    driver->handed.what = PTPM_NOTHING;
}

/* Whether a datagram came as the first answer did. Who can send by another way, such as from another network, can't answer. */
static bool is_by_way(struct driver *driver, const uint8_t *copy, size_t size) {
    if (!driver->has_way || came_by(&driver->way)) return true;
    if (!driver->is_elsewhere_said && is_response_of_clock(copy, size)) {
        complain("an answer from %s came by a different path than the first one, and is ignored", sender_text());
        driver->is_elsewhere_said = true;
    }
    return false;
}

static void hear(struct driver *driver, const uint8_t *datagram, size_t size) {
    static uint8_t copy[PTPM_MOST_OCTETS];
    size = copy_datagram(copy, datagram, size);
    if (!may_answer(copy, size) || !is_by_way(driver, copy, size)) return;
    ptpm_asker_hear(driver->asker, copy, size, &driver->handed);
    if (driver->handed.what == PTPM_NOTHING && is_error_of_clock(copy, size)) ptpm_asker_hear(driver->asker, copy, size, &driver->handed);
    if (driver->handed.what == PTPM_NOTHING) {
        judge_unheard(driver->task, copy, size);
    } else if (!driver->has_way) {
        driver->way = way_of_message();
        driver->has_way = true;
    }
}

/* Hears what comes in before the asker is woken; whether it goes on. */
static bool wait_for_answer(struct driver *driver) {
    size_t size;
    const uint8_t *datagram = receive_message(&size, driver->wake);
    if (datagram != NULL) hear(driver, datagram, size);
    else if (stopped) return false;
    else see_to(ptpm_asker_wake(driver->asker, time_of(driver), &driver->handed));
    return true;
}

uint32_t drive(struct driver *driver) {
    for (;;) {
        switch (driver->handed.what) {
        case PTPM_NOTE_BEGUN:
        case PTPM_NOTE_ANSWER:
        case PTPM_SAVE_IT:
        case PTPM_FAILED: return driver->handed.what;
        case PTPM_SEND_IT:
        case PTPM_SEND_READ:
            if (!stopped) send_handed(driver);
            else if (!is_taken_back(driver)) return PTPM_FAILED;
            break;
        case PTPM_WAIT: wait_for_copies(driver); break;
        default: if (!wait_for_answer(driver)) return PTPM_FAILED;
        }
    }
}
