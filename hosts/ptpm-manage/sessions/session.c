#include "session.h"
#include "exchange.h"
#include "message_places.h"
#include "names.h"
#include "notices.h"
#include "random.h"
#include "session_image.h"
#include "words.h"
#include <stdio.h>
#include <string.h>

/* A manager and a clock in a notice. */
enum { OWNER = 2 * IDENTITY_TEXT + 32 };

/* How many octets are drawn for the question whether a number is new. */
enum { DRAWN = 26 };

static void write_owner(char text[OWNER], const uint8_t manager[8], uint16_t port, const uint8_t target[8]) {
    snprintf(text, OWNER, "manager %s/%u with clock %s", identity_text(manager), port, identity_text(target));
}

/* The image is of another session than the settings'. */
_Noreturn static void refuse_image(const struct session_image *image, const struct ptpm_session_settings *settings) {
    char owner[OWNER], wanted[OWNER], ports[32] = "";
    write_owner(owner, image->manager, image->manager_port, image->target);
    write_owner(wanted, settings->clock, settings->port, settings->target);
    const char *advice = "";
    bool is_of_clock = memcmp(image->target, settings->target, 8) == 0 && image->ports == settings->target_ports;
    if (is_of_clock) advice = "; --manager names the one that goes on with it";
    if (image->ports != settings->target_ports) snprintf(ports, sizeof ports, " of %u ports", image->ports);
    refuse("nothing was asked: OTHER_SESSION: %s has the session of %s%s, and not of %s%s", session_path(), owner, ports, wanted, advice);
}

/* The file has no session that this program can continue. */
_Noreturn static void refuse_octets(uint32_t refusal) {
    const char *why = "no memory is left";
    switch (refusal) {
    case PTPM_NOT_AN_IMAGE: why = "it has no session; without it a new session begins"; break;
    case PTPM_DAMAGED: why = "octets of the session were lost or changed; without it a new session begins"; break;
    case PTPM_OTHER_VERSION: why = "it has a session in the form of another version of this program"; break;
    case PTPM_OTHER_KIND: why = "it has the state of a clock, and not a session"; break;
    default: break;
    }
    refuse_storage("nothing was asked: %s: %s: %s", answer_name(refusal), session_path(), why);
}

/* What the asker of the task's session is set up with; octets are drawn too. */
static struct ptpm_asker_settings settings_of(const struct task *task, uint8_t drawn[DRAWN]) {
    struct ptpm_asker_settings settings = {
        .session = task->settings, .nobody = port_of_nobody(PTPM_GET), .timeout = (uint32_t)task->timeout, .wait = (uint32_t)task->wait,
    };
    settings.session.first = draw_number();
    draw_octets(drawn, DRAWN);
    return settings;
}

static void start(struct ptpm_asker *asker, const struct task *task) {
    uint8_t drawn[DRAWN];
    struct ptpm_asker_settings settings = settings_of(task, drawn);
    enum ptpm_started refusal = ptpm_asker_start(asker, &settings, drawn);
    if (refusal != PTPM_STARTED) refuse("nothing was asked: %s", answer_name(refusal));
}

static enum ptpm_asker_restored restore(struct ptpm_asker *asker, const struct task *task, const uint8_t *octets, size_t size) {
    uint8_t drawn[DRAWN];
    struct ptpm_asker_settings settings = settings_of(task, drawn);
    return ptpm_asker_restore(asker, &settings, drawn, octets, size);
}

/* A clock that lacks the port that a question names never answers it. So if this run names another port, the question is given up, unless
   the library refuses to. The image without it takes the place of the octets; how many octets it has. */
static size_t give_up_question(const struct task *task, uint16_t first, uint8_t octets[MOST_SESSION_OCTETS], size_t size) {
    struct ptpm_session session = { 0 };
    struct ptpm_session_settings settings = task->settings;
    settings.first = first;
    if (ptpm_session_restore(&session, &settings, octets, size) == PTPM_RESTORED && ptpm_session_give_up(&session) == PTPM_GIVEN_UP) {
        ptpm_session_image(&session, octets, PTPM_SESSION_IMAGE_OCTETS, &size);
    }
    ptpm_session_stop(&session);
    return size;
}

/* Makes the request that was left a task of this run. It is sent by this run's transport, as often as this run's own. */
static void read_earlier(const struct ptpm_asker *asker, const struct task *task, const struct session_image *image,
                         struct earlier *earlier) {
    struct task *left = &earlier->task;
    *left = *task;
    uint32_t what = ptpm_asker_earlier(asker, task->settings.domain, &left->settings.domain);
    earlier->is_left = what == PTPM_GET_LEFT || what == PTPM_CHANGE_LEFT;
    if (!earlier->is_left) return;
    earlier->number = image->number;
    left->action = image->action;
    left->id = image->id;
    left->port = image->port;
    left->size = image->size;
    memcpy(left->octets, image->octets, image->size);
}

/* The asker gets the session of the octets. */
static void open_octets(struct kept_session *session, const struct task *task, uint8_t octets[MOST_SESSION_OCTETS], size_t size) {
    struct ptpm_asker *asker = &session->asker;
    uint16_t port = task->port == EVERY_PORT ? 0 : task->port;
    uint8_t there;
    enum ptpm_asker_restored answer = restore(asker, task, octets, size);
    struct session_image image = read_image(octets, size);
    if (answer == PTPM_ASKER_RESTORE_OTHER_SESSION) refuse_image(&image, &task->settings);
    if (answer == PTPM_ASKER_RESTORED && ptpm_asker_earlier(asker, 0, &there) == PTPM_QUESTION_LEFT && image.port != port) {
        size = give_up_question(task, image.first, octets, size);
        answer = restore(asker, task, octets, size);
    }
    if (answer != PTPM_ASKER_RESTORED) refuse_octets(answer);
    read_earlier(asker, task, &image, &session->earlier);
}

void open_session(struct kept_session *session, const struct task *task) {
    static uint8_t octets[MOST_SESSION_OCTETS];
    size_t size;
    bool is_named = task->numbers != NULL;
    session->has_file = true;
    session->earlier.is_left = false;
    if (is_named) refuse_usual_mark(&task->settings);
    switch (open_session_file(&session->file, is_named ? task->numbers : usual_file(&task->settings), is_named, octets, &size)) {
    case NO_SESSION_FILE:
        start(&session->asker, task);
        session->has_file = false;
        break;
    case BROKEN_SESSION_FILE: refuse_octets(PTPM_DAMAGED);
    case SESSION_FILE: open_octets(session, task, octets, size);
    }
}

/* The image of the session; how many octets it has. */
static size_t image_of(const struct kept_session *session, uint8_t *octets) {
    size_t size;
    enum ptpm_asked answer = ptpm_asker_image(&session->asker, octets, PTPM_SESSION_IMAGE_OCTETS, &size);
    if (answer != PTPM_ASKED) refuse("nothing was asked: %s", answer_name(answer));
    return size;
}

void renew_session(struct kept_session *session, const struct task *task) {
    static uint8_t octets[MOST_SESSION_OCTETS];
    open_octets(session, task, octets, image_of(session, octets));
}

bool save_session(struct kept_session *session) {
    static uint8_t octets[MOST_SESSION_OCTETS];
    size_t size = image_of(session, octets);
    return write_session_file(session->file, octets, size);
}

/* Names the request in a notice. Its domain is said if it is not this run's. The text is there until the next call. */
static const char *earlier_words(const struct earlier *earlier, const struct task *task) {
    static char text[128];
    unsigned domain = earlier->task.settings.domain;
    int size = snprintf(text, sizeof text, "%s of an earlier run, number %u", task_words(&earlier->task), earlier->number);
    if (domain != task->settings.domain) snprintf(text + size, sizeof text - (size_t)size, " in domain %u", domain);
    return text;
}

/* A SET of NULL_PTP_MANAGEMENT has no member to change (15.5.3.1). `plan --probe` leaves one if it has no answer. */
bool may_change(const struct task *request) { return request->action != PTPM_GET && request->id != PTPM_ID_NULL_PTP_MANAGEMENT; }

/* Whether a request that may change the clock was settled. */
static bool is_change_settled;

bool has_settled_change(void) { return is_change_settled; }

int say_settled(const struct earlier *earlier, const struct task *task, const struct answer *answer) {
    is_change_settled |= may_change(&earlier->task);
    complain("%s, had no answer yet, and was sent again:", earlier_words(earlier, task));
    print_answer(stderr, &earlier->task, "ptpm-manage: ", answer);
    if (is_other(&earlier->task, answer)) say_other(&earlier->task, answer);
    return ferror(stderr) ? NOT_WRITTEN : ANSWERED;
}

void say_before_steps(const struct earlier *earlier, const struct task *task) {
    complain("%s, comes first: once resume --give-up has ended the apply, any other run can give it up with --give-up",
             earlier_words(earlier, task));
}

void say_let_go(const struct earlier *earlier, const struct task *task) {
    const char *where = earlier->task.settings.domain == task->settings.domain ? "" : " there";
    const char *words = earlier_words(earlier, task);
    if (earlier->task.action == PTPM_GET) complain("%s, is given up", words);
    else complain("%s, is given up: a get%s shows whether it was carried out", words, where);
}

/* The clock might treat a number further ahead as an old one. */
_Noreturn void refuse_to_let_go(uint32_t refusal, const struct earlier *earlier, const struct task *task) {
    refuse("nothing was sent: %s: %s, is not given up: too many requests before it had no answer. Without --give-up it is sent again",
           answer_name(refusal), earlier_words(earlier, task));
}
