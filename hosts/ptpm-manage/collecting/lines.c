#include "lines.h"
#include "monotonic.h"
#include "transport.h"
#include "words.h"
#include <inttypes.h>
#include <sys/timex.h>

enum { SECOND = 1000000000 };

/* The time of this host when `nanoseconds` began. */
static int64_t beginning;
static bool is_taken;

int64_t take_time(void) {
    struct timespec now = { 0 };
    clock_gettime(CLOCK_REALTIME, &now);
    int64_t before = beginning;
    beginning = (int64_t)now.tv_sec * SECOND + now.tv_nsec - nanoseconds();
    int64_t step = is_taken ? beginning - before : 0;
    is_taken = true;
    return step;
}

static void write_time(FILE *to, int64_t time) {
    if (time < 0) time = 0;
    fprintf(to, "at=%" PRId64 ".%09" PRId64 " ", time / SECOND, time % SECOND);
}

void write_name(FILE *to, const char *name) {
    for (; *name != '\0'; name++) {
        unsigned char octet = (unsigned char)*name;
        if (octet > ' ' && octet < 0x7f && octet != '\\') fputc(octet, to);
        else fprintf(to, "\\x%02x", octet);
    }
}

static void write_word(FILE *to, const char *word, const char *value) {
    fputs(word, to);
    write_name(to, value);
    fputc(' ', to);
}

void write_line(FILE *to, const struct message_line *line) {
    if (!is_taken) take_time();
    write_time(to, beginning + line->at);
    if (*line->from != '\0') write_word(to, "from=", line->from);
    if (line->on != NULL) write_word(to, "on=", line->on);
    if (line->taken != NULL) write_word(to, "taken=", line->taken);
    for (size_t i = 0; i < line->size; i++) fprintf(to, "%02x", line->message[i]);
    fputc('\n', to);
}

void write_sent(FILE *to, const uint8_t *message, size_t size) {
    struct message_line line = { .at = nanoseconds(), .from = "", .on = sent_at(0), .message = message, .size = size };
    write_line(to, &line);
    for (size_t i = 1; (line.on = sent_at(i)) != NULL; i++) write_line(to, &line);
}

/* By what ntpd, chronyd or phc2sys reported to the kernel. */
static bool is_synchronised(void) {
    struct timex state = { 0 };
    int answer = adjtimex(&state);
    return answer >= 0 && answer != TIME_ERROR && (state.status & STA_UNSYNC) == 0;
}

/* The word that each note has: of several the last one counts. */
static void end_note(FILE *to) { fputs(is_synchronised() ? " clock=synchronised\n" : "\n", to); }

void write_host_note(FILE *to) {
    uint8_t identity[8];
    fputs("#ptpm", to);
    for (size_t i = 0; own_identity(i, identity); i++) fprintf(to, "%s%s", i == 0 ? " own=" : ",", identity_text(identity));
    end_note(to);
}

void write_sureness_note(FILE *to, const struct sureness *known) {
    fprintf(to, "#ptpm clocks=%zu rounds=%zu late=%zu left_out=%lu sure=%s", known->clocks, known->rounds, known->late, known->left_out,
            known->is_sure ? "true" : "false");
    end_note(to);
}
