#include "answer.h"
#include "field_text.h"
#include "names.h"
#include "notices.h"
#include "text.h"
#include "words.h"
#include <inttypes.h>
#include <stdlib.h>
#include <string.h>

void take_report(struct ptpm_session *session, struct answer *answer) {
    answer->outcome = ptpm_session_report(session, answer->octets, sizeof answer->octets, &answer->size, &answer->error);
}

/* Prints a line of a dataField as it is: `value` and its octets in hexadecimal, or `-` if it has none. */
static void print_octets(FILE *to, const char *lead, const uint8_t *octets, size_t size) {
    fprintf(to, size == 0 ? "%svalue -" : "%svalue ", lead);
    for (size_t i = 0; i < size; i++) fprintf(to, "%02x", octets[i]);
    putc('\n', to);
}

enum { MOST_TEXT = 255 };       /* octets of a PTPText */

/* The octets of a text, in which the library has \x and two hexadecimal digits for an octet. How many they are. */
static size_t text_octets(const char *value, uint8_t octets[MOST_TEXT]) {
    size_t size = 0;
    while (*value != '\0' && size < MOST_TEXT) {
        bool is_escape = *value == '\\';
        if (is_escape) value += 2;
        if (!is_escape || read_octets(&value, octets + size, 1) == 0) octets[size] = (uint8_t)*value++;
        size++;
    }
    return size;
}

/* Prints a line for each member, its name and its value. If the library finds no member, it gives the line of `print_octets`. */
static void print_members(FILE *to, const char *lead, uint16_t id, const uint8_t *octets, size_t size) {
    struct field_lines lines;
    struct member member;
    uint8_t text[MOST_TEXT];
    start_lines(&lines, id, octets, size);
    for (size_t place = 0; next_member(&lines, &member); place++) {
        fprintf(to, "%s%s ", lead, member.name);
        if (ptpm_member_kind(id, octets, size, place) == PTPM_IS_TEXT) print_text(to, text, text_octets(member.value, text));
        else fputs(member.value, to);
        putc('\n', to);
    }
}

void print_answer(FILE *to, const struct task *task, const char *lead, const struct answer *answer) {
    const char *unnamed = error_name(answer->error) == NULL ? ", an error without a name" : "";
    clear_progress();
    if (answer->outcome == PTPM_DONE) fprintf(to, "%sdone\n", lead);
    else if (answer->outcome == PTPM_REFUSED) fprintf(to, "%srefused %s%s\n", lead, error_text(answer->error), unnamed);
    else if (answer->outcome != PTPM_VALUE) complain("nothing is reported: %s", answer_name(answer->outcome));
    else if (task->is_in_octets) print_octets(to, lead, answer->octets, answer->size);
    else print_members(to, lead, task->id, answer->octets, answer->size);
}

/* Words with a space between two of them, as an array. */
static void print_words_as_json(FILE *to, const char *value) {
    fputs("[\"", to);
    for (; *value != '\0'; value++) {
        if (*value == ' ') fputs("\",\"", to);
        else putc(*value, to);
    }
    fputs("\"]", to);
}

/* A clockIdentity, or a portIdentity, whose portNumber is after a slash. */
static void print_identity_as_json(FILE *to, const char *value) {
    const char *rest = strchrnul(value, '/');
    if (*rest == '\0') fprintf(to, "\"%s\"", value);
    else fprintf(to, "{\"clockIdentity\":\"%.*s\",\"portNumber\":%s}", (int)(rest - value), value, rest + 1);
}

/* A text, whose characters are printed as the locale has them. */
static void print_text_as_json(FILE *to, const char *value) {
    uint8_t text[MOST_TEXT];
    print_json_text(to, text, text_octets(value, text));
}

/* A value as `ptpm site --json` has it: a TimeInterval in nanoseconds times 2^16, and each number in decimal. One that may have a name
   is a text: the name, or 0x and two digits. */
static void print_value_as_json(FILE *to, enum ptpm_member_kind kind, const char *value) {
    int64_t interval;
    switch (kind) {
    case PTPM_IS_TEXT: print_text_as_json(to, value); break;
    case PTPM_IS_CLOCKS: print_words_as_json(to, value); break;
    case PTPM_IS_OCTETS: fprintf(to, "\"%s\"", strcmp(value, "-") == 0 ? "" : value); break;
    case PTPM_IS_CLOCK:
    case PTPM_IS_PORT: print_identity_as_json(to, value); break;
    case PTPM_IS_FLAG: fputs(value, to); break;
    case PTPM_IS_INTERVAL:
        if (read_interval(value, &interval)) fprintf(to, "%" PRId64, interval);
        break;
    case PTPM_IS_NUMBER:
        if (strncmp(value, "0x", 2) == 0) fprintf(to, "%llu", strtoull(value, NULL, 16));
        else fputs(value, to);
        break;
    default: fprintf(to, "\"%s\"", value);
    }
}

static void print_octets_as_json(FILE *to, const uint8_t *octets, size_t size) {
    fputs("\"dataField\":\"", to);
    for (size_t i = 0; i < size; i++) fprintf(to, "%02x", octets[i]);
    putc('"', to);
}

/* The name of a member, and what comes before it. The name of a structure is before a dot, and its members come one after the other. The
   answer is how long the name of this member's structure is, 0 if it is in none. `before` is that of the member before it. */
static size_t print_name_as_json(FILE *to, const char *name, bool is_first, size_t before) {
    const char *dot = strchr(name, '.');
    size_t structure = dot == NULL ? 0 : (size_t)(dot - name);
    if (before > 0 && structure == 0) putc('}', to);
    if (!is_first) putc(',', to);
    if (before == 0 && structure > 0) fprintf(to, "\"%.*s\":{", (int)structure, name);
    fprintf(to, "\"%s\":", structure > 0 ? name + structure + 1 : name);
    return structure;
}

void print_members_as_json(FILE *to, const char *name, uint16_t id, const uint8_t *octets, size_t size) {
    struct field_lines lines;
    struct member member;
    size_t structure = 0;
    start_lines(&lines, id, octets, size);
    for (size_t place = 0; next_member(&lines, &member); place++) {
        enum ptpm_member_kind kind = ptpm_member_kind(id, octets, size, place);
        if (kind == PTPM_NO_MEMBER) {
            print_octets_as_json(to, octets, size);
            return;
        }
        if (place == 0) fprintf(to, "\"%s\":{", name);
        structure = print_name_as_json(to, member.name, place == 0, structure);
        print_value_as_json(to, kind, member.value);
    }
    fputs(structure > 0 ? "}}" : "}", to);
}

void print_source_as_json(FILE *to, unsigned domain, const struct ptpm_source *source, uint16_t id) {
    const char *named = read_id_name(id);
    fprintf(to, "\"domainNumber\":%u,\"clockIdentity\":\"%s\",\"portNumber\":", domain, identity_text(source->clock));
    if (source->port == 0) fputs("null", to);
    else fprintf(to, "%u", source->port);
    if (named != NULL) fprintf(to, ",\"managementId\":\"%s\"", named);
    else fprintf(to, ",\"managementId\":\"%04x\"", id);
}

void print_answer_as_json(FILE *to, const struct task *task, const struct ptpm_source *source, const struct answer *answer) {
    clear_progress();
    if (answer->outcome != PTPM_DONE && answer->outcome != PTPM_REFUSED && answer->outcome != PTPM_VALUE) {
        complain("nothing is reported: %s", answer_name(answer->outcome));
        return;
    }
    putc('{', to);
    print_source_as_json(to, task->settings.domain, source, task->id);
    if (answer->outcome == PTPM_DONE) fputs(",\"status\":\"done\"", to);
    else if (answer->outcome == PTPM_REFUSED) fprintf(to, ",\"status\":\"refused\",\"managementErrorId\":\"%s\"", error_text(answer->error));
    else fputs(",\"status\":\"answered\",", to);
    if (answer->outcome == PTPM_VALUE && task->is_in_octets) print_octets_as_json(to, answer->octets, answer->size);
    else if (answer->outcome == PTPM_VALUE) print_members_as_json(to, "members", task->id, answer->octets, answer->size);
    fputs(is_other(task, answer) ? ",\"isAsAsked\":false}\n" : "}\n", to);
}

/* The next member of what was asked that the answer has with another value, or lacks; whether there is one. */
static bool next_other(struct field_lines *asked, struct field_lines *answered, struct member *member) {
    struct member other;
    while (next_member(asked, member)) {
        if (!next_member(answered, &other) || !is_named(&other, member->name) || strcmp(other.value, member->value) != 0) return true;
    }
    return false;
}

bool has_value(uint16_t id, const uint8_t *octets, size_t size, const struct answer *answer) {
    static struct field_lines asked, answered;
    struct member member;
    if (size == answer->size && memcmp(octets, answer->octets, size) == 0) return true;
    start_lines(&asked, id, octets, size);
    start_lines(&answered, id, answer->octets, answer->size);
    return !next_other(&asked, &answered, &member);
}

bool is_other(const struct task *task, const struct answer *answer) {
    if (task->action != PTPM_SET || answer->outcome != PTPM_VALUE) return false;
    return !has_value(task->id, task->octets, task->size, answer);
}

void say_other(const struct task *task, const struct answer *answer) {
    static struct field_lines asked, answered;
    struct member member;
    start_lines(&asked, task->id, task->octets, task->size);
    start_lines(&answered, task->id, answer->octets, answer->size);
    while (next_other(&asked, &answered, &member)) {
        complain("the answer is not what was asked: %s %s", member.name, member.value);
    }
    complain("a get shows what the clock has%s", task->is_kept ? "; a run with a copy of the session's file may have used the "
             "same number" : "");
}

enum { NOT_SUPPORTED = 6 };         /* a managementErrorId (15.5.4.3) */

void say_of_ptp4l(uint16_t error) {
    static bool is_said;
    if (error != NOT_SUPPORTED || is_said) return;
    is_said = true;
    complain("a ptp4l takes some changes only at its Unix socket; ptpm-clock --ptp4l beside it takes them over the network");
}

/* Without a file the port of the manager is another one in each run. */
void say_right(const struct task *task, uint16_t error) {
    static const uint8_t of_socket[8];
    char manager[IDENTITY_TEXT + 64] = "a request without --manager";
    if (error != NOT_SUPPORTED) return;
    const char *advice = memcmp(task->settings.clock, of_socket, 8) == 0 ? "; --manager names another" : "";
    if (task->is_kept) snprintf(manager, sizeof manager, "manager %s/%u%s", identity_text(task->settings.clock), task->settings.port, advice);
    complain("the clock lacks that id, or takes no change of it from %s", manager);
    say_of_ptp4l(error);
}

/* If no port of the clock is named, any of them may have answered. */
int print_report(const struct task *task, const struct answer *answer) {
    struct ptpm_source source = { .port = task->port };
    memcpy(source.clock, task->settings.target, sizeof source.clock);
    if (task->is_json) print_answer_as_json(stdout, task, &source, answer);
    else print_answer(stdout, task, "", answer);
    if (fflush(stdout) || ferror(stdout)) return NOT_WRITTEN;
    if (is_other(task, answer)) {
        say_other(task, answer);
        return NOT_AS_ASKED;
    }
    if (answer->outcome == PTPM_REFUSED && task->action != PTPM_GET) say_right(task, answer->error);
    return answer->outcome == PTPM_REFUSED ? REFUSED : ANSWERED;
}

void print_count(long requests, long sent) { printf("requests %ld, datagrams %ld\n", requests, sent); }
