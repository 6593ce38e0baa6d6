#include "apply_report.h"
#include "answer.h"
#include "field_text.h"
#include "journals.h"
#include "names.h"
#include "notices.h"
#include "program.h"
#include "text.h"
#include "words.h"
#include <stdlib.h>
#include <string.h>

/* At this place the name of an apply has its plan: after the time. */
enum { PLAN_AT = sizeof "20260101-000000" };

/* ---- members */

void write_member_name(FILE *to, const struct step *step) {
    const char *id = id_name(step->id);
    fputs(identity_text(step->clock), to);
    if (step->port != 0) fprintf(to, "/%u", step->port);
    if (step->domain != 0) fprintf(to, " domain %u", step->domain);
    if (id != NULL) fprintf(to, " %s", id);
    else fprintf(to, " %04x", step->id);
}

static bool has_one_member(uint16_t id, const struct value *value) {
    static struct field_lines lines;
    struct member member;
    start_lines(&lines, id, value->octets, value->size);
    return next_member(&lines, &member) && !next_member(&lines, &member);
}

void write_value(FILE *to, uint16_t id, const uint8_t *octets, size_t size) {
    static struct field_lines lines;
    struct member member;
    start_lines(&lines, id, octets, size);
    for (bool is_first = true; next_member(&lines, &member); is_first = false) {
        fprintf(to, "%s%s %s", is_first ? "" : ", ", member.name, member.value);
    }
}

/* Each member that it changes, `37 -> 38`, with its name if there are more. A text is in quotation marks, in ASCII. */
static void write_change(FILE *to, const struct step *step) {
    static struct field_lines before, after;
    struct member was, is;
    const char *mark = step->id == PTPM_ID_USER_DESCRIPTION ? "\"" : "";
    bool is_one = has_one_member(step->id, &step->after), is_first = true;
    start_lines(&before, step->id, step->before.octets, step->before.size);
    start_lines(&after, step->id, step->after.octets, step->after.size);
    while (next_member(&before, &was) && next_member(&after, &is)) {
        if (!is_one && strcmp(was.value, is.value) == 0) continue;
        fputs(is_first ? " " : ", ", to);
        if (!is_one) fprintf(to, "%s ", is.name);
        fprintf(to, "%s%s%s -> %s%s%s", mark, was.value, mark, mark, is.value, mark);
        is_first = false;
    }
}

/* ---- text */

static void write_state(FILE *to, const struct journal *journal, size_t place) {
    const struct told *told = &journal->told[place];
    switch (told->outcome) {
    case DONE: fputs("done", to); break;
    case IS_REFUSED: fprintf(to, "refused %s", error_text(told->error)); break;
    case OTHER_VALUE:
        fputs("answered ", to);
        write_value(to, journal->steps[place].id, told->answer.octets, told->answer.size);
        break;
    case NOT_TOLD: fputs(is_uncertain(journal, (long)place) ? "may be: it was sent, and has no answer" : "not asked", to); break;
    }
}

/* Its number, what became of it, whose member it is, and what changes. */
static void write_step_line(FILE *to, const struct journal *journal, size_t place) {
    fprintf(to, "%zu ", place + 1);
    write_state(to, journal, place);
    fputs(": ", to);
    write_member_name(to, &journal->steps[place]);
    write_change(to, &journal->steps[place]);
}

void say_step(const struct journal *journal, long place) {
    char *text = NULL;
    size_t size;
    FILE *to = needed(open_memstream(&text, &size), "a notice");
    write_step_line(to, journal, (size_t)place);
    if (fclose(to)) give_up("a notice");
    log_progress("step %s", text);
    free(text);
}

static size_t count_done(const struct journal *journal) {
    size_t count = 0;
    for (size_t i = 0; i < journal->count; i++) count += journal->told[i].outcome == DONE;
    return count;
}

static size_t count_lines(const char *lines) {
    size_t count = 0;
    for (; *lines != '\0'; lines++) count += *lines == '\n';
    return count;
}

/* In UTC; nothing of 0. */
static void print_time(uint64_t seconds) {
    if (seconds != 0) fputs(utc_text("%FT%TZ", (time_t)seconds), stdout);
}

/* How it ended, and how much of the plan it left out. */
static void print_end(const struct journal *journal, const char *end) {
    fputs(end, stdout);
    if (journal->skipped != NULL) printf(" except %zu not reached", count_lines(journal->skipped));
}

static void print_text_of(const struct journal *journal, const char *end) {
    const char *what = *journal->rolls_back != '\0' ? "rollback" : "apply";
    printf("%s %s: ", what, journal->name);
    print_end(journal, end);
    printf(": %zu of %zu done\n", count_done(journal), journal->count);
    for (size_t i = 0; i < journal->count; i++) {
        fputs("  ", stdout);
        write_step_line(stdout, journal, i);
        if (journal->shows_times && journal->told[i].time != 0) fputs(", ", stdout), print_time(journal->told[i].time);
        putchar('\n');
    }
    if (journal->skipped == NULL) return;
    for (const char *at = journal->skipped, *line; *(line = at) != '\0';) {
        at = strchr(line, '\n') + 1;
        fputs("  not reached: ", stdout);
        print_lines(stdout, line, (size_t)(at - line));
    }
}

/* ---- JSON */

static void print_value_as_json(const char *name, uint16_t id, const struct value *value) {
    putchar(',');
    print_members_as_json(stdout, name, id, value->octets, value->size);
}

static void print_state_as_json(const struct journal *journal, size_t place) {
    static const char *const names[] = { "notAsked", "done", "refused", "answered" };
    const struct told *told = &journal->told[place];
    printf(",\"state\":\"%s\"", is_uncertain(journal, (long)place) ? "mayBe" : names[told->outcome]);
    if (told->time != 0) fputs(",\"time\":\"", stdout), print_time(told->time), putchar('"');
    if (told->outcome == OTHER_VALUE) print_value_as_json("answer", journal->steps[place].id, &told->answer);
    if (told->outcome == IS_REFUSED) printf(",\"managementErrorId\":\"%s\"", error_text(told->error));
}

static void print_step_as_json(const struct journal *journal, size_t place) {
    const struct step *step = &journal->steps[place];
    struct ptpm_source source = { .port = step->port };
    memcpy(source.clock, step->clock, sizeof source.clock);
    printf("{\"number\":%zu,", place + 1);
    print_source_as_json(stdout, step->domain, &source, step->id);
    print_state_as_json(journal, place);
    print_value_as_json("before", step->id, &step->before);
    print_value_as_json("after", step->id, &step->after);
    putchar('}');
}

/* Its steps, or only those that a rollback of it left out. */
static void print_steps_as_json(const char *name, const struct journal *journal, bool is_of_left_out) {
    bool is_first = true;
    printf(",\"%s\":[", name);
    for (size_t i = 0; i < journal->count; i++) {
        if (is_of_left_out && !journal->told[i].is_left_out) continue;
        if (!is_first) putchar(',');
        is_first = false;
        print_step_as_json(journal, i);
    }
    putchar(']');
}

/* The object: whether it is printed at all, and whether its head is; and what its end has. */
static bool is_object, has_head;
static const char *word_of_done = "done";
static bool is_open;

static void begin_member(void) {
    putchar(has_head ? ',' : '{');
    has_head = true;
}

/* By the status. */
static const char *const words[] = {
    [REFUSED] = "refused", [NOT_ASKED] = "usage", [NOT_ANSWERED] = "nothingSent", [NOT_WRITTEN] = "storage", [NOT_AS_ASKED] = "changed",
    [LEFT_OPEN] = "open", [IN_PART] = "inPart", [HAS_CHANGES] = "changes",
};

static void end_with_reason(enum status status, const char *why) {
    if (!is_object) return;
    const char *word = status == ANSWERED ? word_of_done : status > HAS_CHANGES ? words[is_open ? LEFT_OPEN : NOT_ANSWERED] : words[status];
    begin_member();
    printf("\"status\":\"%s\"", word);
    if (why != NULL) fputs(",\"why\":", stdout);
    if (why != NULL) print_json_text(stdout, (const uint8_t *)why, strlen(why));
    puts("}");
    is_object = false;
}

static void end_by_failure(const char *what, const char *why) {
    char text[512];
    snprintf(text, sizeof text, "%s: %s", what, why);
    end_with_reason(NOT_WRITTEN, text);
}

void begin_object(bool is_json) {
    is_object = is_json;
    refuse_also(end_with_reason);
    end_otherwise(NOT_WRITTEN, end_by_failure);
}

void print_members(const char *text, size_t size) {
    print_json(stdout, text, size);
    has_head = true;
}

void end_object(int status) { end_with_reason((enum status)status, NULL); }

void note_of_end(enum noted noted) { word_of_done = noted == CHANGES ? "changes" : "nothingToDo"; }

static void print_skipped(const char *lines) {
    fputs(",\"skipped\":[", stdout);
    for (const char *at = lines, *end; (end = strchr(at, '\n')) != NULL; at = end + 1) {
        if (at > lines) putchar(',');
        print_json_text(stdout, (const uint8_t *)at, (size_t)(end - at));
    }
    putchar(']');
}

static void print_json_of(const struct journal *journal, const struct journal *back_of, const char *end) {
    begin_member();
    if (*journal->name == '\0') fputs("\"apply\":null", stdout);
    else printf("\"apply\":\"%s\"", journal->name);
    if (*journal->rolls_back != '\0') printf(",\"rollsBack\":\"%s\"", journal->rolls_back);
    printf(",\"end\":\"%s\"", end);
    print_steps_as_json("steps", journal, false);
    if (journal->skipped != NULL) print_skipped(journal->skipped);
    if (*journal->rolls_back != '\0') print_steps_as_json("leftOut", back_of, true);
}

/* ---- all applies */

static bool is_list_json, is_first_listed;

/* When it began, by its name. */
static void write_begin(FILE *to, const struct journal *journal) {
    const char *name = journal->name;
    fprintf(to, "%.4s-%.2s-%.2sT%.2s:%.2s:%.2sZ", name, name + 4, name + 6, name + 9, name + 11, name + 13);
}

/* Its plan, by its name. */
static void write_plan(FILE *to, const struct journal *journal) {
    const char *plan = journal->name + PLAN_AT;
    fprintf(to, "%.*s", (int)strcspn(plan, "-"), plan);
}

static void print_listed_json(const struct journal *journal, const char *file, bool is_read, const char *end) {
    fputs("{\"apply\":", stdout);
    print_json_text(stdout, (const uint8_t *)file, strlen(file) - strlen(".journal"));
    if (is_read) {
        fputs(",\"begun\":\"", stdout);
        write_begin(stdout, journal);
        fputs("\",\"latest\":\"", stdout);
        print_time(journal->latest);
        fputs("\",\"plan\":\"", stdout);
        write_plan(stdout, journal);
        printf("\",\"done\":%zu,\"steps\":%zu", count_done(journal), journal->count);
        if (journal->skipped != NULL) print_skipped(journal->skipped);
    }
    printf(",\"end\":\"%s\"}", end);
}

static void print_listed(const struct journal *journal, const char *file, bool is_read, const char *end) {
    if (is_read) {
        write_begin(stdout, journal);
        putchar(' ');
        write_plan(stdout, journal);
        putchar(' ');
        print_end(journal, end);
        printf(", %zu of %zu done: ", count_done(journal), journal->count);
    } else printf("%s: ", end);
    print_text(stdout, (const uint8_t *)file, strlen(file) - strlen(".journal"));
    putchar('\n');
}

static void list_one(struct journal *journal, enum found_journal found) {
    const char *file = strrchr(journal->path, '/') + 1;
    bool is_read = found == FOUND_JOURNAL && strlen(journal->name) > PLAN_AT;
    const char *end = is_read ? ending_name(journal->ending) : found == OTHER_JOURNAL ? "other version" : "damaged";
    if (is_list_json && !is_first_listed) putchar(',');
    is_first_listed = false;
    if (is_list_json) print_listed_json(journal, file, is_read, end);
    else print_listed(journal, file, is_read, end);
}

bool print_applies(bool is_json) {
    is_list_json = is_json;
    is_first_listed = true;
    if (is_json) print_members("{\"applies\":[", strlen("{\"applies\":["));
    read_journals(list_one);
    if (is_json) putchar(']');
    return !is_first_listed;
}

void print_apply(const struct journal *journal, const struct journal *back_of, bool is_silent, bool is_json) {
    const char *end = journal->ending == IS_OPEN && is_silent ? "silent" : ending_name(journal->ending);
    is_open = journal->ending == IS_OPEN;
    clear_progress();
    if (is_json) print_json_of(journal, back_of, end);
    else print_text_of(journal, end);
}

void print_dry_run(const struct journal *back, bool is_json) {
    clear_progress();
    if (is_json) {
        begin_member();
        printf("\"apply\":null,\"rollsBack\":\"%s\",\"end\":\"not begun\"", back->rolls_back);
        print_steps_as_json("steps", back, false);
        return;
    }
    printf("rollback %s: not begun: %zu step%s\n", back->rolls_back, back->count, back->count == 1 ? "" : "s");
    for (size_t i = 0; i < back->count; i++) {
        printf("  %zu ", i + 1);
        write_member_name(stdout, &back->steps[i]);
        write_change(stdout, &back->steps[i]);
        putchar('\n');
    }
}
