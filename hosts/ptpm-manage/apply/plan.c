#include "plan.h"
#include "apply_report.h"
#include "collect.h"
#include "members.h"
#include "exchange.h"
#include "in_session.h"
#include "names.h"
#include "notices.h"
#include "program.h"
#include "seen.h"
#include "session.h"
#include "session_file.h"
#include "stopping.h"
#include "text.h"
#include "transport.h"
#include "words.h"
#include <errno.h>
#include <stdio.h>
#include <stdlib.h>
#include <string.h>
#include <sys/stat.h>

enum { MOST_ARGUMENTS = 5, STEP_WORDS = 9 };

/* The plan of a pipe: `ptpm plan` reads it for each of its forms. */
static struct piece piped;

static bool is_pipe(const char *path) {
    struct stat found;
    return strcmp(path, "-") == 0 || strcmp(path, "/dev/stdin") == 0 || (stat(path, &found) == 0 && S_ISFIFO(found.st_mode));
}

/* Reads all of a pipe, or as much of it as is refused for its size. */
static void read_pipe(const char *path) {
    enum { MOST_PLAN = 262144, ROOM = MOST_PLAN + 1 };
    static char octets[ROOM];
    FILE *from = strcmp(path, "-") == 0 ? stdin : fopen(path, "re");
    if (from == NULL) refuse_usage("%s: %s", path, strerror(errno));
    piped = (struct piece){ octets, fread(octets, 1, ROOM, from) };
    if (ferror(from)) refuse_usage("%s: %s", path, strerror(errno));
}

/* Says why it did not plan. A file beside has the name of the pipe that it was read from. */
static void say_fault(const struct task *task, const char *fault, int status) {
    bool is_beside = strncmp(fault, FILE_BESIDE, strlen(FILE_BESIDE)) == 0;
    const char *name = is_beside ? task->plan.word : "", *rest = is_beside ? fault + strlen(FILE_BESIDE) : fault;
    if (status == NOT_ASKED) refuse_usage("%s%s", name, rest);
    complain("%s%s", name, rest);
}

/* Runs `ptpm plan` over these lines; its status. */
static int run_plan(const struct task *task, const char *form, const struct piece *lines, struct printed *printed) {
    static const struct piece none;
    const char *path = piped.at != NULL ? FILE_BESIDE : task->plan.word;
    char *arguments[MOST_ARGUMENTS] = { NULL, (char *)"plan", (char *)form, (char *)path, NULL };
    struct given given = { lines != NULL ? lines : &none, piped.at != NULL ? &piped : NULL };
    char fault[MOST_FAULT];
    int status = run_ptpm_program(arguments, &given, printed, fault);
    if (*fault != '\0') say_fault(task, fault, status);
    return status;
}

/* ---- what is asked */

static bool is_collected(const struct collected *what, uint16_t id) {
    for (size_t i = 0; i < what->count; i++) {
        if (what->ids[i] == id) return true;
    }
    return false;
}

/* A line of `ptpm plan --asks`: a domainNumber, a space and a managementId's name, or how many clocks the domain has. Whether it is one. */
static bool take_ask(struct collected *what, struct domains *domains, char *line) {
    static const char clocks[] = "clocks=";
    char *space = strchrnul(line, ' ');
    const char *name = *space == '\0' ? "" : space + 1;
    *space = '\0';
    long domain = decimal(line, DOMAINS - 1), id = id_named(name);
    long count = strncmp(name, clocks, strlen(clocks)) == 0 ? decimal(name + strlen(clocks), UINT16_MAX) : -1;
    if (domain < 0 || (id < 0 && count < 0)) return false;
    add_domain(domains, (struct domain){ (uint8_t)domain, 0 });
    if (count >= 0) what->clocks[domain] = (uint16_t)count;
    if (count >= 0) return true;
    if (is_collected(what, (uint16_t)id)) return true;
    if (what->count == MOST_COLLECTED) return false;
    what->ids[what->count++] = (uint16_t)id;
    return true;
}

/* What the file's plan has to know; 0, or the status with which the program ends. */
static int find_asks(const struct task *task, struct collected *what, struct domains *domains) {
    struct printed asks;
    char *rest;
    *what = (struct collected){ 0 };
    *domains = (struct domains){ 0 };
    int status = run_plan(task, "--asks", NULL, &asks);
    char *line = status == 0 && asks.text != NULL ? strtok_r(asks.text, "\n", &rest) : NULL;
    for (; line != NULL; line = strtok_r(NULL, "\n", &rest)) {
        if (!take_ask(what, domains, line)) refuse("nothing was asked: ptpm plan --asks prints %s", line);
    }
    free(asks.text);
    return status;
}

/* Asks the clocks, by nobody. The answers as lines, which the caller frees; the status. */
static int ask_clocks(const struct task *task, const struct collected *what, const struct domains *domains, struct printed *lines) {
    static struct task survey;
    survey = *task;
    survey.settings.port = port_of_nobody(PTPM_GET);
    *lines = (struct printed){ 0 };
    FILE *to = needed(open_memstream(&lines->text, &lines->size), "the answers");
    int status = what->count == 0 ? ANSWERED : collect_answers(&survey, what, domains, to);
    bool is_whole = !ferror(to);
    if (fclose(to) != 0 || !is_whole) give_up("the answers");
    clear_progress();
    return status;
}

/* ---- what it says */

/* Reads a dataField in hexadecimal; whether it is one. */
static bool take_value(struct value *value, const char *text) {
    value->size = read_octets(&text, value->octets, sizeof value->octets);
    return *text == '\0' && value->size > 0;
}

/* A line `step NUMBER GROUP DOMAIN IDENTITY PORT ID BEFORE AFTER TEXT`; whether it is one. */
static bool take_step(struct step *step, char *line, size_t number) {
    char *words[STEP_WORDS], *rest = NULL;
    for (int i = 0; i < STEP_WORDS; i++) {
        words[i] = strtok_r(i == 0 ? line : NULL, " ", &rest);
        if (words[i] == NULL) return false;
    }
    long group = decimal(words[2], UINT8_MAX), domain = decimal(words[3], DOMAINS - 1), port = decimal(words[5], UINT16_MAX);
    long id = id_named(words[6]);
    bool is_clock = ptpm_identity_parse(words[4], strlen(words[4]), step->clock);
    step->group = (uint8_t)group;
    step->domain = (uint8_t)domain;
    step->port = (uint16_t)port;
    step->id = (uint16_t)id;
    return strcmp(words[0], "step") == 0 && (size_t)decimal(words[1], LONG_MAX / 10) == number && group > 0 && domain >= 0 && port >= 0 && id >= 0
           && is_clock && take_value(&step->before, words[7]) && take_value(&step->after, words[8]);
}

/* Reads the steps after an empty line, and takes that and them off the text. */
static void read_steps(struct plan *plan) {
    char *end = plan->text.text == NULL ? NULL : strstr(plan->text.text, "\n\n"), *rest;
    if (end == NULL) return;
    end[1] = '\0';
    plan->text.size = (size_t)(end + 1 - plan->text.text);
    for (char *line = strtok_r(end + 2, "\n", &rest); line != NULL; line = strtok_r(NULL, "\n", &rest)) {
        plan->steps = needed(reallocarray(plan->steps, plan->count + 1, sizeof *plan->steps), "the steps");
        if (!take_step(&plan->steps[plan->count], line, plan->count + 1)) refuse("nothing was sent: ptpm plan --steps prints %s", line);
        plan->count++;
    }
}

/* Reads the id after this text. */
static void read_id(struct plan *plan, const char *lead) {
    const char *found = plan->text.text == NULL ? NULL : strstr(plan->text.text, lead);
    if (found == NULL) refuse("nothing was sent: ptpm plan prints no id of a plan");
    found += strlen(lead);
    snprintf(plan->id, sizeof plan->id, "%s", found + strspn(found, " :\""));
}

/* The lines below a heading of the text, without the two spaces before each; NULL if there are none. They are to be freed. */
static char *lines_below(const char *text, const char *heading) {
    const char *at = strstr(text, heading);
    if (at == NULL) return NULL;
    char *lines = needed(malloc(strlen(at)), "the plan"), *end = lines;
    for (at += strlen(heading); strncmp(at, "  ", 2) == 0; at = strchrnul(at, '\n') + 1) {
        const char *line = at + 2, *feed = strchrnul(line, '\n');
        end = mempcpy(end, line, (size_t)(feed - line));
        *end++ = '\n';
        if (*feed == '\0') break;
    }
    *end = '\0';
    return lines;
}

/* As an object of JSON. It is of the same plan, unless the file has changed in between. */
static void take_json(struct plan *plan, const struct task *task, const struct piece *lines) {
    char id[PLAN_ID + 1];
    memcpy(id, plan->id, sizeof id);
    free(plan->text.text);
    run_plan(task, "--json", lines, &plan->text);
    read_id(plan, "\"plan\"");
    if (strcmp(id, plan->id) != 0) refuse("nothing was sent: %s has changed meanwhile", task->plan.word);
}

/* A table of every clock is of those that answer. If none does, the plan has nothing of it. Whether one does in each domain. */
static bool name_silent_domains(const struct domains *domains) {
    struct domain domain;
    bool is_answered = true;
    for (size_t place = 0; next_domain(domains, &place, &domain);) {
        if (answered_in(domain) > 0) continue;
        complain("no clock answered in domain %u", domain.number);
        is_answered = false;
    }
    return is_answered;
}

/* Says how many clocks were found; whether that is sure to be all of them. */
static bool tell_found(const struct domains *domains) {
    const struct sureness *found = sureness_of_collection();
    const char *plural = found->clocks == 1 ? "" : "s";
    if (found->is_sure && found->rounds < 3) complain("%zu clock%s answered, as many as the file says", found->clocks, plural);
    else if (found->is_sure && found->late == 0) complain("%zu clock%s answered, and two more rounds brought nothing new", found->clocks, plural);
    else if (found->is_sure) {
        complain("%zu clock%s answered in %zu rounds; %zu answers came only after the first round: messages are lost", found->clocks, plural,
                 found->rounds, found->late);
    }
    return name_silent_domains(domains) && found->is_sure && found->left_out == 0;
}

int make_plan(struct plan *plan, const struct task *task) {
    struct collected what;
    struct domains domains;
    struct printed answers;
    *plan = (struct plan){ 0 };
    if (is_pipe(task->plan.word)) read_pipe(task->plan.word);
    find_ptpm_program();
    int status = find_asks(task, &what, &domains);
    if (status != 0) return stopped ? BY_SIGNAL + stopped : status;
    open_transport(task);
    widen_transport();
    int asked = status = ask_clocks(task, &what, &domains, &answers);
    struct piece lines = { answers.text, answers.size };
    if (status == ANSWERED || status == NOT_ANSWERED) {
        status = run_plan(task, "--steps", &lines, &plan->text);
        bool is_refused = plan->text.size == 0;
        if (!is_refused && asked == ANSWERED && what.count > 0 && !tell_found(&domains)) asked = NOT_ANSWERED;
        /* A table of every clock is of none then, or some may be missing; all else is said to be not reached. */
        if (status == ANSWERED) status = asked;
        if (!is_refused) {
            read_id(plan, "plan");
            read_steps(plan);
            plan->unreached = lines_below(plan->text.text, "\nnot reached:\n");
            plan->has_unsettable = strstr(plan->text.text, "\ncan't be set:\n") != NULL;
            plan->has_reached = plan->count > 0 || strstr(plan->text.text, "\nstays:\n") != NULL;
        }
        if (!is_refused && task->is_json) take_json(plan, task, &lines);
        if (!is_refused && status == NOT_ANSWERED) tell_lacking();
    }
    free(answers.text);
    return stopped ? BY_SIGNAL + stopped : status;
}

/* Of an object of JSON, the warnings are the last member: they end with a bracket. */
void add_warning(struct plan *plan, const char *text, bool is_json) {
    char *more = NULL;
    const char *old = plan->text.text, *end = is_json ? strrchr(old, ']') : old + plan->text.size;
    int size = end == NULL ? -1 : is_json ? asprintf(&more, "%.*s%s\"%s\"%s", (int)(end - old), old, end[-1] == '[' ? "" : ",", text, end)
                                          : asprintf(&more, "%swarning: %s\n", old, text);
    if (size < 0) give_up("a warning");
    free(plan->text.text);
    plan->text = (struct printed){ .text = more, .size = (size_t)size };
}

void print_plan(const struct plan *plan, bool is_json) {
    const char *text = plan->text.text, *end = text == NULL || !is_json ? NULL : strrchr(text, '}');
    clear_progress();
    if (text == NULL) return;
    if (end != NULL) print_members(text, (size_t)(end - text));
    else print_lines(stdout, text, plan->text.size);
}

static bool is_within(const struct plan_options *options, const struct step *step) {
    for (size_t i = 0; i < options->limit_count; i++) {
        if (memcmp(options->limits[i], step->clock, 8) == 0) return true;
    }
    return options->limit_count == 0;
}

/* Whether a line of what is not reached is of none of these clocks. One without an identity may be of any. */
static bool is_without(const struct plan_options *options, const char *line) {
    uint8_t clock[8];
    size_t size = strcspn(line, " \n");
    if (options->limit_count == 0 || !ptpm_identity_parse(line, size, clock)) return false;
    struct step step = { 0 };
    memcpy(step.clock, clock, 8);
    return !is_within(options, &step);
}

static void limit_unreached(struct plan *plan, const struct plan_options *options) {
    char *to = plan->unreached;
    for (char *line = plan->unreached, *next; line != NULL && *line != '\0'; line = next) {
        next = strchr(line, '\n') + 1;
        if (is_without(options, line)) continue;
        memmove(to, line, (size_t)(next - line));
        to += next - line;
    }
    if (to != NULL) *to = '\0';
}

void limit_plan(struct plan *plan, const struct plan_options *options) {
    size_t all = plan->count;
    plan->count = 0;
    for (size_t i = 0; i < all; i++) {
        if (is_within(options, &plan->steps[i])) plan->steps[plan->count++] = plan->steps[i];
    }
    limit_unreached(plan, options);
    if (options->limit_count > 0) complain("--limit leaves %zu of %zu changes", plan->count, all);
}

bool is_reached_in_part(const struct plan *plan) { return plan->unreached != NULL && !plan->has_unsettable && plan->has_reached; }

void leave_plan(struct plan *plan) {
    free(plan->text.text);
    free(plan->steps);
    free(plan->unreached);
    *plan = (struct plan){ 0 };
}

/* Of the plan that is probed, the latest refusal; 0 if the clock did not refuse. */
static uint16_t refusal;

static int take_answer(const struct task *task, const struct answer *answer) {
    (void)task;
    refusal = answer->outcome == PTPM_REFUSED ? answer->error : 0;
    return ANSWERED;
}

static bool is_same_clock(const struct step *one, const struct step *other) { return memcmp(one->clock, other->clock, 8) == 0; }

/* A port that a step at this clock changes, or else its first one. */
static uint16_t port_of(const struct plan *plan, const struct step *first) {
    for (size_t i = 0; i < plan->count; i++) {
        const struct step *step = &plan->steps[i];
        if (is_same_clock(step, first) && step->port != 0 && !is_beyond_session(step->port)) return step->port;
    }
    return 1;
}

static void add_refusal(struct plan *plan, const struct task *task, const char *clock) {
    char text[128];
    snprintf(text, sizeof text, "%s refuses a SET that changes nothing (%s): it may take no SET from this manager", clock, error_text(refusal));
    add_warning(plan, text, task->is_json);
}

/* What a clock is asked, and the session for it. */
struct probe { struct task request; struct run *run; size_t number; };

static void take_probe(struct probe *probe, const struct task *task, const struct step *asked) {
    probe->request = task_of_step(task, asked);
    probe->run = take_run(&probe->request, take_answer);
}

/* If no way leads out, there is no answer. */
static int end_asked(struct run *run) {
    int status = end_run(run);
    return status == NOT_ASKED ? NOT_ANSWERED : status;
}

static int end_probe(struct plan *plan, const struct probe *probe, const struct task *task) {
    const uint8_t *clock = probe->request.settings.target;
    show_progress("%s: does it take SETs from this manager?", identity_text(clock));
    int status = end_asked(probe->run);
    if (status == ANSWERED && refusal != 0) add_refusal(plan, task, identity_text(clock)), say_of_ptp4l(refusal);
    if (status == NOT_ANSWERED) complain("%s gave no answer: whether it takes SETs from this manager is not known", identity_text(clock));
    return status;
}

int probe_clocks(struct plan *plan, const struct task *task) {
    int status = ANSWERED;
    size_t count = 0;
    struct probe *probes = needed(calloc(plan->count + 1, sizeof *probes), "the probes");
    if (plan->count > 0) state_folder();
    for (const struct step *first = NULL; (first = next_clock(plan->steps, plan->count, first)) != NULL;) {
        struct step nothing = *first;
        nothing.id = PTPM_ID_NULL_PTP_MANAGEMENT;
        nothing.port = port_of(plan, first);
        nothing.after.size = 0;
        take_probe(&probes[count++], task, &nothing);
    }
    for (size_t i = 0; i < count && status == ANSWERED; i++) status = end_probe(plan, &probes[i], task);
    free(probes);
    if (has_settled_change()) {
        add_warning(plan, "a request of an earlier run was carried out after the clocks were read: plan again", task->is_json);
    }
    return status;
}

/* ---- before an apply */

/* The SET of the value that the member of a step has. */
static void take_standing(struct probe *probe, const struct task *task, const struct step *step) {
    struct step standing = *step;
    standing.after = step->before;
    take_probe(probe, task, &standing);
}

static void say_refusal(const struct task *task, const struct step *step) {
    complain("%s refuses a SET of %s to the value that it has: %s", identity_text(step->clock), id_name(step->id), error_text(refusal));
    say_right(task, refusal);
}

/* What is not as it was read is not asked: that would set it back. */
static int end_standing(const struct probe *probe, const struct task *task, const struct step *step, size_t *refused) {
    static struct answer answer;
    show_progress("does each clock take SETs of what is changed?");
    int status = read_member(task, step, step->domain, &answer);
    if (status == ANSWERED && !has_value(step->id, step->before.octets, step->before.size, &answer)) status = NOT_AS_ASKED;
    if (status == NOT_AS_ASKED) complain("change %zu: the value that it replaces has changed since", probe->number);
    if (status == ANSWERED) status = end_asked(probe->run);
    if (status == ANSWERED && refusal != 0) say_refusal(task, step);
    *refused += status == ANSWERED && refusal != 0;
    return status;
}

int probe_steps(const struct plan *plan, const struct task *task) {
    int status = ANSWERED;
    size_t refused = 0;
    struct probe *probes = needed(calloc(plan->count + 1, sizeof *probes), "the probes");
    if (plan->count > 0) state_folder();
    for (const struct step *first = NULL; (first = next_clock(plan->steps, plan->count, first)) != NULL;) {
        take_standing(&probes[first - plan->steps], task, first);
    }
    for (size_t i = 0; i < plan->count && status == ANSWERED; i++) {
        probes[i].number = i + 1;
        if (probes[i].run == NULL) take_standing(&probes[i], task, &plan->steps[i]);
        status = end_standing(&probes[i], task, &plan->steps[i], &refused);
    }
    free(probes);
    if (status == ANSWERED && refused > 0) status = REFUSED;
    if (status == ANSWERED && has_settled_change()) status = NOT_AS_ASKED;
    if (has_settled_change()) complain("a request of an earlier run was carried out after the clocks were read: plan again");
    if (status != ANSWERED) complain("nothing was changed");
    return status;
}
