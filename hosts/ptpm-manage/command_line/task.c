#include "task.h"
#include "apply_report.h"
#include "clock_names.h"
#include "domains.h"
#include "exchange.h"
#include "field_words.h"
#include "names.h"
#include "notices.h"
#include "program.h"
#include "words.h"
#include <ctype.h>
#include <errno.h>
#include <getopt.h>
#include <inttypes.h>
#include <net/if.h>
#include <stdio.h>
#include <stdlib.h>
#include <string.h>
#include <strings.h>
#include <unistd.h>

/* Options without a letter of their own, and a word that is none: getopt's for a string that begins with a hyphen. Those from LISTEN on are
   only for `collect` and `status`. */
enum {
    WORD = 1, UDP = 256, TEXT, VERSION, GIVE_UP, JSON, ANY_SOURCE, TTL_SECURITY, NAMES, EXPECT, PROBE, STATUS_IF_CHANGES, SKIP_UNREACHED, LIMIT,
    CHECK, KEEP, KEEP_GOING, DRY_RUN, LISTEN, SDO, DRAW, HTML, OPENMETRICS, NAGIOS, OUTPUT, LINES, MAX_OFFSET, MAX_DELAY, TAI_UTC, SETTLE, PROFILE,
    IGNORE, ALL, ONCE, WATCH, FOR, FORGET
};

enum { MOST_WORDS = 2 + MOST_FIELD_WORDS, MOST_FIELD = 1418, NOT_NAMED = -1 };

/* What holds if no option says otherwise. A request to only one clock is repeated for two seconds. */
enum { HOPS = 1, ATTEMPTS = 30, SITE_ATTEMPTS = 10, LISTENED = 4000, PLAN_DIGITS = 8 };

enum { SECOND = 1000, DAY = 86400, YEAR = 366 * DAY };

static const struct option options[] = {
    TAKES("interface", 'i'), TAKES("udp", UDP), ALONE("ipv6", '6'), ALONE("ethernet", '2'), ALONE("any-source", ANY_SOURCE),
    ALONE("ttl-security", TTL_SECURITY), TAKES("unix", 'u'), TAKES("target", 'T'), TAKES("port", 'p'), TAKES("domain", 'd'),
    TAKES("sdo", SDO), TAKES("hops", 'b'), TAKES("manager", 'm'), TAKES("numbers", 'k'), TAKES("wait", 'w'), TAKES("attempts", 'a'),
    TAKES("timeout", 't'), TAKES("times", 'n'), ALONE("give-up", GIVE_UP), TAKES("listen", LISTEN), ALONE("json", JSON),
    TAKES("names", NAMES), TAKES("expect", EXPECT), ALONE("probe", PROBE), ALONE("status-if-changes", STATUS_IF_CHANGES),
    ALONE("skip-unreached", SKIP_UNREACHED), TAKES("limit", LIMIT), TAKES("check", CHECK), TAKES("keep", KEEP),
    ALONE("keep-going", KEEP_GOING), ALONE("dry-run", DRY_RUN), ALONE("draw", DRAW), ALONE("html", HTML), ALONE("openmetrics", OPENMETRICS),
    ALONE("nagios", NAGIOS), TAKES("output", OUTPUT), TAKES("lines", LINES), TAKES("max-offset", MAX_OFFSET), TAKES("max-delay", MAX_DELAY),
    TAKES("tai-utc", TAI_UTC), TAKES("settle", SETTLE), TAKES("profile", PROFILE), TAKES("ignore", IGNORE), ALONE("all", ALL),
    ALONE("once", ONCE), TAKES("watch", WATCH), TAKES("for", FOR), TAKES("forget", FORGET), ALONE("hexadecimal", 'x'), ALONE("text", TEXT),
    ALONE("quiet", 'q'), ALONE("help", 'h'), ALONE("version", VERSION),
    { NULL, 0, NULL, 0 },
};

static const char *name_of(int option) {
    const struct option *one = options;
    while (one->val != option) one++;
    return one->name;
}

/* The words of the command line, and what options say that a later option may change. */
struct words {
    const char *at[MOST_WORDS + 1], *domain, *target;
    int count;
    bool is_text, is_every_port, has_names;
    long port, target_port, hops, attempts;
};

static long number(int option, const char *text, long least, long most) {
    long found = decimal(text, most);
    if (found < least) refuse("--%s %s: it takes a number from %ld to %ld", name_of(option), text, least, most);
    return found;
}

static int64_t seconds(int option, const char *text, long least, long most) { return (int64_t)number(option, text, least, most) * SECOND; }

/* A whole number in the range that `ptpm site` takes, which gets it as it is written. A + may come before it, or a - if the range has
   numbers below 0. */
static const char *for_site(int option, const char *text, const char *what, long least, uint64_t most) {
    const char *digits = text + (*text == '+' || (*text == '-' && least < 0));
    bool is_number = *digits != '\0' && digits[strspn(digits, "0123456789")] == '\0';
    errno = 0;
    uint64_t amount = strtoull(digits, NULL, 10), limit = *text == '-' ? (uint64_t)-least : most;
    if (is_number && errno == 0 && amount <= limit) return text;
    refuse("--%s %s: it takes %s from %ld to %" PRIu64, name_of(option), text, what, least, most);
}

/* An sdoId as it is written with 0x before it; -1 if it is none. */
static long hexadecimal_sdo(const char *text) {
    enum { MOST_DIGITS = 3 };
    size_t digits = strncmp(text, "0x", 2) == 0 ? strspn(text + 2, "0123456789abcdefABCDEF") : 0;
    return digits > 0 && digits <= MOST_DIGITS && text[2 + digits] == '\0' ? strtol(text, NULL, 16) : -1;
}

static void read_sdo(struct site_options *site, const char *text) {
    long decimally = decimal(text, MOST_SDO), found = decimally >= 0 ? decimally : hexadecimal_sdo(text);
    site->is_sdo_named = true;
    site->is_every_sdo = strcasecmp(text, "all") == 0;
    if (site->is_every_sdo) found = 0;
    if (found < 0) refuse("--sdo %s: it takes a number from 0 to 4095, one from 0x000 to 0xfff, or all", text);
    site->sdo = (uint16_t)found;
}

/* A site is shown in one form. */
static void take_form(struct site_options *site, enum shown_as form) {
    if (site->form != AS_TEXT && site->form != form) refuse("--draw, --html, --openmetrics and --nagios exclude each other");
    site->form = form;
}

/* Findings that are left out beside those of an earlier option. */
static void add_ignored(struct site_options *site, const char *names) {
    char *all, *before = site->ignored;
    if (asprintf(&all, "%s%s%s", before == NULL ? "" : before, before == NULL ? "" : ",", names) < 0) give_up("the options");
    free(before);
    site->ignored = all;
}

/* Takes an option of `collect` and `status`; whether it is one of these. */
static bool take_site_option(struct site_options *site, int option, const char *value) {
    static const char or_none[] = "none, or a number of nanoseconds";
    switch (option) {
    case LISTEN: site->listen = (long)seconds(option, value, 0, DAY); break;
    case SDO: read_sdo(site, value); break;
    case WATCH: site->watch = (long)seconds(option, value, 1, DAY); break;
    case FOR: site->duration = (long)seconds(option, value, 1, DAY); break;
    case FORGET: site->forget = seconds(option, value, 1, YEAR); break;
    case MAX_OFFSET: site->max_offset = strcmp(value, "none") == 0 ? value : for_site(option, value, or_none, 0, UINT64_MAX); break;
    case MAX_DELAY: site->max_delay = for_site(option, value, "a number of nanoseconds", 0, UINT64_MAX); break;
    case TAI_UTC: site->tai_utc = for_site(option, value, "a number of seconds", INT16_MIN, INT16_MAX); break;
    case SETTLE: site->settle = for_site(option, value, "a number of seconds", 0, UINT32_MAX); break;
    case PROFILE: site->profile = value; break;
    case IGNORE: add_ignored(site, value); break;
    case ALL: site->is_all = true; break;
    case DRAW: take_form(site, AS_DRAWING); break;
    case HTML: take_form(site, AS_PAGE); break;
    case OPENMETRICS: take_form(site, AS_NUMBERS); break;
    case NAGIOS: take_form(site, AS_PLUGIN); break;
    case OUTPUT: site->output = value; break;
    case LINES: site->lines = value; break;
    case ONCE: site->is_once = true; break;
    default: return false;
    }
    if (option != LISTEN && option != SDO) site->given = name_of(option);
    return true;
}

/* The domains of a word: a number, two with a hyphen, or `all`. */
static void read_domains(struct site_options *site, const char *text) {
    char *rest;
    site->is_every_domain = strcasecmp(text, "all") == 0;
    if (site->is_every_domain) return;
    long first = *text >= '0' && *text <= '9' ? strtol(text, &rest, 10) : -1, last = first;
    if (first >= 0 && *rest != '\0') last = *rest == '-' ? decimal(rest + 1, DOMAINS - 1) : -1;
    if (first < 0 || first >= DOMAINS || last < first) {
        refuse("--domain %s: it takes a number from 0 to 255, two as 0-7, or all", text);
    }
    site->first_domain = (uint8_t)first;
    site->last_domain = (uint8_t)last;
}

/* Refuses options that exclude each other, or that what is asked does not take. */
static void judge_site_options(const struct site_options *site) {
    if (site->given != NULL && !site->is_shown) refuse("--%s: only status takes it", site->given);
    if (site->is_sdo_named && !site->is_collected) refuse("--sdo: only collect and status take it");
    if (site->listen >= 0 && !site->is_collected) refuse("--listen: only collect and status take it");
    if (site->duration > 0 && (site->is_once || site->watch > 0)) refuse("--for excludes --once and --watch");
    if (site->forget > 0 && site->watch == 0) refuse("--forget: only with --watch");
    if (site->form != AS_TEXT && site->watch > 0 && site->output == NULL) {
        refuse("--watch excludes --draw, --html, --openmetrics and --nagios, unless there is a file for them: --output FILE");
    }
}

/* The clock that is asked, by its name or its identity, and the port after that, if one is named there. */
static void read_target(struct task *task, struct words *words, const char *text) {
    enum { PLAIN = 16, DOTTED = 18 };       /* octets of a clockIdentity */
    uint8_t *clock = task->settings.target;
    size_t size = strlen(text), clock_size = strnlen(text, strcspn(text, ".") == 6 ? DOTTED : PLAIN);
    uint16_t port;
    words->target_port = NOT_NAMED;
    /* An identity is not a name, even if a clock has another one's as its name. */
    if (ptpm_identity_parse(text, size, clock)) return;
    if (ptpm_port_identity_parse(text, size, clock, &port)) {
        words->target_port = port;
        return;
    }
    if (find_named_clock(text, clock)) return;
    if (ptpm_identity_parse(text, clock_size, clock)) refuse("--target %s: %s is not a port", text, text + clock_size);
    const char *also = clock_name_count() > 0 ? ", or a name of --names" : "";
    refuse("--target %s: it takes aabbccfffeddee01 or aabbcc.fffe.ddee01, and after it -1 for port 1%s", text, also);
}

static void read_port(struct words *words, const char *text) {
    words->is_every_port = strcasecmp(text, "all") == 0;
    words->port = words->is_every_port ? NOT_NAMED : number('p', text, 0, 65535);
}

static void read_manager(struct task *task, const char *text) {
    uint16_t *port = &task->settings.port;
    bool is_named = ptpm_port_identity_parse(text, strlen(text), task->settings.clock, port);
    if (!is_named) refuse("--manager %s: it takes aabbccfffeddee01/1 or aabbcc.fffe.ddee01-1", text);
    if (*port >= FIRST_OF_NOBODY) refuse("--manager %s: the port has to be below %d", text, FIRST_OF_NOBODY);
    task->has_manager = true;
}

/* Of two the earlier one would be asked by nobody. */
static void take_domain(struct words *words, const char *text) {
    if (words->domain != NULL) refuse("--domain %s: --domain %s is there already; for several write a range such as 0-7, or all", text, words->domain);
    words->domain = text;
}

/* Nor would the earlier one of these count. */
static void take_once(const char **at, int option, const char *value) {
    if (*at != NULL) refuse("--%s %s: --%s %s is there already", name_of(option), value, name_of(option), *at);
    *at = value;
}

/* Linux takes a longer name of an interface only over netlink. */
static void take_interface(struct task *task, const char *name) {
    if (strlen(name) >= IFNAMSIZ) {
        refuse("--interface %s: it has over %d octets: ip link shows the short name of the interface", name, IFNAMSIZ - 1);
    }
    if (task->interface_count == MOST_INTERFACES) refuse("--interface %s: there are more than %d", name, MOST_INTERFACES);
    task->interfaces[task->interface_count++] = name;
}

/* Of status the file of an inventory; of apply the id of a plan, eight hexadecimal digits. */
static void judge_expected(struct task *task) {
    const char *text = task->plan.expected;
    if (text == NULL) return;
    if (task->site.is_shown) {
        task->site.inventory = text;
        task->plan.expected = NULL;
        return;
    }
    if (task->plan.verb != APPLY) refuse("--expect: only apply and status take it");
    bool is_id = strlen(text) == PLAN_DIGITS && strspn(text, "0123456789abcdef") == PLAN_DIGITS;
    if (!is_id) refuse("--expect %s: it takes the eight digits of a plan", text);
}

/* One clock, or several with commas between them. */
static void read_limits(struct plan_options *plan, const char *text) {
    for (const char *at = text, *end; at != NULL; at = *end == '\0' ? NULL : end + 1) {
        end = strchrnul(at, ',');
        plan->limits = needed(reallocarray(plan->limits, plan->limit_count + 1, sizeof *plan->limits), "the options");
        if (!ptpm_identity_parse(at, (size_t)(end - at), plan->limits[plan->limit_count++])) {
            refuse("--limit %s: it takes identities such as aabbccfffeddee01, with commas between them", text);
        }
    }
}

/* A later run, which may be in another folder, has the path too. */
static void read_check(struct plan_options *plan, const char *path) {
    take_once(&plan->check, CHECK, path);
    plan->check = realpath(path, NULL);
    if (plan->check == NULL || access(plan->check, X_OK)) refuse("--check %s: %s", path, strerror(errno));
    if (strchr(plan->check, '\n') != NULL) refuse("--check: no line feed may be in the path");
}

static void take_option(struct task *task, struct words *words, int option, const char *value) {
    switch (option) {
    case 'i': take_interface(task, value); break;
    case UDP: take_once(&task->address, option, value); break;
    case '6': task->is_six = true; break;
    case '2': task->is_ethernet = true; break;
    case ANY_SOURCE: task->is_any_source = true; break;
    case TTL_SECURITY: task->is_near_alone = true; break;
    case 'u': take_once(&task->path, option, value); break;
    case 'T': take_once(&words->target, option, value); break;
    case NAMES:
        words->has_names = true;
        read_clock_names(value);
        break;
    case EXPECT: take_once(&task->plan.expected, option, value); break;
    case PROBE: task->plan.is_probed = true; break;
    case STATUS_IF_CHANGES: task->plan.tells_changes = true; break;
    case SKIP_UNREACHED: task->plan.skips_unreached = true; break;
    case LIMIT: read_limits(&task->plan, value); break;
    case CHECK: read_check(&task->plan, value); break;
    case KEEP: task->plan.kept = number(option, value, 0, 1000000); break;
    case KEEP_GOING: task->plan.keeps_going = true; break;
    case DRY_RUN: task->plan.is_dry = true; break;
    case 'p': read_port(words, value); break;
    case 'd': take_domain(words, value); break;
    case 'b': words->hops = number(option, value, 0, 255); break;
    case 'm': read_manager(task, value); break;
    case 'k': task->numbers = value; break;
    case 'w': task->wait = number(option, value, 0, 100000); break;
    case 'a': words->attempts = number(option, value, 1, 255); break;
    case 't': task->timeout = number(option, value, 1, 100000); break;
    case 'n': task->times = number(option, value, 1, 1000000); break;
    case GIVE_UP: task->is_letting_go = true; break;
    case 'x': task->is_in_octets = true; break;
    case JSON: task->is_json = true; break;
    case TEXT: words->is_text = true; break;
    case 'q': be_quiet(); break;
    case 'h': print_help(); break;
    case VERSION: print_version(); break;
    default: if (!take_site_option(&task->site, option, value)) refuse("see ptpm-manage --help");
    }
}

static void take_word(struct words *words, const char *word) {
    if (words->count == MOST_WORDS) refuse("%s: there are too many words; see ptpm-manage --help", word);
    words->at[words->count++] = word;
}

/* After `set ID`, and after the name of one of its members, comes a value. It may be below 0: it is not an option there. */
static bool is_value(const struct words *words, const char *word) {
    if (word[0] != '-' || word[1] < '0' || word[1] > '9') return false;
    if (words->count < 2 || strcasecmp(words->at[0], "set") != 0) return false;
    long id = id_named(words->at[1]);
    return words->count == 2 || (id >= 0 && is_member((uint16_t)id, words->at[words->count - 1]));
}

static void read_words(struct task *task, struct words *words, int argc, char **argv) {
    for (;;) {
        if (optind < argc && is_value(words, argv[optind])) {
            take_word(words, argv[optind++]);
            continue;
        }
        int option = getopt_long(argc, argv, "-26i:u:T:p:d:b:m:k:w:a:t:n:xqh", options, NULL);
        if (option == -1) break;
        if (option == WORD) take_word(words, optarg);
        else take_option(task, words, option, optarg);
    }
    while (optind < argc) take_word(words, argv[optind++]);
    if (words->target != NULL) read_target(task, words, words->target);
}

enum { ACTIONS = 3 };
static const struct { const char *name; uint8_t action; } actions[ACTIONS] = {
    { "get", PTPM_GET }, { "set", PTPM_SET }, { "command", PTPM_COMMAND },
};

/* By their names: `plan` and what follows it. */
static const char *const plan_verbs[] = { [PLAN] = "plan", [APPLY] = "apply", [RESUME] = "resume", [ROLLBACK] = "rollback", [APPLIES] = "applies" };

static enum plan_verb verb_of_plan(const char *verb) {
    for (enum plan_verb one = PLAN; one <= APPLIES; one++) {
        if (strcasecmp(verb, plan_verbs[one]) == 0) return one;
    }
    return NO_PLAN;
}

/* Whether it has the 16 digits of a clockIdentity, however they are parted. */
static bool is_like_identity(const char *text) {
    size_t digits = 0;
    for (; *text != '\0'; text++) {
        if (isxdigit((unsigned char)*text)) digits++;
        else if (strchr(".:-", *text) == NULL) return false;
    }
    return digits == 16;
}

/* Which option a word may lack before it. */
static const char *missing_option(const char *text) {
    if (is_like_identity(text)) return ": --target names a clock";
    return if_nametoindex(text) > 0 ? ": --interface names an interface" : "";
}

static void read_verb(struct task *task, const char *verb) {
    task->plan.verb = verb_of_plan(verb);
    if (task->plan.verb != NO_PLAN) {
        task->action = PTPM_SET;
        return;
    }
    task->site.is_shown = strcasecmp(verb, "status") == 0;
    task->site.is_collected = task->site.is_shown || strcasecmp(verb, "collect") == 0;
    task->is_survey = task->site.is_collected || strcasecmp(verb, "survey") == 0;
    for (int i = 0; i < ACTIONS; i++) {
        if (strcasecmp(verb, actions[i].name) != 0) continue;
        task->action = actions[i].action;
        return;
    }
    if (!task->is_survey) {
        refuse("%s: it is not one of get, set, command, survey, collect, status, plan, apply, resume, rollback and applies%s", verb, missing_option(verb));
    }
}

/* A get of every port is a survey of one clock. It asks as nobody, since a clock numbers the requests that its managers send only
   to it. */
static void read_every_port(struct task *task, const struct words *words) {
    if (!words->is_every_port) return;
    if (task->is_survey || task->action != PTPM_GET) refuse("--port all: only get takes it");
    if (task->has_manager || task->numbers != NULL) {
        refuse("--port all asks anonymously: it excludes --manager and --numbers");
    }
    task->is_survey = task->is_of_clock = true;
}

static void read_id(struct task *task, const char *text) {
    bool is_read = task->is_survey || task->action == PTPM_GET;
    long id = is_read ? read_id_named(text) : id_named(text);
    if (id < 0) {
        refuse("%s: it is neither a managementId of the list in ptpm-manage --help nor four hexadecimal digits%s", text, missing_option(text));
    }
    task->id = (uint16_t)id;
}

/* What else is said about a value that is not a dataField. */
static const char *hint(const struct task *task) {
    if (has_text(task->id)) return "; a text takes --text";
    if (task->action == PTPM_SET && takes_names(task->id)) return "; each of its members takes its name and its value";
    return task->action == PTPM_SET && can_only_be_read(task->id) ? "; the id can only be read" : "";
}

static void read_octets_of(struct task *task, const char *text) {
    const char *rest = text;
    if (strlen(text) > 2 * MOST_FIELD) refuse("the dataField has over %d octets", MOST_FIELD);
    task->size = read_octets(&rest, task->octets, sizeof task->octets);
    if (*rest == '\0' && task->size % 2 == 0) return;
    if (task->action == PTPM_GET && read_id_named(text) >= 0) refuse("get takes one managementId: ask for %s in a run of its own", text);
    refuse("%s: not an even number of octets in hexadecimal%s", text, hint(task));
}

/* Whether the words of a value are what an answer prints, or the value of the one member, and no dataField in hexadecimal. */
static bool are_members(const struct task *task, const char *const *value, size_t count) {
    if (task->action != PTPM_SET || task->is_in_octets) return false;
    return count > 1 || takes_value(task->id) || is_member(task->id, value[0]);
}

static void judge_count(const struct task *task, const char *const *value, size_t count, bool is_text) {
    size_t most = is_text || are_members(task, value, count) ? most_words(task->id, value[0]) : 1;
    if (count > most) refuse("%s: there are too many words; see ptpm-manage --help", value[most]);
}

static void read_value(struct task *task, const struct words *words) {
    const char *id = words->at[1], *const *value = words->at + 2;
    size_t count = words->count > 2 ? (size_t)words->count - 2 : 0;
    bool is_set = !task->is_survey && task->action == PTPM_SET;
    bool is_read_only = is_set && can_only_be_read(task->id);
    if (words->is_text && !is_set) refuse("--text: only set takes it");
    if (is_read_only && (count != 1 || is_member(task->id, value[0]))) refuse("set %s: the id can only be read", id);
    if (count == 0 && is_set && !has_no_member(task->id)) refuse("set %s: it takes a value", id);
    if (count == 0) return;
    if (task->is_survey) refuse("%s %s%s: it takes no value", words->at[0], id, task->is_of_clock ? " of every port" : "");
    if (words->is_text && !has_text(task->id)) refuse("--text: %s has no text", id);
    judge_count(task, value, count, words->is_text);
    if (words->is_text) task->size = read_text_field(task->id, id, value, count, task->octets);
    else if (are_members(task, value, count)) task->size = read_field(task->id, id, value, count, task->octets);
    else read_octets_of(task, value[0]);
}

/* A site is asked at interfaces, and at the socket of this host's own clock, which isn't heard there. */
static void part_own_socket(struct task *task) {
    if (!task->site.is_collected || task->path == NULL || task->interface_count == 0) return;
    task->own_socket = task->path;
    task->path = NULL;
}

/* Whether what is said about the clock and its transport is complete, and said once. */
static void judge(const struct task *task, const struct words *words) {
    bool is_sent = task->plan.verb != APPLIES && !(task->plan.verb == RESUME && task->is_letting_go);
    if (is_sent && task->path == NULL && task->interface_count == 0 && task->address == NULL) {
        refuse("the transport is missing: --interface NAME, --udp ADDRESS or --unix PATH");
    }
    if (task->path != NULL && (task->interface_count > 0 || task->address != NULL || task->is_six || task->is_ethernet)) {
        refuse("--unix excludes --interface, --udp, --ipv6 and --ethernet");
    }
    if (task->address != NULL && task->interface_count > 1) refuse("--udp takes one --interface at most");
    if (task->is_ethernet && (task->address != NULL || task->is_six)) refuse("--ethernet excludes --udp and --ipv6");
    bool asks_one = (!task->is_survey || task->is_of_clock) && task->plan.verb == NO_PLAN;
    if (!asks_one && words->target != NULL) refuse("%s asks every clock: it takes no --target", words->at[0]);
    if (asks_one && words->target == NULL) refuse("--target is missing: it names the clock to ask; survey asks every clock");
    if (words->has_names && !asks_one && !task->site.is_shown) refuse("--names: only status and --target take it");
    if (task->is_survey && task->numbers != NULL) refuse("--numbers: a request to every port has no session");
    if (task->is_survey && task->times > 1) refuse("--times: a request to every port is made once");
    if (words->is_every_port && words->target_port >= 0) refuse("--port all names every port, and --target names one");
    if (words->port >= 0 && words->target_port >= 0 && words->port != words->target_port) {
        refuse("--port %ld and --target name two ports", words->port);
    }
}

/* Whether all that is printed can be objects of JSON. */
static void judge_json(const struct task *task) {
    if (!task->is_json) return;
    if (task->site.form != AS_TEXT) refuse("--json excludes --draw, --html, --openmetrics and --nagios");
    if (task->site.is_collected && !task->site.is_shown) refuse("--json: collect prints datagrams in hexadecimal");
    if (task->times > 1) refuse("--json and --times exclude each other");
}

/* Whether the manager is the same in each run, so that a clock may have kept an answer to it. It never keeps one to a GET to
   every clock. A GET by nobody needs none. On a Unix socket clock 0 asks with another port number each time. */
static bool is_by_one_manager(const struct task *task) {
    if (task->is_survey) return false;
    if (task->plan.verb != NO_PLAN) return true;
    return task->numbers != NULL || task->has_manager || (task->path == NULL && task->action != PTPM_GET);
}

/* The file of a plan, or the apply that is rolled back. */
static void read_plan(struct task *task, const struct words *words) {
    const char *verb = words->at[0];
    int most = task->plan.verb == RESUME ? 1 : 2, least = task->plan.verb == APPLIES ? 1 : most;
    if (words->count > most) refuse("%s: there are too many words; see ptpm-manage --help", words->at[most]);
    bool lacks_word = words->count < least || (words->count == 2 && *words->at[1] == '\0');
    if (lacks_word) refuse("%s: it takes %s", verb, task->plan.verb >= ROLLBACK ? "the name of an apply: ptpm-manage applies lists them" : "a file");
    task->plan.word = words->at[1];
    if (words->domain != NULL) refuse("--domain: %s takes the domains of its file", verb);
    if (task->interface_count > 1) refuse("--interface: %s takes one", verb);
    if (words->port >= 0 || words->is_every_port || words->is_text || task->is_in_octets || task->numbers != NULL || task->times != 1) {
        refuse("%s takes none of --port, --text, --hexadecimal, --numbers and --times", verb);
    }
}

/* The id that is asked, and its value. There is none if every clock is asked for all six ids of a site. */
static void read_asked(struct task *task, const struct words *words) {
    const char *verb = words->at[0];
    if (task->plan.verb != NO_PLAN) {
        read_plan(task, words);
        return;
    }
    if (task->site.is_collected) {
        if (words->count > 1) refuse("%s %s: %s takes no managementId%s", verb, words->at[1], verb, missing_option(words->at[1]));
        if (task->has_manager) refuse("--manager: %s asks anonymously", verb);
        if (words->port >= 0 || words->is_text || task->is_in_octets || task->numbers != NULL) {
            refuse("%s takes none of --port, --text, --hexadecimal and --numbers", verb);
        }
        return;
    }
    if (words->count < 2) refuse("%s: it takes a managementId; see ptpm-manage --help", verb);
    read_id(task, words->at[1]);
    read_value(task, words);
}

/* A whole site is asked at several interfaces, and all else at one. */
static void see_to_one_interface(struct task *task) {
    for (int i = 1; i < task->interface_count; i++) {
        if (strcmp(task->interfaces[i], task->interfaces[0]) == 0) continue;
        refuse("--interface %s: --interface %s is there already; collect and status take several", task->interfaces[i], task->interfaces[0]);
    }
    if (task->interface_count > 1) task->interface_count = 1;
}

/* The domains, hops and attempts that the options name, or else those of what is asked. */
static void read_reach(struct task *task, const struct words *words) {
    bool is_site = task->site.is_collected;
    struct ptpm_session_settings *settings = &task->settings;
    if (words->domain != NULL && is_site) read_domains(&task->site, words->domain);
    else if (words->domain != NULL) settings->domain = (uint8_t)number('d', words->domain, 0, 255);
    bool is_far = is_site || task->plan.verb != NO_PLAN;
    task->site.is_as_far_as_named = words->hops >= 0;
    settings->hops = (uint8_t)(words->hops >= 0 ? words->hops : is_far ? SITE_HOPS : HOPS);
    settings->attempts = (uint8_t)(words->attempts >= 0 ? words->attempts : is_site ? SITE_ATTEMPTS : ATTEMPTS);
    if (!is_site) see_to_one_interface(task);
}

/* What is refused from now on is also for what reads standard output. */
static void prepare_refusals(int argc, char **argv) {
    bool is_json = false, is_plan = false;
    for (int i = 1; i < argc; i++) {
        if (strcmp(argv[i], "--nagios") == 0) be_plugin();
        is_json |= strcmp(argv[i], "--json") == 0;
        is_plan |= verb_of_plan(argv[i]) != NO_PLAN;
    }
    if (is_json && is_plan) begin_object(true);
}

/* Refuses options that what is changed does not take. */
static void judge_plan_options(const struct plan_options *plan) {
    bool is_of_apply = plan->skips_unreached || plan->check != NULL || plan->limit_count > 0;
    bool may_keep = plan->verb == APPLY || plan->verb == RESUME || plan->verb == ROLLBACK;
    if (plan->is_probed && plan->verb != PLAN && plan->verb != APPLY) refuse("--probe: only plan and apply take it");
    if (plan->tells_changes && plan->verb != PLAN) refuse("--status-if-changes: only plan takes it");
    if (plan->kept >= 0 && !may_keep) refuse("--keep: only apply, resume and rollback take it");
    if (is_of_apply && plan->verb != APPLY) refuse("--skip-unreached, --limit and --check: only apply takes them");
    if (plan->keeps_going && plan->verb != APPLY && plan->verb != RESUME) refuse("--keep-going: only apply and resume take it");
    if (plan->is_dry && plan->verb != ROLLBACK) refuse("--dry-run: only rollback takes it");
}

void read_task(struct task *task, int argc, char **argv) {
    struct words words = { .port = NOT_NAMED, .target_port = NOT_NAMED, .hops = NOT_NAMED, .attempts = NOT_NAMED };
    *task = (struct task){
        .settings = { .port = 1, .target_ports = SESSION_PORTS }, .site = { .listen = NOT_NAMED }, .plan = { .kept = NOT_NAMED }, .wait = 3000, .timeout = 200, .times = 1,
    };
    prepare_refusals(argc, argv);
    read_words(task, &words, argc, argv);
    if (words.count == 0) {
        refuse("it takes get, set, command or survey and a managementId, or collect, status, plan, apply, resume, rollback or applies; see "
               "ptpm-manage --help");
    }
    read_verb(task, words.at[0]);
    read_every_port(task, &words);
    read_asked(task, &words);
    read_reach(task, &words);
    part_own_socket(task);
    judge(task, &words);
    judge_site_options(&task->site);
    if (task->site.forget == 0) task->site.forget = (int64_t)DAY * SECOND;
    judge_json(task);
    judge_expected(task);
    judge_plan_options(&task->plan);
    if (task->site.listen < 0) task->site.listen = task->site.is_every_domain || task->site.is_every_sdo ? LISTENED : 0;
    long port = words.port >= 0 ? words.port : words.target_port;
    task->port = port < 0 ? 0 : (uint16_t)port;
    bool is_beyond = is_beyond_session(task->port);
    if (is_beyond && task->numbers != NULL) refuse("--numbers: a request to a port above %d has no session", SESSION_PORTS);
    task->is_kept = is_by_one_manager(task) && !is_beyond;
    bool is_asked = task->plan.verb == NO_PLAN;
    if (task->is_letting_go && !is_asked && task->plan.verb != RESUME) refuse("--give-up: of the commands for a plan only resume takes it");
    if (task->is_letting_go && is_asked && !task->is_kept) refuse("--give-up: this request has no session");
}

const char *task_words(const struct task *task) {
    static char words[64];
    char number[8];
    const char *action = "", *id = read_id_name(task->id);
    for (int i = 0; i < ACTIONS; i++) {
        if (actions[i].action == task->action) action = actions[i].name;
    }
    snprintf(number, sizeof number, "%04x", task->id);
    int size = snprintf(words, sizeof words, "%s %s", action, id != NULL ? id : number);
    if (task->port != 0) snprintf(words + size, sizeof words - (size_t)size, " at port %u", task->port);
    return words;
}
