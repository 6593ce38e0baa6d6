/* A site at a glance. The process `ptpm monitor` decides when it is looked at, judged and printed. It writes what is to be done, a line
   each, and reads what came of it (docs/architecture.md, "A poll loop, line by line"). */
#include "clock_names.h"
#include "collect.h"
#include "heard.h"
#include "kept_file.h"
#include "lines.h"
#include "monotonic.h"
#include "notices.h"
#include "program.h"
#include "ptpm_program.h"
#include "seen.h"
#include "stopping.h"
#include "text.h"
#include "transport.h"
#include "verbs.h"
#include "words.h"
#include <errno.h>
#include <fcntl.h>
#include <libgen.h>
#include <limits.h>
#include <malloc.h>
#include <poll.h>
#include <stdbool.h>
#include <stdlib.h>
#include <string.h>
#include <sys/stat.h>
#include <time.h>
#include <unistd.h>

/* The socket of a ptp4l whose configuration names no other. */
#define OWN_CLOCK "/var/run/ptp4l"

enum { TIME_TEXT = 32, READABLE_BY_ALL = 0644 };

/* Memory of this many octets or more goes back to the system at once: a look takes megabytes again and again. */
enum { RETURNED = 131072 };

/* A file that is replaced by what is printed, or by the lines of a look; and the option that names it. */
struct output_file { const char *option, *path; };

static struct output_file printed_file, lines_file;
static bool has_lost_lines;

/* ---- files */

/* What a symbolic link leads to; any other path stays as it is. The kernel follows it, and not realpath: it may refuse to follow one that
   somebody else left in a folder such as /tmp. */
static const char *end_of_link(const char *option, const char *at) {
    char opened_at[32], end[PATH_MAX];
    struct stat found;
    if (lstat(at, &found) || !S_ISLNK(found.st_mode)) return at;
    int opened = open(at, O_PATH | O_CLOEXEC);
    snprintf(opened_at, sizeof opened_at, "/proc/self/fd/%d", opened);
    ssize_t size = opened < 0 ? -1 : readlink(opened_at, end, sizeof end);
    const char *path = size < 0 ? NULL : strndup(end, (size_t)size);
    if (path == NULL) refuse("%s %s: it is a link: %s", option, at, strerror(errno));
    close(opened);
    return path;
}

/* Finds the folder of the path that an option names, or of what it leads to as a symbolic link. */
static void find_output_file(struct output_file *file, const char *option, const char *path) {
    struct stat found;
    struct kept_file kept;
    if (stat(path, &found) == 0 && !S_ISREG(found.st_mode)) refuse("%s %s: not a regular file; refusing to replace it", option, path);
    *file = (struct output_file){ option, end_of_link(option, path) };
    umask(022);
    if (!open_kept_folder(&kept, file->path)) refuse("%s %s: %s", option, file->path, strerror(errno));
    close(kept.folder);
}

/* Replaces the file by one with this text, of its owner and mode; whether that was done, and otherwise why not is said. Its folder may have
   been moved since the time before, and another made in its place. */
static bool write_output_file(const struct output_file *file, const char *text, size_t size) {
    struct kept_file kept = { .folder = -1, .mode = READABLE_BY_ALL };
    bool is_opened = open_kept_folder(&kept, file->path), is_written = false;
    if (is_opened) {
        bool is_there = fstatat(kept.folder, kept.name, &kept.before, AT_SYMLINK_NOFOLLOW) == 0 && S_ISREG(kept.before.st_mode);
        if (!is_there) kept.before = (struct stat){ 0 };
        is_written = replace_kept(&kept, (const uint8_t *)text, size) != NOT_REPLACED;
    }
    if (!is_written) complain("%s %s%s: %s", file->option, file->path, is_opened ? kept_fault() : "", strerror(errno));
    close_quietly(kept.folder);
    return is_written;
}

/* ---- the process `ptpm monitor` */

/* The words of its command line, without those of names; and room for a number. */
enum { MOST_ARGUMENTS = 40, NUMBER = 24 };

/* The version of the lines between the two. */
static const char greeting[] = "monitor 1";

static struct running monitor;

/* What it wrote: from `first` on it is not read yet. */
static struct printed monitor_said;
static size_t first;

static size_t add_option(char **arguments, size_t count, const char *name, const char *value) {
    if (value == NULL) return count;
    arguments[count] = (char *)name;
    arguments[count + 1] = (char *)value;
    return count + 2;
}

/* In milliseconds; none if it is 0. */
static size_t add_time(char **arguments, size_t count, const char *name, char value[NUMBER], int64_t time) {
    snprintf(value, NUMBER, "%lld", (long long)time);
    return add_option(arguments, count, name, time == 0 ? NULL : value);
}

/* Whether colour is wanted: on a terminal, unless the environment says that it is not. */
static bool is_coloured(const struct site_options *options) {
    const char *without = getenv("NO_COLOR"), *terminal = getenv("TERM");
    if (options->output != NULL || (without != NULL && *without != '\0')) return false;
    return isatty(STDOUT_FILENO) && terminal != NULL && strcmp(terminal, "dumb") != 0;
}

/* How a look is judged and shown. Who is not seen may be a clock that is not asked. */
static size_t add_judging(char **arguments, size_t count, const struct task *task) {
    static const char *const forms[] = { NULL, "--json", "--draw", "--html", "--openmetrics", "--nagios" };
    const struct site_options *options = &task->site;
    const struct { const char *name, *value; } given[] = {
        { "--max-offset", options->max_offset }, { "--max-delay", options->max_delay }, { "--tai-utc", options->tai_utc },
        { "--settle", options->settle }, { "--profile", options->profile }, { "--expect", options->inventory },
        { "--ignore", options->ignored }, { "--ignore", asks_one_address() ? "grandmaster_not_seen,parent_not_seen" : NULL },
    };
    const char *form = forms[task->is_json ? AS_JSON : options->form];
    if (form != NULL) arguments[count++] = (char *)form;
    for (size_t i = 0; i < sizeof given / sizeof *given; i++) count = add_option(arguments, count, given[i].name, given[i].value);
    if (options->is_all) arguments[count++] = (char *)"--all";
    for (size_t i = 0; i < clock_name_count(); i++) count = add_option(arguments, count, "--name", clock_name(i));
    return count;
}

/* How often is looked, and how far. */
static void add_looking(char **arguments, size_t count, const struct task *task) {
    static char hops[NUMBER], watch[NUMBER], duration[NUMBER], forget[NUMBER];
    const struct site_options *options = &task->site;
    snprintf(hops, NUMBER, "%d", task->settings.hops);
    count = add_option(arguments, count, "--hops", hops);
    count = add_time(arguments, count, "--watch", watch, options->watch);
    count = add_time(arguments, count, "--for", duration, options->duration);
    count = add_time(arguments, count, "--forget", forget, options->forget);
    if (options->is_once) arguments[count++] = (char *)"--once";
    if (options->is_as_far_as_named) arguments[count++] = (char *)"--as-far-as-named";
    if (is_coloured(options)) arguments[count++] = (char *)"--colour";
    if (options->output != NULL) arguments[count++] = (char *)"--replace";
    arguments[count] = NULL;
}

/* Waits until it has written more; whether it has. */
static bool read_more(void) {
    if (first > 0) memmove(monitor_said.text, monitor_said.text + first, monitor_said.size - first);
    monitor_said.size -= first;
    first = 0;
    return read_printed(monitor.from, &monitor_said);
}

/* The next line, without its end. NULL if there is none, or a signal asks this program to end. It is there until the next call. */
static char *read_from_monitor(void) {
    char *end = NULL;
    while (monitor_said.size == first || (end = memchr(monitor_said.text + first, '\n', monitor_said.size - first)) == NULL) {
        if (!read_more()) return NULL;
    }
    char *line = monitor_said.text + first;
    *end = '\0';
    first = (size_t)(end + 1 - monitor_said.text);
    return line;
}

/* So many octets after a line, as above. */
static const char *read_octets_from_monitor(size_t count) {
    while (monitor_said.size - first < count) {
        if (!read_more()) return NULL;
    }
    const char *octets = monitor_said.text + first;
    first += count;
    return octets;
}

/* Hands it octets; whether it takes them all. */
static bool tell_monitor(const char *octets, size_t count) {
    for (size_t done = 0; done < count && !stopped;) {
        ssize_t written = write_until_signal(monitor.to, octets + done, count - done);
        if (written < 0 && errno != EINTR) return false;
        if (written > 0) done += (size_t)written;
    }
    return !stopped;
}

/* The inventory is read at each look: of a pipe a later one would have nothing, and find nothing. */
static void judge_inventory(const char *inventory) {
    struct stat found;
    if (inventory == NULL || stat(inventory, &found) != 0 || S_ISREG(found.st_mode)) return;
    refuse("--expect %s: it is read at each poll, so it has to be a file, not a pipe", inventory);
}

/* Starts it. Ends the program if it refuses its options. */
static void start_monitor(const struct task *task) {
    char **arguments = needed(calloc(MOST_ARGUMENTS + 2 * clock_name_count(), sizeof *arguments), "the names");
    judge_inventory(task->site.inventory);
    arguments[1] = (char *)"monitor";
    add_looking(arguments, add_judging(arguments, 2, task), task);
    if (!start_ptpm_program(arguments, &monitor)) refuse("nothing was asked: ptpm monitor: %s", strerror(errno));
    free(arguments);
    const char *line = read_from_monitor();
    if (line != NULL && strcmp(line, greeting) == 0) return;
    if (stopped) return;
    if (line != NULL) refuse("nothing was asked: ptpm monitor is of another version");
    end_ptpm_program(&monitor);
    refuse("nothing was asked: ptpm monitor refuses these options");
}

/* ---- a look */

/* Whether a socket may be made beside it. */
static bool may_write_beside(const char *path) {
    char folder[PATH_MAX];
    snprintf(folder, sizeof folder, "%s", path);
    return access(dirname(folder), W_OK) == 0;
}

/* Writes what is known of a look beside its lines: when it ended, what was left out, the ways, and the clocks that answered. */
static void write_known(FILE *to, int status, int64_t step) {
    bool is_answered;
    const char *way;
    fprintf(to, "looked %d %lld %lld %s %lu", status, (long long)milliseconds(), (long long)step, utc_text("%FT%TZ", time(NULL)),
            unseen_answers());
    for (int type = ANNOUNCES; type < HEARD_TYPES; type++) fprintf(to, " %lu", unheard((enum heard_type)type));
    fputc('\n', to);
    for (size_t i = 0; (way = named_way(i, &is_answered)) != NULL; i++) {
        fprintf(to, "way %d ", is_answered);
        write_name(to, way);
        fputc('\n', to);
    }
    for (size_t i = 0; i < seen_count(); i++) {
        const struct seen_clock *clock = seen_clock(i);
        fprintf(to, "clock %u %u %s\n", clock->domain.number, clock->domain.sdo, identity_text(clock->identity));
    }
}

/* Collects the lines of a look and hands them on. */
static bool look(const struct task *task, const struct domains *domains, unsigned long hops) {
    struct task as_far = *task;
    char *lines = NULL, *known = NULL;
    size_t size = 0, known_size = 0;
    int64_t step = take_time();
    FILE *to = open_memstream(&lines, &size), *about = open_memstream(&known, &known_size);
    if (to == NULL || about == NULL) give_up("the answers");
    as_far.settings.hops = (uint8_t)hops;
    int status = collect_answers(&as_far, &of_site, domains, to);
    if (fflush(to) != 0) give_up("the answers");
    has_lost_lines = task->site.lines != NULL && !write_output_file(&lines_file, lines, size);
    fputs("end\n", to);
    write_known(about, status, step);
    if (fclose(to) != 0 || fclose(about) != 0 || lines == NULL || known == NULL) give_up("the answers");
    bool is_told = tell_monitor(known, known_size) && tell_monitor(lines, size);
    free(lines);
    free(known);
    return is_told;
}

static bool answer(const char *said) {
    char line[TIME_TEXT + TIME_TEXT];
    int size = snprintf(line, sizeof line, "%s\n", said);
    return tell_monitor(line, (size_t)size);
}

static bool answer_time(const char *word) {
    char line[TIME_TEXT + TIME_TEXT];
    snprintf(line, sizeof line, "%s %lld", word, (long long)milliseconds());
    return answer(line);
}

static bool is_seen_anywhere(const uint8_t identity[8]) {
    for (size_t i = 0; i < seen_count(); i++) {
        if (memcmp(seen_clock(i)->identity, identity, 8) == 0) return true;
    }
    return false;
}

/* Says that a clock of this host is not asked, if none has the identity of an interface at which it would not be heard. */
static void tell_own_clock(void) {
    uint8_t identity[8];
    bool is_missing = false;
    for (size_t i = 0; own_identity(i, identity); i++) is_missing |= !is_seen_anywhere(identity);
    if (!is_missing || asks_one_address() || !is_own_clock_left_out(OWN_CLOCK)) return;
    complain("a ptp4l of this host is not asked: with --unix %s it is asked too", OWN_CLOCK);
}

/* Whether nobody reads what is printed any more. A pipe and a socket show that before something is written. */
static bool has_lost_reader(void) {
    struct pollfd output = { STDOUT_FILENO, 0, 0 };
    if (fflush(stdout) != 0 || ferror(stdout)) return true;
    return poll(&output, 1, 0) > 0 && (output.revents & (POLLERR | POLLHUP)) != 0;
}

/* Waits for the next look of a watch. Then an interface may be another one of the same name. */
static bool wait_for_look(const struct task *task, struct domains *domains, unsigned long time) {
    if (has_lost_reader()) return answer("lost");
    listen_for_domains(domains, task, (int64_t)time);
    if (!stopped) renew_transport();
    return answer_time("listened");
}

static void write_printed(FILE *to, const char *kind, const char *octets, size_t size) {
    if (strcmp(kind, "text") == 0) print_lines(to, octets, size);
    else if (strcmp(kind, "json") == 0) print_json(to, octets, size);
    else fwrite(octets, 1, size, to);
}

/* Prints it, or replaces the file that was named by it. */
static bool print(const struct task *task, const char *kind, const char *octets, size_t size) {
    clear_progress();
    if (task->site.output == NULL) {
        write_printed(stdout, kind, octets, size);
        return answer("printed");
    }
    char *printed = NULL;
    size_t printed_size = 0;
    FILE *to = open_memstream(&printed, &printed_size);
    if (to != NULL) write_printed(to, kind, octets, size);
    bool is_written = to != NULL && fclose(to) == 0 && write_output_file(&printed_file, printed, printed_size);
    free(printed);
    return answer(is_written ? "printed" : "unwritten");
}

/* Prints the octets that follow the line `print KIND SIZE`. */
static bool print_what_follows(const struct task *task, const char *words) {
    char kind[16];
    unsigned long size;
    if (sscanf(words, "%15s %lu", kind, &size) != 2) return false;
    const char *octets = read_octets_from_monitor(size);
    return octets != NULL && print(task, kind, octets, size);
}

static bool open_own_clock(const struct task *task) {
    bool is_opened = task->path == NULL && may_write_beside(OWN_CLOCK) && ask_own_clock(OWN_CLOCK);
    return answer(is_opened ? "opened" : "unopened");
}

/* Does what a line says; whether there is more to do. */
static bool carry_out(char *line, const struct task *task, struct domains *domains) {
    char *words = strchrnul(line, ' ');
    if (*words != '\0') *words++ = '\0';
    if (strcmp(line, "look") == 0) return look(task, domains, strtoul(words, NULL, 10));
    if (strcmp(line, "watch") == 0) return wait_for_look(task, domains, strtoul(words, NULL, 10));
    if (strcmp(line, "print") == 0) return print_what_follows(task, words);
    if (strcmp(line, "open") == 0) return open_own_clock(task);
    if (strcmp(line, "listen") == 0) {
        listen_for_domains(domains, task, strtol(words, NULL, 10));
        return answer_time("listened");
    }
    if (strcmp(line, "expect") == 0) expect_seen(strcmp(words, "also") == 0);
    else if (strcmp(line, "own") == 0) tell_own_clock();
    else if (strcmp(line, "show") == 0) show_progress("%s", words);
    else return false;
    return true;
}

int show_status(const struct task *task) {
    struct domains domains;
    char *line;
#ifdef M_MMAP_THRESHOLD
    mallopt(M_MMAP_THRESHOLD, RETURNED);
#endif
    find_ptpm_program();
    if (task->site.output != NULL) find_output_file(&printed_file, "--output", task->site.output);
    if (task->site.lines != NULL) find_output_file(&lines_file, "--lines", task->site.lines);
    start_monitor(task);
    widen_transport();
    find_domains(&domains, task);
    if (!stopped) answer_time("host");
    while (!stopped && (line = read_from_monitor()) != NULL && carry_out(line, task, &domains)) continue;
    int status = end_ptpm_program(&monitor);
    if (has_lost_lines) status = NOT_WRITTEN;
    return stopped ? BY_SIGNAL + stopped : status;
}
