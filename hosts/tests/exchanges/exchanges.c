/* exchanges [-p] FILE..: runs the cases of these pages over the library, and compares what comes of them with what they say. The
   form of a page is in tests/library/README.md. Prints each case that is otherwise, how often memory was refused, and `exchanges: N
   passed, M failed`, of commands and rows; its status is 1 if one failed. With -p it prints the pages as they are now, and compares
   nothing. */
#include "../checking.h"
#include "commands.h"
#include <stdlib.h>
#include <string.h>

#define INDENT "    "

uint8_t room[MOST_OCTETS];

void clear_room(void) { memset(room, 0xee, sizeof room); }

bool wrote_alone(size_t size) {
    while (size < sizeof room && room[size] == 0xee) size++;
    return size == sizeof room;
}

size_t next_room(char **words, size_t most) { return takes_word(words, "room") ? (size_t)next_number(words, 0) : most; }

void say_written(uint32_t answer, const char *done, size_t size, void (*say_it)(const uint8_t *octets, size_t size)) {
    say("%s%s", answer_name(answer, done), answer == 0 ? " " : "\n");
    if (answer == 0) say_it(room, size);
    if (answer == 0 && say_it == say_octets) say("\n");
    if (answer != 0 && size != 0) say("it writes a size of %zu\n", size);
    if (!wrote_alone(size)) say("it writes more than that\n");
}

/* The linker has the library and this program call these (--wrap). */
void *__real_malloc(size_t size);
void *__real_realloc(void *block, size_t size);
void *__wrap_malloc(size_t size);
void *__wrap_realloc(void *block, size_t size);

/* How many requests come before the one that is refused, and that one; 0 if none is. */
static unsigned ahead, refused;

static bool is_refused(void) {
    if (ahead == 0 || --ahead > 0) return false;
    refused++;
    return true;
}

void *__wrap_malloc(size_t size) { return is_refused() ? NULL : __real_malloc(size); }
void *__wrap_realloc(void *block, size_t size) { return is_refused() ? NULL : __real_realloc(block, size); }

uint32_t refusing(uint32_t (*call)(void *given), void *given, size_t (*state)(uint8_t *octets)) {
    static uint8_t before[MOST_OCTETS], after[MOST_OCTETS];
    size_t size = state == NULL ? 0 : state(before);
    for (unsigned request = 1;; request++) {
        unsigned so_far = refused;
        ahead = request;
        uint32_t answer = call(given);
        ahead = 0;
        if (refused == so_far) return answer;
        if (answer != PTPM_NO_MEMORY) say("memory is refused, and it answers %s\n", answer_name(answer, "0"));
        if (state != NULL && (state(after) != size || memcmp(before, after, size) != 0)) say("memory is refused, and it changes\n");
    }
}

static void run_name(char *words) {
    static struct octets octets;
    const char *name = next_word(&words);
    read_octets(&words, &octets);
    put_name(name == NULL ? "" : name, octets.at, octets.size);
}

static const struct command own_commands[] = { { "name", run_name }, { NULL, NULL } };

/* What a page has started stops by these commands, and at its end. */
static const struct { const char *name; void (*stop)(void); } stops[] = {
    { "stop", stop_clock }, { "stop-session", stop_session }, { "stop-survey", stop_survey }, { "stop-asker", stop_asker },
    { "stop-journal", stop_journal }, { "stop-rollout", stop_rollout },
};
enum { STOPS = sizeof stops / sizeof *stops };

static void run_command(char *words) {
    static const struct command *const tables[] = {
        own_commands, clock_commands, device_commands, damage_commands, session_commands, survey_commands, asker_commands,
        journal_commands, rollout_commands, text_commands,
    };
    const char *name = next_word(&words);
    for (size_t i = 0; name != NULL && i < STOPS; i++) {
        if (strcmp(stops[i].name, name) != 0) continue;
        stops[i].stop();
        return;
    }
    for (size_t i = 0; name != NULL && i < sizeof tables / sizeof *tables; i++) {
        for (const struct command *command = tables[i]; command->name != NULL; command++) {
            if (strcmp(command->name, name) != 0) continue;
            command->run(words);
            return;
        }
    }
    say_misspelt(name == NULL ? "" : name);
}

static char *copy_of(const char *octets, size_t size) {
    char *copy = strndup(octets, size);
    if (copy == NULL) exit(2);
    return copy;
}

/* The text with each of these marks replaced. */
static char *replaced(const char *text, const char *mark, const char *by) {
    char *made;
    size_t size;
    FILE *out = open_memstream(&made, &size);
    if (out == NULL) exit(2);
    for (const char *at; (at = strstr(text, mark)) != NULL; text = at + strlen(mark)) {
        fwrite(text, 1, (size_t)(at - text), out);
        fputs(by, out);
    }
    fputs(text, out);
    fclose(out);
    return made;
}

/* Commands, parted by semicolons. */
static void run_commands(const char *line) {
    char *copy = copy_of(line, strlen(line)), *rest = copy;
    while (rest != NULL) {
        char *end = strstr(rest, " ; "), *command = rest;
        rest = end == NULL ? NULL : end + 3;
        if (end != NULL) *end = '\0';
        run_command(command);
    }
    free(copy);
}

static void end_group(FILE *out, unsigned times, char *group) {
    if (times == 1) fprintf(out, "once:\n%s", group);
    if (times > 1) fprintf(out, "%u times:\n%s", times, group);
    free(group);
}

/* `from A to B: COMMANDS`: the commands once for each number, which they have as ####. What comes again and again is said once. */
static void run_counted(const char *line, long first, long last) {
    char *made, *group = NULL;
    size_t size;
    unsigned times = 0;
    FILE *out = open_memstream(&made, &size);
    if (out == NULL) exit(2);
    for (counted = first; counted <= last; counted++) {
        char number[8], *commands;
        snprintf(number, sizeof number, "%04lx", (unsigned long)counted & 0xffff);
        commands = replaced(line, "####", number);
        clear_said();
        run_commands(commands);
        free(commands);
        if (group == NULL || strcmp(group, said()) != 0) {
            end_group(out, times, group);
            group = copy_of(said(), strlen(said()));
            times = 0;
        }
        times++;
    }
    counted = -1;
    end_group(out, times, group);
    fclose(out);
    clear_said();
    say("%s", made);
    free(made);
}

/* Runs a line of a page. What comes of it is in said. */
static void run_line(const char *line) {
    long first, last;
    int size = 0;
    clear_said();
    if (sscanf(line, "from %li to %li: %n", &first, &last, &size) == 2 && size > 0) run_counted(line + size, first, last);
    else run_commands(line);
}

/* The lines of a page. */
struct page { const char *path; char **lines; size_t count; };

static void read_page(struct page *page) {
    FILE *file = fopen(page->path, "r");
    char *line = NULL;
    size_t room_of_line = 0, room_of_lines = 0;
    if (file == NULL) {
        perror(page->path);
        exit(2);
    }
    page->count = 0;
    page->lines = NULL;
    for (ssize_t size; (size = getline(&line, &room_of_line, file)) >= 0;) {
        if (page->count == room_of_lines) page->lines = realloc(page->lines, (room_of_lines += 1024) * sizeof *page->lines);
        if (page->lines == NULL) exit(2);
        if (size > 0 && line[size - 1] == '\n') size--;
        page->lines[page->count++] = copy_of(line, (size_t)size);
    }
    free(line);
    fclose(file);
}

static bool begins(const char *line, const char *with) { return strncmp(line, with, strlen(with)) == 0; }
static bool is_command(const char *line) { return begins(line, INDENT "$ ") || begins(line, INDENT "each $ "); }

/* What a command writes, as lines of a page. */
static char *said_lines(void) {
    char *lines = replaced(said(), "\n", "\n" INDENT), *made;
    size_t size = strlen(lines);
    if (size == 0) return lines;
    lines[size - strlen("\n" INDENT)] = '\0';
    made = malloc(size + sizeof INDENT);
    if (made == NULL) exit(2);
    sprintf(made, INDENT "%s", lines);
    free(lines);
    return made;
}

/* A row with what its command writes in its last cell. */
static char *row_found(const char *row, const char *command) {
    char *cells = copy_of(row, strlen(row)), *line = copy_of(command, strlen(command)), *rest = cells + strlen(INDENT), *said_in_row, *made;
    for (char number = '1', *end; (end = strstr(rest, " => ")) != NULL; number++, rest = end + 4) {
        *end = '\0';
        char *put = replaced(line, (char[]){ '$', number, '\0' }, rest);
        free(line);
        line = put;
    }
    run_line(line);
    said_in_row = replaced(said(), "\n", " ⏎ ");
    if (*said_in_row != '\0') said_in_row[strlen(said_in_row) - strlen(" ⏎ ")] = '\0';
    size_t kept = (size_t)(rest - cells);
    made = malloc(kept + strlen(said_in_row) + 1);
    if (made == NULL) exit(2);
    sprintf(made, "%.*s%s", (int)kept, row, said_in_row);
    free(said_in_row);
    free(cells);
    free(line);
    return made;
}

/* Counts a case, and shows one that is otherwise, or prints it as it is now. */
static void tell(const struct page *page, size_t line, const char *wanted, const char *found, bool is_printed) {
    if (is_printed) {
        if (*found != '\0') printf("%s\n", found);
        return;
    }
    char *what = NULL;
    if (asprintf(&what, "%s:%zu: %s", page->path, line + 1, page->lines[line] + strlen(INDENT)) < 0) exit(2);
    check(strcmp(wanted, found) == 0, what);
    if (strcmp(wanted, found) != 0) printf("what is said:\n%s\nwhat comes:\n%s\n", wanted, found);
    free(what);
}

/* The lines from here to before another, joined. */
static char *joined(const struct page *page, size_t from, size_t to, const char *by, size_t without) {
    char *made;
    size_t size;
    FILE *out = open_memstream(&made, &size);
    if (out == NULL) exit(2);
    for (size_t i = from; i < to; i++) fprintf(out, "%s%s", i == from ? "" : by, page->lines[i] + without);
    fclose(out);
    return made;
}

/* The case that begins at a line; the line after it. */
static size_t run_case(const struct page *page, size_t at, bool is_printed) {
    size_t said_from = at + 1, end;
    while (said_from < page->count && begins(page->lines[said_from], INDENT "> ")) said_from++;
    for (end = said_from; end < page->count && begins(page->lines[end], INDENT) && !is_command(page->lines[end]);) end++;
    char *command = joined(page, at, said_from, " ", strlen(INDENT "> "));
    if (begins(page->lines[at], INDENT "each $ ")) {
        for (size_t row = said_from; row < end; row++) {
            char *found = row_found(page->lines[row], command + strlen("each $ ") - strlen("$ "));
            tell(page, row, page->lines[row], found, is_printed);
            free(found);
        }
    } else {
        run_line(command);
        char *wanted = joined(page, said_from, end, "\n", 0), *found = said_lines();
        tell(page, at, wanted, found, is_printed);
        free(wanted);
        free(found);
    }
    free(command);
    return end;
}

static void run_page(const char *path, bool is_printed) {
    struct page page = { .path = path };
    read_page(&page);
    for (size_t at = 0; at < page.count;) {
        size_t next = at + 1;
        if (is_command(page.lines[at])) {
            if (is_printed) printf("%s\n", page.lines[at]);
            while (is_printed && next < page.count && begins(page.lines[next], INDENT "> ")) printf("%s\n", page.lines[next++]);
            next = run_case(&page, at, is_printed);
        } else if (is_printed) {
            printf("%s\n", page.lines[at]);
        }
        at = next;
    }
    for (size_t i = 0; i < page.count; i++) free(page.lines[i]);
    free(page.lines);
    forget_names();
    forget_messages();
    for (size_t i = 0; i < STOPS; i++) stops[i].stop();
    stop_network();
}

int main(int argc, char **argv) {
    bool is_printed = argc > 1 && strcmp(argv[1], "-p") == 0;
    for (int i = is_printed ? 2 : 1; i < argc; i++) run_page(argv[i], is_printed);
    if (is_printed) return 0;
    printf("memory was refused %u times\n", refused);
    return print_checks("exchanges");
}
