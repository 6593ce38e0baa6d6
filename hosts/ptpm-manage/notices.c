#include "notices.h"
#include "program.h"
#include <stdarg.h>
#include <stdbool.h>
#include <stdio.h>
#include <stdlib.h>
#include <string.h>
#include <sys/ioctl.h>
#include <unistd.h>

enum { MOST_PROGRESS = 256 };

/* Of a plugin status 2 says that the site is in a critical state. */
enum { UNKNOWN = 3 };

static bool is_quiet, is_shown;

/* What becomes of what is refused. */
static enum status refused[REFUSALS] = { NOT_ASKED, NOT_ASKED, NOT_ASKED };
static void (*say_refused)(enum status status, const char *why);

/* What lines of progress begin with. */
static char heading[MOST_PROGRESS];

static void say(const char *format, va_list values) {
    clear_progress();
    fputs("ptpm-manage: ", stderr);
    vfprintf(stderr, format, values);
    fputc('\n', stderr);
}

void complain(const char *format, ...) {
    va_list values;
    va_start(values, format);
    say(format, values);
    va_end(values);
}

_Noreturn void end_refused(enum refused by, const char *format, ...) {
    char *why;
    va_list values;
    va_start(values, format);
    if (vasprintf(&why, format, values) < 0) give_up("a notice");
    complain("%s", why);
    if (say_refused != NULL) say_refused(refused[by], why);
    exit((int)refused[by]);
}

void refuse_as(enum status status) {
    refused[BY_ANYTHING] = status;
    refused[BY_STORAGE] = NOT_WRITTEN;
}

void refuse_also(void (*say_it)(enum status status, const char *why)) { say_refused = say_it; }

static void say_unknown(const char *what, const char *why) { printf("PTP UNKNOWN - %s: %s\n", what, why); }

static void refuse_unknown(enum status status, const char *why) {
    (void)status;
    printf("PTP UNKNOWN - %s\n", why);
}

void be_plugin(void) {
    for (int by = 0; by < REFUSALS; by++) refused[by] = (enum status)UNKNOWN;
    refuse_also(refuse_unknown);
    end_otherwise(UNKNOWN, say_unknown);
}

void be_quiet(void) { is_quiet = true; }

/* How many characters of progress one line of the terminal has room for. Of two lines the first could not be taken away again. */
static int room_for_progress(void) {
    struct winsize size;
    return ioctl(STDERR_FILENO, TIOCGWINSZ, &size) == 0 && size.ws_col > 1 ? size.ws_col - 1 : MOST_PROGRESS;
}

/* A dumb terminal takes no line away again. */
static bool takes_progress(void) {
    const char *terminal = getenv("TERM");
    return isatty(STDERR_FILENO) && (terminal == NULL || strcmp(terminal, "dumb") != 0);
}

/* Shows a line of two parts. */
static void show(const char *first, const char *between, const char *second) {
    char line[2 * MOST_PROGRESS + 2];
    if (is_quiet || !takes_progress()) return;
    clear_progress();
    snprintf(line, sizeof line, "%s%s%s", first, between, second);
    fprintf(stderr, "%.*s", room_for_progress(), line);
    fflush(stderr);
    is_shown = true;
}

void show_progress(const char *format, ...) {
    char line[MOST_PROGRESS];
    va_list values;
    va_start(values, format);
    vsnprintf(line, sizeof line, format, values);
    va_end(values);
    show(heading, *heading == '\0' ? "" : ": ", line);
}

void head_progress(const char *format, ...) {
    va_list values;
    va_start(values, format);
    vsnprintf(heading, sizeof heading, format, values);
    va_end(values);
    if (*heading != '\0') show(heading, "", "");
}

void log_progress(const char *format, ...) {
    va_list values;
    if (is_quiet || isatty(STDERR_FILENO)) return;
    va_start(values, format);
    say(format, values);
    va_end(values);
}

void clear_progress(void) {
    if (is_shown) fputs("\r\033[K", stderr);
    if (is_shown) fflush(stderr);
    is_shown = false;
}
