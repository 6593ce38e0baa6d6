#include "ptpm_program.h"
#include "notices.h"
#include "program.h"
#include "stopping.h"
#include <errno.h>
#include <fcntl.h>
#include <limits.h>
#include <spawn.h>
#include <stdio.h>
#include <stdlib.h>
#include <string.h>
#include <sys/mman.h>
#include <sys/stat.h>
#include <sys/wait.h>
#include <unistd.h>

enum { PART = 65536, TURN = 1000, AGAIN = 20, FAULT = 1, BESIDE = 3 };

static char ptpm_program[2 * PATH_MAX];

/* Takes the program of a folder; whether there is one. */
static bool find_in_folder(const char *folder, size_t size) {
    struct stat found;
    snprintf(ptpm_program, sizeof ptpm_program, "%.*s/ptpm", (int)size, folder);
    return stat(ptpm_program, &found) == 0 && S_ISREG(found.st_mode) && access(ptpm_program, X_OK) == 0;
}

void find_ptpm_program(void) {
    char own[PATH_MAX];
    ssize_t size = readlink("/proc/self/exe", own, sizeof own - 1);
    own[size > 0 ? size : 0] = '\0';
    char *slash = strrchr(own, '/');
    if (slash != NULL && find_in_folder(own, (size_t)(slash - own))) return;
    for (const char *path = getenv("PATH"), *next; path != NULL; path = *next == ':' ? next + 1 : NULL) {
        next = strchrnul(path, ':');
        if (next > path && next - path < PATH_MAX && find_in_folder(path, (size_t)(next - path))) return;
    }
    refuse("nothing was asked: the program ptpm is neither beside this one nor in the PATH");
}

/* A file without a name that has the lines, and is read from its beginning. -1 if there is no room for it. */
static int file_of(const struct piece *lines) {
    int opened = memfd_create("lines", MFD_CLOEXEC);
    for (size_t done = 0; opened >= 0 && done < lines->size;) {
        ssize_t written = write(opened, lines->at + done, lines->size - done);
        if (written <= 0) {
            close(opened);
            return -1;
        }
        done += (size_t)written;
    }
    if (opened >= 0) lseek(opened, 0, SEEK_SET);
    return opened;
}

/* What it is started with: its standard input and output, a file beside, and its standard error. Each of the last two may be -1. */
struct ends { int from, to, beside, faults; };

/* Starts it; whether it is started. */
static bool start_program(pid_t *process, char *const *arguments, const struct ends *ends) {
    posix_spawn_file_actions_t files;
    posix_spawnattr_t attributes;
    sigset_t none, usual;
    sigemptyset(&none);
    sigemptyset(&usual);
    sigaddset(&usual, SIGPIPE);
    if (posix_spawn_file_actions_init(&files) != 0 || posix_spawnattr_init(&attributes) != 0) return false;
    errno = posix_spawn_file_actions_adddup2(&files, ends->from, STDIN_FILENO);
    if (errno == 0) errno = posix_spawn_file_actions_adddup2(&files, ends->to, STDOUT_FILENO);
    if (errno == 0 && ends->beside >= 0) errno = posix_spawn_file_actions_adddup2(&files, ends->beside, BESIDE);
    if (errno == 0 && ends->faults >= 0) errno = posix_spawn_file_actions_adddup2(&files, ends->faults, STDERR_FILENO);
    if (errno != 0) return false;               /* and without them it would read what this program reads */
    posix_spawnattr_setsigmask(&attributes, &none);
    posix_spawnattr_setsigdefault(&attributes, &usual);
    posix_spawnattr_setflags(&attributes, POSIX_SPAWN_SETSIGMASK | POSIX_SPAWN_SETSIGDEF);
    errno = posix_spawn(process, arguments[0], &files, &attributes, arguments, environ);
    posix_spawn_file_actions_destroy(&files);
    posix_spawnattr_destroy(&attributes);
    return errno == 0;
}

/* Makes room for a part, and the end of the text after it. */
static void make_room(struct printed *printed) {
    if (printed->room - printed->size > PART) return;
    printed->room += 2 * PART + printed->room / 2;
    printed->text = needed(realloc(printed->text, printed->room), "what the program ptpm prints");
}

bool read_printed(int from, struct printed *printed) {
    struct pollfd waits = { from, POLLIN, 0 };
    while (!stopped && wait_for(&waits, 1, TURN) <= 0) continue;
    if (stopped) return false;
    make_room(printed);
    ssize_t size = read(from, printed->text + printed->size, PART);
    if (size > 0) printed->size += (size_t)size;
    printed->text[printed->size] = '\0';
    return size > 0;
}

static int status_of(pid_t process) {
    int status;
    wait_for(NULL, 0, 0);                   /* a signal of the terminal asks both programs to end */
    if (stopped) kill(process, SIGTERM);
    while (waitpid(process, &status, 0) < 0) {
        if (errno != EINTR) return FAULT;
    }
    if (WIFEXITED(status)) return WEXITSTATUS(status);
    if (!stopped) complain("a program that this run started was ended by signal %d", WTERMSIG(status));
    return FAULT;
}

/* Closes an end, if it is open. */
static void close_end(int *end) {
    if (*end >= 0) close(*end);
    *end = -1;
}

/* Opens what the program is started with, and a pipe from which its output is read; whether there is room for all. */
static bool open_ends(struct ends *ends, int *output, const struct given *given) {
    int both[2];
    ends->from = file_of(given->lines);
    ends->faults = file_of(&(struct piece){ 0 });
    if (given->beside != NULL) ends->beside = file_of(given->beside);
    if (ends->from < 0 || ends->faults < 0 || (given->beside != NULL && ends->beside < 0) || pipe2(both, O_CLOEXEC)) return false;
    *output = both[0];
    ends->to = both[1];
    return true;
}

/* Waits for it, also while it works for long, until a signal asks this program to end. */
static int status_at_end(pid_t process) {
    siginfo_t ended = { 0 };
    while (!stopped && waitid(P_PID, (id_t)process, &ended, WEXITED | WNOHANG | WNOWAIT) == 0 && ended.si_pid == 0) wait_for(NULL, 0, AGAIN);
    return status_of(process);
}

int run_check_program(const char *path) {
    struct ends ends = { open("/dev/null", O_RDONLY | O_CLOEXEC), STDERR_FILENO, -1, -1 };
    char *arguments[] = { (char *)path, NULL };
    pid_t process;
    clear_progress();
    bool has_started = ends.from >= 0 && start_program(&process, arguments, &ends);
    if (!has_started) complain("%s: %s", path, strerror(errno));
    close_end(&ends.from);
    return has_started ? status_at_end(process) : FAULT;
}

static void read_fault(int faults, char fault[MOST_FAULT]) {
    ssize_t size = faults < 0 ? 0 : pread(faults, fault, MOST_FAULT - 1, 0);
    while (size > 0 && fault[size - 1] == '\n') size--;
    fault[size > 0 ? size : 0] = '\0';
}

int run_ptpm_program(char **arguments, const struct given *given, struct printed *printed, char fault[MOST_FAULT]) {
    struct ends ends = { -1, -1, -1, -1 };
    int output = -1, status = FAULT;
    pid_t process;
    *printed = (struct printed){ 0 };
    arguments[0] = ptpm_program;
    bool has_started = open_ends(&ends, &output, given) && start_program(&process, arguments, &ends);
    if (!has_started) complain("%s: %s", ptpm_program, strerror(errno));
    close_end(&ends.from);
    close_end(&ends.to);
    close_end(&ends.beside);
    if (has_started) {
        while (read_printed(output, printed)) continue;
        status = status_of(process);
    }
    read_fault(ends.faults, fault);
    close_end(&ends.faults);
    close_end(&output);
    return status;
}

bool start_ptpm_program(char **arguments, struct running *running) {
    int input[2] = { -1, -1 }, output[2] = { -1, -1 };
    arguments[0] = ptpm_program;
    bool has_started = pipe2(input, O_CLOEXEC) == 0 && pipe2(output, O_CLOEXEC) == 0
                       && start_program(&running->process, arguments, &(struct ends){ input[0], output[1], -1, -1 });
    running->to = input[1];
    running->from = output[0];
    close_end(&input[0]);
    close_end(&output[1]);
    return has_started;
}

int end_ptpm_program(struct running *running) {
    close_end(&running->to);
    close_end(&running->from);
    return status_at_end(running->process);
}
