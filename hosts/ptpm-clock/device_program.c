#include "device.h"
#include "field_text.h"
#include "message_places.h"
#include "names.h"
#include "options.h"
#include "output.h"
#include "program.h"
#include "words.h"
#include <dirent.h>
#include <errno.h>
#include <fcntl.h>
#include <limits.h>
#include <poll.h>
#include <signal.h>
#include <stdarg.h>
#include <stdio.h>
#include <stdlib.h>
#include <string.h>
#include <sys/prctl.h>
#include <sys/signalfd.h>
#include <sys/socket.h>
#include <sys/stat.h>
#include <sys/wait.h>
#include <time.h>
#include <unistd.h>

enum {
    MOST_WORD_OCTETS = 8192,    /* of all words of a run, with an end of each */
    MOST_WORDS = 64,
    FIRST = 3,                  /* the first descriptor past the standard streams */
    END_WAIT = 1000             /* milliseconds, for a run that is ended */
};

static int beside = -1;         /* what the clock and the process share, on either side */

/* What is in the process. */

static pid_t run_started;

/* Ends all of a run: the program, and what it has started in its group. The program keeps its number until it is waited for. */
static void kill_run(void) {
    kill(-run_started, SIGKILL);
    kill(run_started, SIGKILL);
}

_Noreturn static void end_process(void) {
    if (run_started > 0) {
        kill_run();
        waitpid(run_started, NULL, 0);
    }
    _exit(0);
}

static void close_from(int first) {
    DIR *all = opendir("/proc/self/fd");
    if (all == NULL) give_up("/proc/self/fd");
    for (const struct dirent *one; (one = readdir(all)) != NULL;) {
        int number = (int)decimal(one->d_name, INT_MAX);
        if (number >= first && number != dirfd(all)) close(number);
    }
    closedir(all);
}

static void open_nothing(int stream, int flags) {
    int nothing = open("/dev/null", flags | O_CLOEXEC);
    if (nothing < 0 || dup2(nothing, stream) < 0) give_up("/dev/null");
    if (nothing >= FIRST) close(nothing);
}

/* In the process of a run. It ends with the process that started it. */
_Noreturn static void become_program(char *const *words, pid_t starter) {
    static char search[] = "PATH=/usr/local/sbin:/usr/local/bin:/usr/sbin:/usr/bin:/sbin:/bin";
    static char *const environment[] = { search, NULL };
    sigset_t none;
    sigemptyset(&none);
    setsid();
    prctl(PR_SET_PDEATHSIG, (unsigned long)SIGKILL);
    if (getppid() != starter) _exit(127);
    for (int one = 1; one < NSIG; one++) signal(one, SIG_DFL);      /* also those that were ignored when the clock began */
    sigprocmask(SIG_SETMASK, &none, NULL);
    execve(options->device_program, words, environment);
    dprintf(STDERR_FILENO, "%s: %s: %s\n", program, options->device_program, strerror(errno));
    _exit(127);
}

/* Waits until the program has ended, or its time is up; whether it has ended. Ends all if the clock is gone. */
static bool wait_for_run(int children) {
    struct pollfd polled[] = { { .fd = beside, .events = POLLIN }, { .fd = children, .events = POLLIN } };
    struct signalfd_siginfo ignored;
    struct timespec now, end;
    clock_gettime(CLOCK_MONOTONIC, &end);
    end.tv_sec += options->device_seconds;
    for (;;) {
        siginfo_t found = { 0 };
        if (waitid(P_PID, (id_t)run_started, &found, WEXITED | WNOHANG | WNOWAIT) != 0 || found.si_pid != 0) return true;
        clock_gettime(CLOCK_MONOTONIC, &now);
        long long left = (end.tv_sec - now.tv_sec) * 1000LL + (end.tv_nsec - now.tv_nsec) / 1000000;
        if (left <= 0) return false;
        if (poll(polled, 2, (int)left + 1) < 0) continue;
        if (polled[0].revents != 0) end_process();
        while (read(children, &ignored, sizeof ignored) > 0) continue;
    }
}

static void report_run(enum run_end end, int number) {
    struct run run = { end, number };
    if (send(beside, &run, sizeof run, MSG_NOSIGNAL) != (ssize_t)sizeof run) end_process();
}

static void run_program(char *const *words, int children) {
    pid_t self = getpid();
    int status;
    run_started = fork();
    if (run_started == 0) become_program(words, self);
    if (run_started < 0) {
        report_run(RUN_NOT_STARTED, errno);
        return;
    }
    report_run(RUN_BEGUN, run_started);
    bool is_in_time = wait_for_run(children);
    if (!is_in_time) report_run(RUN_TOOK_TOO_LONG, 0);
    kill_run();
    waitpid(run_started, &status, 0);
    run_started = 0;
    if (!is_in_time) return;
    if (WIFEXITED(status)) report_run(RUN_EXITED, WEXITSTATUS(status));
    else report_run(RUN_KILLED, WTERMSIG(status));
}

/* Runs what the clock asks, until the clock ends it or is gone. */
_Noreturn static void run_programs(int children) {
    static char octets[MOST_WORD_OCTETS + 1];
    char *words[MOST_WORDS + 1];
    for (;;) {
        ssize_t size = recv(beside, octets, MOST_WORD_OCTETS, 0);
        size_t count = 0;
        if (size < 0 && errno == EINTR) continue;
        if (size <= 0) end_process();
        octets[size] = '\0';
        for (char *word = octets; word < octets + size && count < MOST_WORDS; word += strlen(word) + 1) words[count++] = word;
        words[count] = NULL;
        run_program(words, children);
    }
}

/* What ends the clock does not end the process: it ends the run first. */
_Noreturn static void begin_process(int shared) {
    static const int ends[] = { SIGHUP, SIGINT, SIGTERM, SIGPIPE };
    sigset_t held;
    sigemptyset(&held);
    sigaddset(&held, SIGCHLD);
    setsid();
    for (size_t i = 0; i < sizeof ends / sizeof *ends; i++) signal(ends[i], SIG_IGN);
    signal(SIGCHLD, SIG_DFL);
    sigprocmask(SIG_SETMASK, &held, NULL);
    open_nothing(STDIN_FILENO, O_RDONLY);
    open_nothing(STDOUT_FILENO, O_WRONLY);
    beside = shared == FIRST ? FIRST : dup2(shared, FIRST);
    close_from(FIRST + 1);
    int children = signalfd(-1, &held, SFD_NONBLOCK | SFD_CLOEXEC);
    if (beside < 0 || fcntl(beside, F_SETFD, FD_CLOEXEC) || children < 0) give_up("the process that runs programs");
    let_go_of_rights(&options->privileges, NEEDS_NOTHING);
    run_programs(children);
}

/* What is in the clock. */

void open_device_program(void) {
    int shared[2];
    if (socketpair(AF_UNIX, SOCK_SEQPACKET | SOCK_CLOEXEC, 0, shared)) give_up("socketpair");
    pid_t process = fork();
    if (process < 0) give_up("fork");
    if (process == 0) begin_process(shared[1]);
    close(shared[1]);
    beside = shared[0];
}

void check_device_program(void) {
    struct stat found;
    if (beside < 0) return;
    errno = EACCES;
    if (stat(options->device_program, &found) == 0 && S_ISREG(found.st_mode) && access(options->device_program, X_OK) == 0) return;
    give_up(options->device_program);
}

int device_program_event(void) { return beside; }

/* Puts a word after those that are there, with its end; the place of the next one. */
__attribute__((format(printf, 3, 4))) static size_t put_word(char *words, size_t size, const char *format, ...) {
    va_list values;
    va_start(values, format);
    int more = vsnprintf(words + size, MOST_WORD_OCTETS - size, format, values);
    va_end(values);
    return size + (size_t)more + 1;
}

static size_t put_octets(char *words, size_t size, const struct ptpm_question *asked) {
    char text[2 * sizeof asked->octets + 1] = "-";
    for (size_t i = 0; i < asked->size; i++) snprintf(text + 2 * i, 3, "%02x", asked->octets[i]);
    return put_word(words, size, "%s", text);
}

/* The members of a dataField, a word for each name and for each value. */
static size_t put_members(char *words, size_t size, const struct ptpm_question *asked) {
    static struct field_lines lines;
    struct member member;
    if (asked->size == 0) return size;
    start_lines(&lines, asked->id, asked->octets, asked->size);
    while (next_member(&lines, &member)) size = put_word(words, put_word(words, size, "%s", member.name), "%s", member.value);
    return size;
}

bool start_run(const struct ptpm_question *asked, bool is_look) {
    char words[MOST_WORD_OCTETS];
    const char *name = read_id_name(asked->id);
    if (beside < 0) return false;
    size_t size = put_word(words, 0, "%s", options->device_program);
    if (is_look) size = put_word(words, size, "look");
    size = put_word(words, size, "%s/%u", identity_text(asked->manager), asked->manager_port);
    size = put_word(words, size, "%u", asked->number);
    size = put_word(words, size, "%s", asked->action == PTPM_SET ? "set" : "command");
    size = put_word(words, size, "%04x", asked->id);
    size = put_word(words, size, "%s", name == NULL ? "-" : name);
    size = asked->port == EVERY_PORT ? put_word(words, size, "all") : put_word(words, size, "%u", asked->port);
    size = put_members(words, put_octets(words, size, asked), asked);
    return send(beside, words, size, MSG_DONTWAIT | MSG_NOSIGNAL) >= 0;
}

bool end_run(struct run *run) {
    static pid_t under_way;                 /* the run, whose processes are one group */
    ssize_t size = recv(beside, run, sizeof *run, MSG_DONTWAIT);
    if (size == (ssize_t)sizeof *run) {
        under_way = run->end == RUN_BEGUN ? run->number : 0;
        return under_way == 0;
    }
    if (size < 0 && (errno == EAGAIN || errno == EINTR)) return false;
    if (under_way > 0) kill(-under_way, SIGKILL);       /* the kernel ends the program itself, but nothing that it has started */
    say("--ask %s: the process that runs it is gone", options->device_program);
    end_output();
    exit(2);
}

void close_device_program(void) {
    struct pollfd polled = { .fd = beside, .events = POLLIN };
    struct run run;
    if (beside < 0) return;
    send(beside, "", 0, MSG_DONTWAIT | MSG_NOSIGNAL);
    while (poll(&polled, 1, END_WAIT) > 0 && recv(beside, &run, sizeof run, MSG_DONTWAIT) > 0) continue;
    close(beside);
    beside = -1;
}
