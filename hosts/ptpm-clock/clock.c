/* ptpm-clock: a clock. Its management messages come in by UDP or Ethernet (IEEE 1588-2019, annexes C, D and E) at its
   interfaces, ports 1, 2 and so on. They also come in on a Unix socket, which counts as port 1. There it is asked as
   pmc asks a ptp4l. How it is used is in docs/ptpm-clock.md. It has no servo: what one would observe comes from a file or a pipe.
   The library decides what becomes of a request that it is handed. What is here and in the files beside it is not proved. It
   moves octets and prints. It also decides which datagrams reach the library, with how many hops, and which messages go out
   ("Decisions of the hosts" in docs/architecture.md). It waits for nobody: what a peer doesn't take in a moment is dropped, and a thread
   waits for the disk. */
#include "agent.h"
#include "counts.h"
#include "device.h"
#include "monotonic.h"
#include "netlink.h"
#include "network_limits.h"
#include "options.h"
#include "output.h"
#include "peers.h"
#include "ports.h"
#include "privileges.h"
#include "program.h"
#include "ptp4l.h"
#include "saving.h"
#include "service.h"
#include "source.h"
#include "udp.h"
#include "values.h"
#include <errno.h>
#include <signal.h>
#include <stdbool.h>
#include <string.h>
#include <sys/epoll.h>
#include <sys/signalfd.h>
#include <sys/timerfd.h>
#include <unistd.h>

enum { SECOND = 1000 };

const char program[] = "ptpm-clock";

static struct source observations;
static int unix_socket = -1, owner_socket = -1, source = -1, signals, links, timer;

/* SIGHUP, SIGINT and SIGTERM ask it to end, and SIGUSR1 for its counts. From now on they end nothing by themselves. One that was ignored
   when the program began stays so, except SIGUSR1; SIGPIPE is ignored. */
static void open_signals(void) {
    static const int ends[] = { SIGHUP, SIGINT, SIGTERM };
    struct sigaction before;
    sigset_t held;
    signal(SIGPIPE, SIG_IGN);
    sigemptyset(&held);
    sigaddset(&held, SIGUSR1);
    for (size_t i = 0; i < sizeof ends / sizeof *ends; i++) {
        if (sigaction(ends[i], NULL, &before) == 0 && before.sa_handler != SIG_IGN) sigaddset(&held, ends[i]);
    }
    sigprocmask(SIG_BLOCK, &held, NULL);
    signals = signalfd(-1, &held, SFD_NONBLOCK | SFD_CLOEXEC);
    if (signals < 0) give_up("signalfd");
}

/* Whether the program goes on. */
static bool take_signal(void) {
    struct signalfd_siginfo found;
    if (read(signals, &found, sizeof found) != (ssize_t)sizeof found) return true;
    if (found.ssi_signo == SIGUSR1) print_counts();
    return found.ssi_signo == SIGUSR1;
}

static int64_t wakes = INT64_MAX;      /* when the timer does, in milliseconds */

/* The program wakes at that time, or earlier, if it was to wake earlier anyway. A time-out for each wait would cost a kernel timer for each
   datagram. */
static void wake_at(int64_t time) {
    struct itimerspec at = { .it_value = { .tv_sec = time / 1000, .tv_nsec = (long)(time % 1000) * 1000000 } };
    if (wakes <= time) return;
    if (timerfd_settime(timer, TFD_TIMER_ABSTIME, &at, NULL)) give_up("timerfd_settime");
    wakes = time;
}

static void take_time(void) {
    uint64_t times;
    if (read(timer, &times, sizeof times) == (ssize_t)sizeof times) wakes = INT64_MAX;
}

static void observe_all(void) {
    source = read_source(&observations);
    for (char *text; next_text(&observations, &text);) observe(text);
}

/* What is polled. The ports come first. */
enum { UNIX_SOCKET = PORTS, OWNER_SOCKET, UNICAST, SOURCE, LIMITS, SIGNALS, LINKS, TIMER, SAVED, RUNS, PTP4L, WAITS };

static int polled = -1;
static unsigned long polled_openings[PORTS];    /* which socket of each port is polled */

static void wait_at(int descriptor, uint32_t what) {
    struct epoll_event event = { .events = EPOLLIN, .data.u32 = what };
    if (descriptor >= 0 && epoll_ctl(polled, EPOLL_CTL_ADD, descriptor, &event) && errno != EEXIST) give_up("epoll_ctl");
}

static void wait_at_all(void) {
    polled = epoll_create1(EPOLL_CLOEXEC);
    if (polled < 0) give_up("epoll_create1");
    wait_at(unix_socket, UNIX_SOCKET);
    wait_at(owner_socket, OWNER_SOCKET);
    wait_at(unicast_socket(), UNICAST);
    wait_at(source, SOURCE);
    wait_at(limits_event(), LIMITS);
    wait_at(signals, SIGNALS);
    wait_at(links, LINKS);
    wait_at(timer, TIMER);
    wait_at(saving_event(), SAVED);
    wait_at(device_program_event(), RUNS);
}

static void change_wait(int descriptor, uint32_t what, bool is_heard) {
    struct epoll_event event = { .events = is_heard ? EPOLLIN : 0, .data.u32 = what };
    if (descriptor >= 0 && epoll_ctl(polled, EPOLL_CTL_MOD, descriptor, &event)) give_up("epoll_ctl");
}

/* Programs of this host wait while there is no room for what they ask, and lose nothing. */
static void wait_at_peers(bool is_heard) {
    static bool was_heard = true;
    if (is_heard == was_heard) return;
    change_wait(unix_socket, UNIX_SOCKET, is_heard);
    change_wait(owner_socket, OWNER_SOCKET, is_heard);
    was_heard = is_heard;
}

/* A socket that is closed is not polled any more. */
static void wait_at_ports(void) {
    for (uint32_t i = 0; i < port_count; i++) {
        if (ports[i].openings == polled_openings[i] || ports[i].socket < 0) continue;
        polled_openings[i] = ports[i].openings;
        wait_at(ports[i].socket, i);
    }
}

/* What has come in there; whether the program goes on. */
static bool take_event(uint32_t what) {
    switch (what) {
    case UNIX_SOCKET: take_round(NULL, unix_socket, false); break;
    case OWNER_SOCKET: take_round(NULL, owner_socket, true); break;
    case UNICAST: take_unicast_round(); break;
    case SOURCE:
        observe_all();
        wait_at(source, SOURCE);
        break;
    case LIMITS: read_limits(); break;
    case SIGNALS: return take_signal();
    case LINKS: hear_of_links(); break;
    case TIMER: take_time(); break;
    case SAVED: take_saved(); break;
    case RUNS: hear_program(); break;
    case PTP4L: take_answers(); break;
    default:
        if (ports[what].socket >= 0) take_round(&ports[what], ports[what].socket, false);
    }
    return true;
}

/* Once a second: what came in at a socket that was at the path for a moment. Then the source and the limits, if they moved, and who
   has UDP port 320. */
static void look_around(int64_t now) {
    static int64_t next;
    if (now < next) return;
    next = now + SECOND;
    for (size_t i = 0; unix_socket >= 0 && i < WAYS_BACK; i++) take_round(NULL, way_back_socket(i), false);
    if (source >= 0 && follow_source(&observations)) observe_all();
    follow_limits();
    renew_unicast();
    wait_at(unicast_socket(), UNICAST);
}

/* Runs until a signal asks for the end, or until that time comes, if it is not 0. */
static void run(int64_t end) {
    struct epoll_event events[WAITS];
    bool is_going_on = true;
    if (source >= 0) observe_all();
    wait_at_all();
    say_started();
    say_deaf_ports();
    report_state("READY=1");
    while (is_going_on) {
        int64_t now = milliseconds();
        if (end != 0 && now >= end) return;
        report_alive(now);
        renew_ports(now);
        wait_at_ports();
        look_around(now);
        int64_t most = end != 0 && end - now < SECOND ? end - now : SECOND, of_ptp4l = watch_ptp4l(now), waiting = take_waiting();
        wait_at(ptp4l_socket(), PTP4L);
        if (of_ptp4l < most) most = of_ptp4l;
        if (waiting >= 0 && waiting < most) most = waiting;
        wait_at_peers(room_for_peers() > 0);
        wake_at(now + until_alive(now, most));
        int found = epoll_wait(polled, events, WAITS, -1);
        for (int i = 0; i < found && is_going_on; i++) is_going_on = take_event(events[i].data.u32);
    }
}

static void open_all(void) {
    open_signals();
    transport = options->transport;
    if (options->ptp4l != NULL && transport != ETHERNET && options->diverted_port != GENERAL_PORT) diverted_port = options->diverted_port;
    links = open_netlink();
    timer = timerfd_create(CLOCK_MONOTONIC, TFD_NONBLOCK | TFD_CLOEXEC);
    if (timer < 0) give_up("timerfd_create");
    for (size_t i = 0; i < options->interface_count; i++) open_port(options->interfaces[i]);
    open_unicast();
    if (options->meeting.path != NULL) unix_socket = open_peers(&options->meeting);
    if (options->owner != NULL) owner_socket = open_owner(options->owner, options->meeting.group);
    open_service();
}

static enum needs needs(void) {
    return port_count == 0 ? NEEDS_NOTHING : transport == ETHERNET ? NEEDS_FRAMES : NEEDS_LOW_PORT;
}

/* What is closed to this program may be open to another user. */
static void say_user(const char *what, const char *why) {
    const struct privileges *privileges = &options->privileges;
    (void)what;
    if (privileges->user_name == NULL || strcmp(why, strerror(EACCES)) != 0) return;
    say("running as user '%s'%s", privileges->user_name, privileges->is_by_default ? " (use --user NAME, or --user root to keep root)"
        : ", without root's rights: files, and the folder of -s, have to be open to that user");
}

static void end_in_order(void) {
    report_state("STOPPING=1");
    close_device_program();
    stop_clock();
    close_ports();
    close_unicast();
    close_peers();
    print_counts();
    end_output();
}

int main(int argc, char **argv) {
    hold_streams();
    read_options(argc, argv);
    if (options->device_program != NULL) open_device_program();
    start_clock();
    open_all();
    report_twin();
    let_go_of_rights(&options->privileges, needs());
    end_otherwise(2, say_user);
    if (options->source != NULL) source = open_source(&observations, options->source, true);
    start_device();
    check_device_program();
    start_limits();
    filter_calls(&options->privileges);
    save_clock();
    start_output();
    run(options->end);
    end_in_order();
    return 0;
}
