/* link [-l PERCENT] [-r PERCENT] [-o PERCENT] [-s SEED] NAMESPACE/DEVICE NAMESPACE/DEVICE

   For trials, a link between two network namespaces: a TAP device in each, and what is sent at the one comes in at the other.
   Each way -l loses a percentage of the frames. Of those that pass, -r lets a percentage come in twice. Of a percentage, -o
   holds a copy back, one at a time, until the next frame has passed. SEED and these decide what becomes of the n-th frame of a
   way. At its end the devices go, and it prints how many frames came in, and what became of them. */
#define _GNU_SOURCE
#include <errno.h>
#include <fcntl.h>
#include <linux/if_tun.h>
#include <net/if.h>
#include <poll.h>
#include <sched.h>
#include <signal.h>
#include <stdbool.h>
#include <stdint.h>
#include <stdio.h>
#include <stdlib.h>
#include <string.h>
#include <sys/ioctl.h>
#include <unistd.h>

enum { MOST = 2048 };       /* over what a frame of Ethernet has */

struct frame { size_t size; uint8_t octets[MOST]; };

/* What is known of the frames that come in at one end. The held one goes out after the next that passes; its size is 0 if none
   is held. */
struct way {
    int from, to;
    unsigned short chance[3];
    unsigned long frames, lost, repeated, overtaken;
    struct frame held;
};

static volatile sig_atomic_t stopped;
static long lose, repeat, hold_back;

static void stop(int number) { (void)number; stopped = 1; }

_Noreturn static void give_up(const char *what) { perror(what); exit(1); }

_Noreturn static void usage(void) {
    fputs("link [-l PERCENT] [-r PERCENT] [-o PERCENT] [-s SEED] NAMESPACE/DEVICE NAMESPACE/DEVICE\n", stderr);
    exit(2);
}

static long read_number(const char *text, long most) {
    char *end;
    long number = strtol(text, &end, 10);
    if (end == text || *end != '\0' || number < 0 || number > most) usage();
    return number;
}

/* Makes a TAP device of that name in that namespace, which `ip netns` has made. This program stays in the namespace. */
static int open_end(const char *text) {
    char path[256];
    struct ifreq request = { .ifr_flags = IFF_TAP | IFF_NO_PI };
    const char *slash = strchr(text, '/');
    if (slash == NULL || slash[1] == '\0' || strlen(slash + 1) >= IFNAMSIZ) usage();
    if (snprintf(path, sizeof path, "/var/run/netns/%.*s", (int)(slash - text), text) >= (int)sizeof path) usage();
    strcpy(request.ifr_name, slash + 1);
    int namespace = open(path, O_RDONLY);
    if (namespace < 0 || setns(namespace, CLONE_NEWNET)) give_up(path);
    close(namespace);
    int opened = open("/dev/net/tun", O_RDWR);
    if (opened < 0 || ioctl(opened, TUNSETIFF, &request)) give_up("/dev/net/tun");
    return opened;
}

static bool happens(struct way *way, long percent) { return nrand48(way->chance) % 100 < percent; }

/* A device that is down takes no frame. */
static void send_on(const struct way *way, const struct frame *frame) {
    if (write(way->to, frame->octets, frame->size) < 0 && errno != EIO) give_up("write");
}

static void come_in(struct way *way) {
    static struct frame frame;
    ssize_t size = read(way->from, frame.octets, MOST);
    if (size < 0) give_up("read");
    frame.size = (size_t)size;
    way->frames++;
    if (happens(way, lose)) {
        way->lost++;
        return;
    }
    int copies = 1 + happens(way, repeat);
    if (copies == 2) way->repeated++;
    if (way->held.size == 0 && happens(way, hold_back)) {
        way->held = frame;
        if (copies == 2) send_on(way, &frame);
        return;
    }
    for (; copies > 0; copies--) send_on(way, &frame);
    if (way->held.size > 0) {
        send_on(way, &way->held);
        way->held.size = 0;
        way->overtaken++;
    }
}

static void run(struct way ways[2]) {
    struct pollfd waits[2] = { { ways[0].from, POLLIN, 0 }, { ways[1].from, POLLIN, 0 } };
    while (!stopped) {
        if (poll(waits, 2, 200) <= 0) continue;
        for (int i = 0; i < 2; i++) {
            if (waits[i].revents != 0) come_in(&ways[i]);
        }
    }
}

int main(int argc, char **argv) {
    static struct way ways[2];
    struct sigaction on_end = { .sa_handler = stop };
    long seed = 0;
    for (int option; (option = getopt(argc, argv, "l:r:o:s:")) != -1;) {
        if (option == 'l') lose = read_number(optarg, 100);
        else if (option == 'r') repeat = read_number(optarg, 100);
        else if (option == 'o') hold_back = read_number(optarg, 100);
        else if (option == 's') seed = read_number(optarg, 65535);
        else usage();
    }
    if (argc - optind != 2) usage();
    for (int i = 0; i < 2; i++) {
        ways[i].from = ways[1 - i].to = open_end(argv[optind + i]);
        ways[i].chance[0] = (unsigned short)seed;
        ways[i].chance[1] = (unsigned short)i;
    }
    sigaction(SIGINT, &on_end, NULL);
    sigaction(SIGTERM, &on_end, NULL);
    run(ways);
    for (int i = 0; i < 2; i++) {
        printf("from %s: frames %lu, lost %lu, repeated %lu, overtaken %lu\n", strchr(argv[optind + i], '/') + 1,
               ways[i].frames, ways[i].lost, ways[i].repeated, ways[i].overtaken);
    }
    return 0;
}
