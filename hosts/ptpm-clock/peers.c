#include "peers.h"
#include "counts.h"
#include "monotonic.h"
#include "program.h"
#include "socket_option.h"
#include "unix_socket.h"
#include <errno.h>
#include <limits.h>
#include <linux/sockios.h>
#include <string.h>
#include <sys/ioctl.h>
#include <unistd.h>

enum {
    ROOM = 1 << 20,             /* octets of what nobody has read yet, at one socket */
    SHARE = 32768, A_PORT = 1024,       /* how many of them one peer may add, and how many more for each port of the clock */
    UNCHECKED = 8,              /* messages after which it is checked how much was read */
    PATIENCE = 50, PAUSE = 1    /* milliseconds: how long a peer may read nothing that has answers to come, and when it is tried again */
};

/* A socket to send from, and the peer that has it. */
struct way_back {
    int socket;
    union sender peer;
    socklen_t size;             /* of the peer's address; 0 if nobody has it */
    int left_by_others;         /* octets that peers before did not read */
    int unchecked;
    unsigned long used;
};

/* The answers that one peer had no room for. Linux keeps ten for a program that does not read (net.unix.max_dgram_qlen), and a clock may
   have more ports. Those of a second peer are dropped meanwhile. */
static struct {
    struct ptpm_sent messages[TURN];
    size_t first, count;
    int socket;
    union sender peer;
    socklen_t size;
    int64_t end;
} kept;

static struct way_back ways[WAYS_BACK];
static unsigned long turn;
static int meeting_socket = -1, owner_socket = -1;

/* A socket that has the path for a moment only: then another one has it. */
static int open_named(const struct meeting *meeting) {
    int opened = bind_unix(meeting->path, meeting->mode);
    if (unlink(meeting->path)) give_up(meeting->path);
    if (!set_number(opened, SOL_SOCKET, SO_SNDBUFFORCE, ROOM)) set_number(opened, SOL_SOCKET, SO_SNDBUF, ROOM);
    return opened;
}

static int open_meeting(const struct meeting *meeting) {
    int opened = open_unix_as(meeting->path, meeting->mode);
    if (meeting->group != (gid_t)-1 && lchown(meeting->path, (uid_t)-1, meeting->group)) give_up(meeting->path);
    return opened;
}

int open_peers(const struct meeting *meeting) {
    remove_left_over(meeting->path);
    for (int i = 0; i < WAYS_BACK; i++) ways[i].socket = open_named(meeting);
    return meeting_socket = open_meeting(meeting);
}

int open_owner(const char *path, gid_t group) {
    remove_left_over(path);
    return owner_socket = open_meeting(&(struct meeting){ path, 0600, group });
}

int way_back_socket(size_t place) { return ways[place].socket; }

/* How many octets nobody has read yet of what a socket sent, with what the kernel keeps beside them. */
static int unread(const struct way_back *way) {
    int octets = 0;
    return ioctl(way->socket, SIOCOUTQ, &octets) == 0 ? octets : 0;
}

static bool has(const struct way_back *way, const struct heard *heard) {
    return way->size == heard->sender_size && memcmp(&way->peer, &heard->sender, way->size) == 0;
}

/* The socket that a new peer gets: one that nobody has. Else, of those from which all is read, the one that was used longest
   ago. Else the one from which least is unread. */
static struct way_back *free_way(void) {
    struct way_back *found = &ways[0];
    int least = INT_MAX;
    for (int i = 0; i < WAYS_BACK; i++) {
        int octets = ways[i].size == 0 ? -1 : unread(&ways[i]);
        if (octets < least || (octets == least && ways[i].used < found->used)) {
            least = octets;
            found = &ways[i];
        }
    }
    found->left_by_others = least > 0 ? least : 0;
    return found;
}

static struct way_back *way_to(const struct heard *heard) {
    static struct way_back *latest = ways;
    for (int i = 0; i < WAYS_BACK && !has(latest, heard); i++) latest = &ways[i];
    if (!has(latest, heard)) {
        latest = free_way();
        latest->peer = heard->sender;
        latest->size = heard->sender_size;
        latest->unchecked = 0;
    }
    latest->used = ++turn;
    return latest;
}

/* Whether a peer has read enough to get one more message. */
static bool check_room(struct way_back *way) {
    if (++way->unchecked <= UNCHECKED) return true;
    int octets = unread(way);
    if (octets <= way->left_by_others) way->unchecked = 1;
    return octets < way->left_by_others + SHARE + A_PORT * (int)port_count;
}

static bool is_kept(int from, const struct heard *answered) {
    return kept.count > 0 && kept.socket == from && kept.size == answered->sender_size
           && memcmp(&kept.peer, &answered->sender, kept.size) == 0;
}

/* Keeps an answer after those that are kept for its peer. */
static bool keep(int from, const struct ptpm_sent *message, const struct heard *answered) {
    if (kept.first + kept.count == TURN) return false;
    if (kept.count == 0) {
        kept.first = 0;
        kept.socket = from;
        kept.peer = answered->sender;
        kept.size = answered->sender_size;
        kept.end = milliseconds() + PATIENCE;
    }
    struct ptpm_sent *place = &kept.messages[kept.first + kept.count++];
    place->size = message->size;
    memcpy(place->octets, message->octets, message->size);
    return true;
}

long answer_again(void) {
    while (kept.count > 0) {
        const struct ptpm_sent *message = &kept.messages[kept.first];
        if (sendto(kept.socket, message->octets, message->size, MSG_DONTWAIT, &kept.peer.any, kept.size) >= 0) {
            kept.end = milliseconds() + PATIENCE;
        } else if (errno == EAGAIN && milliseconds() < kept.end) {
            return PAUSE;
        } else {
            counts[DROPPED] += kept.count;
            kept.count = 1;
        }
        kept.first++;
        kept.count--;
    }
    return -1;
}

bool answer_peer(const struct ptpm_sent *message, const struct heard *answered) {
    int from = owner_socket;
    if (answered->sender_size <= sizeof(sa_family_t)) return false;         /* it has no path */
    if (!answered->is_of_owner) {
        struct way_back *way = way_to(answered);
        if (!check_room(way)) return false;
        from = way->socket;
    }
    if (is_kept(from, answered)) return keep(from, message, answered);
    if (sendto(from, message->octets, message->size, MSG_DONTWAIT, &answered->sender.any, answered->sender_size) >= 0) return true;
    return errno == EAGAIN && kept.count == 0 && keep(from, message, answered);
}

void close_peers(void) {
    if (owner_socket >= 0) close(owner_socket);
    if (meeting_socket < 0) return;
    close(meeting_socket);
    for (int i = 0; i < WAYS_BACK; i++) close(ways[i].socket);
}
