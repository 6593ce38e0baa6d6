#include "rounds.h"
#include "general_port.h"
#include "output.h"
#include "program.h"
#include <arpa/inet.h>
#include <errno.h>
#include <linux/udp.h>
#include <stdio.h>
#include <string.h>

enum { PLACES = ROUND + TURN, LEAST_JOINED = 8, MOST_JOINED = 64, MOST_OCTETS = 60000 };

/* What the kernel reports of, or gets for, a datagram's addresses. */
struct control { _Alignas(struct cmsghdr) char octets[CMSG_SPACE(sizeof(struct in6_pktinfo)) + CMSG_SPACE(sizeof(int))]; };

/* A message that is to go out. */
struct outgoing { const struct ptpm_sent *message; const struct heard *answered; };

/* Messages in their places, and those of them that are to go out at the ports. */
static struct {
    struct ptpm_sent sent[PLACES];
    struct outgoing waiting[PLACES];
    size_t used, waiting_count;
} box;

/* Finds the message of a frame; whether there is one. */
static bool take_frame(struct heard *heard, const struct port *port) {
    size_t place = message_in(heard->octets, heard->size, port->station);
    if (place == 0) return false;
    heard->station = station_of(heard->octets);
    heard->is_unicast = is_to_station(heard->octets, port->station);
    heard->octets += place;
    heard->size -= place;
    heard->whole -= place;
    return true;
}

/* What the kernel reports of a datagram. */
static void take_head(struct heard *heard, const struct port *port, struct mmsghdr *message) {
    heard->whole = message->msg_len;
    heard->size = heard->whole < MOST_HEARD ? heard->whole : MOST_HEARD;
    heard->sender_size = message->msg_hdr.msg_namelen;
    if (heard->sender_size > sizeof heard->sender.peer) heard->sender_size = sizeof heard->sender.peer;     /* a path has no end */
    if (heard->sender_size == 0) heard->sender.any.sa_family = AF_UNSPEC;       /* it has no address, and that of another is there */
    heard->station = NULL;
    heard->port = port;
    heard->is_of_owner = heard->is_of_earlier_run = false;
    heard->is_unicast = port == NULL;
    heard->is_passed_on = false;
    heard->own.ttl = 0;
    heard->share = NO_SHARE_ASKED;
}

static bool take_heard(struct heard *heard, const struct port *port, struct mmsghdr *message) {
    take_head(heard, port, message);
    return port == NULL || transport != ETHERNET || take_frame(heard, port);
}

/* A socket of IPv6 that hears IPv4 reports the sender's address inside one of IPv6. */
static void take_inner_address(struct heard *heard) {
    const struct sockaddr_in6 six = heard->sender.six;
    if (heard->sender.any.sa_family != AF_INET6 || !IN6_IS_ADDR_V4MAPPED(&six.sin6_addr)) return;
    heard->sender.four = (struct sockaddr_in){ .sin_family = AF_INET, .sin_port = six.sin6_port };
    memcpy(&heard->sender.four.sin_addr, six.sin6_addr.s6_addr + 12, sizeof heard->sender.four.sin_addr);
    heard->sender_size = sizeof heard->sender.four;
}

/* UDP port 320 itself, from which nothing is read while copies are heard: anyone who asks gets no ICMP message that nobody is there. Then
   the sockets that hear copies, and the packets with these. */
static int general = -1, copies = -1, packets = -1;

static bool take_copy(struct heard *heard) {
    heard->is_passed_on = !is_of_neighbour(packets, heard->port->index, &heard->sender.any, heard->octets, heard->size);
    size_t size = heard->size, place = message_in_copy(heard->octets, &size, &heard->sender.any);
    if (place == 0) return false;
    heard->octets += place;
    heard->size = heard->whole = size;
    return true;
}

/* What came in by no unicast may have gone to another group. */
static bool is_to_group(const struct heard *heard) {
    union sender place;
    group(&place.room, transport == UDP_IPV6);
    return transport == UDP_IPV6 ? IN6_ARE_ADDR_EQUAL(&heard->own.six.ipi6_addr, &place.six.sin6_addr)
                                 : heard->own.four.ipi_addr.s_addr == place.four.sin_addr.s_addr;
}

static bool take_of_host(struct heard *heard, const struct port *none, struct mmsghdr *message) {
    take_head(heard, none, message);
    heard->own = reported_in(&message->msg_hdr);
    heard->is_unicast = transport == UDP_IPV6 ? !IN6_IS_ADDR_MULTICAST(&heard->own.six.ipi6_addr)
                                              : heard->own.four.ipi_addr.s_addr == heard->own.four.ipi_spec_dst.s_addr;
    take_inner_address(heard);
    if (heard->sender.any.sa_family != (transport == UDP_IPV6 ? AF_INET6 : AF_INET)) return false;
    heard->port = port_at(transport == UDP_IPV6 ? heard->own.six.ipi6_ifindex : (unsigned)heard->own.four.ipi_ifindex);
    return heard->port != NULL && (diverted_port == 0 || heard->is_unicast || is_to_group(heard));
}

static bool take_copied(struct heard *heard, const struct port *none, struct mmsghdr *message) {
    return take_of_host(heard, none, message) && take_copy(heard);
}

/* What one call of the kernel takes from a socket. */
struct round {
    uint8_t octets[ROUND][MOST_HEARD];
    struct control controls[ROUND];
    struct mmsghdr messages[ROUND];
    struct iovec parts[ROUND];
};

static size_t receive_round(struct round *round, int socket, size_t most, struct heard heard[ROUND]) {
    static int used_before = ROUND;
    for (int i = 0; i < used_before; i++) {
        round->parts[i] = (struct iovec){ round->octets[i], MOST_HEARD };
        round->messages[i].msg_hdr = (struct msghdr){
            .msg_name = &heard[i].sender, .msg_namelen = sizeof heard[i].sender, .msg_iov = &round->parts[i], .msg_iovlen = 1,
            .msg_control = &round->controls[i], .msg_controllen = sizeof round->controls[i],
        };
    }
    int found = recvmmsg(socket, round->messages, (unsigned)most, MSG_DONTWAIT | MSG_TRUNC, NULL);
    used_before = found > 0 ? found : 0;
    for (int i = 0; i < used_before; i++) heard[i].octets = round->octets[i];
    return (size_t)used_before;
}

/* Takes what the kernel reports of a datagram; whether that is one for the clock. */
typedef bool taker(struct heard *heard, const struct port *port, struct mmsghdr *message);

static size_t hear(taker *take, const struct port *port, int socket, size_t most, struct heard heard[ROUND]) {
    static struct round received;
    size_t count = 0, found = receive_round(&received, socket, most, heard);
    for (size_t i = 0; i < found; i++) {
        if (!take(&heard[i], port, &received.messages[i])) continue;
        if (count != i) heard[count] = heard[i];
        count++;
    }
    return count;
}

size_t hear_round(const struct port *port, int socket, size_t most, struct heard heard[ROUND]) {
    return hear(take_heard, port, socket, most, heard);
}

size_t hear_unicast(struct heard heard[ROUND]) {
    return hear(copies >= 0 ? take_copied : take_of_host, NULL, unicast_socket(), ROUND, heard);
}

struct ptpm_sent *places_to_send(void) { return PLACES - box.used >= TURN ? box.sent + box.used : NULL; }

void send_later(const struct ptpm_sent *message, const struct heard *answered) {
    box.waiting[box.waiting_count++] = (struct outgoing){ message, answered };
}

void use_places(size_t count) { box.used += count; }

static void put_control(struct cmsghdr *at, int level, int type, const void *value, size_t size) {
    at->cmsg_len = CMSG_LEN(size);
    at->cmsg_level = level;
    at->cmsg_type = type;
    memcpy(CMSG_DATA(at), value, size);
}

/* The answer to a unicast request goes to the port that the request came from (annexes C and D). */
static void answer_port(in_port_t *port) {
    if (*port == 0) *port = htons(GENERAL_PORT);        /* it named none */
}

/* The address that a datagram goes to, and, if it answers one that came only to this host, the address that it comes from. */
static void address_datagram(struct msghdr *head, const struct heard *answered, union sender *to, struct control *control) {
    head->msg_name = to;
    if (answered == NULL) {
        head->msg_namelen = group(&to->room, transport == UDP_IPV6);
        return;
    }
    *to = answered->sender;
    head->msg_namelen = answered->sender_size;
    head->msg_control = control;
    head->msg_controllen = transport == UDP_IPV6 ? CMSG_SPACE(sizeof(struct in6_pktinfo)) : CMSG_SPACE(sizeof(struct in_pktinfo));
    struct cmsghdr *own = CMSG_FIRSTHDR(head);
    if (transport == UDP_IPV6) {
        answer_port(&to->six.sin6_port);
        put_control(own, IPPROTO_IPV6, IPV6_PKTINFO, &answered->own.six, sizeof answered->own.six);
    } else {
        struct in_pktinfo from = { .ipi_spec_dst = answered->own.four.ipi_addr };
        answer_port(&to->four.sin_port);
        put_control(own, IPPROTO_IP, IP_PKTINFO, &from, sizeof from);
    }
}

/* What goes out at one port: messages for sendmmsg, each of one datagram or of several of one size that the kernel takes apart. */
struct batch {
    struct mmsghdr messages[PLACES];
    unsigned sizes[PLACES];                 /* how many datagrams a message has */
    struct iovec parts[PLACES * FRAME_PARTS];
    union sender to[PLACES];
    struct control controls[PLACES];
    uint8_t heads[PLACES][ETHERNET_HEAD];
    size_t count, part_count;
};

/* The kernel may not take datagrams together, for example if an interface can't send them so. */
static bool is_joining = true;

static void add_frame(struct batch *batch, const struct port *port, const struct outgoing *out) {
    struct iovec *parts = &batch->parts[batch->part_count];
    uint8_t *head = batch->heads[batch->count];
    write_head(head, out->answered == NULL ? NULL : out->answered->station, port->station);
    join_frame(parts, head, out->message->octets, out->message->size);
    batch->messages[batch->count].msg_hdr = (struct msghdr){ .msg_iov = parts, .msg_iovlen = FRAME_PARTS };
    batch->sizes[batch->count++] = 1;
    batch->part_count += FRAME_PARTS;
}

static void add_datagram(struct batch *batch, const struct outgoing *out) {
    struct iovec *part = &batch->parts[batch->part_count++];
    struct msghdr *head = &batch->messages[batch->count].msg_hdr;
    *part = (struct iovec){ (void *)out->message->octets, out->message->size };
    *head = (struct msghdr){ .msg_iov = part, .msg_iovlen = 1 };
    address_datagram(head, out->answered, &batch->to[batch->count], &batch->controls[batch->count]);
    batch->sizes[batch->count++] = 1;
}

/* Whether a datagram may go out together with the one before it: both go to the group, and have one size. */
static bool goes_with(const struct outgoing *one, const struct outgoing *other) {
    return one->answered == NULL && other->answered == NULL && one->message->size == other->message->size;
}

/* This many datagrams of one size to the group as one message, whose parts the kernel sends one by one (UDP_SEGMENT). */
static void add_joined(struct batch *batch, const struct outgoing *const *outs, unsigned count) {
    struct control *control = &batch->controls[batch->count];
    uint16_t size = outs[0]->message->size;
    add_datagram(batch, outs[0]);
    struct msghdr *head = &batch->messages[batch->count - 1].msg_hdr;
    for (unsigned i = 1; i < count; i++) {
        batch->parts[batch->part_count++] = (struct iovec){ (void *)outs[i]->message->octets, size };
    }
    head->msg_iovlen = count;
    head->msg_control = control;
    head->msg_controllen = CMSG_SPACE(sizeof size);
    put_control(CMSG_FIRSTHDR(head), IPPROTO_UDP, UDP_SEGMENT, &size, sizeof size);
    batch->sizes[batch->count - 1] = count;
}

/* The messages of a port, in the order in which they were made. */
static void fill_batch(struct batch *batch, const struct port *port, const struct outgoing *const *outs, size_t count) {
    batch->count = batch->part_count = 0;
    for (size_t i = 0; i < count;) {
        unsigned run = 1, most = MOST_OCTETS / (outs[i]->message->size + 1u) + 1u;
        if (most > MOST_JOINED) most = MOST_JOINED;
        while (run < most && i + run < count && goes_with(outs[i], outs[i + run])) run++;
        if (transport == ETHERNET) add_frame(batch, port, outs[i]);
        else if (run >= LEAST_JOINED && is_joining) add_joined(batch, &outs[i], run);
        else add_datagram(batch, outs[i]);
        i += batch->sizes[batch->count - 1];
    }
}

/* One that the kernel does not take apart goes out in its parts; how many were not taken. */
static unsigned long send_apart(int socket, const struct msghdr *head) {
    unsigned long lost = 0;
    is_joining = false;
    for (size_t i = 0; i < head->msg_iovlen; i++) {
        const struct iovec *part = &head->msg_iov[i];
        lost += sendto(socket, part->iov_base, part->iov_len, MSG_DONTWAIT, head->msg_name, head->msg_namelen) < 0;
    }
    return lost;
}

/* Sends all; how many datagrams were not taken. */
static unsigned long send_batch(int socket, struct batch *batch) {
    unsigned long lost = 0;
    for (size_t done = 0; done < batch->count;) {
        int taken = sendmmsg(socket, batch->messages + done, (unsigned)(batch->count - done), MSG_DONTWAIT);
        if (taken > 0) {
            done += (size_t)taken;
            continue;
        }
        bool is_refused = batch->sizes[done] > 1 && (errno == EINVAL || errno == EIO || errno == EOPNOTSUPP);
        lost += is_refused ? send_apart(socket, &batch->messages[done].msg_hdr) : batch->sizes[done];
        done++;
    }
    return lost;
}

static unsigned long send_at(size_t place) {
    static struct batch batch;
    const struct outgoing *outs[PLACES];
    size_t count = 0;
    for (size_t i = 0; i < box.waiting_count; i++) {
        if (box.waiting[i].message->port == place + 1) outs[count++] = &box.waiting[i];
    }
    if (ports[place].socket < 0) return count;
    fill_batch(&batch, &ports[place], outs, count);
    return send_batch(ports[place].socket, &batch);
}

unsigned long send_round(void) {
    unsigned long lost = 0;
    for (size_t place = 0; place < port_count && box.waiting_count > 0; place++) lost += send_at(place);
    box.used = box.waiting_count = 0;
    return lost;
}

static bool is_of_another[PORTS];       /* what was said last of each port */

static bool is_six(void) { return transport == UDP_IPV6; }

static enum general_port owner_at(const struct port *port) { return who_has_general_port(general, port->index, is_six()); }

/* Whether there is an interface at which no other program has the port. */
static bool is_free_somewhere(void) {
    for (size_t i = 0; i < port_count; i++) {
        if (ports[i].socket >= 0 && owner_at(&ports[i]) == NOBODY_HAS_IT) return true;
    }
    return false;
}

static void tell_owner(size_t place) {
    const char *name = ports[place].name;
    if (ports[place].socket < 0) return;
    enum general_port owner = owner_at(&ports[place]);
    if (owner == (is_of_another[place] ? ANOTHER_HAS_IT : WE_HAVE_IT) || owner == NOBODY_HAS_IT) return;
    is_of_another[place] = owner == ANOTHER_HAS_IT;
    if (owner == WE_HAVE_IT) say("%s: unicast to this host is heard", name);
    else say("%s: another program has UDP port 320, and gets the unicast to this host: only the group is heard", name);
}

void renew_unicast(void) {
    if (port_count == 0 || transport == ETHERNET || diverted_port != 0) return;
    if (general < 0 && is_free_somewhere()) general = open_general_port(is_six(), copies < 0);
    for (size_t i = 0; i < port_count && copies < 0; i++) tell_owner(i);
}

static void open_diverted_port(void) {
    char what[40];
    general = open_diverted(is_six(), diverted_port);
    snprintf(what, sizeof what, "UDP port %u", diverted_port);
    if (general < 0 && errno == EADDRINUSE) {
        end_program(what, "another program has it, perhaps a second agent: --diverted names another port, and rules for it");
    }
    if (general < 0) give_up(what);
}

void open_unicast(void) {
    if (diverted_port != 0) {
        open_diverted_port();
        return;
    }
    if (port_count > 0 && transport != ETHERNET) copies = open_copies(is_six());
    if (copies >= 0) packets = open_packets(is_six());
    renew_unicast();
}

int unicast_socket(void) { return copies >= 0 ? copies : general; }

void close_unicast(void) {
    close_quietly(general);
    close_quietly(copies);
    close_quietly(packets);
}
