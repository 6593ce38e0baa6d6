#include "transport.h"
#include "domains.h"
#include "ethernet.h"
#include "exchange.h"
#include "general_port.h"
#include "message_places.h"
#include "monotonic.h"
#include "netlink.h"
#include "notices.h"
#include "program.h"
#include "socket_option.h"
#include "stopping.h"
#include "udp.h"
#include "unix_socket.h"
#include "words.h"
#include <arpa/inet.h>
#include <errno.h>
#include <ifaddrs.h>
#include <limits.h>
#include <linux/if_packet.h>
#include <net/if.h>
#include <netdb.h>
#include <stdio.h>
#include <stdlib.h>
#include <string.h>
#include <sys/ioctl.h>
#include <sys/un.h>
#include <unistd.h>

/* A socket, and over UDP or Ethernet its interface, with the index of that one, and its address on Ethernet. Over UDP the socket
   hears what comes to the group, and another one, -1 elsewhere, asks, and hears what is answered by unicast. A third one hears event
   messages, as long as they are wanted, and is -1 otherwise. */
struct end {
    int socket, asking, events;
    bool has_sent, has_answer, is_told;         /* the latest message went out there; an answer came; that none came was said */
    int failure;                                /* why the latest message did not go out, or 0 */
    const char *interface;
    unsigned index;
    uint8_t station[STATION];
};

static struct sockaddr_storage clock_address;
static socklen_t clock_size;
static struct end ends[MOST_INTERFACES];
static size_t end_count;
static struct end own_clock = { .socket = -1, .asking = -1, .events = -1 };        /* a Unix socket to ask the one on this host */
static struct sockaddr_un own_clock_address = { .sun_family = AF_UNIX };
/* What hears copies of what comes by unicast to UDP port 320 of this host, and their packets; -1 if the program may hear none. */
static int copies = -1, packets = -1;
/* What the transport is called in a notice. */
static char name[MOST_INTERFACES * (IFNAMSIZ + 2) + sizeof ((struct sockaddr_un *)0)->sun_path];
static bool is_six, is_ethernet, is_any_source;
static bool is_near_alone;      /* of unicast only what no router has passed on is taken (RFC 5082) */
static bool has_link_group;     /* over Ethernet clocks of 802.1AS are heard too */
static bool is_to_one;          /* messages go to one address, and not to a group */
static bool has_several_ways;   /* several interfaces were named, or one and a Unix socket */

enum { ROOM_FOR_MANY = 4 << 20, SOCKETS_OF_END = 3, MOST_WAITS = SOCKETS_OF_END * MOST_INTERFACES + 2 };

const char *transport_name(void) { return name; }

/* An address of IPv4 or IPv6, at the port of general messages. */
static void read_address(const char *text) {
    static const struct addrinfo wanted = { .ai_flags = AI_NUMERICHOST | AI_NUMERICSERV, .ai_socktype = SOCK_DGRAM };
    struct addrinfo *found;
    if (getaddrinfo(text, "320", &wanted, &found) != 0) refuse("--udp %s: not an address of IPv4 or IPv6", text);
    is_six = found->ai_family == AF_INET6;
    memcpy(&clock_address, found->ai_addr, found->ai_addrlen);
    clock_size = found->ai_addrlen;
    freeaddrinfo(found);
}

/* An address of IPv6 that each link may have, without the link that is meant. */
static bool lacks_link(void) {
    const struct sockaddr_in6 *six = (const struct sockaddr_in6 *)&clock_address;
    bool is_of_link = IN6_IS_ADDR_LINKLOCAL(&six->sin6_addr) || IN6_IS_ADDR_MC_LINKLOCAL(&six->sin6_addr);
    return is_six && is_of_link && six->sin6_scope_id == 0;
}

/* Interfaces with one MAC have the same address of IPv6 for their links: then the scope says which one it is. */
static bool is_same(const struct sockaddr *one, const struct sockaddr_storage *other) {
    if (one == NULL || one->sa_family != other->ss_family) return false;
    if (one->sa_family == AF_INET) {
        return memcmp(&((const struct sockaddr_in *)one)->sin_addr, &((const struct sockaddr_in *)other)->sin_addr, 4) == 0;
    }
    const struct sockaddr_in6 *six = (const struct sockaddr_in6 *)one, *own = (const struct sockaddr_in6 *)other;
    return memcmp(&six->sin6_addr, &own->sin6_addr, 16) == 0
           && (own->sin6_scope_id == 0 || six->sin6_scope_id == own->sin6_scope_id);
}

/* The interface over which this host sends to the clock's address. */
static const char *interface_to(const char *address) {
    static char found[IFNAMSIZ];
    struct sockaddr_storage own;
    socklen_t size = sizeof own;
    struct ifaddrs *all;
    int probe = socket(clock_address.ss_family, SOCK_DGRAM | SOCK_CLOEXEC, 0);
    if (probe < 0 || connect(probe, (const struct sockaddr *)&clock_address, clock_size)
        || getsockname(probe, (struct sockaddr *)&own, &size) || getifaddrs(&all)) {
        refuse("nothing was sent: %s: %s", address, strerror(errno));
    }
    close(probe);
    for (const struct ifaddrs *one = all; one != NULL && *found == '\0'; one = one->ifa_next) {
        if (is_same(one->ifa_addr, &own)) snprintf(found, sizeof found, "%s", one->ifa_name);
    }
    freeifaddrs(all);
    found[strcspn(found, ":")] = '\0';      /* after which an address of IPv4 may have a label */
    if (*found == '\0') refuse("nothing was sent: no interface leads to %s", address);
    return found;
}

/* The identity of the interface: its hardware address with ff and fe in the middle, as an EUI-64; whether it has one. */
static bool write_own_identity(uint8_t identity[8], const char *interface) {
    struct ifreq request = { 0 };
    snprintf(request.ifr_name, sizeof request.ifr_name, "%s", interface);
    int probe = socket(AF_INET, SOCK_DGRAM | SOCK_CLOEXEC, 0);
    bool is_read = probe >= 0 && ioctl(probe, SIOCGIFHWADDR, &request) == 0;
    close_quietly(probe);
    const uint8_t *a = (const uint8_t *)request.ifr_hwaddr.sa_data;
    memcpy(identity, (const uint8_t[]){ a[0], a[1], a[2], 0xff, 0xfe, a[3], a[4], a[5] }, 8);
    return is_read;
}

/* That with its universal/local bit turned, as IPv6 does. A clock of this host, such as a ptp4l, has it as it is, and no manager may have
   the clockIdentity of a clock. */
static void turn_local_bit(uint8_t identity[8]) { identity[0] ^= 0x02; }

bool own_identity(size_t place, uint8_t identity[8]) {
    return place < end_count && ends[place].interface != NULL && write_own_identity(identity, ends[place].interface);
}

bool is_of_this_host(const uint8_t identity[8]) {
    struct if_nameindex *all = if_nameindex();
    bool is_own = false;
    for (const struct if_nameindex *one = all; one != NULL && one->if_index != 0 && !is_own; one++) {
        uint8_t own[8];
        is_own = write_own_identity(own, one->if_name) && memcmp(own, identity, sizeof own) == 0;
    }
    if (all != NULL) if_freenameindex(all);
    return is_own;
}

static bool is_to_group(void) {
    const struct sockaddr_in *four = (const struct sockaddr_in *)&clock_address;
    const struct sockaddr_in6 *six = (const struct sockaddr_in6 *)&clock_address;
    return is_six ? IN6_IS_ADDR_MULTICAST(&six->sin6_addr) : IN_MULTICAST(ntohl(four->sin_addr.s_addr));
}

static void find_udp(const struct task *task) {
    is_six = task->is_six;
    is_to_one = task->address != NULL;
    is_any_source = task->is_any_source;
    is_near_alone = task->is_near_alone;
    if (task->address == NULL) {
        clock_size = group(&clock_address, is_six);
        return;
    }
    read_address(task->address);
    if (is_six && is_to_group()) use_group(&((const struct sockaddr_in6 *)&clock_address)->sin6_addr);
}

static void add_end(const char *interface) {
    uint8_t identity[8];
    if (!write_own_identity(identity, interface)) refuse("nothing was sent: %s: %s", interface, strerror(errno));
    for (size_t i = 0; i < end_count; i++) {
        if (if_nametoindex(ends[i].interface) == if_nametoindex(interface)) refuse("--interface %s: it is named twice", interface);
    }
    ends[end_count++].interface = interface;
}

static void find_at_interfaces(struct task *task) {
    is_ethernet = task->is_ethernet;
    has_link_group = task->site.is_collected;
    if (!is_ethernet) find_udp(task);
    if (task->interface_count == 0 && lacks_link()) {
        refuse("--udp %s: every link may have it: add --interface NAME, or write %s%%NAME", task->address, task->address);
    }
    if (task->interface_count == 0) add_end(interface_to(task->address));
    for (int i = 0; i < task->interface_count; i++) add_end(task->interfaces[i]);
    snprintf(name, sizeof name, "%s", task->address != NULL ? task->address : ends[0].interface);
    for (size_t i = 1, size; i < end_count; i++) {
        size = strlen(name);
        snprintf(name + size, sizeof name - size, ", %s", ends[i].interface);
    }
    if (task->has_manager) return;
    if (!write_own_identity(task->settings.clock, ends[0].interface)) give_up(ends[0].interface);
    turn_local_bit(task->settings.clock);
}

static void find_unix(const struct task *task) {
    struct sockaddr_un path = { .sun_family = AF_UNIX };
    if (strlen(task->path) >= sizeof path.sun_path) refuse("--unix %s: the path is too long", task->path);
    strcpy(path.sun_path, task->path);
    memcpy(&clock_address, &path, sizeof path);
    clock_size = sizeof path;
    end_count = 1;
    snprintf(name, sizeof name, "%s", task->path);
}

void find_transport(struct task *task) {
    if (task->path != NULL) find_unix(task);
    else find_at_interfaces(task);
    bool is_nobodys = !task->is_kept && (task->action == PTPM_GET || !task->has_manager);
    if (is_nobodys) task->settings.port = port_of_nobody(task->action);
}

static bool open_second_part(struct end *end, const char **what) {
    if (is_ethernet) {
        *what = "the group 01-80-C2-00-00-0E";
        return !has_link_group || join_link_group(end->socket, end->interface);
    }
    end->asking = open_udp(end->interface, is_six, ASKS, what);
    return end->asking >= 0;
}

/* Whether it can be opened; otherwise errno says why not, and `what` of what. */
static bool open_end(struct end *end, const char **what) {
    end->index = if_nametoindex(end->interface);
    end->asking = end->events = -1;
    end->socket = is_ethernet ? open_ethernet(end->interface, end->station, what) : open_udp(end->interface, is_six, HEARS_GROUP, what);
    if (end->socket < 0 || open_second_part(end, what)) return end->socket >= 0;
    close_quietly(end->socket);
    return false;
}

static sa_family_t family(void) { return is_six ? AF_INET6 : AF_INET; }

/* The bridge or the bond to which an interface hands what comes in there; whether there is one. */
static bool find_bridge(char bridge[IFNAMSIZ], const char *interface) {
    static const char *const marks[] = { "brport", "bonding_slave" };
    char path[IFNAMSIZ + 64], found[PATH_MAX];
    bool is_part = false;
    for (size_t i = 0; i < sizeof marks / sizeof *marks; i++) {
        snprintf(path, sizeof path, "/sys/class/net/%s/%s", interface, marks[i]);
        is_part |= access(path, F_OK) == 0;
    }
    snprintf(path, sizeof path, "/sys/class/net/%s/master", interface);
    ssize_t size = is_part ? readlink(path, found, sizeof found - 1) : -1;
    if (size < 0) return false;
    found[size] = '\0';
    snprintf(bridge, IFNAMSIZ, "%s", basename(found));
    return true;
}

static void tell_bridge(const char *interface) {
    char bridge[IFNAMSIZ];
    if (!find_bridge(bridge, interface)) return;
    complain("%s is a part of %s, which takes what comes in there: --interface %s asks there", interface, bridge, bridge);
}

static bool is_running(int socket, const char *interface) {
    struct ifreq request = { 0 };
    snprintf(request.ifr_name, sizeof request.ifr_name, "%s", interface);
    return ioctl(socket, SIOCGIFFLAGS, &request) || request.ifr_flags & IFF_RUNNING;
}

void tell_unfit_interfaces(void) {
    forget_networks();
    for (size_t i = 0; i < end_count; i++) {
        const char *interface = ends[i].interface;
        if (interface != NULL) tell_bridge(interface);
        if (interface != NULL && !is_running(ends[i].socket, interface)) complain("%s has no carrier: nothing comes in there", interface);
        if (interface == NULL || is_ethernet) continue;
        unsigned index = index_of(ends[i].socket, interface);
        if (index == 0) complain("%s is gone", interface);
        if (index == 0 || has_address(index, family())) continue;
        complain("%s has no address of IPv%d: a clock may not hear this machine there", interface, is_six ? 6 : 4);
    }
}

void say_not_sent(void) {
    int why = errno;
    complain("nothing was sent: %s: %s", transport_name(), strerror(why));
    if (why == EADDRNOTAVAIL) tell_unfit_interfaces();
}

/* A socket beside the one at a path, from which that one is asked. The clock answers to its path, and may run in another folder. So that
   begins at the root, if there is room. */
static int open_beside(const char *path) {
    enum { MOST = sizeof ((struct sockaddr_un *)0)->sun_path, PROCESS = 12 };
    char own_path[MOST + PROCESS], whole[PATH_MAX];
    bool has_room = path[0] != '/' && realpath(path, whole) != NULL && strlen(whole) + PROCESS <= MOST;
    int size = snprintf(own_path, sizeof own_path, "%s.%ld", has_room ? whole : path, (long)getpid());
    if (size >= MOST) refuse("--unix %s: the path is too long", path);
    return open_unix(own_path);
}

bool is_own_clock_left_out(const char *path) {
    if (own_clock.socket >= 0 || strlen(path) >= sizeof own_clock_address.sun_path) return false;
    strcpy(own_clock_address.sun_path, path);
    int probe = socket(AF_UNIX, SOCK_DGRAM | SOCK_CLOEXEC, 0);
    bool is_there = probe >= 0 && connect(probe, (const struct sockaddr *)&own_clock_address, sizeof own_clock_address) == 0;
    close_quietly(probe);
    return is_there;
}

bool ask_own_clock(const char *path) {
    if (!is_own_clock_left_out(path)) return false;
    own_clock.socket = open_beside(path);
    return true;
}

void open_transport(const struct task *task) {
    const char *what;
    if (task->path != NULL) ends[0] = (struct end){ .socket = open_beside(task->path), .asking = -1, .events = -1 };
    for (size_t i = 0; i < end_count && task->path == NULL; i++) {
        if (!open_end(&ends[i], &what)) refuse("nothing was sent: %s: %s%s", what, strerror(errno), right_needed(is_ethernet));
    }
    if (task->path == NULL && !is_ethernet) copies = open_copies(is_six);
    if (copies >= 0) packets = open_packets(is_six);
    has_several_ways = end_count > 1 || task->own_socket != NULL;
    if (task->own_socket != NULL && !ask_own_clock(task->own_socket)) refuse("nothing was sent: %s: no clock is there", task->own_socket);
}

static void widen(int socket) {
    if (socket < 0) return;
    if (!set_number(socket, SOL_SOCKET, SO_RCVBUFFORCE, ROOM_FOR_MANY)) set_number(socket, SOL_SOCKET, SO_RCVBUF, ROOM_FOR_MANY);
}

void widen_transport(void) {
    for (size_t i = 0; i < end_count; i++) {
        widen(ends[i].socket);
        widen(ends[i].asking);
    }
    widen(copies);
    widen(packets);
}

/* The latest sender of a copy that another neighbour sent. */
static char passed_on[INET6_ADDRSTRLEN];

void tell_deaf_port(void) {
    if (*passed_on != '\0') {
        complain("unicast from %s to UDP port 320 of this host is ignored: another machine sent it, or none has that address",
                 passed_on);
    }
    if (copies >= 0 || is_ethernet || ends[0].interface == NULL) return;
    complain("a clock that answers only to UDP port 320 of this host isn't heard: it takes root, or the capability CAP_NET_RAW");
}

static void close_events(struct end *end) {
    close_quietly(end->events);
    end->events = -1;
}

/* An address of a link has the index of its interface in it. */
static void renew_scope(unsigned before, unsigned now) {
    struct sockaddr_in6 *six = (struct sockaddr_in6 *)&clock_address;
    if (is_six && six->sin6_scope_id == before) six->sin6_scope_id = now;
}

void renew_transport(void) {
    forget_networks();
    for (size_t i = 0; i < end_count; i++) {
        struct end other = ends[i];
        const char *what;
        unsigned index = other.interface == NULL ? 0 : if_nametoindex(other.interface);
        if (index == 0 || index == other.index || !open_end(&other, &what)) continue;
        renew_scope(ends[i].index, other.index);
        close(ends[i].socket);
        close_quietly(ends[i].asking);
        close_events(&ends[i]);
        ends[i] = other;
        complain("%s: the interface was created again", other.interface);
    }
    widen_transport();
}

/* Over Ethernet they come in at the one socket that there is. */
static void open_events(struct end *end) {
    const char *what;
    if (!is_ethernet && end->events < 0) end->events = open_udp(end->interface, is_six, HEARS_EVENTS, &what);
}

void receive_every_type(bool is_every) {
    for (size_t i = 0; i < end_count && ends[i].interface != NULL; i++) {
        if (is_every) open_events(&ends[i]);
        else close_events(&ends[i]);
        if ((is_ethernet ? filter_ethernet : filter_udp)(ends[i].socket, !is_every)) continue;
        complain("%s: the filter of messages: %s", ends[i].interface, strerror(errno));
    }
}

static ssize_t send_frame_to(const uint8_t *group, const struct end *end, const uint8_t *octets, size_t size) {
    uint8_t head[ETHERNET_HEAD];
    struct iovec parts[FRAME_PARTS];
    const struct msghdr frame = { .msg_iov = parts, .msg_iovlen = FRAME_PARTS };
    write_head(head, group, end->station);
    join_frame(parts, head, octets, size);
    return sendmsg(end->socket, &frame, MSG_DONTWAIT);
}

/* A clock of 802.1AS may have joined only the group of its link. */
static ssize_t send_frame(const struct end *end, const uint8_t *octets, size_t size) {
    if (domain_of(octets).sdo == SDO_OF_GPTP) send_frame_to(link_group, end, octets, size);
    return send_frame_to(NULL, end, octets, size);
}

static ssize_t send_datagram(const struct end *end, const uint8_t *octets, size_t size) {
    struct iovec part = { (void *)octets, size };
    const struct msghdr head = { .msg_name = &clock_address, .msg_namelen = clock_size, .msg_iov = &part, .msg_iovlen = 1 };
    return sendmsg(end->asking >= 0 ? end->asking : end->socket, &head, MSG_DONTWAIT);
}

/* A clock of this host may have the identity of the one who asks, and heeds no message of its own. So clock 0 asks it. */
static const uint8_t nobody[8];
static uint8_t asker[8];                /* the clockIdentity in the latest message */

static void send_to_own_clock(const uint8_t *octets, size_t size) {
    static uint8_t message[MOST_DATAGRAM];
    if (size < SOURCE_PORT_AT || size > sizeof message) return;
    memcpy(message, octets, size);
    memcpy(message + SOURCE_AT, nobody, sizeof nobody);
    sendto(own_clock.socket, message, size, MSG_DONTWAIT, (struct sockaddr *)&own_clock_address, sizeof own_clock_address);
}

/* Its answer goes to the one who asks. */
static void address_to_asker(uint8_t *message, size_t size) {
    bool is_to_nobody = size >= STARTING_HOPS_AT && memcmp(message + TARGET_AT, nobody, sizeof nobody) == 0;
    if (is_to_nobody) memcpy(message + TARGET_AT, asker, sizeof asker);
}

enum sending send_message(const uint8_t *octets, size_t size) {
    enum sending sending = NO_TRANSPORT;
    if (size >= SOURCE_PORT_AT) memcpy(asker, octets + SOURCE_AT, sizeof asker);
    for (size_t i = 0; i < end_count; i++) {
        ends[i].has_sent = (is_ethernet ? send_frame(&ends[i], octets, size) : send_datagram(&ends[i], octets, size)) >= 0;
        ends[i].failure = ends[i].has_sent ? 0 : errno;
        if (ends[i].has_sent) sending = OUT;
        else if (sending == NO_TRANSPORT && (errno == EAGAIN || errno == EWOULDBLOCK || errno == ENOBUFS)) sending = NO_ROOM;
    }
    if (own_clock.socket >= 0 && sending == OUT) send_to_own_clock(octets, size);
    return sending;
}

const char *sent_at(size_t place) {
    for (size_t i = 0; i < end_count; i++) {
        if (ends[i].has_sent && ends[i].interface != NULL && place-- == 0) return ends[i].interface;
    }
    return NULL;
}

/* A socket that something has come in at: that of an end, or the one that hears copies, which is of none. */
struct arrival { int socket; const struct end *end; };

/* The one after the one before it in turn; none if nothing has in time. */
static bool next_arrival(struct arrival *arrival, int64_t wait) {
    static size_t latest;
    struct pollfd waits[MOST_WAITS];
    size_t count = SOCKETS_OF_END * end_count + 2;
    for (size_t i = 0; i < end_count; i++) {
        waits[SOCKETS_OF_END * i] = (struct pollfd){ ends[i].socket, POLLIN, 0 };
        waits[SOCKETS_OF_END * i + 1] = (struct pollfd){ ends[i].asking, POLLIN, 0 };
        waits[SOCKETS_OF_END * i + 2] = (struct pollfd){ ends[i].events, POLLIN, 0 };
    }
    waits[count - 2] = (struct pollfd){ own_clock.socket, POLLIN, 0 };
    waits[count - 1] = (struct pollfd){ copies, POLLIN, 0 };
    if (wait_for(waits, count, wait) <= 0) return false;
    do latest = (latest + 1) % count;
    while (waits[latest].revents == 0);
    const struct end *end = latest == count - 1 ? NULL : latest == count - 2 ? &own_clock : &ends[latest / SOCKETS_OF_END];
    *arrival = (struct arrival){ waits[latest].fd, end };
    return true;
}

/* Who sent a datagram, and the index of the interface at which it came in, and its TTL, if the kernel was to report them. */
struct place { struct sockaddr_storage sender; unsigned index; int ttl; };

static ssize_t receive_from(int socket, uint8_t *octets, size_t most, struct place *from) {
    _Alignas(struct cmsghdr) char control[CMSG_SPACE(sizeof(struct in6_pktinfo)) + CMSG_SPACE(sizeof(int))];
    struct iovec part = { octets, most };
    struct msghdr head = {
        .msg_name = &from->sender, .msg_namelen = sizeof from->sender, .msg_iov = &part, .msg_iovlen = 1,
        .msg_control = control, .msg_controllen = sizeof control,
    };
    *from = (struct place){ .index = 0 };
    ssize_t found = recvmsg(socket, &head, MSG_DONTWAIT);
    if (found < 0) return found;
    struct reported reported = reported_in(&head);
    from->index = is_six ? reported.six.ipi6_ifindex : (unsigned)reported.four.ipi_ifindex;
    from->ttl = reported.ttl;
    return found;
}

static const struct end *end_at(unsigned index) {
    for (size_t i = 0; i < end_count; i++) {
        if (ends[i].index == index) return &ends[i];
    }
    return NULL;
}

/* What is not taken is said once of each address, and of as many addresses as this. */
enum { MOST_STRANGERS = 8 };

static void write_address(char address[INET6_ADDRSTRLEN], const struct sockaddr *sender) {
    size_t size;
    *address = '\0';
    inet_ntop(sender->sa_family, address_octets(sender, &size), address, INET6_ADDRSTRLEN);
}

static void tell_stranger(const struct end *end, const struct sockaddr *sender, const char *why) {
    static char told[MOST_STRANGERS][INET6_ADDRSTRLEN];
    static size_t count;
    char address[INET6_ADDRSTRLEN];
    write_address(address, sender);
    for (size_t i = 0; i < count; i++) {
        if (strcmp(told[i], address) == 0) return;
    }
    if (count == MOST_STRANGERS) return;
    strcpy(told[count++], address);
    complain("%s: what came from %s is ignored, %s", end->interface, address, why);
}

/* Whether a datagram comes from the link, or from the address that is asked. An interface without an address has no link that is
   known. */
static bool is_from_here(const struct end *end, const struct sockaddr *sender) {
    if (is_any_source || is_ethernet || end->interface == NULL || is_on_link(end->index, sender)) return true;
    if ((is_to_one && is_same(sender, &clock_address)) || !has_address(end->index, family())) return true;
    tell_stranger(end, sender, "which is not on the link: --any-source takes it");
    return false;
}

/* Whether a datagram is none that a router has passed on, as far as that is known and wanted. */
static bool is_near(const struct arrival *arrival, const struct end *end, struct place *from, const uint8_t *octets, size_t found) {
    const struct sockaddr *sender = (const struct sockaddr *)&from->sender;
    bool is_unicast = arrival->end == NULL || arrival->socket == end->asking;
    if (is_near_alone && is_unicast && from->ttl != FULL_TTL) {
        tell_stranger(end, sender, "since a router may have forwarded it: --ttl-security takes only TTL 255");
        return false;
    }
    if (arrival->end != NULL || is_any_source || is_of_neighbour(packets, from->index, sender, octets, found)) return true;
    write_address(passed_on, sender);
    return false;
}

/* What a clock sends by itself comes to the group, and so over this link, whatever the clock's address is. */
static bool is_sent_by_itself(const struct arrival *arrival, const uint8_t *octets, size_t found) {
    bool is_to_group = arrival->end != NULL && arrival->socket != arrival->end->asking;
    return is_to_group && found > TYPE_AT && (octets[TYPE_AT] & LOWER_HALF) != MANAGEMENT_TYPE;
}

/* The sender of the message that came in last, and the end that it came in at. */
static struct place latest_place;
static const struct end *latest_end;
static int latest_socket;

bool asks_one_address(void) { return is_to_one && !is_to_group(); }

bool came_from_asked(void) {
    return !asks_one_address() || is_same((const struct sockaddr *)&latest_place.sender, &clock_address);
}

struct way way_of_message(void) {
    return (struct way){ .socket = latest_socket, .sender = latest_place.sender, .is_near = latest_place.ttl == FULL_TTL };
}

/* An address of UDP without its port, a hardware address, or a path. */
static bool is_same_sender(const struct sockaddr_storage *one, const struct sockaddr_storage *other) {
    if (one->ss_family != other->ss_family) return false;
    if (one->ss_family == AF_INET || one->ss_family == AF_INET6) return is_same((const struct sockaddr *)one, other);
    if (one->ss_family != AF_PACKET) return memcmp(one, other, sizeof *one) == 0;
    return memcmp(((const struct sockaddr_ll *)one)->sll_addr, ((const struct sockaddr_ll *)other)->sll_addr, STATION) == 0;
}

bool came_by(const struct way *way) {
    bool is_as_near = !way->is_near || latest_place.ttl == FULL_TTL;
    return latest_socket == way->socket && is_as_near && is_same_sender(&latest_place.sender, &way->sender);
}

const char *came_in_at(void) { return latest_end == NULL ? NULL : latest_end->interface; }

/* Of several ways that were named the interfaces in turn, and after them the Unix socket; NULL after the last. */
static struct end *end_in_turn(size_t place) {
    if (!has_several_ways) return NULL;
    if (place < end_count && ends[place].interface != NULL) return &ends[place];
    return place == end_count && own_clock.socket >= 0 ? &own_clock : NULL;
}

static const char *end_name(const struct end *end) { return end == &own_clock ? own_clock_address.sun_path : end->interface; }

void forget_ways(void) {
    struct end *end;
    for (size_t i = 0; (end = end_in_turn(i)) != NULL; i++) end->has_answer = false;
}

void note_way(void) {
    struct end *end;
    for (size_t i = 0; (end = end_in_turn(i)) != NULL; i++) end->has_answer |= latest_end == end;
}

const char *named_way(size_t place, bool *has_answer) {
    const struct end *end = end_in_turn(place);
    if (end == NULL) return NULL;
    *has_answer = end->has_answer;
    return end_name(end);
}

void tell_silent_ways(void) {
    struct end *end;
    for (size_t i = 0; (end = end_in_turn(i)) != NULL; i++) {
        const char *why = end->failure == 0 ? "" : strerror(end->failure);
        if (!end->has_answer && !end->is_told) {
            complain("no clock answered at %s%s%s", end_name(end), *why == '\0' ? "" : ": nothing was sent: ", why);
        }
        end->is_told = !end->has_answer;
    }
}

const char *sender_text(void) {
    static char text[sizeof ((struct sockaddr_un *)0)->sun_path + 1];
    const struct sockaddr_storage *sender = &latest_place.sender;
    const uint8_t *a = ((const struct sockaddr_ll *)sender)->sll_addr;
    /* A path may have no octet 0 at its end. */
    if (sender->ss_family == AF_UNIX) memcpy(text, ((const struct sockaddr_un *)sender)->sun_path, sizeof text - 1);
    else if (sender->ss_family != AF_PACKET) write_address(text, (const struct sockaddr *)sender);
    else snprintf(text, sizeof text, "%02x:%02x:%02x:%02x:%02x:%02x", a[0], a[1], a[2], a[3], a[4], a[5]);
    return text;
}

/* What a clock sends by itself with the tag of a VLAN, other than 0, is of another network: no request has a tag. The kernel marks the
   frame if this host has no interface for that VLAN. */
static bool is_of_other_network(const uint8_t *message, const struct sockaddr *sender) {
    bool is_of_other_vlan = ((const struct sockaddr_ll *)sender)->sll_pkttype == PACKET_OTHERHOST;
    return is_of_other_vlan && (message[TYPE_AT] & LOWER_HALF) != MANAGEMENT_TYPE;
}

static void (*take_stranger)(const uint8_t *message, size_t size);

void hand_strangers(void (*take)(const uint8_t *message, size_t size)) { take_stranger = take; }

/* The message in what came in at an end, of `found` octets; NULL if it is none for this program. */
static const uint8_t *message_at(const struct end *end, const struct arrival *arrival, const uint8_t *octets, size_t found,
                                 struct sockaddr *sender, size_t *size) {
    *size = found;
    if (arrival->end == NULL) {
        size_t place = message_in_copy(octets, size, sender);
        return place == 0 ? NULL : octets + place;
    }
    bool is_frame = is_ethernet && end->interface != NULL;
    size_t place = is_frame ? message_in(octets, found, end->station) : 0;
    if (is_frame && place == 0 && has_link_group) place = message_to_link(octets, found);
    *size -= place;
    return is_frame && (place == 0 || is_of_other_network(octets + place, sender)) ? NULL : octets + place;
}

/* Whether a clock sends under the identity of the one who asks; that is said once. A request may be one of his own, which a boundary clock
   has passed on. */
static bool is_of_namesake(const struct arrival *arrival, const uint8_t *message, size_t size) {
    static bool is_told;
    bool is_request = size > ACTION_AT && (message[TYPE_AT] & LOWER_HALF) == MANAGEMENT_TYPE
                      && (message[ACTION_AT] & LOWER_HALF) != RESPONSE && (message[ACTION_AT] & LOWER_HALF) != ACKNOWLEDGE;
    if (arrival->end == &own_clock || size < SOURCE_PORT_AT || is_request || memcmp(asker, nobody, sizeof asker) == 0) return false;
    if (memcmp(message + SOURCE_AT, asker, sizeof asker) != 0) return false;
    if (!is_told) complain("a clock has this manager's identity %s: what it sends is ignored; -m gives the manager another identity", identity_text(asker));
    return is_told = true;
}

/* The message in what an arrival is. */
static const uint8_t *message_of(const struct arrival *arrival, const uint8_t *octets, size_t found, struct place *from, size_t *size) {
    struct sockaddr *sender = (struct sockaddr *)&from->sender;
    const struct end *end = arrival->end != NULL ? arrival->end : end_at(from->index);
    if (end == NULL) return NULL;
    bool is_here = is_sent_by_itself(arrival, octets, found) || is_from_here(end, sender);
    if (is_here && !is_ethernet && !is_near(arrival, end, from, octets, found)) return NULL;
    latest_place = *from;
    latest_end = end;
    latest_socket = arrival->socket;
    const uint8_t *message = message_at(end, arrival, octets, found, sender, size);
    if (is_here) return message;
    if (message != NULL && take_stranger != NULL) take_stranger(message, *size);
    return NULL;
}

const uint8_t *receive_message(size_t *size, int64_t end) {
    static uint8_t datagram[MOST_DATAGRAM];
    for (int64_t left; (left = end - milliseconds()) > 0 && !stopped;) {
        struct arrival arrival;
        struct place from;
        ssize_t found = next_arrival(&arrival, left) ? receive_from(arrival.socket, datagram, sizeof datagram, &from) : -1;
        if (found > 0 && arrival.end == &own_clock) address_to_asker(datagram, (size_t)found);
        const uint8_t *message = found < 0 ? NULL : message_of(&arrival, datagram, (size_t)found, &from, size);
        if (message != NULL && !is_of_namesake(&arrival, message, *size)) return message;
    }
    return NULL;
}
