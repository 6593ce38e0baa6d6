#include "ports.h"
#include "general_port.h"
#include "netlink.h"
#include "output.h"
#include "socket_option.h"
#include "udp.h"
#include <errno.h>
#include <net/if.h>
#include <stdlib.h>
#include <string.h>
#include <sys/ioctl.h>
#include <unistd.h>

enum { SECOND = 1000 };

struct port ports[PORTS];
size_t port_count;
enum transport transport;
uint16_t diverted_port;

static bool is_hurried;         /* the kernel reported a change */

static int open_socket(struct port *port, const char **what) {
    if (transport == ETHERNET) return open_ethernet(port->name, port->station, what);
    int opened = open_udp(port->name, transport == UDP_IPV6, HEARS_GROUP, what);
    if (opened >= 0 && diverted_port != 0) hear_none(opened);
    return opened;
}

/* The MTU of the interface as its port is opened: a leave and a join that nobody needs may cost messages if a switch listens. */
static unsigned mtu_at(int socket, unsigned index) {
    struct ifreq request = { 0 };
    if (if_indextoname(index, request.ifr_name) == NULL || ioctl(socket, SIOCGIFMTU, &request)) return 0;
    return (unsigned)request.ifr_mtu;
}

static void take_socket(struct port *port, int opened, unsigned index) {
    port->socket = opened;
    port->index = index;
    port->openings++;
    port->mtu = mtu_at(opened, index);
}

void open_port(const char *interface) {
    struct port *port = &ports[port_count++];
    const char *what;
    port->name = interface;
    int opened = open_socket(port, &what);
    if (opened < 0) {
        say("%s: %s%s", what, strerror(errno), right_needed(transport == ETHERNET));
        exit(2);
    }
    take_socket(port, opened, index_of(opened, interface));
}

/* Two ports at one interface would forward to its link what comes from there. */
static const struct port *other_at(unsigned index, const struct port *port) {
    for (size_t i = 0; i < port_count; i++) {
        if (&ports[i] != port && ports[i].index == index) return &ports[i];
    }
    return NULL;
}

const struct port *port_at(unsigned index) { return index == 0 ? NULL : other_at(index, NULL); }

static void close_port(struct port *port) {
    if (port->socket >= 0) close(port->socket);
    port->socket = -1;
    port->index = 0;
    port->is_due = false;
}

/* An interface that was gone, or another one, has the name by now. */
static void open_other(struct port *port, unsigned index) {
    const char *what = "it is an interface of another port";
    const struct port *other = other_at(index, port);
    int opened = other == NULL ? open_socket(port, &what) : -1;
    if (opened >= 0) {
        say("%s: the interface was created again", port->name);
        close_port(port);
        take_socket(port, opened, index);
        port->refused = 0;
    } else if (port->refused != index) {
        const char *why = other == NULL ? strerror(errno) : "";
        say("%s: the interface was created again: %s%s%s", port->name, what, other == NULL ? ": " : "", why);
        port->refused = index;
    }
}

/* Its interface is the same, but may have lost its memberships. */
static void join_port(struct port *port) {
    if (transport == ETHERNET || join_again(port->socket, port->index, transport == UDP_IPV6)) {
        if (port->refused != 0) say("%s: the interface is heard again", port->name);
        port->is_due = false;
        port->refused = 0;
    } else if (port->refused != port->index) {
        say("%s: nothing is heard at the interface: %s", port->name, strerror(errno));
        port->refused = port->index;
    }
}

/* Whether the kernel says that no interface has the port's index any more. It may also say that no descriptor is left to ask it. */
static bool is_gone(const struct port *port) {
    char name[IF_NAMESIZE];
    return if_indextoname(port->index, name) == NULL && errno == ENXIO;
}

static void renew(struct port *port) {
    unsigned index = if_nametoindex(port->name);
    if (index == 0 && port->index != 0 && is_gone(port)) close_port(port);
    if (index != 0 && index != port->index) open_other(port, index);
    else if (port->is_due) join_port(port);
}

void renew_ports(int64_t now) {
    static int64_t next;
    if (!is_hurried && now < next) return;
    is_hurried = false;
    next = now + SECOND;
    for (size_t i = 0; i < port_count; i++) renew(&ports[i]);
}

/* If the kernel reported more than was kept, index 0, each port may have changed. */
static void take_link(unsigned index, enum link_event event, unsigned mtu) {
    for (size_t i = 0; i < port_count; i++) {
        struct port *port = &ports[i];
        if (port->socket < 0) is_hurried = true;           /* it may be this one that has its name */
        if (port->socket < 0 || (index != 0 && port->index != index)) continue;
        if (event == LINK_GONE) close_port(port);
        else if (mtu == 0 || mtu != port->mtu) port->is_due = true;
        port->mtu = mtu;
        is_hurried = true;
    }
}

void hear_of_links(void) { read_netlink(take_link); }

void close_ports(void) {
    for (size_t i = 0; i < port_count; i++) close_port(&ports[i]);
}
