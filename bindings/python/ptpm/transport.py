"""Transports to clocks, over sockets of the standard library. They are UDP at an interface (IEEE 1588-2019, annexes C and D), and
a Unix socket of this machine, for example that of ptp4l."""

from __future__ import annotations

import contextlib
import errno
import fcntl
import ipaddress
import itertools
import os
import select
import selectors
import socket
import struct
import sys
import time
from typing import Any, List, Mapping, Optional, Sequence, Tuple, Union

from ._library import Closing
from .identity import Identity
from .link import FULL_TTL, GENERAL_PORT, MOST_DATAGRAM, Link, Packets, Way, attach_filter, filter_program, message_in_copy

_GROUP_4 = "224.0.1.129"
_GROUP_6 = "ff0e::181"
_SO_BINDTODEVICE = 25
_IP_RECVTTL, _IP_TTL = 12, 2
_IPV6_CHECKSUM, _UDP_CHECKSUM_AT = 7, 6
_SIOCGIFADDR = 0x8915
_SIOCGIFHWADDR = 0x8927

# The last steps of a filter that has loaded the octet with the messageType. If the lower half of it is 0xD, for a management message, all
# is kept, and otherwise nothing.
_LETS_IN_MANAGEMENT = ((0x54, 0, 0, 0x0F), (0x15, 0, 1, 0x0D), (0x06, 0, 0, MOST_DATAGRAM - 1), (0x06, 0, 0, 0))

# Of datagrams, which begin with their UDP header here, those whose octet after it is that of a management message.
_WANTED = filter_program((0x30, 0, 0, 8), *_LETS_IN_MANAGEMENT)

# Of copies over IPv4, which begin with their IP header, such messages to port 320 of no group.
_WANTED_COPIES_4 = filter_program(
    (0xB1, 0, 0, 0),  # the size of the IP header
    (0x48, 0, 0, 2),  # load the port after it
    (0x15, 0, 7, GENERAL_PORT),
    (0x30, 0, 0, 16),  # the first octet of the address
    (0x54, 0, 0, 0xF0),
    (0x15, 4, 0, 0xE0),
    (0x50, 0, 0, 8),  # the octet after the UDP header
    *_LETS_IN_MANAGEMENT,
)

# The same over IPv6, where they begin with their UDP header; the address is before it.
_WANTED_COPIES_6 = filter_program(
    (0x28, 0, 0, 2), (0x15, 0, 6, GENERAL_PORT), (0x30, 0, 0, 0xFFF00000 + 24), (0x15, 4, 0, 0xFF), (0x30, 0, 0, 8), *_LETS_IN_MANAGEMENT
)

# The same for packets of IPv6, which begin with their IP header.
_WANTED_PACKETS_6 = filter_program(
    (0x28, 0, 0, 40 + 2), (0x15, 0, 6, GENERAL_PORT), (0x30, 0, 0, 24), (0x15, 4, 0, 0xFF), (0x30, 0, 0, 40 + 8), *_LETS_IN_MANAGEMENT
)

Address = Union[str, Tuple[str, int], Tuple[str, int, int, int]]


class Transport(Closing):
    """A transport to clocks: sockets, and the address to which the first one sends. It is closed when its `with` ends."""

    identity = Identity(bytes(8))
    """The clockIdentity that a manager has here by default."""

    is_local = False
    """Whether it leads to clocks of this machine only."""

    came_by: Optional[Way] = None
    """How the message came in that was received last, if that is known."""

    not_taken: Mapping[str, str] = {}
    """Whose datagrams were not taken, and why."""

    @property
    def origin(self) -> Transport:
        """The transport whose sockets it uses: itself, unless it only wraps another one."""
        return self

    def __init__(
        self, opened: socket.socket, to: Address, name: Optional[str] = None, beside: Sequence[socket.socket] = ()
    ) -> None:
        """`name` is the transport's name in errors, or else the address. Answers come in at the sockets beside the first one too."""
        self._socket = opened
        self._heard = [opened, *beside]
        self._to = to
        self._name = name or (to if isinstance(to, str) else to[0])
        self._waiting: Optional[select.epoll] = None
        for one in self._heard:
            one.setblocking(False)

    def close(self) -> None:
        """Closes the sockets."""
        if self._waiting is not None:
            self._waiting.close()
        for one in self._heard:
            one.close()

    def fileno(self) -> int:
        """A descriptor that can be read when something has come in at one of the sockets: for `select`, and `add_reader` of asyncio.
        `take` then reads it."""
        if self._waiting is None:
            self._waiting = select.epoll()
            for one in self._heard:
                self._waiting.register(one, select.EPOLLIN)
        return self._waiting.fileno()

    def send(self, octets: bytes) -> bool:
        """Sends a message; returns whether there was room for it. An OSError says that there is no
        transport."""
        try:
            self._socket.sendto(octets, self._to)
        except BlockingIOError:
            return False
        except OSError as error:
            if error.errno == 105:  # ENOBUFS
                return False
            raise OSError(error.errno, error.strerror, self._name) from None
        return True

    def _readable(self, wait: float) -> List[socket.socket]:
        """The sockets at which something has come in within a time."""
        with selectors.PollSelector() as selector:
            for one in self._heard:
                selector.register(one, selectors.EVENT_READ)
            ready = {key.fd for key, _ in selector.select(wait)}
        return [one for one in self._heard if one.fileno() in ready]

    def receive(self, until: float) -> Optional[bytes]:
        """The next datagram, or None if none comes in before a time of time.monotonic()."""
        while (left := until - time.monotonic()) > 0 and (found := self._readable(left)):
            message = self._read(found[0])
            if message is not None:
                return message
        return None

    def take(self) -> Optional[bytes]:
        """A datagram that has come in, or None if there is none. The call does not wait."""
        while found := self._readable(0):
            message = self._read(found[0])
            if message is not None:
                return message
        return None

    def _read(self, opened: socket.socket) -> Optional[bytes]:
        """The message that a socket has. None if it is not one, and for an error such as an ICMP message about an earlier
        one."""
        try:
            octets, control, _, sender = opened.recvmsg(MOST_DATAGRAM, socket.CMSG_SPACE(4))
            return self._message_of(opened, octets, sender, _ttl_in(control))
        except OSError:
            return None

    def _message_of(self, opened: socket.socket, octets: bytes, sender: Any, ttl: int) -> Optional[bytes]:
        """The message in what a socket heard."""
        self.came_by = Way(opened.fileno(), sender, False)
        return octets


def _ttl_in(control: Sequence[Tuple[int, int, bytes]]) -> int:
    """The TTL, or hop limit, that the kernel reports of a datagram; 0 if it reports none."""
    kinds = ((socket.IPPROTO_IP, _IP_TTL), (socket.IPPROTO_IPV6, socket.IPV6_HOPLIMIT))
    return next((int.from_bytes(octets, sys.byteorder) for level, kind, octets in control if (level, kind) in kinds), 0)


def _ask_interface(name: str, request: int) -> bytes:
    """What the kernel says of an interface (netdevice(7))."""
    with socket.socket(socket.AF_INET, socket.SOCK_DGRAM) as probe:
        try:
            return fcntl.ioctl(probe, request, struct.pack("256s", name.encode()))
        except OSError as error:
            raise OSError(error.errno, error.strerror, name) from None


def _identity_of(interface: str) -> Identity:
    """The identity of a manager at an interface: its MAC with fffe in the middle and the universal/local bit inverted, as in
    IPv6. A clock of this host, such as a ptp4l, has the identity without the inversion, and no manager may have the clockIdentity
    of a clock."""
    return Identity.of_mac(_ask_interface(interface, _SIOCGIFHWADDR)[18:24]).turned


def _has_address(interface: str, own: str) -> bool:
    """Whether an interface has an address, of IPv4 or IPv6."""
    address = ipaddress.ip_address(own.split("%")[0])
    if address.version == 6:
        with open("/proc/net/if_inet6", encoding="ascii") as rows:
            return any((row.split()[0], row.split()[-1]) == (address.packed.hex(), interface) for row in rows)
    try:
        return _ask_interface(interface, _SIOCGIFADDR)[20:24] == address.packed
    except OSError:
        return False


def _interface_to(address: Address, family: socket.AddressFamily) -> str:
    """The interface over which this host sends to an address."""
    with socket.socket(family, socket.SOCK_DGRAM) as probe:
        probe.connect(address)
        own = probe.getsockname()[0]
    for _, name in socket.if_nameindex():
        if _has_address(name, own):
            return name
    raise OSError(f"no interface leads to {address[0]}")


def _destination(interface: Optional[str], address: Optional[str], ipv6: bool) -> Tuple[str, socket.AddressFamily, Address]:
    """The interface, and the address to send to."""
    if interface is None and address is None:
        raise ValueError("a way over UDP takes an interface or an address")
    to: Address = (address or (_GROUP_6 if ipv6 else _GROUP_4), GENERAL_PORT)
    family = socket.AF_INET6 if ipv6 else socket.AF_INET
    if address is not None:
        flags = socket.AI_NUMERICHOST
        try:
            family, _, _, _, to = socket.getaddrinfo(address, GENERAL_PORT, type=socket.SOCK_DGRAM, flags=flags)[0]
        except socket.gaierror:
            raise OSError(f"{address}: not an address of IPv4 or IPv6") from None
    return interface or _interface_to(to, family), family, to


class UdpTransport(Transport):
    """UDP port 320 at an interface, to the group of all clocks there, or to one address. It needs root, or the capability
    CAP_NET_BIND_SERVICE. It hears messages to the group, and answers to the port of the request. Some clocks answer by unicast to
    port 320 of this host, whatever port has asked. It hears a copy of such an answer if the program has the capability
    CAP_NET_RAW, as root has. Nothing is taken from another program that has port 320, such as a ptp4l.

    With `any_source` datagrams from addresses off the link count too. With `ttl_security` unicast with a TTL below 255 does not
    count."""

    def __init__(
        self,
        interface: Optional[str] = None,
        address: Optional[str] = None,
        *,
        ipv6: bool = False,
        any_source: bool = False,
        ttl_security: bool = False,
    ) -> None:
        self.interface, family, to = _destination(interface, address, ipv6)
        self.identity = _identity_of(self.interface)
        self._link = Link(self.interface, address, any_source, ttl_security)
        self.not_taken = self._link.refused
        self._group, asking, self._copies, self._packets = _opened(self.interface, family)
        beside = [self._group] if self._copies is None else [self._group, self._copies]
        super().__init__(asking, to, address or self.interface, beside)

    def close(self) -> None:
        super().close()
        if self._packets is not None:
            self._packets.close()

    def _message_of(self, opened: socket.socket, octets: bytes, sender: Any, ttl: int) -> Optional[bytes]:
        if not self._link.takes(sender[0], ttl, is_unicast=opened is not self._group):
            return None
        message: Optional[bytes] = octets
        if opened is self._copies:
            if not self._link.takes_copy(self._packets, sender[0], octets):
                return None
            message = message_in_copy(octets, opened.family == socket.AF_INET6)
        if message is not None:
            self.came_by = Way(opened.fileno(), sender[0], ttl == FULL_TTL)
        return message

    @staticmethod
    def identity_at(interface: Optional[str] = None, address: Optional[str] = None, *, ipv6: bool = False) -> Identity:
        """The clockIdentity that a manager has by default with such a transport. It opens no socket at UDP port 320."""
        return _identity_of(_destination(interface, address, ipv6)[0])


def _at(opened: socket.socket, interface: str, wanted: bytes) -> socket.socket:
    """Has the socket hear and send only on this interface. It is not bound yet, and hears nothing until it is."""
    attach_filter(opened, wanted)
    opened.setsockopt(socket.SOL_SOCKET, _SO_BINDTODEVICE, interface.encode() + b"\0")
    if opened.family == socket.AF_INET6:
        opened.setsockopt(socket.IPPROTO_IPV6, socket.IPV6_RECVHOPLIMIT, 1)
    else:
        opened.setsockopt(socket.IPPROTO_IP, _IP_RECVTTL, 1)
    return opened


def _send_at(opened: socket.socket, index: int) -> None:
    """Has the socket send to the group at that interface, without hearing that itself. It sends unicast with a TTL of 255,
    which each router decrements."""
    if opened.family == socket.AF_INET6:
        opened.setsockopt(socket.IPPROTO_IPV6, socket.IPV6_V6ONLY, 1)
        opened.setsockopt(socket.IPPROTO_IPV6, socket.IPV6_MULTICAST_IF, index)
        opened.setsockopt(socket.IPPROTO_IPV6, socket.IPV6_MULTICAST_LOOP, 0)
        opened.setsockopt(socket.IPPROTO_IPV6, socket.IPV6_UNICAST_HOPS, FULL_TTL)
        opened.bind(("::", 0))
    else:
        opened.setsockopt(socket.IPPROTO_IP, socket.IP_MULTICAST_IF, struct.pack("=4s4si", bytes(4), bytes(4), index))
        opened.setsockopt(socket.IPPROTO_IP, socket.IP_MULTICAST_LOOP, 0)
        opened.setsockopt(socket.IPPROTO_IP, socket.IP_TTL, FULL_TTL)
        opened.bind(("", 0))


def _join(opened: socket.socket, index: int) -> None:
    """Binds the socket to the group, so it hears no unicast to this host, which may be for another program."""
    opened.setsockopt(socket.SOL_SOCKET, socket.SO_REUSEADDR, 1)
    if opened.family == socket.AF_INET6:
        opened.setsockopt(socket.IPPROTO_IPV6, socket.IPV6_V6ONLY, 1)
        opened.bind((_GROUP_6, GENERAL_PORT, 0, index))
        join = socket.inet_pton(opened.family, _GROUP_6) + struct.pack("=I", index)
        opened.setsockopt(socket.IPPROTO_IPV6, socket.IPV6_JOIN_GROUP, join)
    else:
        opened.bind((_GROUP_4, GENERAL_PORT))
        join = struct.pack("=4s4si", socket.inet_pton(opened.family, _GROUP_4), bytes(4), index)
        opened.setsockopt(socket.IPPROTO_IP, socket.IP_ADD_MEMBERSHIP, join)


def _open_copies(interface: str, family: socket.AddressFamily) -> socket.socket:
    copies = socket.socket(family, socket.SOCK_RAW | socket.SOCK_CLOEXEC, socket.IPPROTO_UDP)
    if family == socket.AF_INET6:
        copies.setsockopt(socket.IPPROTO_IPV6, _IPV6_CHECKSUM, _UDP_CHECKSUM_AT)
    return _at(copies, interface, _WANTED_COPIES_6 if family == socket.AF_INET6 else _WANTED_COPIES_4)


def _opened(
    interface: str, family: socket.AddressFamily
) -> Tuple[socket.socket, socket.socket, Optional[socket.socket], Optional[Packets]]:
    """A socket that hears what comes to the group, one that asks, and those that hear copies and their packets, if the program may."""
    kind = socket.SOCK_DGRAM | socket.SOCK_CLOEXEC
    with contextlib.ExitStack() as opened:
        try:
            group = _at(opened.enter_context(socket.socket(family, kind)), interface, _WANTED)
            asking = _at(opened.enter_context(socket.socket(family, kind)), interface, _WANTED)
            index = socket.if_nametoindex(interface)
            _send_at(asking, index)
            _join(group, index)
        except OSError as error:
            raise OSError(error.errno, error.strerror, f"UDP port {GENERAL_PORT} at {interface}") from None
        copies = packets = None
        with contextlib.suppress(PermissionError):
            copies = opened.enter_context(_open_copies(interface, family))
            packets = Packets(interface, family, _WANTED_PACKETS_6 if family == socket.AF_INET6 else _WANTED_COPIES_4)
        opened.pop_all()
    return group, asking, copies, packets


# The most octets of a path that has room for what is put after it.
_MOST_BESIDE = 107 - len(".4194304.99")


class UnixTransport(Transport):
    """The Unix socket of a clock on this machine. The transport's own socket is beside it: the path, a dot, and the number of
    the process. If that name is taken, another number follows."""

    is_local = True

    def __init__(self, path: Union[str, "os.PathLike[str]"]) -> None:
        clock = os.fspath(path)
        opened = socket.socket(socket.AF_UNIX, socket.SOCK_DGRAM | socket.SOCK_CLOEXEC)
        try:
            self._path = _bound_beside(opened, clock)
        except BaseException:
            opened.close()
            raise
        super().__init__(opened, clock)

    def close(self) -> None:
        """Closes the socket, and removes its file, if that is still there."""
        if self._socket.fileno() >= 0:
            super().close()
            with contextlib.suppress(OSError):
                os.unlink(self._path)


def _bound_beside(opened: socket.socket, clock: str) -> str:
    """Binds a socket next to a clock's, and returns its path. It gets the group of the clock's socket, so that the clock may
    write to it. The path begins at the root if there is room, since the clock may run in another folder."""
    whole = clock if os.path.isabs(clock) else os.path.realpath(clock)
    beside = whole if len(os.fsencode(whole)) <= _MOST_BESIDE else clock
    for number in itertools.count():
        own = f"{beside}.{os.getpid()}" + (f".{number}" if number else "")
        try:
            opened.bind(own)
        except OSError as error:
            if error.errno != errno.EADDRINUSE or number == 99:
                why = error.errno or errno.ENAMETOOLONG  # Python gives that no number
                raise OSError(why, os.strerror(why), own) from None
            continue
        try:
            os.chown(own, -1, os.stat(clock).st_gid)
        except OSError:
            pass  # it has this user's group then
        os.chmod(own, 0o660)
        return own
    raise AssertionError("unreachable")
