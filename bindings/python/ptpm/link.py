"""Which datagrams over UDP are taken: what comes from the link, as it was sent. `hosts/common` has the same checks in C."""

from __future__ import annotations

import contextlib
import ctypes
import fcntl
import ipaddress
import socket
import struct
from collections import deque
from typing import Any, Deque, Dict, Iterator, NamedTuple, Optional, Tuple

GENERAL_PORT = 320
MOST_DATAGRAM = 65536
FULL_TTL = 255

_SO_ATTACH_FILTER, _SO_BINDTODEVICE = 26, 25
_SOL_PACKET, _PACKET_IGNORE_OUTGOING, _PACKET_HOST, _ETHERNET = 263, 23, 0, 1
_ETH_P_IP, _ETH_P_IPV6 = 0x0800, 0x86DD
_IPV6_HEAD, _UDP_HEAD, _DISCARD_PORT = 40, 8, 9
_PACKETS = 128

# Of netlink (rtnetlink(7)).
_GET_ROUTE, _NEW_ROUTE, _GET_NEIGHBOUR, _NEW_NEIGHBOUR, _REQUEST = 26, 24, 30, 28, 1
_FIB_MATCH, _UNICAST_ROUTE = 0x2000, 1
_DESTINATION, _OVER, _GATEWAYS = 1, 4, (5, 18, 9)
_NEIGHBOUR_STATION, _IS_RIGHT = 2, 0x02 | 0x04 | 0x08 | 0x10 | 0x80


def filter_program(*instructions: Tuple[int, int, int, int]) -> bytes:
    """A filter of the kernel's (linux/filter.h)."""
    return b"".join(struct.pack("=HBBI", *one) for one in instructions)


def attach_filter(opened: socket.socket, wanted: bytes) -> None:
    """Has the kernel drop what is not wanted, so that other messages don't take the room of answers."""
    octets = ctypes.create_string_buffer(wanted, len(wanted))
    opened.setsockopt(socket.SOL_SOCKET, _SO_ATTACH_FILTER, struct.pack("HP", len(wanted) // 8, ctypes.addressof(octets)))


def _attribute(kind: int, octets: bytes) -> bytes:
    return struct.pack("=HH", 4 + len(octets), kind) + octets + bytes(-len(octets) % 4)


def _ask_kernel(kind: int, body: bytes) -> bytes:
    """The kernel's answer to one question: a message of netlink, or nothing."""
    with socket.socket(socket.AF_NETLINK, socket.SOCK_RAW | socket.SOCK_CLOEXEC, 0) as netlink, contextlib.suppress(OSError):
        netlink.send(struct.pack("=IHHII", 16 + len(body), kind, _REQUEST, 0, 0) + body)
        return netlink.recv(4096, socket.MSG_DONTWAIT)
    return b""


def _attributes(octets: bytes) -> Iterator[Tuple[int, bytes]]:
    while len(octets) >= 4:
        size, kind = struct.unpack_from("=HH", octets)
        if size < 4:
            return
        yield kind, octets[4:size]
        octets = octets[(size + 3) & ~3 :]


def _is_routed_to_link(index: int, address: bytes) -> bool:
    """Whether a route that is not a default route leads to an address over the interface without a gateway."""
    family = socket.AF_INET if len(address) == 4 else socket.AF_INET6
    head = struct.pack("=BBBBBBBBI", family, 8 * len(address), 0, 0, 0, 0, 0, 0, _FIB_MATCH)
    over, to = _attribute(_OVER, struct.pack("=i", index)), _attribute(_DESTINATION, address)
    answer = _ask_kernel(_GET_ROUTE, head + over + to)
    if len(answer) < 28 or struct.unpack_from("=H", answer, 4)[0] != _NEW_ROUTE:
        return False
    is_default, is_unicast = answer[17] == 0, answer[23] == _UNICAST_ROUTE
    return is_unicast and not is_default and not any(kind in _GATEWAYS for kind, _ in _attributes(answer[28:]))


def _neighbour(index: int, address: bytes) -> Optional[bytes]:
    """The hardware address that the kernel holds for an address at the interface, if there is one."""
    family = socket.AF_INET if len(address) == 4 else socket.AF_INET6
    answer = _ask_kernel(_GET_NEIGHBOUR, struct.pack("=BBHiHBB", family, 0, 0, index, 0, 0, 0) + _attribute(_DESTINATION, address))
    if len(answer) < 28 or struct.unpack_from("=H", answer, 4)[0] != _NEW_NEIGHBOUR:
        return None
    is_right = struct.unpack_from("=H", answer, 24)[0] & _IS_RIGHT
    return next((octets for kind, octets in _attributes(answer[28:]) if is_right and kind == _NEIGHBOUR_STATION), None)


def _sum(octets: bytes) -> int:
    """The sum of the Internet protocols (RFC 1071)."""
    words = octets + bytes(len(octets) % 2)
    total = sum(struct.unpack(f"!{len(words) // 2}H", words))
    while total >> 16:
        total = (total & 0xFFFF) + (total >> 16)
    return total


def _is_as_sent(packet: bytes, datagram: bytes) -> bool:
    """Whether a datagram over IPv4 has the octets that its UDP checksum is of; it may have none. In one that was sent on this
    machine the checksum may cover only the addresses so far. Over IPv6 the kernel compares it."""
    addresses = _sum(packet[12:20] + struct.pack("!HH", socket.IPPROTO_UDP, len(datagram)))
    checksum = int.from_bytes(datagram[6:8], "big")
    return checksum in (0, addresses) or _sum(datagram + bytes(len(datagram) % 2) + struct.pack("!H", addresses)) == 0xFFFF


def message_in_copy(packet: bytes, is_six: bool) -> Optional[bytes]:
    """The message in a copy, which begins with its IP header over IPv4, and with its UDP header over IPv6. None if there is none."""
    place = 0 if is_six or not packet else 4 * (packet[0] & 0x0F)
    size = int.from_bytes(packet[place + 4 : place + 6], "big")
    datagram = packet[place : place + size]
    if size <= _UDP_HEAD or len(datagram) < size or not (is_six or _is_as_sent(packet, datagram)):
        return None
    return datagram[_UDP_HEAD:]


class Packets:
    """The packets with what is sent by unicast to UDP port 320 of this host, as they come in from a link. They have the hardware
    address of their sender, which a copy lacks."""

    def __init__(self, interface: str, family: socket.AddressFamily, wanted: bytes) -> None:
        self._is_six = family == socket.AF_INET6
        kind = _ETH_P_IPV6 if self._is_six else _ETH_P_IP
        self._socket = socket.socket(socket.AF_PACKET, socket.SOCK_DGRAM | socket.SOCK_CLOEXEC, 0)
        attach_filter(self._socket, wanted)
        self._socket.setsockopt(_SOL_PACKET, _PACKET_IGNORE_OUTGOING, 1)
        self._socket.setblocking(False)
        self._socket.bind((interface, kind))
        self._latest: Deque[Tuple[bytes, bytes]] = deque(maxlen=_PACKETS)

    def close(self) -> None:
        """Closes the socket."""
        self._socket.close()

    def _hear(self) -> None:
        with contextlib.suppress(OSError):
            while True:
                octets, place = self._socket.recvfrom(MOST_DATAGRAM)
                if place[2] == _PACKET_HOST:
                    self._latest.append((octets, place[4] if place[3] == _ETHERNET else b""))

    def stations(self, sender: bytes, copy: bytes) -> Iterator[bytes]:
        """The hardware addresses of the packets that have the octets of a copy. One is empty if the link has none."""
        self._hear()
        for octets, station in list(self._latest):
            begin = _IPV6_HEAD if self._is_six else 0
            is_his = not self._is_six or octets[8:24] == sender
            if is_his and octets[begin : begin + len(copy)] == copy:
                self._latest.remove((octets, station))
                yield station


class Way(NamedTuple):
    """How a message came in: at which socket, from whom, and whether no router had forwarded it (RFC 5082)."""

    socket: int
    sender: Any
    is_near: bool


class Link:
    """The link at an interface, from which answers are taken."""

    def __init__(self, interface: str, asked: Optional[str], any_source: bool, ttl_security: bool) -> None:
        """`asked` is the address that is asked, unless that is a group."""
        self._interface, self._index = interface, socket.if_nametoindex(interface)
        self._asked = None if asked is None else ipaddress.ip_address(asked.split("%")[0])
        self._any_source, self._ttl_security = any_source, ttl_security
        self.refused: Dict[str, str] = {}
        """Whose datagrams were not taken, and why."""

    def _has_address(self, is_six: bool) -> bool:
        if is_six:
            with open("/proc/net/if_inet6", encoding="ascii") as rows:
                return any(row.split()[-1] == self._interface for row in rows)
        with socket.socket(socket.AF_INET, socket.SOCK_DGRAM) as probe, contextlib.suppress(OSError):
            return bool(fcntl.ioctl(probe, 0x8915, struct.pack("256s", self._interface.encode())))  # SIOCGIFADDR
        return False

    def _is_on(self, address: Any) -> bool:
        return (address.version == 6 and address.is_link_local) or _is_routed_to_link(self._index, address.packed)

    def _refuse(self, sender: str, why: str) -> bool:
        if len(self.refused) < 8:
            self.refused.setdefault(sender, why)
        return False

    def takes(self, sender: str, ttl: int, *, is_unicast: bool) -> bool:
        """Whether a datagram comes from the link, or from the address that is asked, and, if that is wanted, through no
        router. The link of an interface without an address is not known."""
        address = ipaddress.ip_address(sender.split("%")[0])
        if self._ttl_security and is_unicast and ttl != FULL_TTL:
            return self._refuse(sender, "since a router may have forwarded it: --ttl-security takes only TTL 255")
        if self._any_source or address == self._asked or self._is_on(address) or not self._has_address(address.version == 6):
            return True
        return self._refuse(sender, "which is not on the link: --any-source takes it")

    def takes_copy(self, packets: Optional[Packets], sender: str, copy: bytes) -> bool:
        """Whether a copy was sent by the neighbour that has the sender's address, as far as that can be known. If the kernel
        knows no such neighbour, it asks the link."""
        address = ipaddress.ip_address(sender.split("%")[0])
        if packets is None or self._any_source or not self._is_on(address):
            return True
        stations = list(packets.stations(address.packed, copy))
        if b"" in stations:
            return True
        neighbour = _neighbour(self._index, address.packed)
        if neighbour is None:
            self._ask(address)
        if neighbour is not None and neighbour in stations:
            self.refused.pop(sender, None)
            return True
        return self._refuse(sender, "since another machine sent it, or none has that address")

    def _ask(self, address: Any) -> None:
        """Sends an empty datagram to the discard port there (RFC 863), so that the kernel asks who has the
        address."""
        family = socket.AF_INET if address.version == 4 else socket.AF_INET6
        to = (str(address), _DISCARD_PORT) if address.version == 4 else (str(address), _DISCARD_PORT, 0, self._index)
        with socket.socket(family, socket.SOCK_DGRAM | socket.SOCK_CLOEXEC) as probe, contextlib.suppress(OSError):
            probe.setsockopt(socket.SOL_SOCKET, _SO_BINDTODEVICE, self._interface.encode() + b"\0")
            probe.setblocking(False)
            probe.sendto(b"", to)
