"""Links and devices of the attacks: frames that come in over them and go out, and the messages in them."""
import fcntl
import os
import select
import socket
import struct
import time

from attacking import run

GROUP, STATION = bytes.fromhex("011b19000000"), bytes.fromhex("020000000099")


def sum_of(octets):
    """The checksum of the Internet protocols (RFC 1071)."""
    octets += b"\0" * (len(octets) % 2)
    total = sum(struct.unpack(f"!{len(octets) // 2}H", octets))
    while total >> 16:
        total = (total & 0xFFFF) + (total >> 16)
    return 0xFFFF - total


def frame_four(octets, source, to="224.0.1.129", station=None, summed=None, ttl=1, by=STATION, port=320):
    """One whose UDP checksum is of the message `summed`; it has none where that is None."""
    head = struct.pack("!BBHHHBBH4s4s", 0x45, 0, 28 + len(octets), 0, 0, ttl, 17, 0, socket.inet_aton(source), socket.inet_aton(to))
    head = head[:10] + struct.pack("!H", sum_of(head)) + head[12:]
    udp = struct.pack("!HHHH", 320, port, 8 + len(octets), 0)
    if summed is not None:
        udp = udp[:6] + struct.pack("!H", sum_of(head[12:] + struct.pack("!HH", 17, 8 + len(octets)) + udp + summed))
    return (station or bytes.fromhex("01005e000181")) + by + b"\x08\x00" + head + udp + octets


def frame_six(octets, source, to="ff0e::181", station=None, summed=None):
    """One whose UDP checksum is of the message `summed`, or else right."""
    addresses = socket.inet_pton(socket.AF_INET6, source) + socket.inet_pton(socket.AF_INET6, to)
    size = 8 + len(octets)
    udp = struct.pack("!HHHH", 320, 320, size, 0)
    total = sum_of(addresses + struct.pack("!II", size, 17) + udp + (summed or octets))
    udp = struct.pack("!HHHH", 320, 320, size, total)
    return (station or bytes.fromhex("333300000181")) + STATION + b"\x86\xdd" + struct.pack("!IHBB", 0x60000000, size, 17, 1) + addresses + udp + octets


def message_of(frame):
    kind = frame[12:14]
    if kind == b"\x08\x00" and frame[23] == 17 and frame[36:38] == b"\x01\x40":
        return frame[42:]
    if kind == b"\x86\xdd" and frame[20] == 17 and frame[56:58] == b"\x01\x40":
        return frame[62:]
    return frame[14:] if kind == b"\x88\xf7" else None


class Port:
    """A network device whose frames are read and written here."""

    def __init__(self, name):
        self.file = os.open("/dev/net/tun", os.O_RDWR | os.O_NONBLOCK)
        fcntl.ioctl(self.file, 0x400454CA, struct.pack("16sH22x", name.encode(), 0x1002))
        self.name = name
        self.address = len(name) + int(name[-1])
        run("ip", "addr", "add", f"10.8.{self.address}.1/24", "dev", name)
        run("ip", "link", "set", name, "up")

    def come_in(self, octets):
        """A datagram to the group of IPv4 (annex C), from a neighbour."""
        try:
            os.write(self.file, frame_four(octets, f"10.8.{self.address}.9"))
        except BlockingIOError:
            time.sleep(0.01)

    def sent(self):
        """The datagrams to UDP port 320 that went out here."""
        found = []
        try:
            while True:
                found.append(message_of(os.read(self.file, 2048)))
        except BlockingIOError:
            return [octets for octets in found if octets is not None]


class Wire:
    """A link to an interface of this network; what goes over it is written and read at its other end."""

    def __init__(self, name, number, *words):
        self.name, self.number, self.end = name, number, name + "e"
        self.own, self.neighbour = f"10.7.{number}.1", f"10.7.{number}.9"
        run("ip", "link", "add", "name", name, *words, "type", "veth", "peer", "name", self.end)
        run("sysctl", "-qw", f"net.ipv6.conf.{self.end}.disable_ipv6=1")
        self.set_up()
        run("ip", "link", "set", self.end, "up")
        with socket.socket(socket.AF_PACKET, socket.SOCK_RAW) as own:
            own.bind((name, 0))
            self.station = own.getsockname()[4]
        self.socket = socket.socket(socket.AF_PACKET, socket.SOCK_RAW, socket.htons(3))
        self.socket.bind((self.end, 3))
        self.socket.setblocking(False)

    def set_up(self):
        run("ip", "addr", "add", self.own + "/24", "dev", self.name)
        run("ip", "link", "set", self.name, "up")
        run("ip", "neigh", "replace", self.neighbour, "lladdr", STATION.hex(":"), "dev", self.name)

    def put(self, frame):
        self.socket.send(frame)

    def come_in(self, octets, source=None):
        self.put(frame_four(octets, source or self.neighbour))

    def frames(self, wait=0.3):
        """Those that come from the interface within a time, except what this end sent itself."""
        found, end = [], time.monotonic() + wait
        while (left := end - time.monotonic()) > 0:
            if not select.select([self.socket], [], [], left)[0]:
                break
            frame, place = self.socket.recvfrom(65536)
            if place[2] != socket.PACKET_OUTGOING:
                found.append(frame)
        return found

    def sent(self, wait=0.3):
        """The management messages among them, over UDP or Ethernet. Datagrams that the kernel is to take apart are still together here."""
        found = []
        for frame in self.frames(wait):
            octets = message_of(frame) or b""
            while len(octets) > 53:
                size = int.from_bytes(octets[2:4], "big")
                found.append(octets[:size])
                octets = octets[size:]
        return found

    def remove(self):
        self.socket.close()
        run("ip", "link", "del", self.name)
