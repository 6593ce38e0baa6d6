"""The manager of hosts/tests/servo."""
import random
import socket
import struct
import threading
import time

from trying import inside

GROUP, PRIORITY2, GET, SET = "224.0.1.129", 0x2006, 0, 1
GETS = [0x2000, 0x2001, 0x2002, 0x2004, 0x2005, PRIORITY2, 0xC000]


def socket_of(name, address):
    """A socket in that network namespace, which asks and hears at the group."""
    with inside(name):
        asker = socket.socket(socket.AF_INET, socket.SOCK_DGRAM)
        asker.setsockopt(socket.SOL_SOCKET, socket.SO_REUSEADDR, 1)
        asker.bind((GROUP, 320))
        asker.setsockopt(socket.IPPROTO_IP, socket.IP_ADD_MEMBERSHIP, socket.inet_aton(GROUP) + socket.inet_aton(address))
    asker.setsockopt(socket.IPPROTO_IP, socket.IP_MULTICAST_IF, socket.inet_aton(address))
    asker.setsockopt(socket.IPPROTO_IP, socket.IP_MULTICAST_LOOP, 0)
    return asker


class Manager(threading.Thread):
    """55 times a second it reads as manager 2, or sets PRIORITY2 as manager 1; a SET without an answer is sent again after 100 ms. It drops 20% of
    its requests and of the answers, and sends 10% of the requests twice."""

    def __init__(self, name, address, identity):
        super().__init__(daemon=True)
        self.socket, self.identity, self.chance = socket_of(name, address), bytes.fromhex(identity), random.Random(1)
        self.gets, self.answers, self.sent, self.values, self.refused, self.under_way, self.is_ended = 0, 0, 0, [], 0, None, False

    def send(self, manager, number, action, managed, value=b""):
        octets = b"\x0d\x02" + struct.pack(">H", 54 + len(value)) + bytes(16) + bytes.fromhex("020000fffe000010")
        octets += struct.pack(">HHBb", manager, number % 65536, 4, 127) + self.identity + b"\xff\xff" + bytes([0, 0, action, 0])
        octets += struct.pack(">HHH", 1, 2 + len(value), managed) + value
        for _ in range(2 if self.chance.random() < 0.1 else 1):
            if self.chance.random() >= 0.2:
                self.socket.sendto(octets, (GROUP, 320))
                self.sent += 1

    def send_set(self):
        self.under_way = time.monotonic()
        self.send(1, len(self.values), SET, PRIORITY2, bytes([self.values[-1], 0]))

    def hear(self, until):
        while time.monotonic() < until:
            self.socket.settimeout(max(until - time.monotonic(), 0.0001))
            try:
                answer = self.socket.recv(2048)
            except socket.timeout:
                return
            if len(answer) < 56 or answer[0] & 15 != 13 or self.chance.random() < 0.2:
                continue
            number, manager, kind = (struct.unpack_from(">H", answer, at)[0] for at in (30, 42, 48))
            self.answers += manager == 2
            if manager == 1 and self.under_way and number == len(self.values) % 65536:
                self.refused += kind != 1 or answer[54] != self.values[-1]
                self.under_way = None

    def run(self):
        turn, at = 0, time.monotonic()
        while not self.is_ended or self.under_way:
            turn, at = turn + 1, at + 1 / 55
            if turn % 11 == 0 and not self.under_way and not self.is_ended:
                self.values.append(len(self.values) % 200 + 1)
                self.send_set()
            elif self.under_way and time.monotonic() > self.under_way + 0.1:
                self.send_set()
            elif not self.is_ended:
                self.gets += 1
                self.send(2, self.gets, GET, self.chance.choice(GETS))
            self.hear(at)
