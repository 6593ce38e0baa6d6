"""Answers that are not what was asked, and who may give one."""

from __future__ import annotations

import os
import resource
import socket
import threading
import time
import unittest
from typing import Callable, List, Optional

import ptpm
from ptpm.asking import carry_out

from . import CLOCK, MANAGER, Folder, run_module

Answers = Callable[[bytes], bytes]


def response(request: bytes, tlv: bytes, kind: int = 1, port: int = 1) -> bytes:
    """A message of a port of the clock that answers a request by what is in a TLV after its length (IEEE 1588-2019, 15.4)."""
    head = bytearray(request[:48])
    head[2:4] = (52 + len(tlv)).to_bytes(2, "big")
    head[20:30], head[34:44], head[46] = bytes.fromhex(CLOCK) + port.to_bytes(2, "big"), request[20:30], 2
    return bytes(head) + kind.to_bytes(2, "big") + len(tlv).to_bytes(2, "big") + tlv


class Way(ptpm.Transport):
    """A way to a clock that answers each request so."""

    def __init__(self, answers: Answers) -> None:  # it has no socket of its own
        self._answers = answers
        self._datagram: Optional[bytes] = None

    def send(self, octets: bytes) -> bool:
        self._datagram = self._answers(octets)
        return True

    def receive(self, until: float) -> Optional[bytes]:
        datagram, self._datagram = self._datagram, None
        if datagram is None:
            time.sleep(max(until - time.monotonic(), 0))
        return datagram


class Full(Way):
    """A way that has no room for the first messages, and on which something else comes in."""

    def __init__(self, answers: Answers, refused: int) -> None:
        super().__init__(answers)
        self._refused = refused

    def send(self, octets: bytes) -> bool:
        if self._refused == 0:
            return super().send(octets)
        self._refused -= 1
        self._datagram = b"\x0d"
        return False


def by(field: bytes) -> Answers:
    return lambda request: response(request, request[52:54] + field)


class AnswersOfOthers(Folder):
    def ask(self, answers: Answers, named: str, value: ptpm.DataField, port: int = 0) -> ptpm.Report:
        with ptpm.Session(ptpm.SessionSettings(MANAGER, CLOCK, 7, attempts=2), wait=0) as session:
            return session.ask(Way(answers), ptpm.Action.SET, named, value, port, timeout=0.05)

    def test_a_set_is_done_if_it_is_answered_by_what_it_asked(self) -> None:
        for field, is_as_asked in ((b"\x64\0", True), (b"\x64\x09", True), (b"\x07\0", False), (b"", False)):
            self.assertEqual((field, self.ask(by(field), "PRIORITY1", 100).is_as_asked), (field, is_as_asked))
        self.assertFalse(self.ask(by(b"\x02ac\0"), "USER_DESCRIPTION", "ab").is_as_asked)
        self.assertTrue(ptpm.get(Way(by(b"\x07\0")), CLOCK, "PRIORITY1").is_as_asked)

    def test_a_set_of_an_earlier_run_too(self) -> None:
        settings = ptpm.SessionSettings(MANAGER, CLOCK, 7)
        session = ptpm.Requests(settings)
        session.begin(ptpm.Action.SET, "PRIORITY1", b"\x64\0")
        later = ptpm.Requests(settings)
        later.restore(session.image())
        self.assertFalse(carry_out(later, Way(by(b"\x07\0")), 1).is_as_asked)

    def test_the_first_message_waits_for_room(self) -> None:
        heard: List[bytes] = []

        def answers(request: bytes) -> bytes:  # each second copy
            heard.append(request)
            return b"" if heard.count(request) == 1 else by(b"\x64\0")(request)

        with ptpm.Session(ptpm.SessionSettings(MANAGER, CLOCK, 7, attempts=3)) as session:
            for refused, issued in ((2, 2), (1, 3)):  # the question is of the first alone
                report = session.ask(Full(answers, refused), ptpm.Action.SET, "PRIORITY1", 100, timeout=0.05)
                self.assertEqual((str(report), session.issued), ("priority1 100", issued))
            with self.assertRaises(ptpm.NoAnswer) as caught:
                session.ask(Full(by(b"\x64\0"), 9), ptpm.Action.SET, "PRIORITY1", 101, timeout=0.01)
            self.assertEqual((str(caught.exception), caught.exception.was_sent), ("no answer to 0 messages", False))
            self.assertEqual((session.is_busy(), session.next_number), (False, 10))

    def test_an_error_from_another_port_is_an_answer(self) -> None:
        def error(request: bytes) -> bytes:
            if request[46] == 0:
                return response(request, request[52:54] + bytes(26), 1, 2)
            return response(request, b"\0\x06" + request[52:54] + bytes(4), 2)

        self.assertEqual(str(self.ask(error, "LOG_SYNC_INTERVAL", 1, 2)), "refused NOT_SUPPORTED")

    def test_a_port_of_a_switch(self) -> None:
        """It is named, answers and refuses, and no other port answers for it."""

        def named(request: bytes) -> bytes:
            return response(request, request[52:54] + (request[54:] or b"\x03\0"), 1, int.from_bytes(request[42:44], "big"))

        def error(request: bytes) -> bytes:
            is_get = request[46] == ptpm.Action.GET
            return named(request) if is_get else response(request, b"\0\x06" + request[52:54] + bytes(4), 2)

        for port in (9, 255, 256, 65534):
            self.assertEqual(ptpm.get(Way(named), CLOCK, "LOG_SYNC_INTERVAL", port).members, {"logSyncInterval": 3})
            self.assertEqual(self.ask(named, "LOG_SYNC_INTERVAL", -2, port).members, {"logSyncInterval": -2})
            self.assertEqual(str(self.ask(error, "LOG_SYNC_INTERVAL", 1, port)), "refused NOT_SUPPORTED")
        for named_port, port in ((20, 1), (20, 21), (300, 1), (300, 255)):
            with self.assertRaises(ptpm.NoAnswer):
                other = lambda request: response(request, request[52:54] + b"\x03\0", 1, port)  # noqa: E731, B023
                ptpm.get(Way(other), CLOCK, "LOG_SYNC_INTERVAL", named_port, attempts=2, timeout=0.02)

    def test_nothing_is_kept_of_a_port_above_255(self) -> None:
        """A file or an image would name port 255 for it."""
        sent: List[bytes] = []
        path, settings = f"{self.folder}/numbers", ptpm.SessionSettings(MANAGER, CLOCK, 7)
        with ptpm.SessionFile(MANAGER, CLOCK, path) as file, ptpm.Session(settings, file, wait=0) as session:
            with self.assertRaisesRegex(ValueError, "port 300: a request to a port above 255 has no session"):
                session.ask(Way(lambda request: sent.append(request) or request), ptpm.Action.SET, "LOG_SYNC_INTERVAL", 1, 300)
        self.assertEqual((sent, os.path.exists(path)), ([], False))
        requests = ptpm.Requests(settings)
        requests.begin(ptpm.Action.GET, "LOG_SYNC_INTERVAL", b"", 300)
        self.assertRaisesRegex(ValueError, "port 300", requests.image)
        self.assertTrue(requests.is_busy())
        requests.give_up()
        self.assertEqual(len(requests.image()), len(ptpm.Requests(settings).image()))

    def test_the_command_line_asks_a_port_above_255_in_no_session(self) -> None:
        with socket.socket(socket.AF_UNIX, socket.SOCK_DGRAM) as switch:
            path, asked = f"{self.folder}/switch", []
            switch.bind(path)

            def answer() -> None:
                request, peer = switch.recvfrom(2048)
                asked.append((request[20:30], request[42:44]))
                switch.sendto(response(request, request[52:54] + b"\x01\0", 1, 300), peer)

            for words in (["set", "LOG_SYNC_INTERVAL", "1"], ["get", "LOG_SYNC_INTERVAL"]):
                clock = threading.Thread(target=answer)
                clock.start()
                ran = run_module("-u", path, "-m", MANAGER, "-T", CLOCK, "-p", "300", *words)
                clock.join()
                self.assertEqual((ran.returncode, ran.stdout, ran.stderr), (0, "logSyncInterval 1\n", ""))
        manager = bytes.fromhex(MANAGER.replace("/", "000"))
        self.assertEqual([port for _, port in asked], [b"\1\x2c"] * 2)
        self.assertEqual(([who == manager for who, _ in asked], asked[1][0][8] >= 0xF0), ([True, False], True))
        self.assertFalse(os.path.exists(f"{self.folder}/state"))
        for words, why in ((["-k", f"{self.folder}/numbers"], "--numbers: a request to a port above 255 has no session"),
                           (["--give-up"], "--give-up: this request has no session")):
            ran = run_module("-u", path, *words, "-T", CLOCK, "-p", "300", "get", "LOG_SYNC_INTERVAL")
            self.assertEqual((ran.returncode, ran.stdout, ran.stderr), (2, "", f"ptpm: {why}\n"))

    def test_the_command_line(self) -> None:
        path = f"{self.folder}/liar"
        with socket.socket(socket.AF_UNIX, socket.SOCK_DGRAM) as liar:
            liar.bind(path)

            def answer() -> None:
                request, peer = liar.recvfrom(2048)
                liar.sendto(by(b"\x07\0")(request), peer)

            clock = threading.Thread(target=answer)
            clock.start()
            ran = run_module("-u", path, "set", "PRIORITY1", "100", "--target", CLOCK)
            clock.join()
        said = "ptpm: the answer is not what was asked: priority1 100\n"
        self.assertEqual((ran.returncode, ran.stdout, ran.stderr), (5, "priority1 7\n", said))

    def test_a_socket_of_a_high_number_is_read(self) -> None:
        least, most = resource.getrlimit(resource.RLIMIT_NOFILE)
        if most != resource.RLIM_INFINITY and most < 2048:
            self.skipTest("no such number may be had")
        resource.setrlimit(resource.RLIMIT_NOFILE, (2048, most))
        self.addCleanup(resource.setrlimit, resource.RLIMIT_NOFILE, (least, most))
        held = [os.open("/dev/null", os.O_RDONLY) for _ in range(1100)]
        try:
            path = f"{self.folder}/clock"
            with socket.socket(socket.AF_UNIX, socket.SOCK_DGRAM) as clock:
                clock.bind(path)
                with ptpm.UnixTransport(path) as way:
                    self.assertGreater(way._socket.fileno(), 1023)
                    self.assertTrue(way.send(b"asked"))
                    clock.sendto(b"answered", clock.recvfrom(100)[1])
                    self.assertEqual(way.receive(time.monotonic() + 1), b"answered")
        finally:
            for number in held:
                os.close(number)


if __name__ == "__main__":
    unittest.main()
