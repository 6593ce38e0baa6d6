"""Sessions over the agent of hosts/: what is reported, and what their file has. `make -C hosts` builds the programs."""

from __future__ import annotations

import asyncio
import contextlib
import os
import socket
import subprocess
import sys
import threading
import time
import unittest
import unittest.mock
import zlib
from contextlib import redirect_stderr, redirect_stdout
from io import StringIO
from pathlib import Path
from typing import Iterator, List, Optional

import ptpm
import ptpm.aio
from ptpm.__main__ import Task
from ptpm.__main__ import _parser as command_line
from ptpm.session_file import usual_path

from . import CLOCK, MANAGER, TOP, Folder, run_module


HEAD = bytes.fromhex("01 02 02 01 000000fffe000010 0001 0001 01 6e 00")
STEP = bytes.fromhex("02 aabbccfffeddee01 00 06 0000 2005 0002 8000 0002 0a00")
BEGUN = bytes.fromhex("03 0000 0007 0000000069559b00")
LET_GO = bytes.fromhex("05 0000 0000000069559b00")
END = bytes.fromhex("08 05 0000 0000000069559b00")


def journal_of(*records: bytes) -> bytes:
    """The octets of the journal of an apply (crates/ptpm_journal/specs)."""
    octets, crc = b"PTPJ", bytes(4)
    for record in records:
        record = len(record).to_bytes(2, "big") + record
        crc = zlib.crc32(crc + record).to_bytes(4, "big")
        octets += record + crc
    return octets


class Both(ptpm.Transport):
    """A way to two clocks of one identity."""

    def __init__(self, *ways: ptpm.Transport) -> None:  # it has no socket of its own
        self._ways = ways

    def send(self, octets: bytes) -> bool:
        return all([way.send(octets) for way in self._ways])

    def receive(self, until: float) -> Optional[bytes]:
        while time.monotonic() < until:
            for way in self._ways:
                datagram = way.receive(time.monotonic() + 0.01)
                if datagram is not None:
                    return datagram
        return None


class Noted(ptpm.Transport):
    """A way of which it is noted what comes in."""

    def __init__(self, way: ptpm.Transport) -> None:  # it has no socket of its own
        self._way = way
        self.answers: List[bytes] = []

    def close(self) -> None:
        """Whoever made the way closes it."""

    def send(self, octets: bytes) -> bool:
        return self._way.send(octets)

    def receive(self, until: float) -> Optional[bytes]:
        datagram = self._way.receive(until)
        if datagram is not None:
            self.answers.append(datagram)
        return datagram


class Losing(ptpm.Transport):
    """A way on which each SET is lost. Once one is, what others were answered comes in."""

    def __init__(self, way: ptpm.Transport, answers: List[bytes]) -> None:  # it has no socket of its own
        self._way, self._answers, self._has_lost = way, answers, False

    def send(self, octets: bytes) -> bool:
        is_set = octets[46] == ptpm.Action.SET
        self._has_lost = self._has_lost or is_set
        return is_set or self._way.send(octets)

    def receive(self, until: float) -> Optional[bytes]:
        return self._answers.pop() if self._has_lost and self._answers else self._way.receive(until)


class Failing(ptpm.Transport):
    """A way that fails after so many messages."""

    def __init__(self, way: ptpm.Transport, left: int) -> None:  # it has no socket of its own
        self._way, self._left = way, left

    def send(self, octets: bytes) -> bool:
        if self._left == 0:
            raise OSError("there is no way")
        self._left -= 1
        return self._way.send(octets)

    def receive(self, until: float) -> Optional[bytes]:
        return self._way.receive(until)


@unittest.skipUnless((TOP / "hosts/clock").exists(), "hosts/clock is not built")
class Asking(Folder):
    def setUp(self) -> None:
        super().setUp()
        self.path = self.start_clock("-m", MANAGER, CLOCK)
        self.way = ptpm.UnixTransport(self.path)
        self.addCleanup(self.way.close)

    def session(self, first: Optional[int], attempts: int = 3) -> ptpm.Session:
        return ptpm.Session(ptpm.SessionSettings(MANAGER, CLOCK, first, attempts=attempts), wait=0)

    @contextlib.contextmanager
    def kept(self, attempts: int = 30) -> Iterator[ptpm.Session]:
        """A session that its usual file keeps."""
        settings = ptpm.SessionSettings(MANAGER, CLOCK, attempts=attempts)
        with ptpm.SessionFile(MANAGER, CLOCK) as file, ptpm.Session(settings, file, wait=0) as session:
            yield session

    def ask(self, first: Optional[int], value: int, timeout: float = 1) -> ptpm.Report:
        with self.session(first) as session:
            return session.ask(self.way, ptpm.Action.SET, "PRIORITY1", value, timeout=timeout)

    def test_a_get_and_a_survey(self) -> None:
        report = ptpm.get(self.way, "aabbcc.fffe.ddee01", "PRIORITY1")
        self.assertEqual(report.members, {"priority1": 128})
        [report] = ptpm.survey(self.way, "DEFAULT_DATA_SET", timeout=0.05)
        self.assertEqual((str(report.source), report.members["numberPorts"]), (f"{CLOCK}/1", 1))

    def test_an_answer_to_a_survey_is_none_to_a_session(self) -> None:
        """The SET is lost, and has the number of the survey, and the value that the clock has."""
        def asks_by_words(way: ptpm.Transport) -> None:
            words = ["-u", self.path, "-m", MANAGER, "-t", "50", "survey", "PRIORITY1"]
            with unittest.mock.patch("ptpm.__main__.UnixTransport", return_value=way), redirect_stdout(StringIO()):
                self.assertEqual(Task(command_line().parse_args(words)).ask(), 0)

        for first, asks in ((100, lambda way: list(ptpm.survey(way, "PRIORITY1", timeout=0.05))), (200, asks_by_words)):
            noted = Noted(self.way)
            with unittest.mock.patch.object(sys.modules["ptpm.survey"], "draw", return_value=first + 1):
                asks(noted)
            self.assertEqual({answer[30:32] for answer in noted.answers}, {(first + 1).to_bytes(2, "big")})
            with self.session(first) as session, self.assertRaises(ptpm.NoAnswer) as caught:
                session.ask(Losing(self.way, noted.answers), ptpm.Action.SET, "PRIORITY1", 128, timeout=0.05)
            self.assertEqual((caught.exception.was_sent, noted.answers), (True, []))

    def test_a_time_below_0_is_refused(self) -> None:
        """Nothing is sent, and the session stays as it was."""
        way = Failing(self.way, 0)
        with self.session(700) as session:
            for seconds in (-1, -0.001, float("nan")):
                self.assertRaises(ValueError, self.session_that_waits, seconds)
                for call in (
                    lambda: ptpm.get(way, CLOCK, "PRIORITY1", timeout=seconds),
                    lambda: list(ptpm.survey(way, "PRIORITY1", timeout=seconds)),
                    lambda: session.ask(way, ptpm.Action.GET, "PRIORITY1", timeout=seconds),
                    lambda: asyncio.run(ptpm.aio.receive(way, seconds)),
                ):
                    self.assertRaisesRegex(ValueError, f"timeout {seconds}: it takes seconds, not below 0", call)
            self.assertFalse(session.is_busy())

    @staticmethod
    def session_that_waits(seconds: float) -> ptpm.Session:
        return ptpm.Session(ptpm.SessionSettings(MANAGER, CLOCK), wait=seconds)

    def test_a_session_has_a_port_of_a_manager(self) -> None:
        settings = ptpm.SessionSettings("0011223344556677/61440", CLOCK)
        self.assertRaisesRegex(ValueError, "the port has to be below 61440", ptpm.Session, settings)

    def test_nothing_that_was_kept_is_reported(self) -> None:
        self.assertEqual(self.ask(100, 50).members, {"priority1": 50})      # numbers 100 and 101
        self.assertEqual(self.ask(102, 60).members, {"priority1": 60})      # numbers 102 and 103
        for first in (100, 101, 102, 103):      # 103 would be answered by what the clock kept of `60`
            with self.assertRaises(ptpm.NoAnswer) as caught:
                self.ask(first, 60, 0.1)
            self.assertFalse(caught.exception.was_sent)
        self.assertEqual(ptpm.get(self.way, CLOCK, "PRIORITY1").members, {"priority1": 60})

    def test_a_session_without_a_number_finds_one(self) -> None:
        number = 0
        for value in range(8):
            self.ask(number, value)
            with self.session(None) as session:
                report = session.ask(self.way, ptpm.Action.SET, "PRIORITY1", 100 + value, timeout=0.1)
                self.assertEqual(report.members, {"priority1": 100 + value})
                number = (session.next_number + 20000) % 65536

    def test_requests_of_one_session_are_numbered_on(self) -> None:
        with self.session(65534) as session:
            for value in (1, 2, 3):
                report = session.ask(self.way, ptpm.Action.SET, "PRIORITY2", value, timeout=1)
                self.assertEqual(report.members, {"priority2": value})
            report = session.ask(self.way, ptpm.Action.SET, "LOG_SYNC_INTERVAL", -9, 1, timeout=1)
            self.assertEqual(str(report), "refused WRONG_VALUE")
            self.assertEqual(session.next_number, 3)
            self.assertRaisesRegex(ptpm.Error, "NEEDS_PORT", session.ask, self.way, ptpm.Action.GET, "PORT_DATA_SET")

    def test_threads_that_ask_in_one_session_take_turns(self) -> None:
        wrong: List[object] = []

        def ask(session: ptpm.Session, first: int) -> None:
            for value in range(first, first + 30):
                try:
                    members = session.ask(self.way, ptpm.Action.SET, "PRIORITY1", value, timeout=1).members
                except ptpm.Error as error:
                    members = {"refused": error}
                if members != {"priority1": value}:
                    wrong.append((value, members))

        with self.session(100) as session:
            threads = [threading.Thread(target=ask, args=(session, first)) for first in (0, 100)]
            for thread in threads:
                thread.start()
            for thread in threads:
                thread.join()
        self.assertEqual(wrong, [])

    def test_a_clock_that_is_not_there_is_told_apart(self) -> None:
        with ptpm.Session(ptpm.SessionSettings(MANAGER, "0102030405060708", 1, attempts=2)) as session:
            with self.assertRaisesRegex(ptpm.NoAnswer, "no read either"):
                session.ask(self.way, ptpm.Action.SET, "PRIORITY1", 1, timeout=0.05)

    def test_an_unanswered_request_goes_on(self) -> None:
        with self.session(7, attempts=1) as session:
            session.ask(self.way, ptpm.Action.GET, "PRIORITY1", timeout=5)
            session.retune(4)       # where the clock is not
            with self.assertRaises(ptpm.NoAnswer) as caught:
                session.ask(self.way, ptpm.Action.SET, "PRIORITY1", 9, timeout=0.05)
            self.assertTrue(caught.exception.was_sent)
            self.assertRaisesRegex(ptpm.Error, "BUSY", session.ask, self.way, ptpm.Action.GET, "PRIORITY1")
            session.retune(0)
            self.assertEqual(session.go_on(self.way).members, {"priority1": 9})

    def test_the_file_is_that_of_ptpm_manage(self) -> None:
        for value, asks in ((10, self.ask_with_file), (11, self.ask_by_manage), (12, self.ask_with_file), (13, self.ask_by_manage)):
            self.assertEqual(asks(value), value)
        with ptpm.SessionFile(MANAGER, CLOCK) as file:
            kept = ptpm.Session(ptpm.SessionSettings(MANAGER, CLOCK), file)
        self.assertFalse(kept.is_under_way)
        with self.session((kept.next_number - 1) % 65536) as session, self.assertRaises(ptpm.NoAnswer):
            session.ask(self.way, ptpm.Action.GET, "PRIORITY1", timeout=0.05)

    def ask_with_file(self, value: int) -> object:
        with self.kept() as session:
            return session.ask(self.way, ptpm.Action.SET, "PRIORITY1", value, timeout=1).members["priority1"]

    def manage(self, *words: str) -> "subprocess.CompletedProcess[str]":
        command = [str(TOP / "hosts/manage"), "-u", self.path, "-m", MANAGER, "-w", "0", "--target", CLOCK, *words]
        return subprocess.run(command, capture_output=True, text=True, check=False)

    def ask_by_manage(self, value: int) -> object:
        return int(self.manage("set", "PRIORITY1", str(value)).stdout.split()[1])

    def leave(self, value: Optional[int], domain: int = 0, action: int = ptpm.Action.SET, named: str = "PRIORITY1") -> None:
        """A session that ends before its request has an answer: nobody reads what is sent."""
        with socket.socket(socket.AF_UNIX, socket.SOCK_DGRAM) as nobody:
            nobody.bind(f"{self.folder}/nobody")
            with ptpm.SessionFile(MANAGER, CLOCK) as file, ptpm.UnixTransport(f"{self.folder}/nobody") as way:
                with ptpm.Session(ptpm.SessionSettings(MANAGER, CLOCK, attempts=2), file, wait=0) as session:
                    session.ask(self.way, ptpm.Action.GET, "PRIORITY1", timeout=1)
                    session.retune(domain)
                    with self.assertRaises(ptpm.NoAnswer) as caught:
                        session.ask(way, action, named, value, timeout=0.05)
        os.unlink(f"{self.folder}/nobody")
        self.assertTrue(caught.exception.was_sent)

    def test_a_request_without_an_answer_is_finished(self) -> None:
        self.leave(21)
        with self.kept() as session:
            self.assertTrue(session.is_under_way)
            report = session.ask(self.way, ptpm.Action.GET, "PRIORITY1", timeout=1)
            self.assertEqual((str(session.earlier), str(report)), ("priority1 21", "priority1 21"))
        self.leave(22)
        ran = self.manage("get", "PRIORITY1")
        self.assertEqual(ran.stdout, "priority1 22\n")
        self.assertIn("set PRIORITY1 of an earlier run", ran.stderr)
        self.leave(23)
        with self.kept() as session:
            session.let_go()
            self.assertEqual(str(session.ask(self.way, ptpm.Action.GET, "PRIORITY1", timeout=1)), "priority1 22")
            self.assertIsNone(session.earlier)

    def test_a_request_of_an_earlier_run_goes_on(self) -> None:
        with ptpm.UnixTransport(self.start_clock("-d", "4", "-m", MANAGER, CLOCK, name="beside")) as beside:
            self.leave(27, 4)
            with self.kept() as session:
                with self.assertRaises(ptpm.NoAnswer) as caught:
                    session.go_on(self.way, 1, timeout=0.05)
                self.assertEqual((caught.exception.was_sent, session.is_under_way), (True, True))
                self.assertEqual(str(session.go_on(beside)), "priority1 27")
                self.assertEqual((str(session.earlier), session.is_under_way), ("priority1 27", False))
                self.assertEqual(str(session.ask(self.way, ptpm.Action.SET, "PRIORITY1", 28, timeout=1)), "priority1 28")
        self.leave(29, 4)
        with self.kept() as session:
            session.give_up()
            self.assertFalse(session.is_under_way)
            self.assertEqual(str(session.ask(self.way, ptpm.Action.GET, "PRIORITY1", timeout=1)), "priority1 28")

    def goes_on(self, way: ptpm.Transport) -> "tuple[str, str]":
        """What came of the request of an earlier run, and of a GET in domain 0 after it."""
        with self.kept(2) as session:
            report = session.ask(way, ptpm.Action.GET, "PRIORITY1", timeout=0.5)
            return str(session.earlier), str(report)

    def test_a_request_is_finished_in_the_domain_in_which_it_was_asked(self) -> None:
        self.leave(24, 4)
        self.assertRaisesRegex(ptpm.NoAnswer, "request in domain 4: the request itself was not sent", self.goes_on, self.way)
        ran = run_module("-u", self.path, "-m", MANAGER, "-a", "2", "-t", "20", "get", "PRIORITY1", "--target", CLOCK)
        self.assertEqual((ran.returncode, ran.stdout), (3, ""))
        self.assertRegex(ran.stderr, "in domain 4: .* --give-up abandons the earlier request, or --domain 4 sends it in that domain\n$")
        self.assertEqual(ptpm.get(self.way, CLOCK, "PRIORITY1").members, {"priority1": 128})
        with ptpm.UnixTransport(self.start_clock("-d", "4", "-m", MANAGER, CLOCK, name="beside")) as beside:
            both = Both(self.way, beside)
            self.assertEqual(self.goes_on(both), ("priority1 24", "priority1 128"))
            self.leave(25, 4)
            with self.kept() as session:
                session.let_go()
                self.assertEqual(str(session.ask(both, ptpm.Action.SET, "PRIORITY1", 26, timeout=1)), "priority1 26")
            self.leave(None, 4, ptpm.Action.GET)  # it changes nothing, so it is asked in this session's domain
            self.assertEqual(self.goes_on(self.way), ("priority1 26", "priority1 26"))
            self.leave(0, 4, named="DOMAIN")  # the clock may be there by now
            self.assertEqual(self.goes_on(self.way), ("domainNumber 0", "priority1 26"))
            self.assertEqual(ptpm.get(beside, CLOCK, "PRIORITY1", domain=4).members, {"priority1": 24})

    def test_an_answer_that_was_not_reported_comes_again(self) -> None:
        with self.assertRaises(BrokenPipeError), self.kept() as session:
            session.ask(self.way, ptpm.Action.SET, "PRIORITY1", 31, timeout=1)
            raise BrokenPipeError
        with self.kept() as session:
            session.ask(self.way, ptpm.Action.GET, "PRIORITY1", timeout=1)
            self.assertEqual(str(session.earlier), "priority1 31")

    def test_a_file_of_another_session_is_refused(self) -> None:
        path = f"{self.folder}/session"
        image = ptpm.Requests(ptpm.SessionSettings(MANAGER, CLOCK, 7)).image()
        other = ptpm.Requests(ptpm.SessionSettings(MANAGER, "0102030405060708", 7)).image()
        for octets, why in (
            (ptpm.sealed(other, 1), "OTHER_SESSION"),
            (image, "DAMAGED"),
            (image[:-1], "DAMAGED"),
            (image + b"\0", "DAMAGED"),
            (b"7\n", "NOT_AN_IMAGE"),
            (b"", "NOT_AN_IMAGE"),
        ):
            Path(path).write_bytes(octets)
            with self.assertRaisesRegex(ptpm.Error, why), ptpm.SessionFile(MANAGER, CLOCK, path) as held:
                ptpm.Session(ptpm.SessionSettings(MANAGER, CLOCK), held)
            self.assertEqual(Path(path).read_bytes(), octets)
        os.unlink(path)
        os.symlink("elsewhere", path)
        self.assertRaisesRegex(ptpm.SessionFileError, "link", ptpm.SessionFile, MANAGER, CLOCK, path)
        os.mkdir(f"{path}-2")
        self.assertRaisesRegex(ptpm.SessionFileError, "it is not a regular file", ptpm.SessionFile, MANAGER, CLOCK, f"{path}-2")

    def refusal(self, path: str, octets: bytes) -> Optional[str]:
        """What is said of a file with these octets; None if a session goes on from it."""
        Path(path).write_bytes(octets)
        try:
            with ptpm.SessionFile(MANAGER, CLOCK, path) as held:
                ptpm.Session(ptpm.SessionSettings(MANAGER, CLOCK), held)
        except ptpm.Error as error:
            self.assertEqual(Path(path).read_bytes(), octets)  # it stays
            return str(error)
        return None

    def test_a_file_has_a_seal(self) -> None:
        path, settings = f"{self.folder}/session", ptpm.SessionSettings(MANAGER, CLOCK, 7)
        self.assertIsNone(self.refusal(path, ptpm.sealed(ptpm.Requests(settings).image(), 0)))
        with ptpm.SessionFile(MANAGER, CLOCK, path) as file, ptpm.Session(settings, file) as session:
            session.ask(self.way, ptpm.Action.GET, "PRIORITY1", timeout=1)
        self.assertEqual(self.saved(path), 3)
        words = [str(TOP / "hosts/manage"), "-u", self.path, "-m", MANAGER, "-k", path, "--target", CLOCK, "get", "PRIORITY1"]
        subprocess.run(words, stdout=subprocess.DEVNULL, check=True)
        self.assertEqual(self.saved(path), 6)
        whole = Path(path).read_bytes()
        self.assertIsNone(self.refusal(path, whole))
        why = f"DAMAGED: {path}: octets of the session were lost or changed; without it a new session begins"
        for place, octet in enumerate(whole):
            for bit in range(8):
                changed = whole[:place] + bytes([octet ^ 1 << bit]) + whole[place + 1 :]
                self.assertEqual(self.refusal(path, changed), f"NOT_AN_IMAGE: {path}" if place < 4 else why)
        for size in range(len(whole)):
            self.assertEqual(self.refusal(path, whole[:size]), f"NOT_AN_IMAGE: {path}" if size < 12 else why)
        for octets in (whole + b"\0", whole + whole, whole + whole[-16:]):
            self.assertEqual(self.refusal(path, octets), why)

    def saved(self, path: str) -> int:
        """How often a file was saved, by its seal, which is right."""
        octets = Path(path).read_bytes()
        self.assertEqual((octets[-16:-12], octets[-4:]), (b"ptps", zlib.crc32(octets[:-4]).to_bytes(4, "big")))
        return int.from_bytes(octets[-12:-4], "big")

    def test_a_file_has_one_turn_at_a_time(self) -> None:
        path = f"{self.folder}/session"
        Path(path).write_bytes(ptpm.sealed(ptpm.Requests(ptpm.SessionSettings(MANAGER, CLOCK, 7)).image(), 0))
        os.chmod(path, 0o640)
        with ptpm.SessionFile(MANAGER, CLOCK, path) as file:
            os.symlink(self.folder, f"{self.folder}/link")
            for name in (path, f"{self.folder}/link/session"):
                self.assertRaisesRegex(ptpm.SessionFileError, "holds it", ptpm.SessionFile, MANAGER, CLOCK, name)
            words = [str(TOP / "hosts/manage"), "-u", self.path, "-m", MANAGER, "-k", path, "--target", CLOCK, "get", "PRIORITY1"]
            with subprocess.Popen(words, stdout=subprocess.PIPE, text=True) as waiting:
                self.assertRaises(subprocess.TimeoutExpired, waiting.wait, 0.3)
                with ptpm.Session(ptpm.SessionSettings(MANAGER, CLOCK), file) as session:
                    session.ask(self.way, ptpm.Action.GET, "PRIORITY1", timeout=1)  # numbers 7 and 8
                    self.assertEqual(session.next_number, 9)
                file.close()
                self.assertEqual(waiting.communicate()[0], "priority1 128\n")
        with ptpm.SessionFile(MANAGER, CLOCK, path) as file:
            self.assertEqual(ptpm.Session(ptpm.SessionSettings(MANAGER, CLOCK), file).next_number, 11)
        self.assertEqual(os.stat(path).st_mode & 0o777, 0o640)

    def test_a_second_interface_or_domain_is_refused(self) -> None:
        for words in (["-i", "near0", "-i", "lo"], ["-d", "0", "-d", "1"]):
            with redirect_stderr(StringIO()) as said, self.assertRaises(SystemExit) as ended:
                command_line().parse_args(["get", "PRIORITY1", *words])
            self.assertEqual(ended.exception.code, 2)
            self.assertIn("it is given twice", said.getvalue())

    def test_a_file_that_an_apply_has_marked_is_refused(self) -> None:
        path, journal = f"{self.folder}/session", f"{self.folder}/apply/20261127T170000.journal"
        os.mkdir(f"{self.folder}/apply")
        Path(journal).write_bytes(journal_of(HEAD, STEP))
        Path(f"{path}.apply").write_text(f"{journal}\n", encoding="utf-8")
        for _ in range(2):
            with self.assertRaises(ptpm.OpenApplyError) as caught:
                ptpm.SessionFile(MANAGER, CLOCK, path)
            self.assertEqual(caught.exception.journal, journal)
        why = f"nothing was asked: the apply of {journal} is open: ptpm-manage resume goes on with it"
        self.assertEqual(str(caught.exception), why)
        ran = run_module("-u", self.path, "-m", MANAGER, "-k", path, "-T", CLOCK, "set", "PRIORITY1", "1")
        self.assertEqual((ran.returncode, ran.stdout, ran.stderr), (2, "", f"ptpm: {why}\n"))
        self.assertEqual([name for name in sorted(os.listdir(self.folder)) if name.startswith("session")], ["session.apply"])
        os.unlink(f"{path}.apply")
        os.mkdir(f"{path}.apply")
        with self.assertRaisesRegex(ptpm.OpenApplyError, "session.apply: it can't be read: an apply may be open") as caught:
            ptpm.SessionFile(MANAGER, CLOCK, path)
        self.assertIsNone(caught.exception.journal)
        os.rmdir(f"{path}.apply")
        with ptpm.SessionFile(MANAGER, CLOCK, path) as file:
            self.assertIsNone(file.octets)
        self.assertEqual(ptpm.get(self.way, CLOCK, "PRIORITY1").members, {"priority1": 128})

    def test_another_file_is_refused_too_while_an_apply_is_open(self) -> None:
        journal = f"{self.folder}/one.journal"
        Path(journal).write_bytes(journal_of(HEAD, STEP))
        with unittest.mock.patch.dict(os.environ, {"XDG_STATE_HOME": self.folder}):
            os.mkdir(f"{self.folder}/ptpm")
            with open(f"{usual_path(MANAGER, CLOCK)}.apply", "w", encoding="utf-8") as mark:
                mark.write(f"{journal}\n")
            with self.assertRaises(ptpm.OpenApplyError):
                ptpm.SessionFile(MANAGER, CLOCK, f"{self.folder}/another")
            moved = f"{self.folder}/ptpm/apply/one.journal"
            os.renames(journal, moved)
            with self.assertRaises(ptpm.OpenApplyError) as caught:
                ptpm.SessionFile(MANAGER, CLOCK, f"{self.folder}/another")
            self.assertEqual(caught.exception.journal, moved)
            os.unlink(moved)
            with ptpm.SessionFile(MANAGER, CLOCK, f"{self.folder}/another") as other:
                self.assertIsNone(other.octets)
            self.assertTrue(os.path.exists(mark.name))

    def test_the_mark_of_an_apply_that_has_ended_is_removed(self) -> None:
        path, journal, mark = (f"{self.folder}/{name}" for name in ("session", "the.journal", "session.apply"))
        given_up = journal_of(HEAD, STEP, BEGUN, LET_GO, END)
        cases = [(None, False), (journal_of(HEAD, STEP), True), (given_up, False), (given_up + b"\0\x10\6", False), (given_up[:-1], True),
                 (given_up[:20] + b"x" + given_up[21:], True), (b'00 {"version":1}\n', True)]
        for octets, is_open in cases:
            for name, content in ((journal, octets), (mark, f"{journal}\n".encode())):
                if content is not None:
                    Path(name).write_bytes(content)
            if is_open:
                self.assertRaises(ptpm.OpenApplyError, ptpm.SessionFile, MANAGER, CLOCK, path)
            else:
                ptpm.SessionFile(MANAGER, CLOCK, path).close()
            self.assertEqual(os.path.exists(mark), is_open)

    def test_a_file_keeps_one_session_at_a_time(self) -> None:
        settings = ptpm.SessionSettings(MANAGER, CLOCK)
        with ptpm.SessionFile(MANAGER, CLOCK) as file:
            with ptpm.Session(settings, file, wait=0) as session:
                self.assertEqual(str(session.ask(self.way, ptpm.Action.SET, "PRIORITY1", 41, timeout=1)), "priority1 41")
                self.assertRaisesRegex(ptpm.SessionFileError, "it keeps another session", ptpm.Session, settings, file)
                self.assertEqual(str(session.ask(self.way, ptpm.Action.SET, "PRIORITY1", 42, timeout=1)), "priority1 42")
            with self.assertRaises(BrokenPipeError), ptpm.Session(settings, file) as session:
                raise BrokenPipeError
            with ptpm.Session(settings, file) as session:
                self.assertEqual(str(session.ask(self.way, ptpm.Action.GET, "PRIORITY1", timeout=1)), "priority1 42")

    def test_no_file_is_left_of_a_clock_that_is_not_there(self) -> None:
        with ptpm.SessionFile(MANAGER, "0102030405060708", f"{self.folder}/session") as file:
            settings = ptpm.SessionSettings(MANAGER, "0102030405060708", attempts=1)
            with ptpm.Session(settings, file, wait=0) as session, self.assertRaises(ptpm.NoAnswer):
                session.ask(self.way, ptpm.Action.GET, "PRIORITY1", timeout=0.05)
        self.assertEqual([name for name in os.listdir(self.folder) if name.startswith("session")], [])

    def test_a_request_that_did_not_leave_is_taken_back(self) -> None:
        settings = ptpm.SessionSettings(MANAGER, CLOCK, attempts=2)
        with ptpm.SessionFile(MANAGER, CLOCK) as file:
            session = ptpm.Session(settings, file, wait=0)
            with self.assertRaises(OSError):  # the question leaves, and the SET does not
                session.ask(Failing(self.way, 1), ptpm.Action.SET, "PRIORITY1", 100, timeout=1)
            number = session.next_number
            self.assertFalse(session.is_busy())
        with self.kept(2) as session:
            self.assertEqual((session.is_under_way, session.next_number), (False, number))
            session.ask(self.way, ptpm.Action.SET, "PRIORITY2", 7, timeout=1)
        self.assertEqual(ptpm.get(self.way, CLOCK, "PRIORITY1").members, {"priority1": 128})

    def test_what_can_not_be_saved_is_not_sent(self) -> None:
        full = OSError(28, "No space left on device")
        with ptpm.SessionFile(MANAGER, CLOCK) as file, ptpm.Session(ptpm.SessionSettings(MANAGER, CLOCK), file, wait=0) as session:
            session.ask(self.way, ptpm.Action.GET, "PRIORITY1", timeout=1)
            for saves in ([full], [unittest.mock.DEFAULT, full]):  # without the GET; with the SET
                with unittest.mock.patch.object(file, "write", wraps=file.write, side_effect=saves), self.assertRaises(OSError):
                    session.ask(self.way, ptpm.Action.SET, "PRIORITY1", 100, timeout=1)
                self.assertFalse(session.is_busy())
                self.assertEqual(ptpm.get(self.way, CLOCK, "PRIORITY1").members, {"priority1": 128})
            self.assertEqual(str(session.ask(self.way, ptpm.Action.SET, "PRIORITY1", 101, timeout=1)), "priority1 101")

    def test_a_question_at_a_port_that_the_clock_lacks_is_left(self) -> None:
        with self.kept(1) as session:
            session.ask(self.way, ptpm.Action.GET, "PRIORITY1", timeout=5)
        with self.kept(1) as session:
            with self.assertRaisesRegex(ptpm.NoAnswer, "no answer, and to no read either: the request itself was not sent"):
                session.ask(self.way, ptpm.Action.GET, "PRIORITY1", port=5, timeout=0.05)
            self.assertFalse(session.is_busy())
            self.assertRaisesRegex(ptpm.Error, "IDLE", session.go_on, self.way)
            self.assertEqual(str(session.ask(self.way, ptpm.Action.GET, "PRIORITY1", port=1, timeout=5)), "priority1 128")

    def test_calls_of_requests_between_two_requests(self) -> None:
        settings = ptpm.SessionSettings(MANAGER, CLOCK)
        with self.kept() as session:
            session.ask(self.way, ptpm.Action.SET, "PRIORITY1", 1, timeout=1)
            number = session.next_number
            session.begin(ptpm.Action.SET, "PRIORITY1", b"\2\0")
            self.way.send(session.send())
            self.assertEqual(session.receive(self.way.receive(time.monotonic() + 5) or b""), ptpm.SessionAnswer.ANSWERED)
            self.assertEqual((str(session.report()), session.next_number), ("priority1 2", (number + 1) % 65536))
            session.ask(self.way, ptpm.Action.SET, "PRIORITY1", 3, timeout=1)  # a question before it
            session.begin(ptpm.Action.GET, "PRIORITY1")
            session.give_up()
            self.assertRaisesRegex(ptpm.Error, "IDLE", session.let_go)
        with ptpm.SessionFile(MANAGER, CLOCK) as file:
            later = ptpm.Session(settings, file)
            self.assertEqual((later.is_under_way, later.next_number), (False, (number + 4) % 65536))

    def test_the_command_line(self) -> None:
        def run(*words: str) -> "tuple[int, str]":
            ran = run_module("-u", self.path, *words)
            return ran.returncode, ran.stdout

        self.assertEqual(run("get", "PRIORITY1", "--target", CLOCK), (0, "priority1 128\n"))
        self.assertEqual(run("-m", MANAGER, "-w", "0", "set", "priority1", "100", "-T", CLOCK), (0, "priority1 100\n"))
        self.assertEqual(run("set", "PRIORITY1", "100", "--target", CLOCK), (1, "refused NOT_SUPPORTED\n"))
        self.assertEqual(run("-m", MANAGER, "set", "LOG_SYNC_INTERVAL", "-2", "-T", f"{CLOCK}-1"), (0, "logSyncInterval -2\n"))
        utc = ("currentUtcOffset", "-2", "leap61", "false", "leap59", "true", "currentUtcOffsetValid", "true")
        printed = "currentUtcOffset -2\nleap61 false\nleap59 true\ncurrentUtcOffsetValid true\n"
        self.assertEqual(run("-m", MANAGER, "set", "UTC_PROPERTIES", *utc, "-T", CLOCK), (0, printed))
        self.assertEqual(run("set", "PRIORITY1", "100", "7", "--target", CLOCK), (2, ""))
        self.assertEqual(run("get", "PORT_DATA_SET", "--target", CLOCK), (2, ""))
        self.assertEqual(run("-t", "20", "-a", "2", "get", "PRIORITY1", "--target", "0102030405060708"), (3, ""))
        self.assertEqual(run("survey", "PRIORITY1", "-x"), (0, f"{CLOCK}/1 value 6400\n"))
        self.assertEqual(run("survey", "PRIORITY1", "--target", CLOCK), (2, ""))
        for port in (61440, 65535):
            self.assertEqual(run("-m", f"0011223344556677/{port}", "get", "PRIORITY1", "--target", CLOCK), (2, ""))
        self.assertEqual(run("-x", "set", "PRIORITY1", "64 00", "--target", CLOCK), (2, ""))
        with unittest.mock.patch.dict(os.environ, PYTHONIOENCODING="ascii"):
            said = run("-m", MANAGER, "set", "USER_DESCRIPTION", "--text", "Köln", "--target", CLOCK)
        self.assertEqual(said, (0, "userDescription K\\xc3\\xb6ln\n"))

    @staticmethod
    def run_with(streams: str, *words: str) -> int:
        """The status of a run with these streams."""
        command = ["sh", "-c", f'exec "$0" -m ptpm "$@" {streams}', sys.executable, *words]
        return subprocess.run(command, stdout=subprocess.DEVNULL, stderr=subprocess.DEVNULL, check=False).returncode

    def test_a_command_line_whose_help_is_not_read(self) -> None:
        for streams, words, status in (
            (">&-", ["--version"], 4), ("> /dev/full", ["--help"], 4), (">&-", ["get", "--help"], 4), (">&-", ["get"], 2),
            ("2>&-", ["get"], 2), ("2> /dev/full", ["get", "-y"], 2), ("2>&-", ["--version"], 0),
        ):
            self.assertEqual((streams, words, self.run_with(streams, *words)), (streams, words, status))

    def test_what_is_wrong_is_named(self) -> None:
        for path, why in ((f"{self.folder}/nobody", "No such file or directory"), ("/dev/null", "")):
            ran = run_module("get", "PRIORITY1", "-T", CLOCK, "-u", path)
            self.assertEqual((ran.returncode, ran.stdout), (2, ""))
            self.assertRegex(ran.stderr, f"^ptpm: {path}.*: {why}")
        words = [sys.executable, "-m", "ptpm", "set", "PRIORITY1", "1", "-T", CLOCK, "-u", self.path, "-m", MANAGER]
        words = ["sh", "-c", 'ulimit -f 0; exec "$@"', "sh", *words, "-k", f"{self.folder}/session"]
        ran = subprocess.run(words, capture_output=True, text=True, check=False)
        self.assertEqual((ran.returncode, ran.stdout), (2, ""))
        self.assertEqual(ran.stderr, f"ptpm: {self.folder}/session: File too large\n")

    def test_what_could_not_be_reported_stays_in_the_file(self) -> None:
        def run(streams: str, *words: str) -> int:
            return self.run_with(streams, "-u", self.path, "--target", CLOCK, *words)

        for streams in (">&-", "> /dev/full"):
            self.assertEqual(run(streams, "get", "PRIORITY1"), 4)
            self.assertEqual(run(streams, "-m", MANAGER, "-w", "0", "set", "PRIORITY1", "100"), 4)
            with self.kept() as session:
                self.assertTrue(session.is_under_way)
            for closed in ("2>&-", "2> /dev/full"):     # the answer of the earlier run is said on standard error
                self.assertEqual(run(closed, "-m", MANAGER, "set", "PRIORITY2", "7"), 4)
            self.assertEqual(ptpm.get(self.way, CLOCK, "PRIORITY2").members, {"priority2": 128})
            self.assertEqual(run("", "-m", MANAGER, "set", "PRIORITY1", "101"), 0)
        self.assertEqual(run("2>&-", "-t", "20", "-a", "2", "get", "PORT_DATA_SET"), 2)

    def test_a_socket_that_is_gone_fails_no_run(self) -> None:
        with ptpm.UnixTransport(self.path) as way:
            self.assertEqual(ptpm.get(way, CLOCK, "PRIORITY1").members, {"priority1": 128})
            for name in os.listdir(self.folder):
                if name.startswith(f"clock.socket.{os.getpid()}."):     # beside that of setUp
                    os.unlink(f"{self.folder}/{name}")

    def test_a_file_that_was_closed_is_not_written(self) -> None:
        with ptpm.SessionFile(MANAGER, CLOCK) as file:
            session = ptpm.Session(ptpm.SessionSettings(MANAGER, CLOCK), file, wait=0)
        with self.assertRaises(ptpm.SessionFileError):
            session.ask(self.way, ptpm.Action.SET, "PRIORITY1", 100)
        with ptpm.SessionFile(MANAGER, CLOCK) as file:
            child = os.fork()
            if child == 0:  # it holds nothing of its parent
                file.close()
                os._exit(file.is_open or not os.path.exists(f"{file.path}.lock"))
            self.assertEqual((os.waitpid(child, 0)[1], file.is_open), (0, True))
        self.assertEqual(ptpm.get(self.way, CLOCK, "PRIORITY1").members, {"priority1": 128})


if __name__ == "__main__":
    unittest.main()
