"""python -m ptpm: asks clocks by the command line of ptpm-manage, and prints what ptpm-manage does."""

from __future__ import annotations

import argparse
import re
import signal
import sys
from typing import Any, Callable, List, Optional

from . import __version__
from .answers import Error
from .asking import NoAnswer
from .identity import Identity, PortIdentity
from .ids import Action, ManagementId, id_name, id_of
from .members import data_field, has_one_member, lines, parse, takes_no_value
from .named_port import SESSION_PORTS, is_beyond_session
from .nobody import ask_as_nobody, ask_in_no_session, nobody, refuse_nobody
from .report import Report
from .requests import Requests, SessionSettings, begin_request
from .session import Session
from .session_file import SessionFile, SessionFileError
from .streams import NOT_AS_ASKED, NOT_WRITTEN, NotWritten, complain, flush, hold_streams, parsed
from .survey import survey
from .transport import Transport, UdpTransport, UnixTransport

ANSWERED, REFUSED, NOT_ASKED, NOT_ANSWERED = range(4)
BY_SIGNAL = 128


def _number(least: int, most: int) -> Callable[[str], int]:
    """Reads a number of the command line, from `least` to `most`."""

    def read(text: str) -> int:
        number = int(text) if re.fullmatch("[0-9]+", text) else -1
        if not least <= number <= most:
            raise argparse.ArgumentTypeError(f"it takes a number from {least} to {most}")
        return number

    return read


class _Once(argparse.Action):
    """An option that may be given only once: argparse would silently ignore the earlier of two
    values."""

    def __call__(self, parser: argparse.ArgumentParser, words: argparse.Namespace, value: Any, option: Optional[str] = None) -> None:
        if getattr(words, f"has_{self.dest}", False):
            raise argparse.ArgumentError(self, "it is given twice")
        setattr(words, f"has_{self.dest}", True)
        setattr(words, self.dest, value)


def _parser() -> argparse.ArgumentParser:
    parser = argparse.ArgumentParser(
        prog="python -m ptpm",
        description="Reads and changes the settings of PTP clocks (IEEE 1588-2019, clause 15).",
        epilog="ptpm-manage has the same options, and more of them. Its verb status shows a whole site.",
    )
    add = parser.add_argument
    add("verb", choices=["get", "set", "command", "survey"])
    add("id", help="a managementId by its name, or four hexadecimal digits")
    add("value", nargs="*", help="of set: names and values of members as the answer prints them, or the dataField in hexadecimal")
    add("-i", "--interface", action=_Once, metavar="NAME", help="over UDP port 320 at this interface")
    add("--ipv6", action="store_true", help="with IPv6")
    add("--udp", metavar="ADDRESS", help="over UDP to this address")
    add("--any-source", action="store_true", help="over UDP, also accepts addresses that are not on the link")
    add("--ttl-security", action="store_true", help="over UDP, ignores unicast that a router has forwarded")
    add("-u", "--unix", metavar="PATH", help="on a Unix socket of this machine, such as /var/run/ptp4l")
    add("-T", "--target", metavar="IDENTITY", help="the clock, such as aabbccfffeddee01 or aabbcc.fffe.ddee01-1 for its port 1")
    add("-p", "--port", type=_number(0, 65535), help="the clock's port, instead of one after IDENTITY")
    add("-d", "--domain", action=_Once, type=_number(0, 255), default=0, help="domainNumber, 0 by default")
    add("-b", "--hops", type=_number(0, 255), default=1, help="how many boundary clocks may forward the request")
    add("-m", "--manager", metavar="IDENTITY-PORT", help="the manager's own identity; by default the MAC of the interface with its local bit inverted")
    add("-k", "--numbers", metavar="FILE", help="the file of the manager's session with the clock")
    add("--give-up", action="store_true", help="abandons the unanswered request of an earlier run")
    add("-w", "--wait", type=_number(0, 100000), default=3000, help="milliseconds that a new session waits before it asks")
    add("-a", "--attempts", type=_number(1, 255), default=30, help="how often a request is sent at most, 30 by default")
    add("-t", "--timeout", type=_number(1, 100000), default=200, help="milliseconds to wait for each answer")
    add("-x", "--hexadecimal", action="store_true", help="values are dataFields in hexadecimal")
    add("--text", action="store_true", help="VALUE is a text, for USER_DESCRIPTION")
    add("--version", action="version", version=f"ptpm {__version__}")
    return parser


class Task:
    """What a command line asks."""

    def __init__(self, words: argparse.Namespace) -> None:
        self.words = words
        self.id = self._read_id(words.id)
        self.target: Optional[Identity] = None
        self.port: int = words.port or 0
        if words.target is not None:
            self._read_target(words.target)
        self.action = {"get": Action.GET, "set": Action.SET, "command": Action.COMMAND}.get(words.verb)
        self.data = self._data(words.value)
        self._judge()

    def _read_id(self, text: str) -> int:
        """The managementId. By its name, an id that ptpm-clock lacks can only be read."""
        number = id_of(text)
        is_number = id_name(number) == f"{number:04x}"
        if self.words.verb in ("set", "command") and is_number and not re.fullmatch("(0[xX])?[0-9a-fA-F]{4}", text):
            raise ValueError(f"{text}: by its name it can only be read; to {self.words.verb} it, write {number:04x}")
        return number

    def _read_target(self, text: str) -> None:
        try:
            self.target = Identity.of(text)
        except ValueError:
            named = PortIdentity.of(text)
            if self.words.port is not None and named.port != self.words.port:
                raise ValueError(f"--port {self.words.port} and --target name two ports") from None
            self.target, self.port = named.clock, named.port

    def _data(self, value: List[str]) -> bytes:
        words = self.words
        if not value:
            if self.action == Action.SET and not takes_no_value(self.id):
                raise ValueError(f"set {words.id}: it takes a value")
            return b""
        if self.action is None:
            raise ValueError(f"survey {words.id}: it takes no value")
        if words.text and self.id != ManagementId.USER_DESCRIPTION:
            raise ValueError(f"--text: {words.id} has no text")
        is_named = self.action == Action.SET and not words.hexadecimal and not words.text
        if is_named and (len(value) > 1 or has_one_member(self.id)):
            try:
                return parse(self.id, value)
            except ValueError as error:
                raise ValueError(f"set {words.id} {' '.join(value)}: {error}") from None
        if len(value) > 1:
            raise ValueError(f"{value[1]}: there are too many words")
        if words.text:
            return data_field(self.id, value[0])
        if not re.fullmatch("([0-9a-fA-F]{4})*", value[0]):
            raise ValueError(f"{value[0]}: not an even number of octets in hexadecimal")
        return bytes.fromhex(value[0])

    def _judge(self) -> None:
        words = self.words
        if words.unix is None and words.interface is None and words.udp is None:
            raise ValueError("the transport is missing: --interface NAME, --udp ADDRESS or --unix PATH")
        if words.unix is not None and (words.interface is not None or words.udp is not None or words.ipv6):
            raise ValueError("--unix excludes --interface, --udp and --ipv6")
        if self.action is None and self.target is not None:
            raise ValueError("survey asks every clock: it takes no --target")
        if self.action is not None and self.target is None:
            raise ValueError("--target is missing: it names the clock to ask; survey asks every clock")
        if words.numbers is not None and is_beyond_session(self.port):
            raise ValueError(f"--numbers: a request to a port above {SESSION_PORTS} has no session")
        if words.give_up and not self.is_numbered:
            raise ValueError("--give-up: this request has no session")

    def way(self) -> Transport:
        """Opens the socket for the request."""
        words = self.words
        if words.unix is not None:
            return UnixTransport(words.unix)
        return UdpTransport(words.interface, words.udp, ipv6=words.ipv6, any_source=words.any_source, ttl_security=words.ttl_security)

    @property
    def is_numbered(self) -> bool:
        """Whether the request is in a session. Then each run asks as the same manager, and the clock may have cached an answer for
        that manager. Requests to a port above 255 are in no session."""
        words = self.words
        by_one_manager = words.manager is not None or words.numbers is not None
        may_be_kept = self.action is not None and not is_beyond_session(self.port)
        return may_be_kept and (by_one_manager or (words.unix is None and self.action != Action.GET))

    def _manager(self) -> PortIdentity:
        """The portIdentity of the manager. Finding it opens no socket."""
        words = self.words
        if words.manager is not None:
            manager = PortIdentity.of(words.manager)
            refuse_nobody(manager)
            return manager
        if words.unix is not None:
            return PortIdentity(Transport.identity, 1)
        return PortIdentity(UdpTransport.identity_at(words.interface, words.udp, ipv6=words.ipv6), 1)

    def ask(self) -> int:
        """Asks, and prints what was answered; returns the exit status."""
        words = self.words
        seconds = words.timeout / 1000
        asked = {"domain": words.domain, "hops": words.hops, "attempts": words.attempts}
        if self.action is None or self.target is None:
            who = nobody(self._manager())
            with self.way() as way:
                return _print(list(survey(way, self.id, manager=who, timeout=seconds, **asked)), words.hexadecimal)
        settings = SessionSettings(self._manager(), self.target, **asked)
        begin_request(Requests(settings), self.action, self.id, self.data, self.port)  # a refused request makes no file
        if self.is_numbered:
            # A unicast answer comes in at the socket that was opened last. So a run opens none while it waits for the file.
            with SessionFile(settings.manager, self.target, words.numbers) as file, self.way() as way:
                return self._ask_by(file, settings, way)
        is_managers = words.manager is not None and self.action != Action.GET
        ask = ask_in_no_session if is_managers else ask_as_nobody
        with self.way() as way:
            return _print([ask(way, settings, self.action, self.id, self.data, self.port, timeout=seconds)], words.hexadecimal)

    @property
    def _is_unnamed(self) -> bool:
        """Whether the manager's identity is that of its interface, since no option names one."""
        return self.words.manager is None and self.words.numbers is None and self.words.unix is None

    def _ask_by(self, file: SessionFile, settings: SessionSettings, way: Transport) -> int:
        words = self.words
        is_new = file.octets is None
        status: Optional[int] = None
        try:
            with Session(settings, file, wait=words.wait / 1000) as session:
                report = self._ask_in(session, way)
                if is_new:
                    complain(f"{file.path} is new: the session begins at number {(session.next_number - 1) % 65536}")
                    if self._is_unnamed:
                        who = settings.manager
                        complain(f"this manager is {who}, from the MAC of the interface: ptpm-clock accepts its changes with -m {who}")
                status = _print([report], words.hexadecimal)  # then the session is saved without its request
        except OSError as error:
            if status is None:
                raise
            complain(f"{error}: the next run asks this again")
        return status

    def _finish_in(self, session: Session, way: Transport) -> Report:
        """Finishes the request of an earlier run, and reports its answer. If there is no answer, says
        what the user can do."""
        domain = session.earlier_domain
        try:
            return session.finish(way, timeout=self.words.timeout / 1000)
        except NoAnswer as error:
            there = "" if domain == self.words.domain else f", or --domain {domain} sends it in that domain"
            raise NoAnswer(f"{error}; --give-up abandons the earlier request{there}", was_sent=False) from None

    def _ask_in(self, session: Session, way: Transport) -> Report:
        words = self.words
        seconds = words.timeout / 1000
        assert self.action is not None
        domain = session.earlier_domain
        where = "" if domain == words.domain else f" in domain {domain}"
        if words.give_up and session.is_under_way:
            session.let_go()
            complain(f"the request of an earlier run is given up: a get{where} shows whether it was carried out")
        if session.is_under_way:
            earlier = self._finish_in(session, way)
            said = complain(f"a request of an earlier run{where} had no answer yet, and was sent again:") and complain(earlier)
            if not said:  # the request then stays in the file
                raise NotWritten("standard error could not be written")
            if not earlier.is_as_asked:
                _complain_of(earlier)
        return session.ask(way, self.action, self.id, self.data, self.port, timeout=seconds)


def _lines(report: Report, is_hexadecimal: bool) -> List[str]:
    if is_hexadecimal and report.error is None and not report.is_done:
        told = [f"value {report.octets.hex() or '-'}"]
    else:
        told = str(report).split("\n")
    lead = "" if report.source is None else f"{report.source} "
    return [lead + line for line in told]


def _complain_of(report: Report) -> None:
    """Says what was asked, if the answer differs from it."""
    for line in lines(report.id, report.asked or b""):
        if line not in lines(report.id, report.octets):
            complain(f"the answer is not what was asked: {line}")


def _print(reports: List[Report], is_hexadecimal: bool) -> int:
    with flush():
        for report in reports:
            print("\n".join(_lines(report, is_hexadecimal)))
    if not reports:
        complain("no answer")
        return NOT_ANSWERED
    if len(reports) != 1 or reports[0].source is not None:
        return ANSWERED
    if not reports[0].is_as_asked:
        _complain_of(reports[0])
        return NOT_AS_ASKED
    return REFUSED if reports[0].error is not None else ANSWERED


def _why(error: Exception) -> str:
    """What is wrong, with the name of the file, socket or interface."""
    if not isinstance(error, OSError) or error.strerror is None:
        return str(error)
    return error.strerror if error.filename is None else f"{error.filename}: {error.strerror}"


def _run(given: List[str]) -> int:
    """Asks one clock, or every clock for one id."""
    words = parsed(_parser().parse_intermixed_args, given)
    try:
        task = Task(words)
        return task.ask()
    except NoAnswer as error:
        may_be = error.was_sent and words.verb in ("set", "command")
        complain(f"{error}{': the request may have been carried out' if may_be else ''}")
        if error.was_sent and task.is_numbered:
            complain("the next run first sends this request again; --give-up abandons it")
        return NOT_ANSWERED
    except KeyboardInterrupt:
        changes = words.verb in ("set", "command")
        complain(f"ended by a signal{': if the request was sent, it may have been carried out' if changes else ''}")
        return BY_SIGNAL + signal.SIGINT
    except Error as error:
        complain(f"nothing was asked: {error}")
        return NOT_ASKED
    except (ValueError, OSError, SessionFileError) as error:
        complain(_why(error))
        return NOT_ASKED


def main(arguments: Optional[List[str]] = None) -> int:
    """Carries out a command line, and returns the exit status."""
    hold_streams()
    try:
        return _run(sys.argv[1:] if arguments is None else arguments)
    except KeyboardInterrupt:
        return BY_SIGNAL + signal.SIGINT
    except NotWritten as error:
        complain(error)
        return NOT_WRITTEN


if __name__ == "__main__":
    sys.exit(main())
