"""The library's calls of a manager's session with one clock."""

from __future__ import annotations

import ctypes
from dataclasses import dataclass
from typing import Callable, Optional

from . import _header as header
from ._library import Handle, library, octets_of
from .answers import SessionAnswer, done, judged, written
from .clock import port_number
from .identity import Identity, IdentityLike, PortIdentity, PortIdentityLike
from .ids import Action, IdLike, id_of
from .named_port import SESSION_PORTS, NamedPort, not_kept
from .report import Report, told_by
from .session_image import EVERY_PORT, Request, unanswered
from .settings import write_number, write_octets


@dataclass(frozen=True)
class SessionSettings:
    """One manager, the clock that it manages, and how its requests are numbered and sent. `first` is the sequenceId of the first
    request; None says that nobody knows which numbers the clock accepted from this manager."""

    manager: PortIdentityLike
    target: IdentityLike
    first: Optional[int] = None
    domain: int = 0
    hops: int = 1
    attempts: int = 30
    target_ports: int = SESSION_PORTS

    def as_in_c(self) -> header.ptpm_session_settings:
        """As the library takes them."""
        struct = header.ptpm_session_settings()
        manager = PortIdentity.of(self.manager)
        write_octets(struct, "clock", manager.clock.octets)
        write_octets(struct, "target", Identity.of(self.target).octets)
        write_number(struct, "port", manager.port)
        write_number(struct, "first", self.first or 0)
        for member in ("domain", "hops", "attempts", "target_ports"):
            write_number(struct, member, getattr(self, member))
        return struct


class Requests(Handle):
    """One request at a time to one clock. A caller that uses these calls directly is responsible for the numbers. A request
    with a number that was used before gets the clock's cached answer.

    A port above 255 is written into messages for port 255 as they go out, and back to 255 in datagrams
    that come in."""

    def __init__(self, settings: SessionSettings) -> None:
        super().__init__(header.ptpm_session, library.ptpm_session_stop)
        self._request: Optional[Request] = None  # the latest
        self._port = NamedPort()
        self._start(settings)

    def _start(self, settings: SessionSettings) -> None:
        """Starts afresh: no request is begun."""
        struct = settings.as_in_c()
        done(self._call(library.ptpm_session_start, ctypes.byref(struct)))
        self.settings = settings

    def begin(self, action: int, named: IdLike, data: bytes = b"", port: int = 0) -> None:
        """Begins a request, and discards the answer to the one before. The port matters only for an id of a port."""
        self._begin_by(library.ptpm_session_begin, action, named, port, octets_of(data))

    def begin_at(self, action: int, named: IdLike, port: int, data: bytes = b"") -> None:
        """Does what `begin` does, but names the port for any id. Some clocks answer only if one of their
        ports is named, for an id of the clock too. Any port of the clock may answer for such an id."""
        self._begin_by(library.ptpm_session_begin_at, action, named, port, octets_of(data))

    def _begin_by(self, call: Callable[..., int], action: int, named: IdLike, port: int, octets: bytes) -> None:
        request, place = Request(Action(action), id_of(named), port, octets), NamedPort(port_number(port))
        done(self._call(call, request.action, request.id, place.inside, octets, len(octets)))
        self._request, self._port = request, place

    def give_up(self) -> None:
        """Gives up the unanswered request, so that the next can be begun. Its number is used for no other, and an answer to it
        is ignored from then on. The clock may have carried it out, once, or may still: until it accepts a later request of this
        session."""
        done(self._call(library.ptpm_session_give_up))

    def send(self) -> bytes:
        """The message of the unanswered request; it uses one of its attempts."""
        return self._port.goes_out(written(self._call, library.ptpm_session_send, header.PTPM_MOST_OCTETS))

    def receive(self, octets: bytes) -> SessionAnswer:
        """Judges a datagram that came in. After ANSWERED the next request can be begun. A clock that is not one of ptpm may refuse
        at the port where the request came in, not at the one that was named. So its error is judged as one of the named port."""
        answer = SessionAnswer.NOTHING_ASKED
        for datagram in self._port.comes_in(octets_of(octets)):
            answer = SessionAnswer(judged(self._call(library.ptpm_session_receive, datagram, len(datagram))))
            if answer == SessionAnswer.ANSWERED:
                break
        return answer

    def report(self) -> Report:
        """What the answer to the latest request says."""
        return told_by(self._call, library.ptpm_session_report, self._request)

    def resume(self, attempts: int) -> None:
        """Gives the unanswered request this many attempts, whatever was left."""
        if not 0 <= attempts <= 255:
            raise OverflowError(f"attempts are 0 to 255, not {attempts}")
        done(self._call(library.ptpm_session_resume, attempts))

    def retune(self, domain: int) -> None:
        """From now on requests are sent, and replies expected, in this domain. That includes the unanswered request."""
        if not 0 <= domain <= 255:
            raise OverflowError(f"a domain is 0 to 255, not {domain}")
        done(self._call(library.ptpm_session_retune, domain))

    def image(self) -> bytes:
        """The session's image: what a host saves before it sends a request, and after it has reported an answer. How many
        attempts are left, and the answer to the latest request, are not in it. While a request to a port above 255 is unanswered,
        there is no image (ValueError): a session from it would ask port 255."""
        octets = self._image()
        if self._port.beyond and unanswered(octets) is not None:
            raise not_kept(self._port.beyond)
        return octets

    def _image(self) -> bytes:
        return written(self._call, library.ptpm_session_image, header.PTPM_SESSION_IMAGE_OCTETS)

    def restore(self, image: bytes) -> None:
        """Continues as the session of an image of the same manager, clock, number of ports and first number, instead of this one.
        Its domain, hops and attempts are those of the image. A request that was not answered stays open: send it again. Do not
        start a fresh session if the image is refused: the clock would treat its requests as old, or as conflicts."""
        octets, struct = octets_of(image), self.settings.as_in_c()
        done(self._call(library.ptpm_session_restore, ctypes.byref(struct), octets, len(octets)))
        self._request, self._port = unanswered(octets), NamedPort()

    @property
    def issued(self) -> int:
        """How many requests were begun."""
        return self._call(library.ptpm_session_issued)

    @property
    def next_number(self) -> int:
        """The sequenceId of the next request."""
        return ((self.settings.first or 0) + self.issued) % 65536

    def is_busy(self) -> bool:
        """Whether a request is unanswered."""
        return unanswered(self._image()) is not None


def begin_request(session: Requests, action: int, named: IdLike, data: bytes, port: int) -> None:
    """Begins a request at the port that is named, for an id of the clock too. If no port is named, every port is asked for such
    an id."""
    if port in (0, EVERY_PORT):
        session.begin(action, named, data, port)
    else:
        session.begin_at(action, named, port, data)
