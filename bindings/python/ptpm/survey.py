"""One GET to every clock, or to one, and the first answer of each port."""

from __future__ import annotations

import ctypes
import time
from dataclasses import dataclass
from typing import Generator, Iterator, Optional

from . import _header as header
from ._library import Handle, library, octets_of
from .answers import SurveyAnswer, done, judged, written
from .asking import judge_seconds, send_out
from .identity import Identity, IdentityLike, PortIdentity, PortIdentityLike
from .ids import IdLike, id_of
from .nobody import draw, nobody
from .report import MOST_DATA, Report, told
from .settings import write_number, write_octets
from .transport import Transport

SURVEY_PORT: int = header.PTPM_SURVEY_PORT
# Rounds without a new answer that end a survey: if somebody answered, and if nobody did.
_QUIET = 2
_QUIET_AT_FIRST = 5

# The place of the sourcePortIdentity in a message (13.3).
_SOURCE = 20


@dataclass(frozen=True)
class SurveySettings:
    """One manager, and the GET that it sends to every port of every clock, or of one. Give each survey a number that no message
    in flight has. With port 0 the manager asks from SURVEY_PORT, which no session has."""

    manager: PortIdentityLike
    number: int
    id: IdLike
    domain: int = 0
    hops: int = 1

    def as_in_c(self) -> header.ptpm_survey_settings:
        """As the library takes them."""
        manager = PortIdentity.of(self.manager)
        struct = header.ptpm_survey_settings(id=id_of(self.id))
        write_octets(struct, "clock", manager.clock.octets)
        write_number(struct, "port", manager.port)
        for member in ("number", "domain", "hops"):
            write_number(struct, member, getattr(self, member))
        return struct


class Survey(Handle):
    """What a survey asks, and its answers: the first of each port, of 16,384 ports at most.

    A session of the same portIdentity may treat an answer as its own. So the survey's manager has no session: it is another port
    of the same clockIdentity. Port 0 stands for SURVEY_PORT.

    With a target every port of that clock is asked, and no other clock answers. A clock treats such a GET from one of its
    managers as a numbered request, like one of a session. So a survey with a target must not ask as one of that clock's
    managers."""

    def __init__(self, settings: SurveySettings, target: Optional[IdentityLike] = None) -> None:
        super().__init__(header.ptpm_survey, library.ptpm_survey_stop)
        struct = settings.as_in_c()
        if target is None:
            done(self._call(library.ptpm_survey_start, ctypes.byref(struct)))
        else:
            done(self._call(library.ptpm_survey_start_at, ctypes.byref(struct), Identity.of(target).octets))
        self._id = struct.id

    def send(self) -> bytes:
        """The message of the GET, the same each time."""
        return written(self._call, library.ptpm_survey_send, header.PTPM_MOST_OCTETS)

    def receive(self, octets: bytes) -> SurveyAnswer:
        """Judges a datagram that came in, and keeps it if it is the first answer of its port."""
        datagram = octets_of(octets)
        return SurveyAnswer(judged(self._call(library.ptpm_survey_receive, datagram, len(datagram))))

    def __len__(self) -> int:
        """How many answers are kept."""
        return self._call(library.ptpm_survey_count)

    def __getitem__(self, place: int) -> Report:
        """An answer, counted from 0 in the order in which they came, with the port that gave it."""
        if not 0 <= place < len(self):
            raise IndexError(place)
        source, size, error = header.ptpm_source(), ctypes.c_size_t(), ctypes.c_uint16()
        room = (ctypes.c_uint8 * MOST_DATA)()
        words = (place, ctypes.byref(source), room, len(room), ctypes.byref(size), ctypes.byref(error))
        number = self._call(library.ptpm_survey_answer, *words)
        port = PortIdentity(Identity(bytes(source.clock)), source.port)
        return told(number, self._id, bytes(room[: size.value]), error.value, port)

    def __iter__(self) -> Iterator[Report]:
        return (self[place] for place in range(len(self)))


def survey(
    way: Transport,
    named: IdLike,
    *,
    manager: Optional[PortIdentityLike] = None,
    domain: int = 0,
    hops: int = 1,
    attempts: int = 30,
    timeout: float = 0.2,
) -> Generator[Report, None, None]:
    """Asks every clock, and yields the answers as they come. It asks again until two rounds bring no new answer, or five if
    nobody has answered, and `attempts` times at most. `manager` is who asks, and must have no session: a session of the same
    portIdentity may treat an answer as its own. By default it has a port of this process that no session has."""
    judge_seconds("timeout", timeout)
    who = PortIdentity.of(manager) if manager is not None else nobody(PortIdentity(way.identity, 1))
    with Survey(SurveySettings(who, draw(), named, domain, hops)) as asked:
        message = asked.send()
        sent = quiet = 0
        for _ in range(attempts):
            if quiet >= (_QUIET if len(asked) else _QUIET_AT_FIRST):
                return
            sent = send_out(way, message, sent)
            quiet += 1
            until = time.monotonic() + timeout
            datagram = way.receive(until)
            while datagram is not None:
                is_own = datagram[_SOURCE : _SOURCE + 8] == who.clock.octets != bytes(8)  # a clock that has the manager's identity
                if not is_own and asked.receive(datagram) == SurveyAnswer.TAKEN:
                    quiet = 0
                    yield asked[len(asked) - 1]
                datagram = way.receive(until)
