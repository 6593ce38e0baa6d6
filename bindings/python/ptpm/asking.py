"""Sends messages and takes datagrams until a request outside a session is answered."""

from __future__ import annotations

import time
from collections import deque
from typing import Deque, Optional

from . import _header as header
from .answers import Error, PtpmError, SessionAnswer
from .link import Way
from .report import Report
from .requests import Requests
from .transport import Transport


class NoAnswer(PtpmError, TimeoutError):
    """A clock did not answer. `was_sent` says whether the request itself was sent: a SET or a COMMAND may then have been carried
    out, once."""

    def __init__(self, what: str, *, was_sent: bool) -> None:
        super().__init__(what)
        self.was_sent = was_sent


def judge_seconds(name: str, seconds: float) -> None:
    """Refuses a time below 0, or one that is not a number, as the sockets of Python do."""
    if not seconds >= 0:
        raise ValueError(f"{name} {seconds}: it takes seconds, not below 0")


# More answers than this with numbers that were not asked are not late ones: somebody guesses.
_FEW = 16

# The places of portIdentities, of the number and of the action in a message (13.3, 15.4), and the actions of a RESPONSE and an ACKNOWLEDGE.
_SOURCE, _NUMBER, _TARGET, _ACTION, _LEAST, _REPLIES = 20, 30, 34, 46, 54, (2, 4)


class Answerer:
    """The clock that is asked. Its first answer shows by which path it answers, and later ones count only by that path. Answers
    under its identity with numbers that were not asked are counted. After more than a few of these, no answer counts."""

    def __init__(self) -> None:
        self._asked: Deque[bytes] = deque(maxlen=256)
        self._source = self._clock = self._latest = b""
        self._way: Optional[Way] = None
        self._transport: Optional[Transport] = None
        self._guesses = 0
        self._elsewhere: Optional[Way] = None

    def is_asked(self, message: bytes, way: Transport) -> None:
        """Notes that this message goes out. If it goes over a different transport than before, the clock
        may answer by a different path."""
        if self._transport is not way.origin:
            self._transport, self._way, self._elsewhere = way.origin, None, None
        self._source, self._clock = message[_SOURCE : _SOURCE + 10], message[_TARGET : _TARGET + 8]
        if message[_NUMBER : _NUMBER + 2] not in self._asked:
            self._asked.append(message[_NUMBER : _NUMBER + 2])

    def may_answer(self, datagram: bytes, way: Transport) -> bool:
        """Whether a datagram that came in may count as an answer."""
        if len(datagram) < _LEAST or datagram[_ACTION] & 15 not in _REPLIES:
            return True
        if datagram[_SOURCE : _SOURCE + 8] != self._clock or datagram[_TARGET : _TARGET + 10] != self._source:
            return True
        number = datagram[_NUMBER : _NUMBER + 2]
        if number not in self._asked:
            self._guesses += number != self._latest
            self._latest = number
        came, first = way.came_by, self._way
        is_by_way = came is None or first is None or (came[:2] == first[:2] and (came.is_near or not first.is_near))
        if not is_by_way:
            self._elsewhere = came
        return is_by_way and self._guesses <= _FEW

    def has_answered(self, way: Transport) -> None:
        """What came in last was its answer."""
        self._way = self._way or way.came_by

    def why_none(self, way: Transport) -> str:
        """What is known about a missing answer, each part after a semicolon."""
        why = [f"what came from {sender} is ignored, {reason}" for sender, reason in way.not_taken.items()]
        if self._guesses > _FEW:
            why.append(f"{self._guesses} answers had numbers that were not asked: someone guesses numbers, or also asks as this manager")
        if self._elsewhere is not None:
            why.append(f"an answer from {self._elsewhere.sender} came by a different path than the first one, and is ignored")
        return "".join(f"; {one}" for one in why)


def no_answer(sent: int, why: str = "") -> NoAnswer:
    """There is no answer to a request that was sent this often."""
    return NoAnswer(f"no answer to {sent} messages{why}", was_sent=sent > 0)


def send_out(way: Transport, message: bytes, sent: int) -> int:
    """Sends a message, and counts it. If it can't be sent and none was sent before, it raises an error."""
    try:
        return sent + way.send(message)
    except OSError:
        if sent == 0:
            raise
        return sent


def _is_answered(session: Requests, way: Transport, answerer: Answerer, until: float) -> bool:
    """Whether a session is answered before a time."""
    while True:
        datagram = way.receive(until)
        if datagram is None:
            return False
        if answerer.may_answer(datagram, way) and session.receive(datagram) == SessionAnswer.ANSWERED:
            return True


def carry_out(session: Requests, way: Transport, timeout: float) -> Report:
    """Sends the unanswered request until it is answered, or its attempts are used up."""
    judge_seconds("timeout", timeout)
    sent, answerer = 0, Answerer()
    while True:
        try:
            message = session.send()
        except Error as error:
            if error.number == header.PTPM_GAVE_UP:
                raise no_answer(sent, answerer.why_none(way)) from None
            raise
        answerer.is_asked(message, way)
        sent = send_out(way, message, sent)
        if _is_answered(session, way, answerer, time.monotonic() + timeout):
            return session.report()
