"""The library's calls of an asker: a manager's session, and what is to be sent, saved and noted next."""

from __future__ import annotations

import ctypes
import os
from typing import Any, Callable, Optional, Tuple

from . import _header as header
from ._library import Handle, library
from .answers import done, written
from .identity import PortIdentity
from .nobody import nobody
from .report import Report, told_by
from .requests import SessionSettings
from .session_image import Request

# How many octets are drawn for the question whether a number is new.
_DRAWN = 26


class Asker(Handle):
    """One manager asks one clock. After each call, `next` is what is to be done. The asker's time is counted in
    time-outs, so each request may have a time-out of its own."""

    def __init__(self, settings: SessionSettings, image: Optional[bytes] = None) -> None:
        """With the session that a file has, or a new one."""
        super().__init__(header.ptpm_asker, library.ptpm_asker_stop)
        self.attempts = settings.attempts
        self._handed = header.ptpm_handed()
        self._now = self._wake_at = 0
        session, reader = settings.as_in_c(), nobody(PortIdentity.of(settings.manager))
        struct = ctypes.byref(header.ptpm_asker_settings(session, reader.port, timeout=1, wait=1))
        drawn = os.urandom(_DRAWN)
        if image is None:
            done(self._call(library.ptpm_asker_start, struct, drawn))
        else:
            done(self._call(library.ptpm_asker_restore, struct, drawn, image, len(image)))

    def _turn_by(self, call: Callable[..., int], *words: Any) -> None:
        done(self._call(call, *words, ctypes.byref(self._handed)))

    @property
    def next(self) -> int:
        """What is to be done next: PTPM_SAVE_IT, or another name of the header."""
        return int(self._handed.what)

    def take(self) -> None:
        """Says that what was handed out was sent, or is waited for."""
        self._wake_at = self._handed.time
        self._handed.what = header.PTPM_NOTHING

    @property
    def time_outs(self) -> int:
        """How many time-outs to wait for the answer to a message. None if a read by nobody follows."""
        return int(self._handed.time) - self._now

    @property
    def is_read_answered(self) -> bool:
        """After FAILED: whether the clock answered a read by nobody."""
        return bool(self._handed.is_read_answered)

    def ask(self, request: Request, domain: int) -> None:
        """Asks a request. It is refused for the reasons of a session, or if a request of an earlier run is not finished
        (BUSY)."""
        words = (request.action, request.id, request.port, request.data, len(request.data), domain)
        self._turn_by(library.ptpm_asker_ask, self._now, 0, *words)

    def settle(self, domain: int) -> None:
        """Sends the request of an earlier run again. A SET or a COMMAND is sent in the domain in which it was asked."""
        self._turn_by(library.ptpm_asker_settle, self._now, 0, domain)

    def let_go(self) -> None:
        """Gives the request of an earlier run up."""
        self._turn_by(library.ptpm_asker_let_go)

    def hear(self, datagram: bytes) -> None:
        """A datagram came in."""
        self._turn_by(library.ptpm_asker_hear, datagram, len(datagram))

    def wake(self) -> None:
        """The time to wait has passed."""
        self._now = self._wake_at
        self._turn_by(library.ptpm_asker_wake, self._now)

    def unsent(self) -> None:
        """The message could not be sent."""
        self._turn_by(library.ptpm_asker_unsent)

    def saved(self) -> None:
        """The session is in its file."""
        self._turn_by(library.ptpm_asker_saved, self._now)

    def noted(self) -> None:
        """What was handed out is noted."""
        self._turn_by(library.ptpm_asker_noted)

    def message(self) -> bytes:
        """The message that was handed out."""
        return written(self._call, library.ptpm_asker_message, header.PTPM_MOST_OCTETS)

    def image(self) -> bytes:
        """The session's image."""
        return written(self._call, library.ptpm_asker_image, header.PTPM_SESSION_IMAGE_OCTETS)

    def earlier(self, domain: int) -> Tuple[int, int]:
        """What an earlier run left, such as PTPM_QUESTION_LEFT, and the domain in which a run that asks in `domain` finishes it."""
        there = ctypes.c_uint8()
        return self._call(library.ptpm_asker_earlier, domain, ctypes.byref(there)), there.value

    def report(self, request: Request) -> Report:
        """What the answer to a request says."""
        return told_by(self._call, library.ptpm_asker_report, request)
