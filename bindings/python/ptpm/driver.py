"""Drives an asker: sends, saves and waits as the asker says, until there is an answer, or none comes."""

from __future__ import annotations

import time
from typing import Callable, Optional

from . import _header as header
from .asker import Asker
from .asking import Answerer
from .named_port import NamedPort
from .transport import Transport


class Driver:
    """One request of an asker, over a transport. `save` saves the session. It decides nothing: the library's asker does."""

    def __init__(
        self,
        asker: Asker,
        way: Transport,
        answerer: Answerer,
        port: NamedPort,
        timeout: float,
        wait: float,
        save: Callable[[Asker], None],
        is_begun: bool,
    ) -> None:
        self._asker, self._way, self._port, self._save = asker, way, port, save
        self._answerer = answerer
        self._timeout, self._wait = timeout, wait
        self._due = 0.0
        self.is_begun = is_begun
        """Whether the request itself is begun, and not only the question before it."""
        self.sent = 0
        """How many messages of it, or else of the question, left."""
        self.why: Optional[OSError] = None
        """Why there is no way for its first message."""

    def run(self) -> bool:
        """Whether there is an answer, which the caller then notes."""
        while self._asker.next not in (header.PTPM_NOTE_ANSWER, header.PTPM_FAILED):
            self._step(self._asker.next)
        return self._asker.next == header.PTPM_NOTE_ANSWER

    def _step(self, what: int) -> None:
        if what == header.PTPM_NOTE_BEGUN:
            self.is_begun, self.sent = True, 0
            self._asker.noted()
        elif what == header.PTPM_SAVE_IT:
            self._save(self._asker)
        elif what in (header.PTPM_SEND_IT, header.PTPM_SEND_READ):
            self._send(what == header.PTPM_SEND_READ)
        elif what == header.PTPM_WAIT:
            self._asker.take()
            self._due = time.monotonic() + self._wait
        elif not self._hears_before(self._due):
            self._asker.wake()

    def _send(self, is_read: bool) -> None:
        """Sends the message that is handed out. The time-out counts from when it left."""
        message, time_outs = self._port.goes_out(self._asker.message()), self._asker.time_outs
        self._asker.take()
        self._answerer.is_asked(message, self._way)
        try:
            is_out = self._is_out(message)
        except OSError as error:
            is_out = False
            self.why = None if self.sent else error
        if self._asker.next != header.PTPM_NOTHING:
            return  # it was answered while it waited for room
        if not is_out and self.sent == 0:
            self._asker.unsent()
            return
        self.sent += is_out and not is_read
        self._due = time.monotonic() + time_outs * self._timeout

    def _is_out(self, message: bytes) -> bool:
        """Whether a message goes out. For the first one it waits for room in the socket, as long as for
        an answer."""
        for attempt in range(1 if self.sent else self._asker.attempts):
            if attempt > 0 and self._hears_before(time.monotonic() + self._timeout):
                return False
            if self._way.send(message):
                return True
        return False

    def _hears_before(self, until: float) -> bool:
        """Whether the asker hands something out for what comes in before a time."""
        while self._asker.next == header.PTPM_NOTHING:
            datagram = self._way.receive(until)
            if datagram is None:
                return False
            if not self._answerer.may_answer(datagram, self._way):
                continue
            for heard in self._port.comes_in(datagram):
                self._asker.hear(heard)
                if self._asker.next != header.PTPM_NOTHING:
                    self._answerer.has_answered(self._way)
                    break
        return True
