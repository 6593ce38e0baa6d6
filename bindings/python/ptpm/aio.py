"""Asking from asyncio: the same requests, awaited.

    import asyncio
    import ptpm.aio

    async def main():
        with ptpm.UnixTransport("/var/run/ptp4l") as way:
            async for report in ptpm.aio.survey(way, "DEFAULT_DATA_SET"):
                print(report.source, report.members["priority1"])

    asyncio.run(main())

A request waits in a thread of the loop's executor, so other tasks go on meanwhile. A task that is cancelled ends within a
twentieth of a second. It sends nothing more, and its request stays unanswered, as after NoAnswer. If its answer has come all the
same, `session.earlier` has it. Tasks that ask in one session, or over one transport, take turns."""

from __future__ import annotations

import asyncio
import contextlib
import threading
import time
import weakref
from typing import Any, AsyncIterator, Callable, Mapping, MutableMapping, Optional, Tuple, TypeVar

from . import nobody
from .asking import judge_seconds
from .identity import IdentityLike
from .ids import IdLike
from .link import Way
from .members import DataField
from .report import Report
from .requests import SessionSettings
from .session import Session as SessionOfThreads
from .session_file import SessionFile
from .survey import survey as survey_of_threads
from .transport import Transport

__all__ = ["get", "receive", "Session", "survey"]

_Result = TypeVar("_Result")

# How long a thread waits before it looks whether its task was cancelled.
_SLICE = 0.05


class _Ended(OSError):
    """The task that asks over a transport was cancelled, so nothing can be sent any more."""


class _Asked(Transport):
    """A transport as a thread uses it, until the task is cancelled."""

    def __init__(self, way: Transport) -> None:  # it has no socket of its own
        self._way = way
        self.identity, self.is_local = way.identity, way.is_local
        self._is_ended = threading.Event()

    def end(self) -> None:
        """Nothing is sent, or waited for, from now on."""
        self._is_ended.set()

    @property
    def origin(self) -> Transport:
        return self._way.origin

    @property
    def came_by(self) -> Optional[Way]:  # type: ignore[override]
        return self._way.came_by

    @property
    def not_taken(self) -> Mapping[str, str]:  # type: ignore[override]
        return self._way.not_taken

    def send(self, octets: bytes) -> bool:
        if self._is_ended.is_set():
            raise _Ended
        return self._way.send(octets)

    def receive(self, until: float) -> Optional[bytes]:
        while not self._is_ended.is_set():
            datagram = self._way.receive(min(until, time.monotonic() + _SLICE))
            if datagram is not None or time.monotonic() >= until:
                return datagram
        raise _Ended

    def close(self) -> None:
        """The one who made the transport closes it."""


_turns: MutableMapping[Any, Tuple[asyncio.AbstractEventLoop, asyncio.Lock]] = weakref.WeakKeyDictionary()


def _turn_of(shared: Any) -> asyncio.Lock:
    """Whose turn it is with a transport or a session, in the loop that runs."""
    loop = asyncio.get_running_loop()
    held = _turns.get(shared)
    if held is None or held[0] is not loop:
        held = _turns[shared] = (loop, asyncio.Lock())
    return held[1]


async def _in_thread(asked: _Asked, call: Callable[[], _Result], keep: Callable[[_Result], None] = lambda _: None) -> _Result:
    """Runs a call in a thread. If the task is cancelled, it waits for the call to end, so that nobody else uses the call's
    transport meanwhile. A result that still comes is kept."""
    running = asyncio.ensure_future(asyncio.to_thread(call))
    try:
        return await asyncio.shield(running)
    except asyncio.CancelledError:
        asked.end()
        await asyncio.wait([running])
        if running.exception() is None:
            keep(running.result())
        raise


async def _ask(way: Transport, call: Callable[[Transport], _Result], keep: Callable[[_Result], None] = lambda _: None) -> _Result:
    """Asks over a transport, one task at a time."""
    asked = _Asked(way)
    async with _turn_of(way):
        return await _in_thread(asked, lambda: call(asked), keep)


async def receive(way: Transport, timeout: Optional[float] = None) -> Optional[bytes]:
    """The next datagram, or None if none comes in within a time, in seconds. No thread waits for it."""
    judge_seconds("timeout", 0 if timeout is None else timeout)
    loop, is_there = asyncio.get_running_loop(), asyncio.Event()
    found = way.take()
    if found is not None:
        return found
    loop.add_reader(way.fileno(), is_there.set)
    try:
        until = None if timeout is None else loop.time() + timeout
        while True:
            await asyncio.wait_for(is_there.wait(), None if until is None else until - loop.time())
            is_there.clear()
            found = way.take()
            if found is not None:
                return found
    except asyncio.TimeoutError:
        return None
    finally:
        loop.remove_reader(way.fileno())


async def get(way: Transport, target: IdentityLike, named: IdLike, port: int = 0, **words: Any) -> Report:
    """Does what `ptpm.get` does, with the same arguments."""
    return await _ask(way, lambda asked: nobody.get(asked, target, named, port, **words))


async def survey(way: Transport, named: IdLike, **words: Any) -> AsyncIterator[Report]:
    """Does what `ptpm.survey` does, with the same arguments, and yields the answers as they come."""
    asked = _Asked(way)
    with contextlib.closing(survey_of_threads(asked, named, **words)) as answers:
        while True:
            async with _turn_of(way):
                report = await _in_thread(asked, lambda: next(answers, None))
            if report is None:
                return
            yield report


class Session:
    """A `ptpm.Session` whose requests are awaited. That session is `session.session`, for the members
    that ask nothing."""

    def __init__(self, settings: SessionSettings, file: Optional[SessionFile] = None, *, wait: float = 3.0) -> None:
        self.session = SessionOfThreads(settings, file, wait=wait)

    async def __aenter__(self) -> Session:
        self.session.__enter__()
        return self

    async def __aexit__(self, *why: Any) -> None:
        self.session.__exit__(*why)

    def _keep(self, report: Report) -> None:
        """The answer for a task that was cancelled is found in the same place as that of an earlier
        run."""
        self.session.earlier = report

    async def ask(
        self, way: Transport, action: int, named: IdLike, value: DataField = None, port: int = 0, *, timeout: float = 0.2
    ) -> Report:
        """Does what `ptpm.Session.ask` does."""
        async with _turn_of(self.session):
            return await _ask(way, lambda asked: self.session.ask(asked, action, named, value, port, timeout=timeout), self._keep)

    async def finish(self, way: Transport, *, timeout: float = 0.2) -> Report:
        """Does what `ptpm.Session.finish` does."""
        async with _turn_of(self.session):
            return await _ask(way, lambda asked: self.session.finish(asked, timeout=timeout), self._keep)

    async def go_on(self, way: Transport, attempts: int = 30, *, timeout: float = 0.2) -> Report:
        """Does what `ptpm.Session.go_on` does."""
        async with _turn_of(self.session):
            return await _ask(way, lambda asked: self.session.go_on(asked, attempts, timeout=timeout), self._keep)
