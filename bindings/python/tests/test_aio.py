"""Asking from asyncio, over the agent of hosts/. `make -C hosts` builds the programs."""

from __future__ import annotations

import asyncio
import selectors
import time
import unittest
from typing import List, Optional, Tuple

import ptpm
import ptpm.aio

from . import CLOCK, MANAGER, TOP, Folder


class Silent(ptpm.Transport):
    """A way on which nobody answers."""

    def __init__(self) -> None:  # it has no socket of its own
        self.sent: List[float] = []

    def send(self, octets: bytes) -> bool:
        self.sent.append(time.monotonic())
        return True

    def receive(self, until: float) -> Optional[bytes]:
        time.sleep(max(until - time.monotonic(), 0))
        return None


class Slow(ptpm.Transport):
    """Another way, on which it takes a moment to hand out what came in."""

    def __init__(self, way: ptpm.Transport) -> None:
        self.way = way

    def send(self, octets: bytes) -> bool:
        return self.way.send(octets)

    def receive(self, until: float) -> Optional[bytes]:
        datagram = self.way.receive(until)
        time.sleep(0.3)
        return datagram


@unittest.skipUnless((TOP / "hosts/clock").exists(), "hosts/clock is not built")
class Awaited(Folder):
    def setUp(self) -> None:
        super().setUp()
        self.way = ptpm.UnixTransport(self.start_clock("-m", MANAGER, CLOCK))
        self.addCleanup(self.way.close)

    def session(self) -> ptpm.aio.Session:
        return ptpm.aio.Session(ptpm.SessionSettings(MANAGER, CLOCK, 100), wait=0)

    def test_requests_are_awaited(self) -> None:
        async def ask() -> Tuple[object, ...]:
            async with self.session() as session:
                done = await session.ask(self.way, ptpm.Action.SET, "PRIORITY1", 100)
            read = await ptpm.aio.get(self.way, CLOCK, "PRIORITY1")
            found = [report.source async for report in ptpm.aio.survey(self.way, "PRIORITY1", timeout=0.05)]
            return done.is_as_asked, read.members, [str(source) for source in found]

        self.assertEqual(asyncio.run(ask()), (True, {"priority1": 100}, [f"{CLOCK}/1"]))

    def test_a_set_that_was_cancelled_goes_on(self) -> None:
        async def ask() -> Tuple[object, ...]:
            async with self.session() as session:
                await session.ask(self.way, ptpm.Action.GET, "PRIORITY1", timeout=5)
                with self.assertRaises(asyncio.TimeoutError):
                    await asyncio.wait_for(session.ask(Silent(), ptpm.Action.SET, "PRIORITY1", 100, timeout=5), 0.3)
                is_busy = session.session.is_busy()
                return is_busy, (await session.go_on(self.way)).members, session.session.is_busy()

        self.assertEqual(asyncio.run(ask()), (True, {"priority1": 100}, False))

    def test_an_answer_that_comes_to_a_cancelled_task_is_kept(self) -> None:
        async def ask() -> Tuple[object, ...]:
            async with self.session() as session:
                await session.ask(self.way, ptpm.Action.GET, "PRIORITY1", timeout=5)
                with self.assertRaises(asyncio.TimeoutError):
                    await asyncio.wait_for(session.ask(Slow(self.way), ptpm.Action.SET, "PRIORITY1", 100, timeout=5), 0.1)
                report = session.session.earlier
                return session.session.is_busy(), report and report.members

        self.assertEqual(asyncio.run(ask()), (False, {"priority1": 100}))

    def test_tasks_take_turns(self) -> None:
        async def ask() -> List[object]:
            async with self.session() as session:
                asked = (session.ask(self.way, ptpm.Action.SET, "PRIORITY1", value) for value in range(20))
                return [report.octets[0] for report in await asyncio.gather(*asked)]

        self.assertEqual(asyncio.run(ask()), list(range(20)))

    def test_a_datagram_is_awaited(self) -> None:
        async def hear() -> Tuple[Optional[bytes], Optional[bytes]]:
            with ptpm.Survey(ptpm.SurveySettings("0011223344556677/2", 7, "PRIORITY1")) as asked:
                self.way.send(asked.send())
                return await ptpm.aio.receive(self.way, 2), await ptpm.aio.receive(self.way, 0.05)

        heard, later = asyncio.run(hear())
        assert heard is not None
        self.assertEqual((heard[54:56], later), (b"\x80\0", None))

    def test_a_way_can_be_selected(self) -> None:
        with selectors.DefaultSelector() as selector:
            selector.register(self.way, selectors.EVENT_READ)
            self.assertEqual((selector.select(0), self.way.take()), ([], None))
            with ptpm.Survey(ptpm.SurveySettings("0011223344556677/2", 8, "PRIORITY1")) as asked:
                self.way.send(asked.send())
            self.assertEqual(len(selector.select(2)), 1)
            self.assertIsNotNone(self.way.take())
            self.assertEqual(selector.select(0), [])


class Cancelled(unittest.TestCase):
    def test_a_task_that_is_cancelled_sends_nothing_more(self) -> None:
        way = Silent()

        async def ask() -> Tuple[float, bool]:
            with self.assertRaises(asyncio.TimeoutError):
                await asyncio.wait_for(ptpm.aio.get(way, CLOCK, "PRIORITY1", timeout=0.2, attempts=100), 0.5)
            ended = time.monotonic()
            await asyncio.sleep(0.3)
            return ended, all(sent < ended for sent in way.sent)

        began = time.monotonic()
        ended, is_silent = asyncio.run(ask())
        self.assertTrue(is_silent and way.sent)
        self.assertLess(ended - began, 2)

    def test_no_answer_is_a_timeout(self) -> None:
        with self.assertRaises(TimeoutError) as caught:
            asyncio.run(ptpm.aio.get(Silent(), CLOCK, "PRIORITY1", timeout=0.01, attempts=3))
        assert isinstance(caught.exception, ptpm.NoAnswer)
        self.assertEqual((str(caught.exception), caught.exception.was_sent), ("no answer to 3 messages", True))
