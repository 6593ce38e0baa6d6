"""What a host asks before it forwards a message: whether it has already forwarded it, and whether it is within
its rate."""

from __future__ import annotations

import ctypes
import threading

from . import _header as header
from ._library import library, octets_of


class PassedOn:
    """Which messages were forwarded last: 4,096 at most, or as many as there are places, 16 to 1,048,576 of 48 octets. A message that
    circulates is forwarded once. The seed is drawn, so that nobody else can predict where a message is recorded."""

    def __init__(self, seed: int, places: int = 4096) -> None:
        if not 16 <= places <= 1_048_576:
            raise ValueError(f"a table has 16 to 1,048,576 places, not {places}")
        self._seed, self._count = ctypes.c_uint64(seed), places
        self._places = (ctypes.c_uint64 * (6 * places))()
        self._turn = threading.RLock()

    def is_first(self, message: bytes, now: int, time: int) -> bool:
        """Whether a message is to be forwarded. If so, it is recorded for `time`, in the unit of `now`."""
        octets = octets_of(message)
        with self._turn:
            table = (self._seed, self._places, self._count)
            return bool(library.ptpm_passed_on_is_first_of(*table, octets, len(octets), now, time))


class Rate:
    """A bucket of tokens: N per second, at most 1,000,000, and at most those of one second at once. Times are in milliseconds."""

    def __init__(self, tokens: int, now: int) -> None:
        if tokens < 0:
            raise OverflowError(f"a rate is no {tokens}")
        self._rate = header.ptpm_rate()
        self._turn = threading.RLock()
        library.ptpm_rate_start(ctypes.byref(self._rate), tokens, now)

    def take(self, now: int) -> bool:
        """Takes a token, if there is one. A time before the latest one counts as the latest."""
        with self._turn:
            return bool(library.ptpm_rate_take(ctypes.byref(self._rate), now))
