"""The agent of one clock that is saved while it takes datagrams."""

from __future__ import annotations

import ctypes
from typing import List, NamedTuple, Optional, Sequence, Set, Tuple, Type

from . import _header as header
from ._library import Closing, library
from .answers import done, judged
from .clock import Changed, Clock, Handled, came_in
from .data_sets import AnyDataSet
from .device import Asked, Say, say_of
from .ids import Action, IdLike
from .observation import ObservedClock, ObservedPort


class Saved(NamedTuple):
    """What is to be sent once an image is saved: the port and the octets of each message. And whether the device is to be asked now for
    the change that is under way."""

    messages: List[Tuple[int, bytes]]
    act_now: bool


class SavingClock(Closing):
    """A Clock that outlasts a loss of power. It shows no change before that is saved. The messages of a change wait for a save,
    and so do those of all else that managers and the owner ask meanwhile. Anyone else is answered at once, from what was saved. A
    save has three steps: `image`, the storing of its octets, and `saved`. If storing fails, `saved` is not called: the next image
    has all of it.

    >>> from ptpm import ClockSettings, Manager, PortSettings
    >>> manager = Manager("0011223344556677/1")
    >>> clock = SavingClock(Clock(ClockSettings("aabbccfffeddee01"), [PortSettings()], [manager]))
    >>> stored = []
    >>> def save():
    ...     image, token = clock.image()
    ...     stored.append(image)
    ...     return clock.saved(token).messages
    >>> save()  # a clock that was started is not saved yet
    []
    >>> request = bytes.fromhex("0d1200380000" + 14 * "00" + "00112233445566770001" "0007047f" "aabbccfffeddee01ffff"
    ...                         "010101000001000420056400")
    >>> taken = clock.take(1, request)
    >>> taken.answer.name, taken.messages, taken.waiting, clock.is_unsaved()
    ('ANSWERED_NEW', [], 1, True)
    >>> [(port, octets[-2:].hex()) for port, octets in save()]
    [(1, '6400')]
    """

    def __init__(self, clock: Clock, places: int = 128) -> None:
        """This many messages may wait: Clock.most_sent or more, each with 1,476 octets. A clock that was just restored is saved. Any
        other is not: it takes no datagram before its first save."""
        done(clock._call(library.ptpm_clock_saving, places))
        self._clock = clock

    def close(self) -> None:
        """Stops the clock."""
        self._clock.close()

    def take(self, port: int, octets: bytes, say: Optional[Say] = None, of_owner: bool = False) -> Handled:
        """Does what Clock.handle does. Messages that wait are returned by a later `saved`. It is refused (UNSAVED) if there is no
        place for them (free), and before the first save."""
        return self._clock.handle(port, octets, say, of_owner)

    def undertake(self, port: int, octets: bytes) -> Optional[Asked]:
        """Keeps a change as under way, so that the device is asked for it once, whatever happens to the power. A change is what
        `ask` would now ask of the device. It is in each image from then on. The next save returns `act_now` once, and the host
        asks its device. For any other datagram it returns what `ask` would, and keeps nothing. It is refused (UNSAVED) before the
        first save. A second change is refused (UNDER_WAY). Until `decide`, everything else that the same manager asks of this
        clock is refused too.

        >>> from ptpm import Clock, ClockSettings, Manager, Objection, PortSettings
        >>> clock = SavingClock(Clock(ClockSettings("aabbccfffeddee01"), [PortSettings()], [Manager("0011223344556677/1")]))
        >>> def save():
        ...     return clock.saved(clock.image()[1])
        >>> save().act_now
        False
        >>> request = bytes.fromhex("0d1200380000" + 14 * "00" + "00112233445566770001" "0007047f" "aabbccfffeddee01ffff"
        ...                         "010101000001000420056400")
        >>> clock.undertake(1, request).octets.hex(), save().act_now, save().act_now
        ('6400', True, False)
        >>> clock.decide(Objection.GENERAL_ERROR).waiting, clock.under_way()
        (1, None)
        >>> [octets[-8:].hex() for _, octets in save().messages]
        ['fffe200500000000']
        """
        return self._clock._asked(library.ptpm_clock_undertake, *came_in(port, octets))

    def under_way(self) -> Optional[Asked]:
        """The change that is under way. After a restore the device may have been asked already. The host then looks whether the
        device has the change, and says so (decide)."""
        return self._clock._asked(library.ptpm_clock_under_way)

    def decide(self, say: Optional[Say] = None) -> Handled:
        """Does what `take` does with the datagram that is under way, at its port. Then nothing is under way, and its messages wait for a
        save. It is refused if nothing is under way (NOTHING_UNDER_WAY). If there is no place (UNSAVED), the change stays under way."""
        return self._clock._handled(library.ptpm_clock_decide, ctypes.byref(say_of(say)))

    def image(self) -> Tuple[bytes, int]:
        """The clock's image, and its token. An earlier image can't be confirmed any more."""
        size, token = ctypes.c_size_t(), ctypes.c_uint64()
        room = (ctypes.c_uint8 * self._clock._image_room)()
        done(self._clock._call(library.ptpm_clock_image_of, room, len(room), ctypes.byref(size), ctypes.byref(token)))
        return bytes(room[: size.value]), token.value

    def saved(self, token: int) -> Saved:
        """Says once that a restart would find the latest image, whatever happens to the power. Returns the messages that waited
        when that image was made, and are now to be sent. And whether the image has a change that is still under way: once for
        each change, and never for one that a restore found."""
        with self._clock._turn:
            answer = judged(self._clock._call(library.ptpm_clock_saved, token))
            return Saved(list(self._clock._released()), answer == header.PTPM_ACT_NOW)

    def is_unsaved(self) -> bool:
        """Whether the clock has a change that is not saved, or was never saved."""
        return bool(self._clock._call(library.ptpm_clock_unsaved))

    def free(self) -> int:
        """How many more messages may wait."""
        return self._clock._call(library.ptpm_clock_free)

    def ask(self, port: int, octets: bytes) -> Optional[Asked]:
        """Does what Clock.ask does."""
        return self._clock.ask(port, octets)

    def set(self, action: Action, named: IdLike, port: int = 0xFFFF, octets: bytes = b"") -> Changed:
        """Does what Clock.set does. The caller acts on what changed, and says "done" to the owner, once an image that was made later is
        saved."""
        return self._clock.set(action, named, port, octets)

    def observe(self, observed: ObservedClock, ports: Sequence[ObservedPort] = ()) -> Set[int]:
        """Does what Clock.observe does. Nothing is saved for it."""
        return self._clock.observe(observed, ports)

    def read(self, named: IdLike, port: int = 0) -> bytes:
        """Does what Clock.read does, with what was saved and observed since."""
        return self._clock.read(named, port)

    def data_set(self, kind: Type[AnyDataSet], port: int = 0) -> AnyDataSet:
        """Does what Clock.data_set does, as `read` does."""
        return self._clock.data_set(kind, port)
