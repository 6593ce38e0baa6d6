"""The agent of one clock."""

from __future__ import annotations

import ctypes
from contextlib import contextmanager
from dataclasses import dataclass
from typing import Any, Iterator, List, Optional, Sequence, Set, Tuple, Type

from . import _header as header
from ._header import ClockMembers, PortMembers
from ._library import Handle, library, octets_of
from .answers import HandleAnswer, done, judged, written
from .data_sets import AnyDataSet, id_of_data_set, of_members
from .device import Asked, ChangeRefused, RelayedId, Say, say_of
from .identity import Identity, IdentityLike
from .ids import Action, IdLike, id_of
from .members import members
from .observation import ObservedClock, ObservedPort
from .settings import ClockSettings, Manager, PortSettings


@dataclass(frozen=True)
class Changed:
    """Which members a datagram changed: those of the clock, and those of port 1, port 2 and so on."""

    clock: ClockMembers
    ports: Tuple[PortMembers, ...]

    def __bool__(self) -> bool:
        return bool(self.clock) or any(self.ports)

    @classmethod
    def of_library(cls, changed: header.ptpm_changed) -> Changed:
        """As the library writes it."""
        return cls(ClockMembers(changed.clock), tuple(PortMembers(members) for members in changed.ports))


@dataclass(frozen=True)
class Handled:
    """What became of a datagram, which messages are to be sent for it, and which members it changed. And how many more messages
    wait until a SavingClock is saved."""

    answer: HandleAnswer
    messages: List[Tuple[int, bytes]]
    changed: Changed
    waiting: int = 0


def _array(kind: Any, places: Sequence[Any]) -> Any:
    """An array of C. It has a place at least, so that its pointer is never null."""
    return (kind * max(len(places), 1))(*places)


def _trusted(identity: IdentityLike, managers: Sequence[Manager]) -> Any:
    """The managers of a clock, as the library takes them. The library would accept one with the identity of the clock, and never
    hear it."""
    places = [manager.as_in_c() for manager in managers]
    own = Identity.of(identity).octets
    if any(bytes(place.clock) == own for place in places):
        raise ValueError("a manager has the identity of the clock, which hears no such manager")
    return _array(header.ptpm_manager_settings, places)


def _message(place: Any) -> Tuple[int, bytes]:
    """The message in a place: its port and its octets."""
    return place.port, bytes(memoryview(place.octets)[: place.size])


def port_number(port: int) -> int:
    """A number of a port that fits its type."""
    if not 0 <= port <= 65535:
        raise OverflowError(f"a port's number is 0 to 65535, not {port}")
    return port


def came_in(port: int, octets: bytes) -> Tuple[Any, ...]:
    """A datagram and its port, as a call takes them."""
    datagram = octets_of(octets)
    return port_number(port), datagram, len(datagram)


def _image_bound(ports: int, managers: int) -> int:
    """The most octets of an image: PTPM_CLOCK_IMAGE_BOUND of the header. Counts that no clock has make no room for them."""
    ports, managers = (min(max(count, 0), most) for count, most in ((ports, header.PTPM_MOST_PORTS), (managers, header.PTPM_MOST_MANAGERS)))
    return 417 + 15 * ports + managers * (1438 + 30 * max(ports, 8))


class Clock(Handle):
    """The data sets of one clock of up to 64 ports, and what becomes of each management message that comes in at its ports.

    >>> with Clock(ClockSettings("aabbccfffeddee01", priority1=100), [PortSettings()]) as clock:
    ...     clock.read("PRIORITY1").hex()
    '6400'
    """

    def __init__(self, settings: ClockSettings, ports: Sequence[PortSettings], managers: Sequence[Manager] = ()) -> None:
        self._begin(len(ports), len(managers))
        places = _array(header.ptpm_port_settings, [port.as_in_c() for port in ports])
        trusted = _trusted(settings.identity, managers)
        struct = settings.as_in_c()
        done(self._call(library.ptpm_clock_start, ctypes.byref(struct), places, len(ports), trusted, len(managers)))

    def _begin(self, ports: int, managers: int) -> None:
        """A handle that holds nothing. It will have these ports and managers."""
        super().__init__(header.ptpm_clock, library.ptpm_clock_stop)
        self._image_room = _image_bound(ports, managers)
        self._rooms: List[Any] = []  # for what a turn sends; a signal handler in a turn takes another one

    @classmethod
    def restore(cls, identity: IdentityLike, ports: int, managers: Sequence[Manager], image: bytes) -> Tuple[Clock, int]:
        """The clock of an image, which must have this identity and this number of ports. And how many managers' latest
        requests were forgotten, since these managers are not among those that are given. Managers and their rights are those
        that are given; all else comes from the image. Do not start a fresh clock if the image is refused: it would carry out
        requests once more."""
        clock = cls.__new__(cls)
        clock._begin(ports, len(managers))
        gone = ctypes.c_size_t()
        trusted = _trusted(identity, managers)
        octets, own = octets_of(image), Identity.of(identity).octets
        words = (own, ports, trusted, len(managers), octets, len(octets), ctypes.byref(gone))
        done(clock._call(library.ptpm_clock_restore, *words))
        return clock, gone.value

    def image(self) -> bytes:
        """The clock's image: what a host saves before it sends the messages of a turn that is ANSWERED_NEW. Managers and their rights
        are not in it."""
        return written(self._call, library.ptpm_clock_image, self._image_room)

    def relay(self, ids: Sequence[RelayedId]) -> None:
        """Gives the clock the ids that its device has and the clock lacks, instead of those that it has. A SET or COMMAND of such an id
        then reaches the device (ask), if its row permits it. They are in no image: give them again after a restore."""
        done(self._call(library.ptpm_clock_relay, _array(header.ptpm_relayed_id, [row.as_in_c() for row in ids]), len(ids)))

    def ask(self, port: int, octets: bytes) -> Optional[Asked]:
        """What a datagram would ask of the device, if it came in now at this port. The device is asked to carry out a new SET or
        COMMAND of a manager, which the clock itself does not refuse. Or it is asked for the value of an id that the clock lacks,
        by a GET that would be answered. For any other datagram it is asked nothing. The call changes nothing."""
        return self._asked(library.ptpm_clock_ask, *came_in(port, octets))

    def _asked(self, call: Any, *words: Any) -> Optional[Asked]:
        """What a call would have the device do."""
        question = header.ptpm_question()
        asked = judged(self._call(call, *words, ctypes.byref(question)))
        return Asked.of_library(question) if asked in (header.PTPM_ASKED_CHANGE, header.PTPM_ASKED_VALUE) else None

    def handle(self, port: int, octets: bytes, say: Optional[Say] = None, of_owner: bool = False) -> Handled:
        """Judges a datagram that came in at a port, counted from 1, and carries its request out. What is to be sent is the port
        and the octets of each message. If the device objects where it is asked (ask), the request is answered and kept with that
        error, and no member changes. If it gives a value where it is asked for one, this is the answer. For the GET of a manager
        the value has 130 octets at most, since the answer is kept. A longer one is answered with RESPONSE_TOO_BIG, and that is
        kept. A request of the device's owner is judged as one of a manager with every right, and nothing of it is kept."""
        return self._handled(library.ptpm_clock_take, *came_in(port, octets), ctypes.byref(say_of(say)), of_owner)

    def _handled(self, call: Any, *words: Any) -> Handled:
        """What a call makes of a datagram."""
        taken = header.ptpm_taken()
        with self._room() as sent:
            answer = judged(call(self._at, *words, sent, len(sent), ctypes.byref(taken)))
            messages = [_message(place) for place in sent[: taken.count]]
        return Handled(HandleAnswer(answer), messages, Changed.of_library(taken.changed), taken.waiting)

    def set(self, action: Action, named: IdLike, port: int = 0xFFFF, octets: bytes = b"") -> Changed:
        """Carries out a SET or a COMMAND of the device's owner, as one of a manager with every right. It is for a command line of
        the device, or for another protocol of management. What is kept of each manager stays: a copy of its latest request gets
        the cached answer. The port 0xFFFF is every port. Returns the members that changed, or raises ChangeRefused."""
        changed, error = header.ptpm_changed(), ctypes.c_uint16()
        field = octets_of(octets)
        words = (Action(action), id_of(named), port_number(port), field, len(field), ctypes.byref(changed), ctypes.byref(error))
        if judged(self._call(library.ptpm_clock_set, *words)) == header.PTPM_REFUSED:
            raise ChangeRefused(error.value)
        return Changed.of_library(changed)

    def most_sent(self) -> int:
        """The most messages that one datagram makes: a copy for each other port, and an answer of each port."""
        return self._call(library.ptpm_clock_most_sent)

    @contextmanager
    def _room(self) -> Iterator[Any]:
        """Places for what a turn sends."""
        with self._turn:
            room = self._rooms.pop() if self._rooms else (header.ptpm_sent * max(1, self.most_sent()))()
            try:
                yield room
            finally:
                self._rooms.append(room)

    def _released(self) -> Iterator[Tuple[int, bytes]]:
        """The messages that no longer wait for a save."""
        message = header.ptpm_sent()
        while self._call(library.ptpm_clock_next, ctypes.byref(message)):
            yield _message(message)

    def observe(self, observed: ObservedClock, ports: Sequence[ObservedPort] = ()) -> Set[int]:
        """Sets what the host observes about its clock and its first ports. Returns the disabled ports for which a state was
        observed: they stay disabled, and the host stops them."""
        left = ctypes.c_uint64()
        struct = observed.as_in_c()
        places = _array(header.ptpm_observed_port, [port.as_in_c() for port in ports])
        done(self._call(library.ptpm_clock_observe, ctypes.byref(struct), places, len(ports), ctypes.byref(left)))
        return {port for port in range(1, header.PTPM_MOST_PORTS + 1) if left.value >> port - 1 & 1}

    def read(self, named: IdLike, port: int = 0) -> bytes:
        """Reads the answer that a GET of a managementId would get: the dataField. The port matters only for an id of a port."""
        size = ctypes.c_size_t()
        room = (ctypes.c_uint8 * header.PTPM_MOST_READ)()
        words = (id_of(named), port_number(port), room, len(room), ctypes.byref(size))
        done(self._call(library.ptpm_clock_read, *words))
        return bytes(room[: size.value])

    def data_set(self, kind: Type[AnyDataSet], port: int = 0) -> AnyDataSet:
        """Reads a data set of the clock itself: its members have their types, as in
        `clock.data_set(CurrentDataSet).steps_removed`. The port matters only for a data set of a port."""
        named = id_of_data_set(kind)
        return of_members(kind, members(named, self.read(named, port)))
