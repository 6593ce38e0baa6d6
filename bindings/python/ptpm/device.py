"""What a clock's device is asked, what it says, and what its owner changes at the device itself."""

from __future__ import annotations

import ctypes
from dataclasses import dataclass
from typing import AbstractSet, Any, Optional, Sequence, Tuple, Union

from . import _header as header
from ._header import Objection as Objection
from ._library import library, octets_of
from .answers import PtpmError
from .identity import Identity, PortIdentity
from .ids import Action, IdLike, error_name, id_of
from .settings import Rights, sum_of, write_number


class ChangeRefused(PtpmError):
    """A change at the device itself was refused, as one of a manager with every right would be, and nothing changed."""

    def __init__(self, error: int) -> None:
        super().__init__(error_name(error))
        self.error = error


def _is_value(number: int) -> bool:
    """Whether an octet has this number, as an Integer8 or as a UInteger8."""
    return -128 <= number <= 255


class Limit:
    """The values that a device's hardware has for an id at a port: a range of numbers, or a set of them. Each is from -128 to
    255, a value of the first octet of the dataField of a SET; -4 is 0xFC. A limit without values means that the id can't be set
    there. The port 0xFFFF is every port.

    >>> from ptpm import DelayMechanism
    >>> limit = Limit("DELAY_MECHANISM", 1, {DelayMechanism.E2E, DelayMechanism.NO_MECHANISM})
    >>> DelayMechanism.E2E in limit, DelayMechanism.P2P in limit, -4 in Limit("LOG_SYNC_INTERVAL", values=(-4, 1))
    (True, False, True)
    """

    def __init__(self, id: IdLike, port: int = 0xFFFF, values: Union[Tuple[int, int], AbstractSet[int], None] = None):
        self._limit = header.ptpm_limit(id=id_of(id))
        write_number(self._limit, "port", port)
        for octet in values or ():
            if not _is_value(octet):
                raise OverflowError(f"a value is -128 to 255, not {octet}")
        if isinstance(values, AbstractSet):
            for octet in values:
                self._limit.values[octet % 256 // 8] |= 1 << octet % 8
        elif values is not None:
            if values[0] > values[1]:
                raise ValueError(f"no value is from {values[0]} to {values[1]}")
            library.ptpm_limit_range(ctypes.byref(self._limit), *values)

    def __contains__(self, octet: int) -> bool:
        return _is_value(octet) and bool(self._limit.values[octet % 256 // 8] >> octet % 8 & 1)

    @staticmethod
    def objection(limits: Sequence[Limit], asked: Asked) -> Optional[Objection]:
        """The error by which a device with these limits objects, or None. Only limits of the request's id, and of a port that it
        names, count. If one of them has no value, a SET is NOT_SETABLE, and a COMMAND is NOT_SUPPORTED. If one lacks the value of
        a SET, that is a WRONG_VALUE."""
        places = (header.ptpm_limit * max(len(limits), 1))(*(limit._limit for limit in limits))
        error = library.ptpm_limits_say(places, len(limits), ctypes.byref(asked.as_in_c()))
        return Objection(error) if error else None


@dataclass(frozen=True)
class Asked:
    """What a device is asked: to carry out a new SET or COMMAND of a manager, which the clock itself does not refuse. Or it is asked
    for the value of an id that the clock lacks, by a GET that would be answered. A GET and a COMMAND have no octets. The port 0xFFFF
    is every port."""

    manager: PortIdentity
    number: int
    action: Action
    port: int
    id: int
    octets: bytes

    @classmethod
    def of_library(cls, question: Any) -> Asked:
        manager = PortIdentity(Identity(bytes(question.manager)), question.manager_port)
        octets = bytes(question.octets[: question.size])
        return cls(manager, question.number, Action(question.action), question.port, question.id, octets)

    def as_in_c(self) -> Any:
        """The question as the library has it."""
        question = header.ptpm_question(number=self.number, id=self.id, port=self.port, size=len(self.octets), action=self.action)
        question.manager[:] = self.manager.clock.octets
        question.manager_port = self.manager.port
        question.octets[: len(self.octets)] = self.octets
        return question


@dataclass(frozen=True)
class RelayedId:
    """An id that the clock lacks and its device has. `actions` are those that reach the device: SET, COMMAND or both. `sizes` are
    the least and the most octets of its dataField, 130 at most. A request of an id of a port names one port."""

    id: IdLike
    actions: AbstractSet[Action]
    sizes: Tuple[int, int] = (0, 130)
    right: Rights = Rights(0)
    is_of_port: bool = False

    def as_in_c(self) -> Any:
        """The row as the library has it."""
        bits = {Action.SET: header.PTPM_MAY_SET, Action.COMMAND: header.PTPM_MAY_COMMAND}
        row = header.ptpm_relayed_id(id=id_of(self.id), actions=sum(bits.get(action, 1) for action in self.actions))
        row.scope = header.PTPM_OF_PORT if self.is_of_port else header.PTPM_OF_CLOCK
        for name, number in (("right", sum_of(self.right)), ("least", self.sizes[0]), ("most", self.sizes[1])):
            write_number(row, name, number)
        return row


@dataclass(frozen=True)
class Gives:
    """The dataField that a device gives for an id that its clock lacks: an even number of octets, 1,418 at most."""

    octets: bytes


# What a device says: an objection, or a value.
Say = Union[Objection, Gives]


def say_of(said: Optional[Say]) -> Any:
    """What a device says, in the library's form. A device that says nothing agrees."""
    if said is None:
        return header.ptpm_say(kind=header.PTPM_AGREES)
    if not isinstance(said, Gives):
        return header.ptpm_say(kind=header.PTPM_OBJECTS, error=Objection(said))
    octets = octets_of(said.octets)
    say = header.ptpm_say(kind=header.PTPM_GIVES, size=min(len(octets), 0xFFFF))
    if len(octets) <= len(say.octets):
        say.octets[: len(octets)] = octets
    return say
