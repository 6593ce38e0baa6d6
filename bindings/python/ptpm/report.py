"""What a clock answered."""

from __future__ import annotations

import ctypes
from dataclasses import dataclass
from typing import Callable, Dict, Optional, Type

from . import _header as header
from .answers import Error, judged
from .data_sets import AnyDataSet, id_of_data_set, of_members
from .identity import PortIdentity
from .ids import error_name
from .members import Member, lines, members
from .session_image import Request

MOST_DATA = 1418


@dataclass(frozen=True)
class Report:
    """What a clock answered: a dataField, that it carried a COMMAND out (`is_done`), or a managementErrorId. If it answers a SET,
    `asked` is the dataField of the SET."""

    id: int
    octets: bytes
    error: Optional[int] = None
    is_done: bool = False
    source: Optional[PortIdentity] = None
    asked: Optional[bytes] = None

    @property
    def is_as_asked(self) -> bool:
        """False if a SET was answered with a different value than was asked. A clock of ptpm answers a SET with the SET's own
        octets, and others with the data set that they then have. So if this is false, the SET was not carried out as asked.
        Members are compared, but not reserved octets."""
        if self.asked is None or self.error is not None:
            return True
        return self.octets == self.asked or lines(self.id, self.octets) == lines(self.id, self.asked)

    @property
    def members(self) -> Dict[str, Member]:
        """The members of the dataField by the standard's names: none if they are not known here."""
        return members(self.id, self.octets)

    def data_set(self, kind: Type[AnyDataSet]) -> Optional[AnyDataSet]:
        """The data set that was answered: its members have their types, as in `report.data_set(PortDataSet)`. None if it is no such
        data set, or the clock refused."""
        if self.id != id_of_data_set(kind) or self.error is not None or not self.members:
            return None
        return of_members(kind, self.members)

    def __str__(self) -> str:
        """As ptpm-manage prints it."""
        if self.error is not None:
            return f"refused {error_name(self.error)}"
        return "done" if self.is_done else "\n".join(lines(self.id, self.octets))


def told(
    number: int, named: int, octets: bytes, error: int, source: Optional[PortIdentity] = None, asked: Optional[bytes] = None
) -> Report:
    """The report for a number of `enum ptpm_reported`."""
    if number == header.PTPM_NO_REPORT:
        raise Error(number)
    is_refused = judged(number) == header.PTPM_REFUSED
    return Report(named, octets, error if is_refused else None, number == header.PTPM_DONE, source, asked)


def told_by(call: Callable[..., int], what: Callable[..., int], request: Optional[Request]) -> Report:
    """What a call of a handle reports of the request that was answered."""
    size, error = ctypes.c_size_t(), ctypes.c_uint16()
    room = (ctypes.c_uint8 * MOST_DATA)()
    number = judged(call(what, room, MOST_DATA, ctypes.byref(size), ctypes.byref(error)))
    if request is None:
        raise Error(header.PTPM_NO_REPORT)
    return told(number, request.id, ctypes.string_at(room, size.value), error.value, asked=request.set_to)
