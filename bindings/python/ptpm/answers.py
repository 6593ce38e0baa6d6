"""What calls of the library return."""

from __future__ import annotations

import ctypes
from typing import Callable

from ._header import WHY, HandleAnswer as HandleAnswer, SessionAnswer as SessionAnswer, SurveyAnswer as SurveyAnswer
from ._library import library, text_by


def answer_name(number: int) -> str:
    """The name of the number that a call returned, such as NO_ROOM, or the number if it has none."""
    return text_by(library.ptpm_answer_name, number) or str(number)


class PtpmError(Exception):
    """The class of all errors of this module, except those of an argument (ValueError, OverflowError, TypeError) and of a socket
    (OSError). What was asked was not done, or its answer did not come."""


class Error(PtpmError):
    """A call was refused, and changed nothing. It is written as its name and why: `NO_PORT: the clock lacks the port`."""

    def __init__(self, number: int) -> None:
        super().__init__(": ".join(filter(None, (answer_name(number), WHY.get(number)))))
        self.number = number

    @property
    def name(self) -> str:
        """The answer's name in the header, without PTPM_."""
        return answer_name(self.number)


def done(number: int) -> None:
    """Raises an Error unless the number says that the call was done."""
    if number != 0:
        raise Error(number)


def judged(number: int) -> int:
    """Raises an Error if the number says that the call was refused (ptpm_is_refusal)."""
    if number >= 32:
        raise Error(number)
    return number


def written(call: Callable[..., int], what: Callable[..., int], room: int) -> bytes:
    """The octets that a call of a handle writes."""
    octets, size = (ctypes.c_uint8 * room)(), ctypes.c_size_t()
    done(call(what, octets, room, ctypes.byref(size)))
    return ctypes.string_at(octets, size.value)
