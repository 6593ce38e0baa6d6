"""Numbers with names. A number without a name is kept, and is named by its digits."""

from __future__ import annotations

from enum import IntEnum
from typing import Any, Optional, Type, TypeVar

_Named = TypeVar("_Named", bound=IntEnum)
_Enumeration = TypeVar("_Enumeration", bound="Enumeration")


def _named(cls: Type[_Named], value: Any, name: str) -> _Named:
    """A member that the enum lacks."""
    member = int.__new__(cls, value)
    member._name_ = name
    member._value_ = value
    return member


class Answer(IntEnum):
    """What became of a datagram. A number that a newer library returns has no name of its own here."""

    @classmethod
    def _missing_(cls, value: object) -> Answer:
        return _named(cls, value, f"NUMBER_{value}")


class Enumeration(IntEnum):
    """Numbers of an octet that the standard names. A number without a name is named like `0x11`, as in every text and JSON of
    ptpm."""

    @classmethod
    def _missing_(cls, value: object) -> Optional[Enumeration]:
        return _named(cls, value, f"{value:#04x}") if isinstance(value, int) and 0 <= value <= 0xFF else None

    @classmethod
    def of(cls: Type[_Enumeration], text: str) -> _Enumeration:
        """The member with this name, or with a number such as `0x11`."""
        return cls(int(text, 0)) if text[:1].isdigit() else cls[text]
