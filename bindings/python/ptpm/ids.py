"""What a management message names by a number: an action, a managementId and a managementErrorId."""

from __future__ import annotations

from typing import Union

from . import _header as header
from ._header import Action as Action, ManagementId as ManagementId
from ._library import library, text_by, typed

IdLike = Union[int, str]


def id_of(named: IdLike) -> int:
    """A managementId by its number, by its name in either case, or by four hexadecimal digits. The name may also be one that only other
    clocks have, such as CLOCK_DESCRIPTION or TIME_STATUS_NP."""
    if isinstance(named, int):
        if not 0 <= named <= 65535:
            raise OverflowError(f"a managementId is 0 to 65535, not {named}")
        return int(named)
    for call in (library.ptpm_other_id_named, library.ptpm_id_parse):
        number: int = call(*typed(named))
        if number != header.PTPM_NO_ID:
            return number
    raise ValueError(f"{named!r} is neither the name of a managementId nor four hexadecimal digits")


def id_name(number: int) -> str:
    """The standard's name of a managementId, or four hexadecimal digits if this profile lacks it."""
    return text_by(library.ptpm_id_name, number) or f"{number:04x}"


def error_name(number: int) -> str:
    """The standard's name of a managementErrorId (15.5.4.3, table 109), or its number if it has none."""
    return text_by(library.ptpm_error_name, number) or f"0x{number:04x}"
