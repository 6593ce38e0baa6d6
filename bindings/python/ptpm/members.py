"""The members of a dataField (IEEE 1588-2019, 15.5.3) by the standard's names, as values and as ptpm-manage prints them."""

from __future__ import annotations

import ctypes
import operator
import re
from decimal import Decimal
from typing import Callable, Dict, Iterable, List, Mapping, NoReturn, Sequence, Tuple, Union

from . import _header as header
from ._library import library, octets_of, text_by
from .identity import Identity, PortIdentity
from .ids import IdLike, ManagementId, id_of
from .settings import DelayMechanism, PortState, TimeSource

Member = Union[int, bool, str, bytes, Decimal, Identity, PortIdentity, Tuple[Identity, ...]]

# What a SET takes for a member: a number or a flag, or a text as it is printed.
Value = Union[int, bool, str]
DataField = Union[bytes, Value, Mapping[str, Value], None]

_ESCAPE = re.compile(rb"\\x(..)")


def _pairs(number: int, octets: bytes) -> List[Tuple[str, str]]:
    """The name and the value of each member that the library has in a dataField."""
    text = text_by(library.ptpm_field_text, number, octets, len(octets), room=header.PTPM_MOST_FIELD_TEXT)
    return [(name, value) for name, _, value in (line.partition(" ") for line in text.splitlines())]


def _has_members(pairs: Sequence[Tuple[str, str]]) -> bool:
    """Whether these are members. The name `value` is for a whole dataField that has no members, or does
    not fit its id."""
    return bool(pairs) and pairs[0][0] != "value"


def _text_octets(text: str) -> bytes:
    """The octets of a text, in which the library writes an octet as a backslash, an x and two digits."""
    return _ESCAPE.sub(lambda escape: bytes.fromhex(escape[1].decode()), text.encode())


def _text(text: str) -> str:
    return _text_octets(text).decode("utf-8", "backslashreplace")


def _octets(text: str) -> bytes:
    return b"" if text == "-" else bytes.fromhex(text)


def _identities(text: str) -> Tuple[Identity, ...]:
    return tuple(map(Identity.of, text.split()))


# How the value of a member is read, by what it is.
_READERS: Dict[int, Callable[[str], Member]] = {
    header.PTPM_IS_NUMBER: lambda text: int(text, 0),
    header.PTPM_IS_FLAG: lambda text: text == "true",
    header.PTPM_IS_INTERVAL: Decimal,
    header.PTPM_IS_CLOCK: Identity.of,
    header.PTPM_IS_PORT: PortIdentity.of,
    header.PTPM_IS_CLOCKS: _identities,
    header.PTPM_IS_TEXT: _text,
    header.PTPM_IS_OCTETS: _octets,
    header.PTPM_IS_PORT_STATE: PortState.of,
    header.PTPM_IS_DELAY_MECHANISM: DelayMechanism.of,
    header.PTPM_IS_TIME_SOURCE: TimeSource.of,
    header.PTPM_IS_TIMESTAMPING: lambda text: int(text, 0) if text[0].isdigit() else text,
}


def _kind(number: int, octets: bytes, place: int) -> int:
    """The kind of the value in the line at this place."""
    kind: int = library.ptpm_member_kind(number, octets, len(octets), place)
    return kind


def members(named: IdLike, octets: bytes) -> Dict[str, Member]:
    """The members of a managementId's dataField: none if they are not known here, or if its length is not that of the id.

    >>> members("CURRENT_DATA_SET", bytes.fromhex("0001ffffffffffff80000000000000000001"))
    {'stepsRemoved': 1, 'offsetFromMaster': Decimal('-0.5'), 'meanDelay': Decimal('0.0000152587890625')}
    """
    number, octets = id_of(named), octets_of(octets)
    pairs = _pairs(number, octets)
    if not _has_members(pairs):
        return {}
    return {name: _READERS[_kind(number, octets, place)](text) for place, (name, text) in enumerate(pairs)}


# A backslash, and what controls a terminal, is not seen, or changes the direction of what follows it, as ptpm-manage has it.
_HIDDEN = re.compile(
    "[\\\\\0-\x1f\x7f-\x9f\xad\u034f\u061c\u115f\u1160\u17b4\u17b5\u180b-\u180f\u200b-\u200f\u2028-\u202e\u2060-\u206f\u2800"
    "\u3164\ufe00-\ufe0f\ufeff\uffa0\ufff9-\ufffb\U000e0000-\U0010ffff]"
)


def _shown(text: str) -> str:
    return _HIDDEN.sub(lambda hidden: "".join(f"\\x{octet:02x}" for octet in hidden[0].encode()), text)


def _shown_text(octets: bytes) -> str:
    """A text in which octets that make no character are shown as octets."""
    shown = octets.decode("utf-8", "surrogateescape")
    return "".join(f"\\x{ord(c) - 0xDC00:02x}" if 0xDC80 <= ord(c) <= 0xDCFF else _shown(c) for c in shown)


def lines(number: int, octets: bytes) -> List[str]:
    """A line for each member, its name and its value; or the dataField in hexadecimal."""
    pairs = _pairs(number, octets)
    return [
        f"{name} {_shown_text(_text_octets(text)) if _kind(number, octets, place) == header.PTPM_IS_TEXT else text}"
        for place, (name, text) in enumerate(pairs)
    ]


def _names(number: int) -> List[str]:
    """The names of the members of an id of this profile, in the order of its dataField."""
    if not text_by(library.ptpm_id_name, number):
        return []
    for size in range(2, header.PTPM_MOST_READ, 2):
        pairs = _pairs(number, bytes(size))
        if _has_members(pairs):
            return [name for name, _ in pairs]
    return []


_DATA_SETS = (
    ManagementId.DEFAULT_DATA_SET, ManagementId.CURRENT_DATA_SET, ManagementId.PARENT_DATA_SET,
    ManagementId.TIME_PROPERTIES_DATA_SET, ManagementId.PORT_DATA_SET,
)


def _refuse(number: int, words: Sequence[str], why: int, place: int) -> NoReturn:
    """Says what is wrong with words that are not a dataField."""
    if number in _DATA_SETS:
        raise ValueError("the id can only be read")
    if why == header.PTPM_NO_VALUE:
        fault = "" if len(words) == 1 else f"{words[2 * place]} {words[2 * place + 1]}: "
        takes = text_by(library.ptpm_field_takes, number, place, room=header.PTPM_MOST_TAKES)
        raise ValueError(f"{fault}it takes {takes}")
    names = _names(number)
    if why == header.PTPM_OTHER_NAME:
        raise ValueError(f"{words[2 * place]}: the member that comes next is {names[place]}")
    if not names:
        raise ValueError("it takes a dataField as octets")
    raise ValueError(f"it takes {' '.join(f'{name} VALUE' for name in names)}")


def _parsed(number: int, words: Sequence[str]) -> Tuple[int, bytes, int]:
    """The library's answer to the words of a SET, the dataField, and the place of the member that is at fault."""
    octets = (ctypes.c_uint8 * header.PTPM_MOST_READ)()
    count, place = ctypes.c_size_t(), ctypes.c_size_t()
    joined = b"".join(word.encode() + b"\0" for word in words)
    at = (octets, len(octets), ctypes.byref(count), ctypes.byref(place))
    answer: int = library.ptpm_field_parse(number, joined, len(joined), *at)
    return answer, bytes(octets[: count.value]), place.value


def parse(number: int, words: Sequence[str]) -> bytes:
    """The dataField of a SET from words, as ptpm-manage takes them: the name of each member and its value as it is printed. The
    name of a sole member may be left out.

    >>> parse(ManagementId.PRIORITY1, ["100"]) == parse(ManagementId.PRIORITY1, ["priority1", "0x64"]) == bytes([100, 0])
    True
    """
    answer, octets, place = _parsed(number, words)
    if answer != header.PTPM_PARSED:
        _refuse(number, words, answer, place)
    return octets


def _word(value: Value) -> str:
    """The word for a value; a text is escaped so that it means exactly itself."""
    return value.replace("\\", "\\x5c").replace("\0", "\\x00") if isinstance(value, str) else str(operator.index(value))


def _in_order(number: int, values: Mapping[str, Value]) -> Iterable[str]:
    """The words for values by their names, in the order of the dataField."""
    given = {name.lower(): value for name, value in values.items()}
    for name in _names(number):
        if name.lower() not in given:
            raise ValueError(f"{name} is missing")
        yield from (name, _word(given.pop(name.lower())))
    if given:
        raise ValueError(f"it has no member {next(iter(given))}")


def data_field(named: IdLike, value: DataField) -> bytes:
    """The dataField of a SET. It is given as octets, as None if it is empty, or as the value of the id's one member, a
    text for USER_DESCRIPTION. Or as the value of each member by its name in the standard.

    >>> data_field("PRIORITY1", 100).hex(), data_field("USER_DESCRIPTION", "rack 4").hex()
    ('6400', '067261636b203400')
    >>> utc = {"currentUtcOffset": 37, "leap61": False, "leap59": False, "currentUtcOffsetValid": True}
    >>> data_field("UTC_PROPERTIES", utc).hex()
    '00250400'
    """
    number = id_of(named)
    if value is None or isinstance(value, bytes):
        return value or b""
    if isinstance(value, Mapping):
        return parse(number, list(_in_order(number, value)))
    return parse(number, [_word(value)])


def has_one_member(number: int) -> bool:
    """Whether an id has one member, which is not a text, so that a SET takes its value as a word."""
    return len(_names(number)) == 1 and number != ManagementId.USER_DESCRIPTION


def takes_no_value(number: int) -> bool:
    """Whether a SET of the id has a dataField without octets."""
    return _parsed(number, [])[0] == header.PTPM_PARSED
