"""The data sets of a clock (IEEE 1588-2019, 8.2 and 15.5.3), from the members of an answer or from `ptpm site --json`. TimeIntervals are
in nanoseconds."""

from __future__ import annotations

import re
from dataclasses import dataclass, fields
from decimal import Decimal
from fractions import Fraction
from typing import Any, Callable, Dict, Mapping, Type, TypeVar, Union

from .identity import Identity, PortIdentity
from .ids import ManagementId
from .settings import PortState, TimeSource

_Read = TypeVar("_Read")

_A_NANOSECOND = 65536


class TimeInterval(int):
    """A TimeInterval (5.3.2), nanoseconds times 2^16, as the members of a clock take it. It is made from nanoseconds, and gives
    them back:

    >>> TimeInterval.from_nanoseconds(-1.5), TimeInterval(98304).nanoseconds
    (TimeInterval(-98304), Decimal('1.5'))
    """

    @classmethod
    def from_nanoseconds(cls, nanoseconds: Union[int, float, Decimal]) -> TimeInterval:
        """The TimeInterval that is nearest to N nanoseconds."""
        return cls(round(Fraction(nanoseconds) * _A_NANOSECOND))

    @property
    def nanoseconds(self) -> Decimal:
        """As nanoseconds, with all digits of their fraction."""
        whole, fraction = divmod(abs(self), _A_NANOSECOND)
        digits = str(int(whole)) + f"{fraction * 5**16:016d}"  # a part of 2^16 has sixteen digits after the point
        return Decimal(f"{'-' if self < 0 else ''}{digits[:-16]}.{digits[-16:].rstrip('0') or '0'}")

    def __repr__(self) -> str:
        return f"TimeInterval({int(self)})"


@dataclass(frozen=True)
class ClockQuality:
    clock_class: int
    clock_accuracy: int
    offset_scaled_log_variance: int

    def __str__(self) -> str:
        return f"{self.clock_class}/{self.clock_accuracy:#04x}/{self.offset_scaled_log_variance:#06x}"


@dataclass(frozen=True)
class DefaultDataSet:
    two_step_flag: bool
    slave_only: bool
    number_ports: int
    priority1: int
    clock_quality: ClockQuality
    priority2: int
    clock_identity: Identity
    domain_number: int


@dataclass(frozen=True)
class CurrentDataSet:
    steps_removed: int
    offset_from_master: Decimal
    mean_delay: Decimal


@dataclass(frozen=True)
class ParentDataSet:
    parent_port_identity: PortIdentity
    parent_stats: bool
    observed_parent_offset_scaled_log_variance: int
    observed_parent_clock_phase_change_rate: int
    grandmaster_priority1: int
    grandmaster_clock_quality: ClockQuality
    grandmaster_priority2: int
    grandmaster_identity: Identity


@dataclass(frozen=True)
class TimePropertiesDataSet:
    current_utc_offset: int
    leap61: bool
    leap59: bool
    current_utc_offset_valid: bool
    ptp_timescale: bool
    time_traceable: bool
    frequency_traceable: bool
    time_source: TimeSource


@dataclass(frozen=True)
class PortDataSet:
    """`delay_mechanism` is the standard's name, or a text such as `0x07` if the number has none."""

    port_identity: PortIdentity
    port_state: PortState
    log_min_delay_req_interval: int
    mean_link_delay: Decimal
    log_announce_interval: int
    announce_receipt_timeout: int
    log_sync_interval: int
    delay_mechanism: str
    log_min_pdelay_req_interval: int
    version_number: int


def number_of(value: Any) -> int:
    """A whole number of JSON, which is not a flag."""
    if not isinstance(value, int) or isinstance(value, bool):
        raise ValueError(f"{value!r} is not a whole number")
    return value


def flag_of(value: Any) -> bool:
    """A flag of JSON."""
    if not isinstance(value, bool):
        raise ValueError(f"{value!r} is not a flag")
    return value


def text_of(value: Any) -> str:
    """A text of JSON."""
    if not isinstance(value, str):
        raise ValueError(f"{value!r} is not a text")
    return value


def identity_of(value: Any) -> Identity:
    """An identity of JSON, which is a text."""
    return Identity.of(text_of(value))


def port_identity_of(value: Any) -> PortIdentity:
    """A portIdentity of JSON, which is an object."""
    return PortIdentity(identity_of(value["clockIdentity"]), number_of(value["portNumber"]))


# How a member is read that has such a type.
_READERS: Dict[str, Callable[[Any], Any]] = {
    "int": number_of,
    "bool": flag_of,
    "str": text_of,
    "Decimal": lambda value: TimeInterval(number_of(value)).nanoseconds,
    "Identity": identity_of,
    "PortIdentity": port_identity_of,
    "PortState": lambda value: PortState.of(text_of(value)),
    "TimeSource": lambda value: TimeSource.of(text_of(value)),
    "ClockQuality": lambda value: read(ClockQuality, value),
}


def _name_in_json(name: str) -> str:
    """A member's name by the standard, such as stepsRemoved for steps_removed."""
    return re.sub("_([a-z])", lambda found: found[1].upper(), name)


def read(kind: Type[_Read], value: Mapping[str, Any]) -> _Read:
    """A data set out of an object of JSON. Members that are not known here are skipped."""
    members = {}
    for member in fields(kind):
        members[member.name] = _READERS[str(member.type)](value[_name_in_json(member.name)])
    return kind(**members)


# One of the five data sets, and the id that is asked for it.
AnyDataSet = TypeVar("AnyDataSet", DefaultDataSet, CurrentDataSet, ParentDataSet, TimePropertiesDataSet, PortDataSet)
_IDS: Dict[type, ManagementId] = {
    DefaultDataSet: ManagementId.DEFAULT_DATA_SET,
    CurrentDataSet: ManagementId.CURRENT_DATA_SET,
    ParentDataSet: ManagementId.PARENT_DATA_SET,
    TimePropertiesDataSet: ManagementId.TIME_PROPERTIES_DATA_SET,
    PortDataSet: ManagementId.PORT_DATA_SET,
}


def id_of_data_set(kind: type) -> ManagementId:
    """The id that is asked for a data set."""
    if kind not in _IDS:
        raise TypeError(f"{kind!r} is not a data set")
    return _IDS[kind]


def of_members(kind: Type[_Read], members: Mapping[str, Any], head: str = "") -> _Read:
    """A data set out of the members of its dataField. Those of a clockQuality are the members whose names begin with
    its name."""
    read: Dict[str, Any] = {}
    for member in fields(kind):
        name = head + _name_in_json(member.name)
        if str(member.type) == "ClockQuality":
            read[member.name] = of_members(ClockQuality, members, f"{name}.")
        else:
            read[member.name] = members[name].name if str(member.type) == "str" else members[name]
    return kind(**read)
