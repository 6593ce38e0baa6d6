"""The start values of a clock and of its ports, and who may change them."""

from __future__ import annotations

import ctypes
import operator
from dataclasses import dataclass
from enum import IntFlag
from typing import Any, Optional

from . import _header as header
from ._header import PortState as PortState
from ._library import library
from .enumeration import Enumeration
from .identity import Identity, IdentityLike, PortIdentity, PortIdentityLike

# The members that are TimeIntervals.
TIME_INTERVALS = ("offset_from_master", "mean_path_delay", "peer_delay")


class DelayMechanism(Enumeration):
    """A delayMechanism (table 21). No clock of ptpm has COMMON_P2P or SPECIAL."""

    E2E = header.PTPM_DELAY_E2E
    P2P = header.PTPM_DELAY_P2P
    COMMON_P2P = 3
    SPECIAL = 4
    NO_MECHANISM = header.PTPM_DELAY_NONE


class TimeSource(Enumeration):
    """A timeSource (table 6)."""

    ATOMIC_CLOCK = 0x10
    GNSS = 0x20
    TERRESTRIAL_RADIO = 0x30
    SERIAL_TIME_CODE = 0x39
    PTP = 0x40
    NTP = 0x50
    HAND_SET = 0x60
    OTHER = 0x90
    INTERNAL_OSCILLATOR = 0xA0


class Rights(IntFlag):
    """What a manager may change."""

    NONE = 0
    CLOCK_SET = header.PTPM_CLOCK_SET
    PORT_SET = header.PTPM_PORT_SET
    PORT_COMMAND = header.PTPM_PORT_COMMAND
    ALL = CLOCK_SET | PORT_SET | PORT_COMMAND


def sum_of(rights: int) -> int:
    """Rights as the library takes them, or a ValueError."""
    if not 0 <= rights <= Rights.ALL:
        raise ValueError(f"rights are a sum of the three, and not {int(rights)}")
    return int(rights)


def write_number(struct: ctypes.Structure, member: str, value: int) -> None:
    """Writes a member, and refuses a value that does not fit, which ctypes would cut off. A number that is not whole is refused
    too (TypeError): an offset is a TimeInterval here, not a number of nanoseconds."""
    if not hasattr(value, "__index__"):
        interval = " of nanoseconds: TimeInterval.from_nanoseconds has what it takes" if member in TIME_INTERVALS else ""
        raise TypeError(f"{member} takes no {value!r}{interval}")
    setattr(struct, member, operator.index(value))
    if getattr(struct, member) != value:
        raise OverflowError(f"{member} takes no {value}")


def write_octets(struct: ctypes.Structure, member: str, octets: bytes) -> None:
    """Writes the first octets of a member that is an array."""
    ctypes.memmove(getattr(struct, member), octets, len(octets))


def write_given(struct: ctypes.Structure, member: str, value: Optional[Any]) -> None:
    """Writes a member that counts only if its flag `has_` is set, and sets the flag."""
    if value is None:
        return
    setattr(struct, f"has_{member}", 1)
    if isinstance(value, PortIdentity):
        write_octets(struct, f"{member}_clock", value.clock.octets)
        write_number(struct, f"{member}_number", value.port)
    elif isinstance(value, Identity):
        write_octets(struct, member, value.octets)
    else:
        write_number(struct, member, value)


@dataclass
class ClockSettings:
    """The start values of a clock's own members (8.2), by the header's names. A member that is None has the library's default, or
    the clock's own value."""

    identity: IdentityLike
    domain: Optional[int] = None
    user_description: str = ""
    two_step: Optional[bool] = None
    priority1: Optional[int] = None
    clock_class: Optional[int] = None
    clock_accuracy: Optional[int] = None
    variance: Optional[int] = None
    priority2: Optional[int] = None
    steps_removed: Optional[int] = None
    offset_from_master: Optional[int] = None
    mean_path_delay: Optional[int] = None
    parent_port: Optional[PortIdentityLike] = None
    parent_stats: Optional[bool] = None
    observed_variance: Optional[int] = None
    observed_rate: Optional[int] = None
    grandmaster: Optional[IdentityLike] = None
    grandmaster_priority1: Optional[int] = None
    grandmaster_class: Optional[int] = None
    grandmaster_accuracy: Optional[int] = None
    grandmaster_variance: Optional[int] = None
    grandmaster_priority2: Optional[int] = None
    utc_offset: Optional[int] = None
    leap61: Optional[bool] = None
    leap59: Optional[bool] = None
    utc_valid: Optional[bool] = None
    ptp_timescale: Optional[bool] = None
    time_traceable: Optional[bool] = None
    frequency_traceable: Optional[bool] = None
    time_source: Optional[int] = None

    def as_in_c(self) -> header.ptpm_clock_settings:
        """As the library takes them."""
        struct = header.ptpm_clock_settings()
        library.ptpm_clock_defaults(ctypes.byref(struct))
        write_octets(struct, "identity", Identity.of(self.identity).octets)
        text = self.user_description.encode()
        write_octets(struct, "user_description", text[: len(struct.user_description)])
        struct.user_description_size = min(len(text), 255)  # a text that is too long has a size that the library refuses
        write_given(struct, "parent_port", None if self.parent_port is None else PortIdentity.of(self.parent_port))
        write_given(struct, "grandmaster", None if self.grandmaster is None else Identity.of(self.grandmaster))
        for member in _GRANDMASTER:
            write_given(struct, member, getattr(self, member))
        for member in _PLAIN:
            value = getattr(self, member)
            if value is not None:
                write_number(struct, member, value)
        return struct


_GRANDMASTER = tuple(f"grandmaster_{quality}" for quality in ("priority1", "class", "accuracy", "variance", "priority2"))
_WITH_FORMS_OF_THEIR_OWN = ("identity", "user_description", "parent_port", "grandmaster", *_GRANDMASTER)
_PLAIN = tuple(name for name in ClockSettings.__dataclass_fields__ if name not in _WITH_FORMS_OF_THEIR_OWN)


@dataclass
class PortSettings:
    """The start values of a port (8.2.15), by the header's names. A member that is None has the library's default: that of
    a port in MASTER."""

    peer_delay: Optional[int] = None
    state: Optional[int] = None
    log_min_delay_req: Optional[int] = None
    log_announce: Optional[int] = None
    receipt_timeout: Optional[int] = None
    log_sync: Optional[int] = None
    delay_mechanism: Optional[int] = None
    log_min_pdelay: Optional[int] = None

    def as_in_c(self) -> header.ptpm_port_settings:
        """As the library takes them."""
        struct = header.ptpm_port_settings()
        library.ptpm_port_defaults(ctypes.byref(struct))
        for member in self.__dataclass_fields__:
            value = getattr(self, member)
            if value is not None:
                write_number(struct, member, value)
        return struct


@dataclass
class Manager:
    """Who may change a clock, and what."""

    identity: PortIdentityLike
    rights: Rights = Rights.ALL

    def as_in_c(self) -> header.ptpm_manager_settings:
        """As the library takes it. A ValueError for rights that are not a sum of these three, which the library
        would accept."""
        identity = PortIdentity.of(self.identity)
        struct = header.ptpm_manager_settings(port=identity.port, rights=sum_of(self.rights))
        write_octets(struct, "clock", identity.clock.octets)
        return struct
