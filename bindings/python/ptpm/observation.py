"""What a host observes about its clock and its ports."""

from __future__ import annotations

from dataclasses import dataclass
from typing import Optional

from . import _header as header
from .identity import Identity, IdentityLike, PortIdentity, PortIdentityLike
from .settings import write_given, write_number, write_octets


@dataclass
class ObservedGrandmaster:
    """A grandmaster, which is observed as a whole, with the parent port that leads to it (8.2.3)."""

    identity: IdentityLike
    priority1: int
    clock_class: int
    accuracy: int
    variance: int
    priority2: int
    parent_port: PortIdentityLike

    def write_to(self, struct: header.ptpm_observed_clock) -> None:
        """Writes its members as the library takes them."""
        parent = PortIdentity.of(self.parent_port)
        struct.has_grandmaster = 1
        write_octets(struct, "grandmaster", Identity.of(self.identity).octets)
        write_number(struct, "grandmaster_priority1", self.priority1)
        write_number(struct, "grandmaster_class", self.clock_class)
        write_number(struct, "grandmaster_accuracy", self.accuracy)
        write_number(struct, "grandmaster_variance", self.variance)
        write_number(struct, "grandmaster_priority2", self.priority2)
        write_octets(struct, "parent_port_clock", parent.clock.octets)
        write_number(struct, "parent_port_number", parent.port)


@dataclass
class ObservedClock:
    """What a host observes about its clock, with the header's names. A member that is None stays as it was; `is_grandmaster` says
    that the grandmaster is the clock itself."""

    clock_class: Optional[int] = None
    clock_accuracy: Optional[int] = None
    variance: Optional[int] = None
    steps_removed: Optional[int] = None
    offset_from_master: Optional[int] = None
    mean_path_delay: Optional[int] = None
    parent_stats: Optional[bool] = None
    observed_variance: Optional[int] = None
    observed_rate: Optional[int] = None
    utc_offset: Optional[int] = None
    leap61: Optional[bool] = None
    leap59: Optional[bool] = None
    utc_valid: Optional[bool] = None
    ptp_timescale: Optional[bool] = None
    time_traceable: Optional[bool] = None
    frequency_traceable: Optional[bool] = None
    time_source: Optional[int] = None
    is_grandmaster: bool = False
    grandmaster: Optional[ObservedGrandmaster] = None

    def as_in_c(self) -> header.ptpm_observed_clock:
        """As the library takes it."""
        struct = header.ptpm_observed_clock(is_grandmaster=int(self.is_grandmaster))
        for member in _PLAIN:
            write_given(struct, member, getattr(self, member))
        if self.grandmaster is not None:
            self.grandmaster.write_to(struct)
        return struct


_PLAIN = tuple(name for name in ObservedClock.__dataclass_fields__ if name not in ("is_grandmaster", "grandmaster"))


@dataclass
class ObservedPort:
    """What a host observes about a port. DISABLED is entered and left only by commands of managers."""

    state: Optional[int] = None
    peer_delay: Optional[int] = None

    def as_in_c(self) -> header.ptpm_observed_port:
        """As the library takes it."""
        struct = header.ptpm_observed_port()
        write_given(struct, "state", self.state)
        write_given(struct, "peer_delay", self.peer_delay)
        return struct
