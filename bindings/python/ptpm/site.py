"""A whole site at a glance, from an object of `ptpm site --json`: who is grandmaster, who follows whom, and what is wrong."""

from __future__ import annotations

import json
from dataclasses import dataclass, field
from typing import Any, Mapping, NamedTuple, Optional, Tuple

from .data_sets import (
    CurrentDataSet, DefaultDataSet, ParentDataSet, PortDataSet, TimePropertiesDataSet, identity_of, number_of, read, text_of,
)
from .identity import Identity

_HEAD = ("domainNumber", "sdoId", "clockIdentity", "userDescription", "finding", "severity", "because")

# What is written for the clock if a finding is of a whole domain.
_OF_DOMAIN = "-"
_SILENT_WAY = "ptpm-manage: no clock answered at "


class DomainIdentity(NamedTuple):
    """Which domain it is (IEEE 1588-2019, 7.1.1): a domainNumber, 0 to 255, and an sdoId, 0 to 0xfff (7.1.4). Two domains may have
    the same number and different sdoIds: their clocks don't hear each other.

    >>> print(DomainIdentity(4), DomainIdentity(4, 0x100))
    4 4@0x100
    """

    number: int
    sdo_id: int = 0

    def __str__(self) -> str:
        return str(self.number) if self.sdo_id == 0 else f"{self.number}@{self.sdo_id:#05x}"


@dataclass(frozen=True)
class Finding:
    """What is wrong with a clock: the name of the finding, its values by their names, and whether it is "critical" or a
    "warning". The values are those of JSON (docs/ptpm-site.md). `domain` is the domainNumber. The clock is None if the finding is
    about a whole domain. `because` is the name and the clock of the finding from which it follows, or None."""

    domain: int
    clock: Optional[Identity]
    name: str
    values: Mapping[str, Any]
    severity: str
    because: Optional[Tuple[str, Optional[Identity]]] = None
    sdo_id: int = 0

    @property
    def domain_identity(self) -> DomainIdentity:
        """Its domain."""
        return DomainIdentity(self.domain, self.sdo_id)

    def __str__(self) -> str:
        values = "".join(f" {name}={json.dumps(value)}" for name, value in self.values.items())
        return f"{self.domain_identity} {self.clock or _OF_DOMAIN} {self.name}{values}"


@dataclass(frozen=True)
class SiteClock:
    """A clock in a domain, with what it answered. A data set that it did not answer is None; if no port answered, `ports`
    is empty. `domain` is the domainNumber."""

    domain: int
    identity: Identity
    default: Optional[DefaultDataSet] = None
    current: Optional[CurrentDataSet] = None
    parent: Optional[ParentDataSet] = None
    time_properties: Optional[TimePropertiesDataSet] = None
    ports: Tuple[PortDataSet, ...] = ()
    description: Optional[str] = None
    sdo_id: int = 0

    @property
    def domain_identity(self) -> DomainIdentity:
        """Its domain."""
        return DomainIdentity(self.domain, self.sdo_id)


@dataclass(frozen=True)
class Grandmaster:
    """A clock that leads a domain. `heard` says what shows that: "answer", "announce", or "followers" if only a clock that
    follows it says so. `clock` is what it answered, or None."""

    identity: Identity
    heard: str
    clock: Optional[SiteClock] = None


@dataclass(frozen=True)
class Domain:
    """A domain: its domainNumber and sdoId, who leads it, and its clocks by identity."""

    number: int
    clocks: Tuple[SiteClock, ...]
    sdo_id: int = 0
    grandmasters: Tuple[Grandmaster, ...] = ()

    @property
    def identity(self) -> DomainIdentity:
        """Which domain it is."""
        return DomainIdentity(self.number, self.sdo_id)


class Lack(NamedTuple):
    """What the lines lack: "requests", "times", "sources" or "senders". And the findings that can't be judged for that
    reason."""

    name: str
    findings: Tuple[str, ...]


class AskedDomain(NamedTuple):
    """A domain in which the GETs among the lines ask, and how many boundary clocks forward a GET at most."""

    domain: DomainIdentity
    boundary_hops: int


@dataclass(frozen=True)
class Site:
    """A site at a glance. `left_out` is how many clocks, ports and messages were left out, by their names in JSON.
    `not_looked_for` are the findings that may be missing for that reason. `lines` are those of the latest poll, and `notes` what
    the program printed on standard error. `open` is what the answers don't decide yet, and `asked` the domains that were asked,
    as far as the lines have the requests. `momentary` is how many findings are left out because the poll before lacks them.
    `not_judged` is what the lines lack, with the findings that can't be judged for that reason."""

    domains: Tuple[Domain, ...]
    findings: Tuple[Finding, ...]
    left_out: Mapping[str, int] = field(default_factory=dict)
    lines: Tuple[str, ...] = field(default=(), repr=False)
    notes: Tuple[str, ...] = ()
    open: Tuple[Finding, ...] = ()
    asked: Tuple[AskedDomain, ...] = ()
    momentary: int = 0
    not_judged: Tuple[Lack, ...] = ()
    not_looked_for: Tuple[str, ...] = ()

    @property
    def clocks(self) -> Tuple[SiteClock, ...]:
        """All clocks, by domain and identity."""
        return tuple(clock for domain in self.domains for clock in domain.clocks)

    @property
    def silent_ways(self) -> Tuple[str, ...]:
        """The interfaces, of several, at which no clock answered. A socket that was asked beside
        them counts as one."""
        ways = [note[len(_SILENT_WAY):] for note in self.notes if note.startswith(_SILENT_WAY)]
        return tuple(way.partition(": nothing was sent: ")[0] for way in ways)

    @property
    def gaps(self) -> Tuple[str, ...]:
        """What was left out for want of room, in words; findings may be missing then."""
        return tuple(f"left out: {count} {name}" for name, count in self.left_out.items() if count)


def _domain_identity(told: Mapping[str, Any]) -> DomainIdentity:
    """The domain that an object names."""
    return DomainIdentity(number_of(told["domainNumber"]), number_of(told["sdoId"]))


def _clock_identity(told: Mapping[str, Any]) -> Optional[Identity]:
    """The clock that an object names; None if it is about a whole domain."""
    return None if told["clockIdentity"] == _OF_DOMAIN else identity_of(told["clockIdentity"])


def _finding(told: Mapping[str, Any]) -> Finding:
    values = {name: value for name, value in told.items() if name not in _HEAD}
    domain = _domain_identity(told)
    because = told.get("because")
    cause = (text_of(because["finding"]), _clock_identity(because)) if because else None
    head = domain.number, _clock_identity(told), text_of(told["finding"])
    return Finding(*head, values, text_of(told["severity"]), cause, domain.sdo_id)


def _clock(domain: DomainIdentity, told: Mapping[str, Any]) -> SiteClock:
    def answered(named: str, kind: Any) -> Any:
        return read(kind, told[named]) if named in told else None

    description = told.get("USER_DESCRIPTION")
    return SiteClock(
        domain.number, identity_of(told["clockIdentity"]), answered("DEFAULT_DATA_SET", DefaultDataSet),
        answered("CURRENT_DATA_SET", CurrentDataSet), answered("PARENT_DATA_SET", ParentDataSet),
        answered("TIME_PROPERTIES_DATA_SET", TimePropertiesDataSet),
        tuple(read(PortDataSet, port) for port in told["PORT_DATA_SET"]),
        None if description is None else text_of(description["userDescription"]),
        sdo_id=domain.sdo_id,
    )


def _domain(told: Mapping[str, Any]) -> Domain:
    domain = _domain_identity(told)
    clocks = tuple(_clock(domain, clock) for clock in told["clocks"])
    seen = {clock.identity: clock for clock in clocks}
    grandmasters = tuple(
        Grandmaster(identity, text_of(one["heard"]), seen.get(identity))
        for one in told["grandmasters"] for identity in [identity_of(one["clockIdentity"])]
    )
    return Domain(domain.number, clocks, domain.sdo_id, grandmasters)


def read_site(text: str) -> Site:
    """The site of an object that `ptpm site --json` or `ptpm-manage status --json` printed; a ValueError if it has a different
    form."""
    try:
        told = json.loads(text)
        left_out = dict(told["leftOut"])
        not_looked_for = tuple(map(text_of, left_out.pop("notLookedFor", ())))
        return Site(
            tuple(map(_domain, told["domains"])), tuple(map(_finding, told["findings"])),
            {name: number_of(count) for name, count in left_out.items()},
            open=tuple(map(_finding, told.get("open", ()))),
            asked=tuple(AskedDomain(_domain_identity(one), number_of(one["boundaryHops"])) for one in told.get("asked", ())),
            momentary=number_of(told.get("momentary", 0)),
            not_judged=tuple(Lack(text_of(lack["lack"]), tuple(map(text_of, lack["findings"]))) for lack in told.get("notJudged", ())),
            not_looked_for=not_looked_for,
        )
    except (KeyError, TypeError, AttributeError) as error:
        raise ValueError(f"it lacks or has another form of {error}") from error
