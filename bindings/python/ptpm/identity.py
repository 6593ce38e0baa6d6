"""Who a clock is, and which port of it (IEEE 1588-2019, 5.3.4 and 5.3.5)."""

from __future__ import annotations

import ctypes
from dataclasses import dataclass
from typing import Union

from ._library import library, typed


@dataclass(frozen=True, order=True)
class Identity:
    """A clockIdentity. Both spellings are read, in either case:

    >>> Identity.of("AABBCC.FFFE.DDEE01") == Identity.of("aabbccfffeddee01")
    True
    >>> print(Identity.of("aabbcc.fffe.ddee01"), Identity.of("aabbccfffeddee01").pointed)
    aabbccfffeddee01 aabbcc.fffe.ddee01
    """

    octets: bytes

    def __post_init__(self) -> None:
        if len(self.octets) != 8:
            raise ValueError(f"a clockIdentity has 8 octets, not {len(self.octets)}")

    @classmethod
    def of(cls, identity: IdentityLike) -> Identity:
        """The identity that is given, or the one that a text spells."""
        if isinstance(identity, Identity):
            return identity
        if isinstance(identity, bytes):
            return cls(identity)
        octets = (ctypes.c_uint8 * 8)()
        if not library.ptpm_identity_parse(*typed(identity), octets):
            raise ValueError(f"{identity!r} is not an identity, such as aabbccfffeddee01 or aabbcc.fffe.ddee01")
        return cls(bytes(octets))

    @classmethod
    def of_mac(cls, mac: bytes) -> Identity:
        """The identity that a MAC makes, with fffe in its middle."""
        return cls(mac[:3] + b"\xff\xfe" + mac[3:])

    @property
    def turned(self) -> Identity:
        """The same with its universal/local bit inverted."""
        return Identity(bytes([self.octets[0] ^ 2]) + self.octets[1:])

    @property
    def pointed(self) -> str:
        """As pmc writes it."""
        text = self.octets.hex()
        return f"{text[:6]}.{text[6:10]}.{text[10:]}"

    def __str__(self) -> str:
        return self.octets.hex()


@dataclass(frozen=True, order=True)
class PortIdentity:
    """A portIdentity: a clock and the number of its port, such as aabbccfffeddee01/1 or aabbcc.fffe.ddee01-1."""

    clock: Identity
    port: int

    def __post_init__(self) -> None:
        if not 0 <= self.port <= 65535:
            raise OverflowError(f"a port's number is 0 to 65535, not {self.port}")

    @classmethod
    def of(cls, identity: PortIdentityLike) -> PortIdentity:
        """The portIdentity that is given, or the one that a text spells."""
        if isinstance(identity, PortIdentity):
            return identity
        clock, port = (ctypes.c_uint8 * 8)(), ctypes.c_uint16()
        if not library.ptpm_port_identity_parse(*typed(identity), clock, ctypes.byref(port)):
            raise ValueError(f"{identity!r} is not an identity of a port, such as aabbccfffeddee01/1 or aabbcc.fffe.ddee01-1")
        return cls(Identity(bytes(clock)), port.value)

    @property
    def pointed(self) -> str:
        """As pmc writes it."""
        return f"{self.clock.pointed}-{self.port}"

    def __str__(self) -> str:
        return f"{self.clock}/{self.port}"


IdentityLike = Union[Identity, str, bytes]
PortIdentityLike = Union[PortIdentity, str]
