"""The port that a request names. A session of the library knows 255 ports of a clock; other clocks may have more."""

from __future__ import annotations

from typing import Iterator

from .session_image import EVERY_PORT

# The last port that a session of the library names: no clock of ptpm has more.
SESSION_PORTS = 255

# A tlvType (14.1): its TLV has a managementErrorId before the managementId (15.5.4).
_MANAGEMENT_ERROR_STATUS = 2

# The places of portIdentities in a message (13.3, 15.4). A portNumber is their last two octets.
_SOURCE, _TARGET, _CLOCK, _SIZE = 20, 34, 8, 10


def is_beyond_session(port: int) -> bool:
    """Whether a port is above those of a session. Nothing that is asked of it is kept."""
    return SESSION_PORTS < port < EVERY_PORT


def not_kept(port: int) -> ValueError:
    """Why a request that would be kept is refused."""
    return ValueError(f"port {port}: a request to a port above {SESSION_PORTS} has no session")


def _is_error_of(datagram: bytes, clock: bytes) -> bool:
    """Whether it is a MANAGEMENT_ERROR_STATUS of a clock (15.5.4)."""
    return len(datagram) >= 54 and datagram[48:50] == bytes([0, _MANAGEMENT_ERROR_STATUS]) and datagram[20:28] == clock


class NamedPort:
    """A port above 255 is written into messages for port 255 as they go out, and back to 255 in datagrams
    that come in."""

    def __init__(self, port: int = 0) -> None:
        self.named = port
        self.beyond = port if is_beyond_session(port) else 0
        self.inside = SESSION_PORTS if self.beyond else port
        """The port that a session of the library has for it."""
        self._target = bytes(_SIZE)  # of the latest message, as the library has it

    def outside(self, port: int) -> int:
        """The port that a message names for this port of the library."""
        if self.beyond == 0 or port not in (self.beyond, SESSION_PORTS):
            return port
        return SESSION_PORTS if port == self.beyond else self.beyond

    def _swapped(self, octets: bytes, identity: int) -> bytes:
        place = identity + _CLOCK
        if len(octets) < place + 2:
            return octets
        port = self.outside(int.from_bytes(octets[place : place + 2], "big"))
        return octets[:place] + port.to_bytes(2, "big") + octets[place + 2 :]

    def goes_out(self, message: bytes) -> bytes:
        """A message of the library, as it is sent."""
        self._target = message[_TARGET : _TARGET + _SIZE]
        return self._swapped(message, _TARGET)

    def comes_in(self, datagram: bytes) -> Iterator[bytes]:
        """What the library is to judge when a datagram comes in, in this order, until it takes an answer. A clock that is not
        one of ptpm may refuse at the port where the request came in, not at the one that was named. So its error is judged as
        one of the named port, too."""
        heard = self._swapped(datagram, _SOURCE)
        yield heard
        if _is_error_of(heard, self._target[:_CLOCK]):
            yield heard[:_SOURCE] + self._target + heard[_SOURCE + _SIZE :]
