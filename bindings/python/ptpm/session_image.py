"""What this module itself reads from a session's image. The library decides whether octets are an image, and what is to be done
with the image's request."""

from __future__ import annotations

from dataclasses import dataclass
from typing import Optional

from .ids import Action

# A portNumber (15.4.1).
EVERY_PORT = 65535

# Where the members are. Numbers have the highest octet first.
_FIRST, _DOMAIN, _ISSUED, _IS_UNDER_WAY, _ACTION, _ID, _PORT, _SIZE, _DATA = 31, 35, 36, 52, 53, 54, 56, 58, 60


@dataclass(frozen=True)
class Request:
    """What a session asks."""

    action: int
    id: int
    port: int
    data: bytes

    @property
    def set_to(self) -> Optional[bytes]:
        """The dataField, if it is a SET."""
        return self.data if self.action == Action.SET else None


def _number_at(octets: bytes, place: int, size: int = 2) -> int:
    return int.from_bytes(octets[place : place + size], "big")


def first_number(image: bytes) -> int:
    """The sequenceId of the first request of an image's session."""
    return _number_at(image, _FIRST)


def latest_number(image: bytes) -> int:
    """The sequenceId of the latest request."""
    return (first_number(image) + _number_at(image, _ISSUED, 8) - 1) % 65536


def domain_of(image: bytes) -> int:
    """The domain in which an image's session asks."""
    return image[_DOMAIN]


def unanswered(image: bytes) -> Optional[Request]:
    """The request of an image's session that has no answer yet. Its port is 0 if every port is asked."""
    if image[_IS_UNDER_WAY] != 1:
        return None
    port, size = _number_at(image, _PORT), _number_at(image, _SIZE)
    return Request(image[_ACTION], _number_at(image, _ID), 0 if port == EVERY_PORT else port, image[_DATA : _DATA + size])


def is_same(image: bytes, other: bytes) -> bool:
    """Whether two images are of the same session. A session that has moved to another domain is still the same if it has
    no request under way."""
    if unanswered(image) is None:
        return image[:_DOMAIN] + image[_DOMAIN + 1 :] == other[:_DOMAIN] + other[_DOMAIN + 1 :]
    return image == other
