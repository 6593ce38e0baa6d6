"""The seal of an image: 16 octets after it, by which damage is found. ptpm-manage and ptpm-clock seal their files in this way.
A device seals the images in its flash memory."""

from __future__ import annotations

import ctypes
from typing import Optional, Tuple

from . import _header as header
from ._library import library, octets_of
from .answers import Error

OCTETS = header.PTPM_SEAL_OCTETS


def sealed(image: bytes, saves: int) -> bytes:
    """An image with its seal: how often it was saved, and the CRC-32 of all before it."""
    room = (ctypes.c_uint8 * (len(image) + OCTETS)).from_buffer_copy(octets_of(image) + bytes(OCTETS))
    size = ctypes.c_size_t()
    library.ptpm_image_seal_in(room, len(room), len(image), saves % 2**64, ctypes.byref(size))
    return bytes(room)


def unsealed(octets: bytes) -> Tuple[bytes, int]:
    """The image at the beginning of octets, and how often it was saved. Raises an Error unless a whole image
    with its seal is there."""
    octets = octets_of(octets)
    count, size = ctypes.c_uint64(), ctypes.c_size_t()
    number = library.ptpm_image_unseal(octets, len(octets), ctypes.byref(count), ctypes.byref(size))
    if number != header.PTPM_RESTORED:
        raise Error(number)
    return octets[: size.value], count.value


def newest_image(octets: bytes, place: int) -> Optional[Tuple[int, bytes, int]]:
    """The newest whole image of several places, each of `place` octets: its place, counted from 0, the image, and how often it was
    saved. None if no place has one."""
    if place <= 0:
        return None
    octets = octets_of(octets)
    count, size = ctypes.c_uint64(), ctypes.c_size_t()
    found = library.ptpm_newest_image_in(octets, len(octets), place, ctypes.byref(count), ctypes.byref(size))
    if found == len(octets) // place:
        return None
    start = found * place
    return found, octets[start : start + size.value], count.value
