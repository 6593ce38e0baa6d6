"""The shared library, and its handles."""

from __future__ import annotations

import ctypes
import os
import threading
from pathlib import Path
from types import TracebackType
from typing import Any, Callable, NoReturn, Optional, Tuple, Type, TypeVar

from . import _header as header

_SONAME = "libptpm.so.0"
_Closing = TypeVar("_Closing", bound="Closing")


def _path() -> str:
    """The path of the library: what PTPM_LIBRARY names, that of a wheel, that of this file's repository, or the loader's."""
    named = os.environ.get("PTPM_LIBRARY")
    if named:
        return named
    here = Path(__file__).resolve()
    places = [here.parent / _SONAME, *(folder / "hosts" / _SONAME for folder in list(here.parents)[3:4])]
    return next((str(path) for path in places if path.exists()), _SONAME)


def _load() -> ctypes.CDLL:
    try:
        library = ctypes.CDLL(_path())
    except OSError as error:
        raise ImportError(f"{error}: the environment's PTPM_LIBRARY names libptpm.so.0 if the loader does not find it") from error
    for name, (answer, taken) in header.CALLS.items():
        call = getattr(library, name, None)  # an older library lacks some: only they are missing then
        if call is not None:
            call.restype, call.argtypes = answer, taken
    _judge(library)
    return library


def _judge(library: ctypes.CDLL) -> None:
    """Refuses a library of another version, whose structs have other sizes."""
    if not hasattr(library, "ptpm_sizes_agree"):
        return
    sizes = (ctypes.c_size_t * len(header.STRUCTS))(*map(ctypes.sizeof, header.STRUCTS))
    if library.ptpm_sizes_agree(sizes, len(sizes)) != 0:
        versions = f"version {library.ptpm_version()}, and this module of {header.PTPM_VERSION_NUMBER}"
        raise ImportError(f"OTHER_SIZES: {_path()} is of {versions}")


library = _load()


def text_by(call: Callable[..., int], *words: Any, room: int = header.PTPM_MOST_NAME) -> str:
    """The text that a call of the library writes, such as the name of a number; an empty one if it has none."""
    text = ctypes.create_string_buffer(room)
    size = call(*words, text, room)
    return text.raw[:size].decode("ascii")


def typed(text: str) -> Tuple[bytes, int]:
    """A text for the library to read, and how many octets it has. A lone surrogate makes it invalid UTF-8, which the library
    refuses."""
    octets = str.encode(text, errors="surrogatepass")
    return octets, len(octets)


def octets_of(given: bytes) -> bytes:
    """Octets that a caller gives, as bytes or in another buffer. A number is refused (TypeError): bytes(2) would be two zeros."""
    return memoryview(given).tobytes()


class Closing:
    """What is closed when its `with` ends."""

    def __enter__(self: _Closing) -> _Closing:
        return self

    def __exit__(
        self, kind: Optional[Type[BaseException]], error: Optional[BaseException], trace: Optional[TracebackType]
    ) -> None:
        self.close()

    def close(self) -> None:
        """Closes it."""
        raise NotImplementedError


class Handle(Closing):
    """What owns a handle of the library. It is all zeros before its first call, and has one live copy. Only one thread at a
    time makes calls with it. A signal handler of that thread may make calls too: it runs between two calls of the library."""

    def __init__(self, kind: Type[ctypes.Structure], stop: Callable[..., None]) -> None:
        self._handle = kind()
        self._at = ctypes.byref(self._handle)
        self._stop = stop
        self._turn = threading.RLock()

    def _call(self, call: Callable[..., Any], *words: Any) -> int:
        """A call with the handle, which ctypes hands its words as the header takes them."""
        with self._turn:
            return int(call(self._at, *words))

    def close(self) -> None:
        """Stops what the handle holds. A later call is refused: the handle holds nothing."""
        with self._turn:
            self._stop(self._at)

    def __del__(self) -> None:
        if hasattr(self, "_turn"):
            Handle.close(self)

    def __reduce__(self) -> NoReturn:
        raise TypeError(f"a {type(self).__name__} is not copied")
