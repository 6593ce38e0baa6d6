"""A change of several clocks, as the library goes on with it from its journal."""

from __future__ import annotations

import ctypes
import os
import time

from . import _header as header
from ._library import Handle, library
from .answers import Error, done, written


class Rollout(Handle):
    """A change of several clocks. After each turn its host does what the action says, and hands in the outcome. The lanes are the
    clocks of the journal in the order of their identities."""

    def __init__(self, journal: bytes, choice: int = header.PTPM_STOP_AT_FAILURE) -> None:
        """Takes the octets of the journal's file. The first `whole` of them are whole records."""
        super().__init__(header.ptpm_rollout, library.ptpm_rollout_stop)
        whole = ctypes.c_size_t()
        done(self._call(library.ptpm_rollout_open, journal, len(journal), choice, ctypes.byref(whole)))
        self.whole = whole.value

    def turn(self, what: int, octets: bytes = b"", number: int = 0, error: int = 0) -> header.ptpm_rollout_action:
        """What is to be done next, after this event: first PTPM_EVENT_BEGIN. A note has the time of this call."""
        event = header.ptpm_rollout_event(time=int(time.time()), what=what, number=number, error=error)
        action = header.ptpm_rollout_action()
        done(self._call(library.ptpm_rollout_turn, ctypes.byref(event), octets, len(octets), ctypes.byref(action)))
        return action

    def record(self) -> bytes:
        """The octets that PTPM_DO_NOTE has appended to the journal's file."""
        return written(self._call, library.ptpm_rollout_record, header.PTPM_RECORD_OCTETS)


def may_be_open(path: str) -> bool:
    """Whether the apply of this journal has no end, or the journal can't be read. If there is no journal, no apply is
    open."""
    try:
        with open(os.open(path, os.O_RDONLY | os.O_NOFOLLOW | os.O_NONBLOCK | os.O_CLOEXEC), "rb") as file:
            Rollout(file.read())
    except FileNotFoundError:
        return False
    except Error as refusal:
        return refusal.number != header.PTPM_HAS_ENDED
    except OSError:
        return True
    return True
