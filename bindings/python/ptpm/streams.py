"""The standard streams of a program that writes each report, or says that it could not."""

from __future__ import annotations

import argparse
import codecs
import fcntl
import io
import os
import sys
from contextlib import contextmanager, redirect_stderr, redirect_stdout
from typing import Callable, Iterator, List, Tuple

NOT_WRITTEN, NOT_AS_ASKED = 4, 5


class NotWritten(Exception):
    """What was to be reported could not be written."""


def _as_octets(error: UnicodeError) -> Tuple[str, int]:
    """Writes what a stream can't encode as ptpm-manage writes an octet that it can't print."""
    assert isinstance(error, UnicodeEncodeError)
    return "".join(f"\\x{octet:02x}" for octet in error.object[error.start : error.end].encode()), error.end


codecs.register_error("ptpm", _as_octets)


def hold_streams() -> None:
    """Makes writing to a closed standard stream an error. Otherwise a file or a socket might get the stream's number, and
    print would do nothing, as Python has no stream there. Characters that a stream's encoding lacks are escaped."""
    for number, name in enumerate(("stdin", "stdout", "stderr")):
        try:
            fcntl.fcntl(number, fcntl.F_GETFD)
        except OSError:
            os.open("/dev/null", os.O_RDONLY if number else os.O_WRONLY)  # it gets the least number that is free
        if getattr(sys, name) is None:
            raw = open(number, "wb" if number else "rb", buffering=0, closefd=False)
            setattr(sys, name, io.TextIOWrapper(raw, encoding="utf-8", write_through=True))  # nothing is left for the end
    for stream in (sys.stdout, sys.stderr):
        if isinstance(stream, io.TextIOWrapper):
            stream.reconfigure(errors="ptpm")


def say(what: object, end: str = "\n") -> bool:
    """Writes a text on standard error; returns whether it could be written."""
    try:
        print(what, file=sys.stderr, end=end, flush=True)
    except OSError:
        return False
    return True


def complain(what: object) -> bool:
    """Says what is wrong, or what else the caller should know."""
    return say(f"ptpm: {what}")


@contextmanager
def flush() -> Iterator[None]:
    """At the end of its `with`, writes what was printed in it, or raises NotWritten."""
    try:
        yield
        sys.stdout.flush()
    except OSError as error:
        raise NotWritten(f"standard output could not be written: {error.strerror}") from error


def parsed(parse: Callable[[List[str]], argparse.Namespace], words: List[str]) -> argparse.Namespace:
    """What argparse makes of a command line. It may print and end the program by itself, for example at --help. If that can't
    be written, NotWritten is raised too."""
    printed, said = io.StringIO(), io.StringIO()
    try:
        with redirect_stdout(printed), redirect_stderr(said):
            return parse(words)
    except SystemExit:
        say(said.getvalue(), end="")
        if printed.getvalue():
            with flush():
                print(printed.getvalue(), end="")
        raise
