"""The programs that show a site: `ptpm-manage status` asks its clocks, and `ptpm site` judges lines that were collected before."""

from __future__ import annotations

import os
import shutil
import subprocess
import tempfile
from dataclasses import replace
from pathlib import Path
from typing import Any, Iterable, List, Optional, Sequence, Union

from .answers import PtpmError
from .site import DomainIdentity, Site, read_site

_DONE, _FOUND, _NO_CLOCK = 0, 1, 3


class SiteError(PtpmError):
    """A program did not show a site: its words, and its exit status, which is None if it did not run to its end. Status 3
    means that no clock answered."""

    def __init__(self, what: str, status: Optional[int] = None) -> None:
        super().__init__(what)
        self.status = status


def _program(name: str, built: str) -> str:
    """A program: in the folder that PTPM_PROGRAMS names, in the repository of this file, or in the PATH."""
    folder = os.environ.get("PTPM_PROGRAMS")
    if folder:
        return os.path.join(folder, name)
    here = Path(__file__).resolve().parents[3] / built
    found = str(here) if os.access(here, os.X_OK) and here.is_file() else shutil.which(name)
    if found is None:
        raise SiteError(f"the program {name} is not in the PATH, and PTPM_PROGRAMS names no folder")
    return found


def _shown(words: Sequence[str], given: str = "", limit: Optional[float] = None) -> Site:
    """The site that a program prints. ptpm-manage finds the program ptpm in the PATH."""
    path = os.path.dirname(_program("ptpm", "ptpm")) + os.pathsep + os.environ.get("PATH", os.defpath)
    try:
        ran = subprocess.run(
            [*words, "--json"], input=given, capture_output=True, encoding="utf-8", errors="replace", timeout=limit, check=False,
            env={**os.environ, "PATH": path},
        )
    except subprocess.TimeoutExpired as error:
        raise SiteError(f"{words[0]} took over {limit} s") from error
    except OSError as error:
        raise SiteError(f"{words[0]}: {error.strerror}") from error
    said, status = ran.stderr.strip(), ran.returncode
    if status not in (_DONE, _FOUND, _NO_CLOCK) or not ran.stdout:
        raise SiteError(said or f"{words[0]} ended with status {status}", status)
    try:
        found = read_site(ran.stdout)
    except ValueError as error:
        raise SiteError(f"{words[0]} printed no site: {error}", status) from error
    if status == _NO_CLOCK and not found.clocks:
        raise SiteError(said or "no clock answered", status)
    return replace(found, notes=tuple(said.splitlines()))


def _words(**options: Any) -> List[str]:
    """The options that are given, as words of a command line. An option that is true has no value, and one with a list is
    repeated."""
    words: List[str] = []
    for name, value in options.items():
        for one in value if isinstance(value, list) else [value]:
            if one is not None and one is not False:
                written = os.fspath(one) if isinstance(one, os.PathLike) else str(one)
                words += [f"--{name.replace('_', '-')}"] + ([] if one is True else [written])
    return words


def site(
    interfaces: Union[str, Sequence[str], None] = None,
    *,
    unix: Union[str, "os.PathLike[str]", None] = None,
    udp: Optional[str] = None,
    ipv6: bool = False,
    ethernet: bool = False,
    lines: Optional[Iterable[str]] = None,
    domains: Union[int, str, DomainIdentity] = 0,
    sdo: Union[int, str, None] = None,
    hops: Optional[int] = None,
    attempts: Optional[int] = None,
    timeout: Optional[float] = None,
    listen: Optional[int] = None,
    limit: Optional[float] = None,
    max_offset: Union[int, str, None] = None,
    max_delay: Optional[int] = None,
    tai_utc: Optional[int] = None,
    settle: Optional[int] = None,
    profile: Optional[str] = None,
    expect: Union[str, "os.PathLike[str]", None] = None,
    ignore: Union[str, Sequence[str]] = (),
    once: bool = False,
) -> Site:
    """Polls a whole site as `ptpm-manage status` does: asks every clock, and polls again while something is undecided, unless
    `once` is set.

    The transport is one or up to eight `interfaces` (UDP over IPv4, or `ipv6`, or `ethernet`), an address (`udp`), or a socket
    (`unix`). Or `lines` were collected before, each a datagram in hexadecimal, and `ptpm site` judges them. `domains` is a
    number, a range such as "0-7", or "all", and `sdo` their sdoId, such as 0x100, or "all". A DomainIdentity as `domains` has an
    sdoId of its own. In seconds, `timeout` is how long a clock has for an answer, and `listen` how long clocks are listened for.
    `limit` is how long the program may take. The other options are those of the program; one that is None has the program's
    default.

    A SiteError has the program's words; its status is 3 if no clock answered."""
    judging = _words(
        max_offset=max_offset, max_delay=max_delay, tai_utc=tai_utc, settle=settle, profile=profile, expect=expect,
        ignore=[ignore] if isinstance(ignore, str) else list(ignore),
    )
    if lines is not None:
        if (interfaces or unix or udp) is not None:
            raise ValueError("lines that were collected before take no transport")
        kept = tuple(line.strip() for line in lines)
        return replace(_shown([_program("ptpm", "ptpm"), "site", *judging], "".join(f"{line}\n" for line in kept), limit), lines=kept)
    if isinstance(domains, DomainIdentity):
        if sdo is not None:
            raise ValueError(f"sdo is given beside the domain {domains}, which has its own")
        domains, sdo = domains
    asking = _words(
        interface=[interfaces] if isinstance(interfaces, str) else list(interfaces or ()), unix=unix, udp=udp, ipv6=ipv6, ethernet=ethernet,
        domain=domains, sdo=sdo, hops=hops, attempts=attempts, timeout=None if timeout is None else round(1000 * timeout), listen=listen,
        once=once,
    )
    with tempfile.TemporaryDirectory() as folder:
        path = Path(folder, "lines")
        found = _shown([_program("ptpm-manage", "hosts/manage"), *asking, *judging, "--lines", str(path), "status"], limit=limit)
        return replace(found, lines=tuple(path.read_text(encoding="utf-8").splitlines()))
