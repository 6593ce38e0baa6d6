"""Requests without a manager: a clock answers them whatever numbers it has accepted, and keeps nothing of
them."""

from __future__ import annotations

import os
from dataclasses import replace

from .asking import carry_out
from .identity import IdentityLike, PortIdentity
from .ids import Action, IdLike
from .report import Report
from .requests import Requests, SessionSettings, begin_request
from .transport import Transport

# From this portNumber on none is of a manager. Those of the processes go to 65533; one of every port is 65535.
FIRST_OF_NOBODY = 61440
_PROCESSES = 2047


def draw() -> int:
    """A number that was drawn."""
    return int.from_bytes(os.urandom(2), "big")


def refuse_nobody(manager: PortIdentity) -> None:
    """Refuses a port that no manager may have, and the one that means every port."""
    if manager.port >= FIRST_OF_NOBODY:
        raise ValueError(f"manager {manager}: the port has to be below {FIRST_OF_NOBODY}")


def nobody(manager: PortIdentity, action: int = Action.GET) -> PortIdentity:
    """The identity of the manager's clock, with a port of this process that no manager has. No clock caches an answer to it,
    and no session takes such an answer as its own. The port is even for a GET, and odd for a SET or a COMMAND."""
    port = FIRST_OF_NOBODY + os.getpid() % _PROCESSES * 2
    return PortIdentity(manager.clock, port if action == Action.GET else port + 1)


def ask_in_no_session(
    way: Transport, settings: SessionSettings, action: int, named: IdLike, data: bytes = b"", port: int = 0, *, timeout: float = 0.2
) -> Report:
    """Asks as the manager of the settings, with a random number, until it is answered. Nothing is kept of it."""
    asking = Requests(replace(settings, first=draw()))
    begin_request(asking, action, named, data, port)
    return carry_out(asking, way, timeout)


def ask_as_nobody(
    way: Transport, settings: SessionSettings, action: int, named: IdLike, data: bytes = b"", port: int = 0, *, timeout: float = 0.2
) -> Report:
    """Asks at another port of a session's manager until it is answered. A clock of ptpm carries out a SET only from managers; a
    ptp4l takes some from anybody on its Unix socket, once for each copy."""
    who = replace(settings, manager=nobody(PortIdentity.of(settings.manager), action))
    return ask_in_no_session(way, who, action, named, data, port, timeout=timeout)


def get(
    way: Transport,
    target: IdentityLike,
    named: IdLike,
    port: int = 0,
    *,
    domain: int = 0,
    hops: int = 1,
    attempts: int = 30,
    timeout: float = 0.2,
) -> Report:
    """Asks a GET until it is answered, from the clock's data sets."""
    settings = SessionSettings(PortIdentity(way.identity, 1), target, None, domain, hops, attempts)
    return ask_as_nobody(way, settings, Action.GET, named, b"", port, timeout=timeout)
