"""The file that carries a manager's session with a clock from run to run: the session's image, and a seal. It is the same
file as that of ptpm-manage, with the same rules, so programs take turns with it."""

from __future__ import annotations

import errno
import fcntl
import os
import stat
import threading
import time
import weakref
from typing import Optional, Set, Union

from . import _header as header
from . import seal
from ._library import Closing
from .answers import Error, PtpmError
from .identity import Identity, IdentityLike, PortIdentity, PortIdentityLike
from .rollout import may_be_open

_TURN = 60.0
_TRY_AGAIN = 0.01
_ROOM = header.PTPM_SESSION_IMAGE_OCTETS + seal.OCTETS
_MOST = _ROOM + 1  # of a larger file these are read
_MOST_PATH = 4096

# The locks of a process do not keep it from itself.
_own: Set[str] = set()
_own_turn = threading.Lock()


class SessionFileError(PtpmError):
    """A file is held by another process, or is not a regular file."""


def usual_path(manager: PortIdentityLike, target: IdentityLike) -> str:
    """The file of a manager and a clock in $XDG_STATE_HOME/ptpm, for root in /var/lib/ptpm, or in ~/.local/state/ptpm."""
    who = PortIdentity.of(manager)
    state, home = os.environ.get("XDG_STATE_HOME", ""), os.environ.get("HOME", "")
    if state.startswith("/"):
        folder = f"{state}/ptpm"
    elif os.geteuid() == 0:
        folder = "/var/lib/ptpm"
    elif home.startswith("/"):
        folder = f"{home}/.local/state/ptpm"
    else:
        raise SessionFileError("neither XDG_STATE_HOME nor HOME names a folder for the session")
    return f"{folder}/{who.clock}-{who.port}.{Identity.of(target)}"


class OpenApplyError(SessionFileError):
    """An apply of ptpm-manage that asks in this session is open. A request of another run would complete a step, and the apply's
    journal would not have that. `journal` is the path of the journal, or None if the mark can't be read."""

    def __init__(self, mark: str, journal: Optional[str]) -> None:
        why = f"{mark}: it can't be read: an apply may be open" if journal is None else f"the apply of {journal} is open"
        super().__init__(f"nothing was asked: {why}: ptpm-manage resume goes on with it")
        self.journal = journal


class DamagedFileError(Error):
    """The octets of a file are not those that were saved (DAMAGED). The file stays as it is."""

    def __init__(self, path: str) -> None:
        super().__init__(header.PTPM_DAMAGED)
        self.path = path

    def __str__(self) -> str:
        return f"{self.name}: {self.path}: octets of the session were lost or changed; without it a new session begins"


def _journal_of(mark: str, named: str) -> str:
    """The journal that a mark names. If the journal's folder was moved together with the session, the journal is in the folder
    `apply` beside the session."""
    beside = os.path.join(os.path.dirname(mark), "apply", os.path.basename(named))
    return beside if os.path.lexists(beside) and not os.path.lexists(named) else named


def _has_past_mark(path: str) -> bool:
    """Whether the mark of an apply that has ended is beside this file. If that apply is open, the session is refused. The mark
    has the journal's path."""
    mark = f"{path}.apply"
    try:
        opened = os.open(mark, os.O_RDONLY | os.O_NOFOLLOW | os.O_NONBLOCK | os.O_CLOEXEC)
    except FileNotFoundError:
        return False
    except OSError:
        raise OpenApplyError(mark, None) from None
    try:
        journal = _journal_of(mark, os.fsdecode(os.read(opened, _MOST_PATH).split(b"\n")[0]))
    except OSError:
        raise OpenApplyError(mark, None) from None
    finally:
        os.close(opened)
    if may_be_open(journal):
        raise OpenApplyError(mark, journal)
    return True


def _refuse_usual_mark(manager: PortIdentityLike, target: IdentityLike) -> None:
    """Refuses a session with another file while an apply is open at the usual one: its numbers would run ahead of the
    apply's."""
    try:
        path = usual_path(manager, target)
    except SessionFileError:
        return
    _has_past_mark(path)


class SessionFile(Closing):
    """The image in a session's file, or None if there is no file yet. While a process holds the file, others wait up to a minute.
    The file is held until it is closed, or its `with` ends."""

    def __init__(
        self, manager: PortIdentityLike, target: IdentityLike, path: Union[str, "os.PathLike[str]", None] = None
    ) -> None:
        if path is None:
            self.path = usual_path(manager, target)
            os.makedirs(os.path.dirname(os.path.dirname(self.path)), mode=0o700, exist_ok=True)
        else:
            _refuse_usual_mark(manager, target)
            self.path = os.path.abspath(os.fspath(path))
        self._folder, self._name = os.path.split(self.path)
        if not os.path.isdir(self._folder):
            os.mkdir(self._folder, 0o755)  # no folder above it is made
        self._own_name = os.path.join(os.path.realpath(self._folder), self._name)
        self._before: Optional[os.stat_result] = None
        self._saves = 0  # of the file, by its seal
        self._session: Optional["weakref.ref[object]"] = None
        self._process = os.getpid()
        self._lock = self._take_turn()
        try:
            self._refuse_mark()
            self.octets = self._read()
        except BaseException:
            self.close()
            raise

    def _take_turn(self) -> int:
        with _own_turn:
            if self._own_name in _own:
                raise SessionFileError(f"{self.path}: this program holds it already")
            _own.add(self._own_name)
        try:
            return self._locked(time.monotonic() + _TURN)
        except BaseException:
            _own.discard(self._own_name)
            raise

    def _locked(self, until: float) -> int:
        """The lock file, with the lock on it. Another program that held it may have removed the file in the
        meantime."""
        flags = os.O_RDWR | os.O_CREAT | os.O_NOFOLLOW | os.O_NONBLOCK | os.O_CLOEXEC
        while True:
            lock = os.open(f"{self.path}.lock", flags, 0o660)
            try:
                self._wait_for(lock, until)
                if self._stands_there(lock):
                    os.utime(lock)  # the time of this turn
                    return lock
            except BaseException:
                os.close(lock)
                raise
            os.close(lock)

    def _wait_for(self, lock: int, until: float) -> None:
        while True:
            try:
                fcntl.lockf(lock, fcntl.LOCK_EX | fcntl.LOCK_NB)
                return
            except OSError as error:
                if error.errno not in (errno.EAGAIN, errno.EACCES):
                    raise
            if time.monotonic() >= until:
                held = max(0, int(time.time() - os.fstat(lock).st_mtime))
                raise SessionFileError(f"{self.path}: another run has held it for {held} s")
            time.sleep(_TRY_AGAIN)

    def _stands_there(self, lock: int) -> bool:
        try:
            found = os.stat(f"{self.path}.lock", follow_symlinks=False)
        except FileNotFoundError:
            return False
        return os.path.samestat(found, os.fstat(lock))

    def _refuse_mark(self) -> None:
        """Refuses a session that an open apply has marked. If that apply has ended, or its journal is gone, the mark is removed."""
        if _has_past_mark(self.path):
            os.unlink(f"{self.path}.apply")

    def _read(self) -> Optional[bytes]:
        try:
            opened = os.open(self.path, os.O_RDONLY | os.O_NOFOLLOW | os.O_NONBLOCK | os.O_CLOEXEC)
        except FileNotFoundError:
            os.unlink(self._write_new(bytes(_ROOM)))  # if it can't be written, nothing is to be sent
            return None
        except OSError as error:
            if error.errno == errno.ELOOP:
                raise SessionFileError(f"{self.path}: it is a link") from None
            raise
        self._before = os.fstat(opened)
        if not stat.S_ISREG(self._before.st_mode):
            os.close(opened)
            raise SessionFileError(f"{self.path}: it is not a regular file")
        with open(opened, "rb") as file:
            return self._unsealed(file.read(_MOST))

    def _unsealed(self, octets: bytes) -> bytes:
        """The image in the file; if the octets begin with no image, all of them, which the library
        refuses."""
        try:
            image, saves = seal.unsealed(octets)
        except Error as error:
            if error.number == header.PTPM_NOT_AN_IMAGE:
                return octets
            raise DamagedFileError(self.path) from None
        if len(octets) > len(image) + seal.OCTETS:
            raise DamagedFileError(self.path)
        self._saves = saves
        return image

    def _write_new(self, octets: bytes) -> str:
        """Writes the file that is to replace the old one, with its mode, and its owner as far as this user may."""
        path = f"{self.path}.new"
        if os.path.lexists(path):
            os.unlink(path)
        opened = os.open(path, os.O_WRONLY | os.O_CREAT | os.O_EXCL | os.O_NOFOLLOW | os.O_CLOEXEC, 0o666)
        try:
            with open(opened, "wb") as file:
                self._make_like_before(opened)
                file.write(octets)
                file.flush()
                os.fsync(opened)
        except BaseException as error:
            os.unlink(path)
            if isinstance(error, OSError):  # for example since the disk is full
                raise OSError(error.errno, error.strerror, self.path) from None
            raise
        return path

    def _make_like_before(self, opened: int) -> None:
        if self._before is None:
            return
        for user in (self._before.st_uid, -1):
            try:
                os.fchown(opened, user, self._before.st_gid)
                break
            except OSError:
                continue  # it is this user's then
        os.fchmod(opened, stat.S_IMODE(self._before.st_mode) & 0o777)

    def write(self, octets: bytes) -> None:
        """Replaces the file by this image with a seal, which is on the disk when the call returns. Only the process that holds
        the file may write it."""
        if not self.is_open:
            raise SessionFileError(f"{self.path}: it is closed here, and another program may hold it")
        os.replace(self._write_new(seal.sealed(octets, self._saves + 1)), self.path)
        self._saves += 1
        folder = os.open(self._folder, os.O_RDONLY | os.O_DIRECTORY | os.O_CLOEXEC)
        try:
            os.fsync(folder)
        finally:
            os.close(folder)
        self.octets = octets

    def keep_for(self, session: object) -> None:
        """Lets only one session at a time use this file. A second one would overwrite the request of the first, which may
        have no answer yet."""
        with _own_turn:
            if self._session is not None and self._session() is not None:
                raise SessionFileError(f"{self.path}: it keeps another session, which is not closed")
            self._session = weakref.ref(session)

    def let_go_of(self, session: object) -> None:
        """Ends the use of this file by that session."""
        with _own_turn:
            if self._session is not None and self._session() is session:
                self._session = None

    @property
    def is_open(self) -> bool:
        """Whether this process holds the file. A forked child does not hold its parent's."""
        return self._lock >= 0 and self._process == os.getpid()

    def close(self) -> None:
        """Lets others have their turn. If no session was written, for example because the clock is not there, no lock file
        stays."""
        if not self.is_open:
            return
        if not os.path.lexists(self.path) and os.path.lexists(f"{self.path}.lock"):
            os.unlink(f"{self.path}.lock")
        os.close(self._lock)
        self._lock = -1
        _own.discard(self._own_name)
