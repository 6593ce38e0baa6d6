"""ptpm-manage and this module have one asker, that of the library. So the same command lines with the same answers have them send the
same messages and save the same files, octet for octet. What they draw is the same too. `make -C hosts` builds the programs."""

from __future__ import annotations

import contextlib
import os
import shutil
import signal
import socket
import subprocess
import sys
import threading
import unittest
from dataclasses import dataclass
from pathlib import Path
from typing import Dict, List, Optional, Sequence, Tuple

import ptpm

from . import CLOCK, MANAGER, TOP, Folder

Ran = Tuple[List[Tuple[bytes, bytes]], int, str, bytes]


@dataclass(frozen=True)
class Run:
    """A command line, and a letter for each message of its manager. A: the clock answers it. L: it is lost. N: its answer is. G: it is
    answered, and then there is no way any more. If `fates` is None there is none from the beginning. Nobody's reads are answered. A run
    may be killed right before a message, counted from 1."""

    words: str
    fates: Optional[str]
    killed_before: int = 0


class Link:
    """A Unix socket with a clock in domain 0 and one in domain 4. What comes in is noted, with what the session's file has then."""

    def __init__(self, path: str, file: str, clocks: Sequence[ptpm.Clock], fates: str) -> None:
        self._path, self._file, self._clocks, self._fates = path, file, clocks, list(fates)
        self.heard: List[Tuple[bytes, bytes]] = []
        self._socket = socket.socket(socket.AF_UNIX, socket.SOCK_DGRAM)
        self._socket.bind(path)
        self._thread = threading.Thread(target=self._serve)
        self._thread.start()

    def _serve(self) -> None:
        fate = ""
        while fate != "G":
            message, peer = self._socket.recvfrom(2048)
            if not message:
                break
            self.heard.append((message, octets_of(self._file)))
            fate = "A" if is_nobodys(message) else self._fates.pop(0) if self._fates else "L"
            if fate == "G":
                os.unlink(self._path)
            for clock in self._clocks if fate != "L" else []:
                for _, octets in clock.handle(1, message).messages:
                    if fate != "N":
                        self._socket.sendto(octets, peer)
        self._socket.close()

    def end(self) -> List[Tuple[bytes, bytes]]:
        """What it heard."""
        with contextlib.suppress(OSError), socket.socket(socket.AF_UNIX, socket.SOCK_DGRAM) as end:
            end.sendto(b"", self._path)
        self._thread.join()
        return self.heard


def is_nobodys(message: bytes) -> bool:
    """Whether its port is from 61440 on."""
    return message[28] >= 0xF0


def octets_of(path: str) -> bytes:
    return Path(path).read_bytes() if os.path.exists(path) else b""


# The runs of a name are one after another, in one session.
RUNS: Dict[str, Sequence[Run]] = {
    "a new session, whose SET is answered by its second copy": [Run("set PRIORITY1 100", "ANA"), Run("get PRIORITY1", "AA")],
    "a port, and a value that the clock refuses": [
        Run("-p 1 set LOG_SYNC_INTERVAL -2", "AA"), Run("-p 1 set LOG_SYNC_INTERVAL -9", "AA"), Run("-p 2 command DISABLE_PORT", "AA"),
    ],
    "a number that is not new": [Run("set PRIORITY1 100", "LLAA"), Run("get PRIORITY1", "AA")],
    "four numbers without an answer": [Run("set PRIORITY1 100", "L" * 8), Run("set PRIORITY1 100", "AA")],
    "a SET without an answer": [Run("set PRIORITY1 100", "ALL"), Run("get PRIORITY1", "AAA")],
    "killed between the save and the message": [Run("set PRIORITY1 100", "A", 2), Run("get PRIORITY1", "AAA")],
    "killed before the answer": [Run("set PRIORITY1 100", "AN", 3), Run("set PRIORITY1 101", "AAA")],
    "killed before the question": [Run("set PRIORITY1 1", "AA"), Run("-p 2 get PRIORITY1", "", 1), Run("-p 2 get PRIORITY1", "AA")],
    "given up": [Run("set PRIORITY1 100", "A", 2), Run("--give-up set PRIORITY2 101", "AA"), Run("get PRIORITY1", "AA")],
    "a SET of another domain": [Run("set PRIORITY1 100", "A", 2), Run("-d 4 get PRIORITY1", "AAA")],
    "a GET of another domain": [Run("-d 4 get PRIORITY1", "A", 2), Run("get PRIORITY1", "AAA")],
    "a question at a port that the clock lacks": [
        Run("set PRIORITY1 1", "AA"), Run("-p 5 get PRIORITY1", "", 1), Run("-p 1 get PRIORITY1", "AA"), Run("get PRIORITY1", "AA"),
    ],
    "no way for a SET": [Run("set PRIORITY1 1", "AA"), Run("set PRIORITY1 100", "G"), Run("set PRIORITY2 7", "AA")],
    "no way for the SET of a new session": [Run("set PRIORITY1 1", "G"), Run("set PRIORITY2 7", "AA")],
    "no way for a question": [Run("set PRIORITY1 1", "AA"), Run("set PRIORITY1 2", None), Run("set PRIORITY1 3", "AA")],
    "the last number before 0": [Run("number 65535", None), Run("set PRIORITY1 1", "AA"), Run("get PRIORITY1", "AA")],
    "other hops": [Run("set PRIORITY1 1", "AA"), Run("-b 3 get PRIORITY1", "AA"), Run("-b 3 get PRIORITY1", "AA")],
}


@unittest.skipUnless((TOP / "hosts/manage").exists() and shutil.which("cc"), "hosts/manage is not built, or there is no C compiler")
class Hosts(Folder):
    def setUp(self) -> None:
        super().setUp()
        self.fixed = f"{self.folder}/fixed.so"
        words = ["cc", "-shared", "-fPIC", "-o", self.fixed, str(Path(__file__).with_name("fixed.c")), "-ldl"]
        subprocess.run(words, check=True)

    def ran(self, program: Sequence[str], run: Run, path: str, clocks: Sequence[ptpm.Clock]) -> Ran:
        """The messages, the status, what is printed, and the file at the end."""
        file = f"{path}.session"
        if run.words.startswith("number "):
            Path(file).write_bytes(ptpm.sealed(ptpm.Requests(ptpm.SessionSettings(MANAGER, CLOCK, int(run.words.split()[1]))).image(), 0))
            return [], 0, "", b""
        link = None if run.fates is None else Link(path, file, clocks, run.fates)
        timeout = "1000" if set(run.fates or "") & set("LN") else "10000"  # what is answered is waited for on a busy machine, too
        words = [*program, "-u", path, "-m", MANAGER, "-k", file, "-T", CLOCK, "-w", "0", "-t", timeout, "-a", "2", *run.words.split()]
        fixed = {"LD_PRELOAD": self.fixed, "KILLED_BEFORE": str(run.killed_before)}
        try:
            ended = subprocess.run(words, env={**os.environ, **fixed}, capture_output=True, text=True, timeout=600, check=False)
        finally:
            heard = [] if link is None else link.end()
        for left in Path(path).parent.glob("clock*"):
            if left.is_socket():  # of the clocks, and of a run that was killed
                left.unlink()
        self.assertEqual(ended.returncode == -signal.SIGKILL, run.killed_before > 0)
        if ended.returncode != 0:  # each program has reads of its own then, to say what may be wrong
            heard = [one for one in heard if not is_nobodys(one[0])]
        return heard, ended.returncode, ended.stdout, octets_of(file)

    def all_ran(self, name: str, program: Sequence[str]) -> List[Ran]:
        folder = f"{self.folder}/{os.path.basename(program[0])}"
        ports, managers = [ptpm.PortSettings()] * 2, [ptpm.Manager(MANAGER)]
        clocks = [ptpm.Clock(ptpm.ClockSettings(CLOCK, domain=domain), ports, managers) for domain in (0, 4)]
        os.mkdir(folder)
        try:
            return [self.ran(program, run, f"{folder}/clock", clocks) for run in RUNS[name]]
        finally:
            shutil.rmtree(folder)

    def test_the_same_inputs_have_the_same_outputs(self) -> None:
        for name in RUNS:
            with self.subTest(name):
                manage = self.all_ran(name, [str(TOP / "hosts/manage")])
                module = self.all_ran(name, [sys.executable, "-m", "ptpm"])
                self.assertEqual(module, manage)
