"""What the tests share: the programs that they ask."""

from __future__ import annotations

import os
import shutil
import subprocess
import sys
import tempfile
import time
import unittest
import unittest.mock
from pathlib import Path
from typing import Callable, List, Sequence

TOP = Path(__file__).resolve().parents[3]
CLOCK = "aabbccfffeddee01"
MANAGER = "0011223344556677/1"


def run_module(*words: str) -> "subprocess.CompletedProcess[str]":
    """What `python -m ptpm` makes of these words."""
    return subprocess.run([sys.executable, "-m", "ptpm", *words], capture_output=True, text=True, check=False)


class Folder(unittest.TestCase):
    """A test with a folder of its own, which has the files of sessions too."""

    def setUp(self) -> None:
        self.folder = tempfile.mkdtemp()
        self.addCleanup(shutil.rmtree, self.folder)
        state = unittest.mock.patch.dict(os.environ, XDG_STATE_HOME=f"{self.folder}/state")
        state.start()
        self.addCleanup(state.stop)

    def run_until(self, is_started: Callable[[str], bool], words: List[str]) -> None:
        """Runs a program until the test ends, and waits until it has started by what it says."""
        said = f"{self.folder}/said"
        with open(said, "w", encoding="utf-8") as file:
            program = subprocess.Popen(words, stdout=subprocess.DEVNULL, stderr=file)
        self.addCleanup(program.wait)
        self.addCleanup(program.terminate)
        for _ in range(500):
            if is_started(Path(said).read_text(encoding="utf-8")):
                return
            time.sleep(0.02)
        self.fail(f"{words[0]} does not start")

    def start_clock(self, *words: str, before: Sequence[str] = (), name: str = "clock.socket") -> str:
        """Runs the agent of hosts/ on a Unix socket; its path. While it starts there is a socket for a moment now and then."""
        path = f"{self.folder}/{name}"
        stays = ["--user", "root"] if os.geteuid() == 0 else []  # whoever else it became could not answer in this folder
        command = [*before, str(TOP / "hosts/clock"), *stays, "-n", "600", "-u", path]
        self.run_until(lambda said: " in domain " in said, [*command, *words])
        return path
