"""Runs of ptpm-manage that are killed while they change a `ptp4l` at its Unix socket, for hosts/tests/apply. A `ptp4l` carries each copy of a
SET out. So what is checked after each kill is what it has, which `pmc` says, beside the journal and the report."""
import os
import re
import subprocess
import time

from apply_kills import PATIENCE, Kills
from apply_network import must, within
from apply_runs import Broken, Runs
from trying import MANAGE, run

NAMES = {0x2005: "priority1", 0x2006: "priority2"}         # a ptp4l takes no SET of another id, such as CLOCK_ACCURACY
IDENTITY = "020000fffe000022"


class AtPtp4l(Runs):
    """Plans for one `ptp4l`, whose state nobody else changes."""

    def __init__(self, work, seed):
        super().__init__(work, seed)
        self.namespace, self.process = f"ptpm-apply-{os.getpid()}-p", None
        self.socket, self.is_taken = os.path.join(work, "ptp4l"), True
        try:
            self.begin()
        except BaseException:
            self.end()
            raise

    def begin(self):
        config = os.path.join(self.work, "config")
        with open(config, "w") as file:
            file.write("[global]\nfree_running 1\n")
        must("ip", "netns", "add", self.namespace)
        must("ip", "-n", self.namespace, "link", "add", "e0", "type", "veth", "peer", "name", "e1")
        for number, device in enumerate(("e0", "e1")):
            must("ip", "-n", self.namespace, "link", "set", device, "address", f"02:00:00:00:00:2{number + 1}", "up")
        with open(os.path.join(self.work, "log"), "w") as log:
            self.process = subprocess.Popen([*within(self.namespace), "ptp4l", "-f", config, "-S", "-4", "-m", "-i", "e1",
                                             f"--uds_address={self.socket}"], stdout=log, stderr=subprocess.STDOUT)
        self.before = self.read()

    def end(self):
        if self.process is not None:
            self.process.kill()
            self.process.wait()
        run("ip", "netns", "del", self.namespace)

    def words(self):
        return [MANAGE, "-u", self.socket]

    def read(self):
        """What it has. On a busy machine an answer may come too late for one `pmc`."""
        words = ["pmc", "-u", "-b", "0", "-s", self.socket, "-i", os.path.join(self.work, "pmc"), "GET PRIORITY1", "GET PRIORITY2"]
        end = time.monotonic() + PATIENCE
        while time.monotonic() < end:
            found = {name: int(value) for name, value in re.findall(r"(priority[12]) +(\d+)", run(*words).stdout)}
            if len(found) == len(NAMES):
                return found
            time.sleep(0.1)
        with open(os.path.join(self.work, "log")) as log:
            raise OSError(f"ptp4l does not answer: {log.read()}")

    def plan(self):
        lines = ["[[clock]]", f'identity = "{IDENTITY}"', f"PRIORITY1 = {self.chance.randrange(256)}", f"PRIORITY2 = {self.chance.randrange(256)}"]
        return self.write_plan(lines + ["CLOCK_ACCURACY = 0x21"] * (self.chance.random() < 0.25))

    def check(self, journal):
        """Each value is the last one that is told, or that of the step that is begun."""
        super().check(journal)
        possible = {name: {value} for name, value in self.before.items()}
        for place, step in enumerate(journal.steps):
            name, value = NAMES.get(step["id"]), int(step["after"][:2], 16)
            if place in journal.told and journal.told[place]["outcome"] != ("done" if name else "refused NOT_SUPPORTED"):
                raise Broken(f"{step} is told as {journal.told[place]}")
            if name and place in journal.told:
                possible[name] = {value}
            elif name and place == journal.begun:
                possible[name] |= {value}
        has = self.read()
        if any(has[name] not in values for name, values in possible.items()):
            raise Broken(f"it has {has}, and may have {possible}; journal {journal.place()}")

    def check_end(self, journal):
        super().check_end(journal)
        self.before = self.read()


def kill_at_ptp4l(work, kills, seed):
    Kills(AtPtp4l(work, seed), 0.05, 0.15).run(kills)
