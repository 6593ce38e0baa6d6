"""A clock that saves (clock.c -s) and loses its power, under the runs of three managers whose sessions are kept. It is killed as it
makes a call of the system, most often one of a save, or at any moment, also after a call of a save that failed. What it had not
synchronized may be lost with it. Then it is started again from its file. Each run sets USER_DESCRIPTION to a greater number, or reads it; between them copies of earlier requests come in again.
What the clock has is compared with what was reported, and every reply with those before it. Then the same of a clock that asks a device
(--ask), which may also kill it before it writes, or after. What the device was asked for is compared too: nothing twice."""
import os
import random
import re
import signal
import socket
import subprocess
import threading
import time

from power_cuts import FAR, ME, NEAR, WIDTH, Cut, Seen, lose, read, socket_path, value, work
from trying import CLOCK, MANAGE, inside, run

MANAGERS = [f"020000fffe0000{number}/1" for number in ("10", "11", "12")]
# Calls of a save, and how often a start makes them, which looks for room and saves; and further calls of the clock.
OF_SAVES = {"openat": 12, "write": 3, "fsync": 3, "renameat": 1, "unlinkat": 4, "sendmmsg": 0}
SAVE_FAILS = ["write", "fsync", "renameat"]
CALLS = {**OF_SAVES, "close": 12, "recvmmsg": 1, "epoll_wait": 1, "fcntl": 1, "sendto": 0}
state, log = (os.path.join(work, name) for name in ("state", "clock_log"))
ALL_FRAMES, OUTGOING = 3, 4
RUN = ["ip", "netns", "exec"]
# A device that writes down what it was asked for, and looks there whether it has a change. It kills the clock where a file says so.
DEVICE = """#!/bin/sh
case $1 in look) shift; echo >> WORK/looks; exec grep -qxF "$*" WORK/journal;; esac
dies() { [ ! -e WORK/$1 ] || { rm WORK/$1; kill -9 $(cat WORK/clock); sleep 60; }; }
dies before
echo "$*" >> WORK/journal
dies after
""".replace("WORK", work)
device, journal, looks, pid = (os.path.join(work, name) for name in ("device", "journal", "looks", "clock"))
seen = Seen()


def socket_in(network, interface):
    """A socket for all frames at an interface of another network namespace."""
    with inside(network):
        found = socket.socket(socket.AF_PACKET, socket.SOCK_RAW, socket.htons(ALL_FRAMES))
        found.bind((interface, ALL_FRAMES))
    found.setblocking(False)
    return found


class Wire:
    """What goes over the managers' end of the link: their requests, to be sent again, and the replies to each of them."""

    def __init__(self, chance):
        self.socket, self.chance = socket_in(NEAR, "near0"), chance
        self.requests, self.replies = [], {}

    def hear(self):
        """Holds each reply against those that came before to the same request."""
        while True:
            try:
                frame, place = self.socket.recvfrom(4096)
            except BlockingIOError:
                return
            octets = frame[42:]                         # after the heads of Ethernet, IPv4 and UDP
            if frame[12:14] != b"\x08\x00" or len(octets) < 54 or octets[0] & 15 != 13:
                continue
            if place[2] == OUTGOING:
                if octets[46] in (0, 1) and octets[28:30] == b"\0\1" and frame not in self.requests[-12:]:
                    self.requests.append(frame)
            elif octets[46] == 2 and octets[34:42] != b"\0" * 8:
                asked, reply = octets[34:44] + octets[30:32], octets[48:]
                before = self.replies.setdefault(asked, reply)
                seen.counts["replies that came again"] += before is not reply
                seen.note(before == reply, f"one request has one reply: {asked.hex()} has {before.hex()}, and then {reply.hex()}")

    def send_again(self):
        """Copies of earlier requests, most of them late ones."""
        late, count = self.requests[-24:-1], self.chance.randint(0, 4)
        for frame in self.chance.choices(late, k=count) if late else []:
            self.socket.send(frame)
        for frame in self.chance.choices(self.requests, k=1) if len(self.requests) > 24 else []:
            self.socket.send(frame)
        seen.counts["copies of earlier requests"] += count


def traced(name, what, number):
    """The words of strace in front of a program: it tells the calls of saves, and does something to one of its calls."""
    open(log, "w").close()
    return ["strace", "-D", "-f", "-q", "-xx", "-s", "30000", "-o", log, "-e", f"trace=openat,write,fsync,renameat,{name}", "-e",
            f"inject={name}:{what}:when={number}"]


class Clock:
    """The clock, started again whenever it was killed, until it is to end."""

    def __init__(self, chance, has_device):
        self.chance, self.kills, self.is_ending, self.status = chance, 0, False, None
        self.asks = ["--ask", device] if has_device else []
        self.told = open(os.path.join(work, "clock_told"), "w+")
        self.process, self.is_to_live, self.lives_on = None, False, threading.Event()
        self.thread = threading.Thread(target=self.live)
        self.thread.start()

    def start(self, *before):
        managers = [word for manager in MANAGERS for word in ("-m", manager)]
        process = subprocess.Popen([*RUN, FAR, *before, CLOCK, "--user", "root", "-v", "-s", state, *self.asks, *managers, "-u", socket_path, ME,
                                    "far0"], stdout=self.told, stderr=subprocess.STDOUT)
        with open(pid, "w") as file:
            file.write(str(process.pid))
        return process

    def live(self):
        while not self.is_ending:
            if self.is_to_live:
                self.process = self.start()
                self.lives_on.set()
                self.status = self.process.wait()
            else:
                self.life()
            is_killed = self.status == -signal.SIGKILL or self.asks and self.status == 2      # the process that runs the device's program
            if not is_killed and not self.is_ending:
                return

    def life(self):
        """A life that is cut short: at any moment, also after a call that failed, or at a call."""
        kind, before = self.chance.random(), read(state)
        is_told = kind >= 0.25
        if self.asks and self.chance.random() < 0.3:
            is_told, place = False, self.chance.choice(["before", "after"])
            self.process = self.start()
            time.sleep(self.chance.random())
            open(os.path.join(work, place), "w").close()
            seen.counts[f"killed by its device {place} that wrote"] += self.end_of(2)
        elif kind < 0.25:
            self.process = self.start()
            self.end_of(0.05 + self.chance.random() * 0.4)
            seen.counts["killed at any moment"] += 1
        elif kind < 0.4:
            name = self.chance.choice(SAVE_FAILS)
            self.process = self.start(*traced(name, "error=EIO", CALLS[name] + self.chance.randint(1, 4)))
            self.end_of(0.2 + self.chance.random() * 0.4)
            seen.counts[f"killed after {name} was to fail"] += 1
        else:
            name = self.chance.choice(["fsync", *OF_SAVES] if kind < 0.8 else list(CALLS))
            is_at_start = CALLS[name] > 0 and self.chance.random() < 0.2
            number = self.chance.randint(1, CALLS[name]) if is_at_start else CALLS[name] + self.chance.randint(1, 24 if self.asks else 6)
            self.process = self.start(*traced(name, "signal=KILL", number))
            if self.end_of(2):
                seen.counts[f"killed at {name}"] += 1
        if is_told and self.has_log() and self.chance.random() < 0.8:
            seen.counts["saves that were lost"] += lose(state, log, before)
        self.kills += self.status in (-signal.SIGKILL, 2)

    def end_of(self, most):
        """Kills it where it has not ended by then; whether it had."""
        try:
            self.status = self.process.wait(most)
            return True
        except subprocess.TimeoutExpired:
            self.process.kill()
            self.status = self.process.wait()
            return False

    def has_log(self):
        """Whether strace has told all: it goes on for a moment after the end."""
        for _ in range(200):
            with open(log) as file:
                if "+++ " in file.read()[-100:]:
                    return True
            time.sleep(0.01)
        return False

    def end(self):
        """The status that it ends with where it is asked to."""
        self.is_ending = True
        if self.process.poll() is None:
            self.process.terminate()
        self.thread.join()
        return self.status


class Trial:
    """What the managers asked, and what the clock had."""

    def __init__(self, seed, has_device):
        self.chance = random.Random(seed)
        self.wire = Wire(self.chance)
        self.clock = Clock(random.Random(seed + 1), has_device)
        self.asked, self.last, self.reported, self.refused = 0, 0, [], []

    def value(self):
        """What the clock has, as soon as it lives."""
        for _ in range(400):
            if (found := value()) is not None:
                return found
            if not self.clock.thread.is_alive():
                break
            time.sleep(0.01)
        return None

    def turn(self):
        """A run of one of the managers; what it reports is so, and stays so."""
        self.asked += 1
        manager = self.chance.choice(MANAGERS)
        is_set = self.chance.random() < 0.8
        words = ["set", "USER_DESCRIPTION", "--text", f"{self.asked:0{WIDTH}}"] if is_set else ["get", "USER_DESCRIPTION"]
        done = run(*RUN, NEAR, MANAGE, "-i", "near0", "-m", manager, "-k", os.path.join(work, manager[:16]), "-w", "0", "-t",
                         "30", "-a", "250", "--target", ME, *words)
        self.wire.hear()
        own = [int(number) for number in re.findall(r"^userDescription (\d+)$", done.stdout, re.M)]
        has = f"run {self.asked}, {words} by {manager}: it printed {done.stdout!r} and said {done.stderr!r}; the clock had {self.last}"
        is_refused = bool(self.clock.asks) and is_set and done.stdout.startswith("refused GENERAL_ERROR")
        seen.note(done.returncode == 0 or is_refused, f"a run is answered: {has}, and it ends with {done.returncode}")
        wanted = self.asked if is_set and not is_refused else self.last
        seen.note(own == [wanted] or is_refused or (not is_set and wanted == 0), f"what is reported is so: {has}")
        if is_set:
            (self.refused if is_refused else self.reported).append(self.asked)
        self.wire.send_again()
        now = self.value()
        seen.note(now == wanted, f"what is reported stays: {has}, and then {now}")
        seen.counts["requests that were reported"] += len(own)
        self.last = now


def judge_device(trial):
    """Each change that was reported is one for which the device was asked once, and none that was refused is."""
    with open(journal) as file:
        asked = [int(line.split()[-1]) for line in file]
    seen.counts["SETs for which the device was asked"] = len(asked)
    seen.counts["SETs that were refused, since the device lacks them"] = len(trial.refused)
    seen.counts["looks"] = os.path.getsize(looks) if os.path.exists(looks) else 0
    seen.note(asked == trial.reported, f"the device was asked for {sorted(set(asked) ^ set(trial.reported))[:5]}, and {len(asked) - len(set(asked))} twice")


def forget():
    """A clock, sessions and a device that begin afresh."""
    for name in [state, looks, *(os.path.join(work, manager[:16]) for manager in MANAGERS)]:
        if os.path.exists(name):
            os.unlink(name)
    open(journal, "w").close()
    with open(device, "w") as file:
        file.write(DEVICE)
    os.chmod(device, 0o755)
    seen.counts.clear()


def cut_clocks(kills, seed, has_device=False):
    """Whether all holds of that many kills of a clock."""
    forget()
    link = Cut(seed)
    trial = Trial(seed, has_device)
    clock = trial.clock
    try:
        while clock.kills < kills and not seen.wrong and clock.thread.is_alive():
            trial.turn()
        clock.is_to_live = True
        clock.lives_on.wait(5)
        for _ in range(3):
            if not seen.wrong:
                trial.turn()
    finally:
        status, frames = clock.end(), link.end()
        clock.told.seek(0)
        told = clock.told.read()
    seen.note(status == 0, f"the clock ends in order, and with {status}: {told[-500:]}")
    if has_device:
        judge_device(trial)
    for number, what in ((5, "requests that were new"), (6, "repeats that it answered"), (7, "old copies that it dropped")):
        seen.counts[what] = len(re.findall(rf"^port 1, .* octets: {number} ", told, re.M))
    seen.tell()
    print(frames, end="")
    print(f"power: {clock.kills} kills of a clock{' that asks a device' if has_device else ''} in {trial.asked} runs, seed {seed}: "
          f"{len(seen.wrong)} things do not hold")
    return not seen.wrong and clock.kills >= kills
