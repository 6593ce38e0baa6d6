"""What goes on while a clock is saved (clock.c -s) to a disk that strace makes slow or has fail: who is answered meanwhile and by what,
what waits, and how the clock ends then."""
import os
import re
import select
import signal
import subprocess
import threading
import time

from attack_wire import Wire
from attacking import (HAS_STRACE, MANAGER, ME, SLOW, STRANGER, TRACED, Clock, Peer, check, get, message, path, set_of, started, wait_until, work,
                       write)

state = os.path.join(work, "slow")
WORDS = ("-s", state, "-u", path, "-m", MANAGER + "/1", "--manager-rate", "1000")
SLOWLY, FAILING = "delay_enter=200000", "delay_enter=200000:error=EIO"       # microseconds, of each of the two fsync of a save


class Calls:
    """What becomes of the calls of this name that a clock makes, in all of its threads; with further words of strace, of some."""

    def __init__(self, clock, name, what, *words):
        self.strace = subprocess.Popen(["strace", "-f", "-qq", "-o", "/dev/null", "-e", f"trace={name}", "-e", f"inject={name}:{what}", *words,
                                        "-p", str(clock.process.pid)])
        started.append(self.strace)
        check("strace is at the clock", wait_until(lambda: all(self.is_traced(clock, one) for one in os.listdir(f"/proc/{clock.process.pid}/task"))))

    @staticmethod
    def is_traced(clock, thread):
        with open(f"/proc/{clock.process.pid}/task/{thread}/status") as file:
            return "\nTracerPid:\t0\n" not in file.read()

    def mend(self):
        self.strace.terminate()
        self.strace.wait(10)


class Disk(Calls):
    """A disk that is slow or fails: what becomes of each fsync of a clock."""

    def __init__(self, clock, what, *words):
        super().__init__(clock, "fsync", what, *words)


def asked(wire, number, about="2005"):
    """The first octets of what a stranger is answered, and of all else that comes out in that time; each in at most 0.1 seconds."""
    wire.come_in(message(number, STRANGER, ME)[:52] + bytes.fromhex(about))
    end, found = time.monotonic() + 0.1 * SLOW, []
    while not any(one[34:42].hex() == STRANGER for one in found) and (left := end - time.monotonic()) > 0:
        found += wire.sent(min(left, 0.01))
    own = [int.from_bytes(one[54:56], "big") for one in found if one[34:42].hex() == STRANGER and one[30:32] == number.to_bytes(2, "big")]
    return own[0] if own else None, [one for one in found if one[34:42].hex() == MANAGER]


def answers_of_manager(wire, most=2):
    found = []
    wait_until(lambda: found.extend(one for one in wire.sent(0.05) if one[34:42].hex() == MANAGER) or found, most)
    return [one[54] for one in found]


def strangers_during_a_save(*more):
    """They are answered at once, by what was saved before. What is observed they are shown at once too."""
    wire, source = Wire("clk0", 10), write("observed", "steps_removed 1\n")
    clock = Clock(*WORDS, *more, "-o", source, ME, wire.name, env=TRACED)
    peer = Peer("peer")
    check("it observes", wait_until(lambda: asked(wire, 1, "2001")[0] == 1))
    disk = Disk(clock, SLOWLY)
    wire.come_in(set_of(7, 50))
    found = [asked(wire, number) for number in range(10, 20)]
    check(f"strangers are answered during a save, by what was saved before: {found}", found == [(128 << 8, [])] * 10)
    peer.ask(message(3, STRANGER, ME))
    peer.socket.settimeout(0.1 * SLOW)
    try:
        check("so is a program of this host", peer.socket.recv(2048)[54] == 128)
    except OSError:
        check("a program of this host is answered during a save", False)
    write("observed", "steps_removed 2\n")
    check("what is observed is shown", wait_until(lambda: asked(wire, 20, "2001")[0] == 2, 0.2))
    check("the manager is answered once it is saved", answers_of_manager(wire) == [50])
    found = [asked(wire, 21)[0], asked(wire, 22, "2001")[0]]
    check(f"and then others are by what was set and observed: {found}", found == [50 << 8, 2])
    disk.mend()
    check("it ends in order", clock.end()[0] == 0)
    peer.close()
    wire.remove()


def strangers_with_lines():
    """With -v too, where each datagram has a line, and what it changed has one once it is saved."""
    strangers_during_a_save("-v")
    with open(os.path.join(work, "output")) as output:
        lines = [line for line in output.read().splitlines() if re.match("port 1, 56|saved: .* us|changed", line)]
    check(f"the lines of a change: {lines}", lines[1] == "port 1, 56 octets: 5 ANSWERED_NEW, 0 of 1 sent, 1 once it is saved"
          and lines[2].startswith("saved: ") and lines[3:] == ["changed: PRIORITY1 GRANDMASTER_PRIORITY1"])


def copies_during_a_save():
    """A copy of a request that waits is lost. What its manager and the owner ask meanwhile waits behind it."""
    wire, owner = Wire("clk0", 10), os.path.join(work, "owner")
    clock = Clock(*WORDS, "--owner", owner, ME, wire.name, env=TRACED)
    disk, peer, found = Disk(clock, SLOWLY), Peer("peer"), []
    wire.come_in(set_of(7, 50))
    asked(wire, 1)
    for _ in range(3):
        peer.socket.sendto(set_of(1, 60, STRANGER), owner)
        wire.come_in(set_of(7, 50))
    wire.come_in(message(8, MANAGER, ME))
    check("others see what was saved", asked(wire, 2) == (128 << 8, []))
    peer.socket.settimeout(5 * SLOW)
    check("the owner is answered", peer.socket.recv(2048)[54] == 60)
    check("once", not select.select([peer.socket], [], [], 0.1)[0])
    wait_until(lambda: found.extend((one[31], one[54]) for one in wire.sent(0.2) if one[34:42].hex() == MANAGER) or len(found) > 2, 1)
    check(f"the manager is answered once to each request, in their order: {found}", found in [[(7, 50), (8, 60)], [(7, 50), (8, 50)]])
    wire.come_in(set_of(7, 50))
    check("and an older copy is dropped", answers_of_manager(wire, 0.2) == [])
    disk.mend()
    check("copies are counted, and it ends in order", clock.end()[0] == 0 and "not taken of managers over their rate: 5\n" in clock.text())
    peer.close()
    wire.remove()


def ends_during_a_save():
    """It ends when all is saved, and what it saved is answered."""
    wire = Wire("clk0", 10)
    clock = Clock(*WORDS, ME, wire.name, env=TRACED)
    disk = Disk(clock, SLOWLY)
    wire.come_in(set_of(7, 50))
    check("a stranger is answered during a save", asked(wire, 1)[0] == 128 << 8)
    wire.come_in(set_of(8, 60))
    check("another one too, while more waits behind it", asked(wire, 2)[0] == 128 << 8)
    status, took = clock.end()
    check(f"a clock that is to end then saves and answers: {status} in {took:.1f} s", status == 0 and answers_of_manager(wire) == [50, 60])
    disk.mend()
    clock = Clock(*WORDS, ME, wire.name)
    check("and has it afterwards", asked(wire, 3)[0] == 60 << 8)
    clock.end()
    wire.remove()


def saves_that_fail_beside_strangers():
    """Nobody is shown what was not saved. It waits, and is answered at the first save that works. What was observed stays."""
    wire, source = Wire("clk0", 10), write("observed", "steps_removed 1\n")
    clock = Clock(*WORDS, "-o", source, ME, wire.name, env=TRACED)
    check("it observes", wait_until(lambda: asked(wire, 101, "2001")[0] == 1))
    write("observed", "steps_removed 2\n")
    check("and again", wait_until(lambda: asked(wire, 102, "2001")[0] == 2))
    disk, began = Disk(clock, FAILING), time.monotonic()
    wire.come_in(set_of(7, 50))
    found = [asked(wire, number) for number in range(1, 12)]
    time.sleep(0.3)
    found.append(asked(wire, 12))
    check(f"strangers are answered beside a save that fails: {found}", found == [(128 << 8, [])] * 12 and answers_of_manager(wire, 0.1) == [])
    found = asked(wire, 103, "2001")[0]
    check(f"what was observed before a save that fails is shown after it: {found}", found == 2)
    disk.mend()
    check("later the manager is answered without a copy", answers_of_manager(wire) == [50] and asked(wire, 13)[0] == 50 << 8)
    disk = Disk(clock, "error=EIO", "-P", work)         # the folder is not synchronized
    write("observed", "utc_offset 40\n")
    wire.come_in(set_of(8, 60))
    time.sleep(0.3)
    found = [asked(wire, 14), asked(wire, 15)]
    check(f"while a save is in doubt strangers are shown what was saved for sure: {found}", found == [(50 << 8, [])] * 2)
    wire.come_in(set_of(8, 60))
    check("and the manager is not answered, to a copy either", answers_of_manager(wire, 1.5) == [])
    disk.mend()
    check("and then it is, once", answers_of_manager(wire) == [60] and answers_of_manager(wire, 0.2) == [] and asked(wire, 16)[0] == 60 << 8)
    found = [asked(wire, 17, "2001")[0], asked(wire, 18, "2003")[0]]
    check(f"and what was observed is shown, before it and meanwhile: {found}", found == [2, 40])
    most = 2 + time.monotonic() - began
    check("it ends in order", clock.end()[0] == 0)
    tries = int(re.search(r"^not saved: (\d+)$", clock.text(), re.M)[1])
    check(f"it is tried again once a second: {tries} times in {most:.1f} s", 3 <= tries <= most)
    wire.remove()


def programs_beside_saves_that_fail():
    """Ten requests of managers among programs of this host wait for a save. While saves fail, more of them are lost, and others are answered."""
    clock = Clock(*WORDS, ME, env=TRACED)
    disk, peer, other = Disk(clock, FAILING), Peer("peer"), Peer("other")
    for number in range(1, 31):
        peer.ask(get(number))
    other.ask(message(1, STRANGER, ME))
    try:
        is_answered = other.socket.recv(2048)[54] == 128
    except OSError:
        is_answered = False
    check("a stranger is answered", is_answered)
    disk.mend()
    answers = [peer.socket.recv(2048)[31] for _ in range(10)]
    check(f"ten are answered once a save works: {answers}", answers == list(range(1, 11)))
    check("the others are counted, and it ends in order", clock.end()[0] == 0 and "not taken of managers over their rate: 20\n" in clock.text())


def askers_without_end_during_a_save():
    """At the ports 64 requests wait at most, with those that are being saved; a program of this host waits itself, and loses none."""
    wire = Wire("clk0", 10)
    clock = Clock(*WORDS, ME, wire.name, env=TRACED)
    disk, peer = Disk(clock, SLOWLY), Peer("peer")
    peer.socket.settimeout(30)          # it waits for its turn in saves, as long as they take
    wire.come_in(set_of(1, 50))
    asked(wire, 1)
    for number in range(2, 202):
        wire.come_in(message(number, MANAGER, ME))
    found, answered = [], set()
    wait_until(lambda: found.extend(one for one in wire.sent(0.5) if one[34:42].hex() == MANAGER) or len(found) > 63, 3)
    check(f"of 200 requests in a save, and the one before, {len(found)} are answered", len(found) == 64)

    def asks():
        for number in range(300, 500):
            peer.ask(get(number))
    asker = threading.Thread(target=asks)
    asker.start()
    try:
        while len(answered) < 200:
            answered.add(peer.socket.recv(2048)[30:32])
    except OSError:
        pass
    asker.join()
    check(f"a program of this host is answered {len(answered)} of 200 times", len(answered) == 200)
    disk.mend()
    clock.process.send_signal(signal.SIGUSR1)
    check("what found no room is counted", wait_until(lambda: re.search(r"^not taken of managers over their rate: 137$", clock.text(), re.M)))
    check("it ends in order", clock.end()[0] == 0)
    peer.close()
    wire.remove()


ATTACKS = []
if HAS_STRACE:
    ATTACKS = [strangers_during_a_save, strangers_with_lines, copies_during_a_save, ends_during_a_save, saves_that_fail_beside_strangers,
               programs_beside_saves_that_fail, askers_without_end_during_a_save]
