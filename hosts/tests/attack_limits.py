"""How much a clock answers, takes and saves for those who ask without end, and what it still does for others."""
import os
import re
import signal
import socket
import time

from attack_wire import STATION, Wire, frame_four
from attacking import MANAGER, ME, OTHER, STRANGER, Clock, Peer, check, message, path, run, set_of, wait_until, work, write

TOOL = "0a0b0c0d0e0f10aa"
# The latest addresses that have tokens of their own: of those who ask, and of those who claim to be a manager.
ASKERS, MANAGERS = 32, 8


def most_in(seconds, rate, addresses, places=ASKERS, least=1):
    """What a rate lets through in a time, however slow the machine is: what a second brings at once, and then what the time brings. All
    have the rate together, and each of the latest addresses a 64th besides, or a 16th of a manager's rate. But it has one a
    second at least, and of answers one for each port of the clock."""
    own = max(rate // (2 * places), least)
    return (rate + own * addresses) * (1 + seconds)


class Watch:
    """How long ago it was begun, in seconds."""

    def __init__(self):
        self.began = time.monotonic()

    def seconds(self):
        return time.monotonic() - self.began


def rates():
    """How much a stranger has sent by how little, and what a manager is still answered."""
    first, second = Wire("clk0", 10), Wire("clk1", 11)
    clock = Clock("-u", path, "--rate", "20", "-m", MANAGER + "/1", ME, first.name, second.name)
    watch = Watch()
    for number in range(200):
        first.come_in(message(number, target=ME))
    answered = len(first.sent(0.5))
    check("a stranger's answers have a rate", 20 <= answered <= most_in(watch.seconds(), 20, 1, least=2))
    for number in range(100):
        first.come_in(message(number, source=MANAGER, target=ME))
    answers = []
    wait_until(lambda: answers.extend(first.sent(0.2)) or len(answers) >= 100)
    check("a manager's requests have another one", len(answers) == 100)
    peer = Peer("peer")
    check("nor those of programs of this host", all(peer.is_answered(number) for number in range(100, 200)))
    watch = Watch()
    for number in range(200):
        first.come_in(message(number, target=OTHER))
    passed = len(second.sent(0.5))
    check("what is passed on has a rate", 20 <= passed <= most_in(watch.seconds(), 20, 1))
    clock.end()
    text = clock.text()
    check("what is held back is counted", f"not answered over the rate: {200 - answered}\n" in text
          and f"not passed on over the rate: {200 - passed}\n" in text)
    clock = Clock("-u", path, ME, first.name, second.name)
    for _ in range(3):
        first.come_in(message(1, target=OTHER))
    second.come_in(message(1, target=OTHER))
    check("what was passed on is not passed on again", len(second.sent()) == 1 and first.sent(0) == [])
    first.come_in(message(2, target=OTHER))
    check("but the next message is", len(second.sent()) == 1)
    time.sleep(1)
    first.come_in(message(1, target=OTHER))
    check("and the same one a second later", len(second.sent()) == 1)
    clock.end()
    check("that is counted", "not passed on again: 3\n" in clock.text())
    peer.close()
    first.remove(), second.remove()


def programs_without_a_path():
    """What one of them sends is passed on by what all have together, and not by what is left of the neighbour that was heard before."""
    first, second = Wire("clk0", 10), Wire("clk1", 11)
    clock = Clock("-f", "--rate", "1", "-u", path, ME, first.name, second.name)
    first.come_in(message(1, target=OTHER))
    check("a neighbour's message is passed on", len(second.sent()) == 1)
    time.sleep(1.1)
    with socket.socket(socket.AF_UNIX, socket.SOCK_DGRAM) as nameless:
        for number in (2, 3):
            nameless.sendto(message(number, target=OTHER), path)
            time.sleep(0.1)
    check("of two messages of a program without a path one is passed on at a rate of one", len(second.sent()) == 1)
    check("it ends in order", clock.end()[0] == 0)
    first.remove(), second.remove()


def at_neighbours(wire, *ends):
    """Addresses of further neighbours."""
    found = [f"10.7.{wire.number}.{end}" for end in ends]
    station = STATION.hex(":")
    run("ip", "-batch", write("neighbours", "".join(f"neigh replace {address} lladdr {station} dev {wire.name}\n" for address in found)))
    return found


def answered_beside(wire, flood, ask, at_once, count=8):
    """Of this many requests that are asked beside a flood, those that are answered, how many others are, and how long it took. A request
    comes in each 250 ms, however slow the machine is, and so many of the flood in 10 ms at most."""
    found, number, watch = [], 0, Watch()
    for asked in range(count):
        ends = watch.seconds() + 0.25
        while (step := watch.seconds()) < ends:
            for _ in range(at_once):
                flood(number)
                number += 1
            found += wire.sent(max(step + 0.01 - watch.seconds(), 0.001))
        ask(asked)
    found += wire.sent(0.3)
    own = [one for one in found if one[34:42].hex() in (TOOL, OTHER)]
    return {one[30:32] for one in own}, len(found) - len(own), watch.seconds()


def strangers_beside_each_other():
    """One address sends 400 GETs a second where 40 may be answered: a tool at another one is answered all the same."""
    wire = Wire("clk0", 10)
    (address,) = at_neighbours(wire, 20)
    clock = Clock("--rate", "40", ME, wire.name)
    answered, others, seconds = answered_beside(wire, lambda number: wire.come_in(message(number, target=ME)),
                                                lambda number: wire.come_in(message(number, TOOL, ME), address), 4)
    check(f"a stranger that sends without end leaves another its answers: {len(answered)} of 8, and {others} in {seconds:.1f} s",
          len(answered) >= 2 and others <= most_in(seconds, 40, 1))
    clock.end()
    clock = Clock("--rate", "640", ME, wire.name)
    answered, _, _ = answered_beside(wire, lambda number: wire.come_in(message(number, target=ME)),
                                     lambda number: wire.come_in(message(number, TOOL, ME), address), 20)
    check(f"and each of them at a higher rate: {len(answered)} of 8", len(answered) == 8)
    clock.end()
    clock = Clock("-2", "--rate", "640", ME, wire.name)

    def frame(station, octets):
        wire.put(bytes.fromhex("011b19000000") + station + b"\x88\xf7" + octets)
    answered, _, _ = answered_beside(wire, lambda number: frame(STATION, message(number, target=ME)),
                                     lambda number: frame(bytes.fromhex("020000000077"), message(number, TOOL, ME)), 20)
    check(f"also over Ethernet: {len(answered)} of 8", len(answered) == 8)
    clock.end()
    wire.remove()


def addresses_without_end():
    """An address of its own for each GET: a tool that asked before keeps its place, with the four answers a second that it asks for, and
    the answers have an end."""
    wire = Wire("clk0", 10)
    (address,) = at_neighbours(wire, 20)
    clock, ends = Clock("--rate", "256", ME, wire.name), at_neighbours(wire, *range(30, 230))

    def flood(number):
        wire.put(frame_four(message(number, target=ME), ends[number % len(ends)]))
    wire.come_in(message(99, TOOL, ME), address)
    wire.sent(0.1)
    answered, others, seconds = answered_beside(wire, flood, lambda number: wire.come_in(message(number, TOOL, ME), address), 20)
    check(f"200 addresses leave one that came before its answers: {len(answered)} of 8, and {others} in {seconds:.1f} s",
          len(answered) == 8 and others <= most_in(seconds, 256, ASKERS))
    clock.end()
    wire.remove()


def forged_managers():
    """Whoever claims to be a manager is answered at a rate too, and a manager at another address beside him."""
    wire = Wire("clk0", 10)
    (address,) = at_neighbours(wire, 20)
    clock = Clock("-u", path, "-m", MANAGER + "/1", "-m", OTHER + "/1", ME, wire.name)
    taken, watch = 0, Watch()
    for number in range(500):
        wire.come_in(message(number, MANAGER, ME))
        taken += len(wire.sent(0.02)) if number % 100 == 99 else 0
    taken += len(wire.sent(0.5))
    check(f"of 500 requests under a manager's identity {taken} are answered in {watch.seconds():.1f} s",
          100 <= taken <= most_in(watch.seconds(), 100, 1, MANAGERS))
    answered, others, seconds = answered_beside(wire, lambda number: wire.come_in(message(1000 + number, MANAGER, ME)),
                                                lambda number: wire.come_in(message(number, OTHER, ME), address), 4)
    check(f"a manager at another address is answered {len(answered)} of 8 times, and {others} others in {seconds:.1f} s",
          len(answered) == 8 and others <= most_in(seconds, 100, 1, MANAGERS))
    peer = Peer("peer")
    check("a program of this host may ask as it likes", all(peer.is_answered(number) for number in range(2000, 2200)))
    clock.end()
    check("what is not taken is counted", re.search(r"^not taken of managers over their rate: [1-9]\d\d", clock.text(), re.M) is not None)
    clock = Clock("--manager-rate", "1000", "-m", MANAGER + "/1", ME, wire.name)
    answers = []
    for number in range(500):
        wire.come_in(message(number, MANAGER, ME))
        if number % 100 == 99:
            answers += wire.sent(0.1)
    wait_until(lambda: answers.extend(wire.sent(0.2)) or len(answers) >= 500)
    check("the rate is that of the option", len(answers) == 500)
    clock.end()
    peer.close()
    wire.remove()


def saves_without_end():
    """1,200 requests under a manager's identity in three seconds, each of which is to be saved: so many saves there are not."""
    wire, state = Wire("clk0", 10), os.path.join(work, "limited")
    clock, watch = Clock("-s", state, "-m", MANAGER + "/1", ME, wire.name), Watch()
    for number in range(1200):
        wire.come_in(message(number, MANAGER, ME))
        time.sleep(max(number / 400 - watch.seconds(), 0))
    answered, seconds = len(wire.sent(0.5)), watch.seconds()
    clock.end()
    saves = int(re.search(r"^saved: (\d+)", clock.text(), re.M)[1])
    check(f"they are saved by {saves} saves, and {answered} are answered in {seconds:.1f} s",
          saves <= 21 + 20 * seconds and 150 < answered <= most_in(seconds, 100, 1, MANAGERS))
    wire.remove()


def answers_before_a_save():
    """What shows no change is not kept waiting by the save of what came in before it."""
    wire, state = Wire("clk0", 10), os.path.join(work, "limited")
    clock = Clock("-s", state, "-m", MANAGER + "/1", ME, wire.name)
    wire.frames(0.1)
    clock.process.send_signal(signal.SIGSTOP)
    for octets in [set_of(7, 100), message(1, STRANGER, ME), set_of(8, 50), message(2, STRANGER, ME)]:
        wire.come_in(octets)
    clock.process.send_signal(signal.SIGCONT)
    answers = [(one[34:42].hex(), one[30:32], one[54]) for one in wire.sent(0.5)]
    check(f"strangers are answered first, by what is saved: {answers}", answers == [
        (STRANGER, b"\0\1", 128), (STRANGER, b"\0\2", 128), (MANAGER, b"\0\7", 100), (MANAGER, b"\0\x08", 50)])
    wire.come_in(message(3, STRANGER, ME))
    check("and then by what the manager set", [one[54] for one in wire.sent()] == [50])
    clock.end()
    wire.remove()


ATTACKS = [rates, programs_without_a_path, strangers_beside_each_other, addresses_without_end, forged_managers, saves_without_end, answers_before_a_save]
