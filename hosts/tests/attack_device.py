"""A clock whose device is asked (clock.c --limits, --ask): what its hardware lacks, what its program says or does not say, who is
answered meanwhile, and what becomes of a change if the clock, the program or the process between them is killed."""
import ast
import os
import signal
import subprocess
import time

from attack_saves import FAILING, SLOWLY, Calls, Disk
from attack_wire import Wire
from attacking import (CLOCK, HAS_STRACE, LIBC, MANAGER, ME, SLOW, STRANGER, TRACED, Clock, Peer, check, field_set, get, manage, message, pause,
                       path, read, set_of, started, wait_until, work, write)

SECOND_MANAGER = "0011223344556688"
PROGRAM = os.path.join(work, "program")
LONG = f"300.{os.getpid()}"               # seconds, and a word that no other process has
WRONG_VALUE, NOT_SETABLE, NOT_SUPPORTED, GENERAL_ERROR = 4, 5, 6, 0xFFFE


def answer_at(peer, wait=2):
    """What the peer is answered: the sequenceId, and the managementErrorId or the first octet of the dataField; None if nothing."""
    peer.socket.settimeout(wait * SLOW)
    try:
        octets = peer.socket.recv(2048)
    except OSError:
        return None
    number, is_error = int.from_bytes(octets[30:32], "big"), octets[48:50] == b"\0\2"
    return number, "error" if is_error else "value", int.from_bytes(octets[52:54], "big") if is_error else octets[54] if len(octets) > 54 else None


def asked(peer, octets, wait=2):
    peer.ask(octets)
    return answer_at(peer, wait)


def program(says):
    """The device's program: it writes down its words, and then does what is said."""
    write("runs", "")
    write("says", says)
    name = write("program", f'#!/bin/sh\nfor word; do printf "%s|" "$word"; done >> {work}/runs\necho >> {work}/runs\n. {work}/says\n')
    os.chmod(name, 0o755)
    return name


def runs():
    return read("runs").splitlines()


def processes_with(word):
    """How many processes that are no zombie have this word."""
    count = 0
    for one in filter(str.isdigit, os.listdir("/proc")):
        try:
            with open(f"/proc/{one}/cmdline", "rb") as file:
                count += word.encode() in file.read().split(b"\0")
        except OSError:
            pass
    return count


def device_clock(*words):
    return Clock("-u", path, "-m", MANAGER + "/1", "-m", SECOND_MANAGER + "/1", *words, ME)


def limits_of_hardware():
    """What the hardware lacks is refused, and kept so; the file is read again, and what is wrong with it changes nothing."""
    limits = write("limits", "# a divider\nLOG_SYNC_INTERVAL -4..1\nport 1 DELAY_MECHANISM E2E\nDOMAIN never\nDISABLE_PORT never\n")
    clock, peer = device_clock("-v", "--limits", limits), Peer("peer")
    sync = "200b"
    check("a value that the hardware lacks", asked(peer, field_set(1, sync, b"\xf8\0", port=1)) == (1, "error", WRONG_VALUE))
    check("at all ports too", asked(peer, field_set(2, sync, b"\xfb\0")) == (2, "error", WRONG_VALUE))
    check("a value that it has", asked(peer, field_set(3, sync, b"\xfc\0")) == (3, "value", 0xFC))
    check("an id that is never set", asked(peer, field_set(4, "2007", b"\7\0")) == (4, "error", NOT_SETABLE))
    check("a command that it lacks", asked(peer, field_set(5, "200e", b"", action=3)) == (5, "error", NOT_SUPPORTED))
    check("another command", asked(peer, field_set(6, "200d", b"", action=3))[:2] == (6, "value"))
    check("a mechanism by its name", asked(peer, field_set(7, "6000", b"\2\0")) == (7, "error", WRONG_VALUE))
    write("limits", "DELAY_MECHANISM E2E P2P\n")
    check("the file is read again", wait_until(lambda: "limits read: 1\n" in clock.text()))
    check("its copy is answered as before", asked(peer, field_set(7, "6000", b"\2\0")) == (7, "error", WRONG_VALUE))
    check("the next one by the new limits", asked(peer, field_set(8, "6000", b"\2\0")) == (8, "value", 2))
    for text, said in [("DELAY_MECHANISM E2E P2P\nPRIORITY1 256\n", "line 2: PRIORITY1 256: it is neither a value of the id, nor a range such as -4..1, nor never\n"),
                       ("", "there is no limit in it\n")]:
        write("limits", text)
        stays = f"ptpm-clock: {limits}: {said}ptpm-clock: {limits}: the limits stay as they were\n"
        check(f"limits that are wrong are said: {text!r}", wait_until(lambda: stays in clock.text()))
    check("and nothing changes", asked(peer, field_set(9, "6000", b"\xfe\0")) == (9, "error", WRONG_VALUE))
    os.unlink(limits)
    check("nor without a file", asked(peer, field_set(10, "6000", b"\xfe\0")) == (10, "error", WRONG_VALUE))
    write("other", "DELAY_MECHANISM NO_MECHANISM\n")
    os.rename(os.path.join(work, "other"), limits)
    check("a file that is moved there counts", wait_until(lambda: clock.text().count("limits read: 1\n") == 2)
          and asked(peer, field_set(11, "6000", b"\xfe\0")) == (11, "value", 0xFE))
    check("it ends in order", clock.end()[0] == 0 and "the device objected: 7\n" in clock.text())


def limits_that_are_wrong():
    """Each wrong line is named, and the clock does not start."""
    for line, said in [("LOG_SYNC_INTERVAL -4..2..3", "LOG_SYNC_INTERVAL -4..2..3: it is neither a value of the id, nor a range"),
                       ("LOG_SYNC_INTERVAL 1..-4", "LOG_SYNC_INTERVAL 1..-4: it is neither"), ("LOG_SYNC_INTERVAL -129..0", "LOG_SYNC_INTERVAL -129..0: "),
                       ("DELAY_MECHANISM E2E..P2P", "DELAY_MECHANISM E2E..P2P: "), ("USER_DESCRIPTION rack", "USER_DESCRIPTION rack: it is neither"),
                       ("UTC_PROPERTIES 37", "UTC_PROPERTIES 37: it is neither"), ("DISABLE_PORT 1", "DISABLE_PORT 1: it is neither"),
                       ("PRIORITY1", "PRIORITY1: it takes values, or never"), ("PRIORITY1 never 1", "PRIORITY1 never 1: nothing goes with never"),
                       ("PRIORITY 1", "PRIORITY: no such id of the profile"), ("2ffe 1", "2ffe: no such id of the profile"),
                       ("port 2 PRIORITY1 1", "port 2: it takes a number from 1 to 1, of a port of the clock"), ("port 1", "it takes port PORT ID VALUE.."),
                       ("DOMAIN 1..4", "DOMAIN: line 1 has it already"), ("PRIORITY1 \x07", "it has an octet that is not ASCII")]:
        clock = device_clock("--limits", write("limits", f"DOMAIN 0 7\n{line}\n"))
        check(f"limits with {line} are refused", clock.end(None)[0] == 2 and f"limits: line 2: {said}" in clock.text())
    os.mkfifo(os.path.join(work, "pipe"))
    for name, said in [("none", "No such file or directory"), ("pipe", "it is not a regular file"), (".", "it is not a regular file")]:
        holder = os.open(os.path.join(work, "pipe"), os.O_RDWR)
        clock = device_clock("--limits", os.path.join(work, name))
        check(f"limits that are no file are refused: {name}", clock.end(None)[0] == 2 and f"{name}: {said}\n" in clock.text())
        os.close(holder)
    clock = device_clock("--limits", write("limits", "# nothing\n\n"))
    check("so are limits that say nothing", clock.end(None)[0] == 2 and "there is no limit in it" in clock.text())


def what_a_program_says():
    """Each status, and its words; what it can't say is not said."""
    clock, peer = device_clock("--ask", program("exit 0\n")), Peer("peer")
    check("a change that it agrees to", asked(peer, set_of(1, 100)) == (1, "value", 100))
    check("its words", runs() == [f"{MANAGER}/1|1|set|2005|PRIORITY1|all|6400|priority1|100|"])
    write("runs", "")
    check("its copy is not asked about", asked(peer, set_of(1, 100)) == (1, "value", 100) and runs() == [])
    check("nor what the clock refuses", asked(peer, field_set(2, "200b", b"\2\0")) == (2, "error", WRONG_VALUE) and runs() == [])
    check("nor a GET", asked(peer, get(3)) == (3, "value", 100) and runs() == [])
    check("a command's words", asked(peer, field_set(4, "200e", b"", action=3, port=1))[1] == "value"
          and runs() == [f"{MANAGER}/1|4|command|200e|DISABLE_PORT|1|-|"])
    write("runs", "")
    check("a text in its words", asked(peer, field_set(5, "0002", b"\5a $(\x07"))[1] == "value"
          and runs() == [f"{MANAGER}/1|5|set|0002|USER_DESCRIPTION|all|05612024280" + "7|userDescription|a $(\\x07|"])
    for number, (status, error) in enumerate([(4, WRONG_VALUE), (5, NOT_SETABLE), (6, NOT_SUPPORTED), (1, GENERAL_ERROR), (255, GENERAL_ERROR)], 10):
        write("says", f"exit {status}\n")
        check(f"status {status} is error {error}", asked(peer, set_of(number, 50)) == (number, "error", error))
        write("says", "exit 0\n")
        check("and its copy gets it too", asked(peer, set_of(number, 50)) == (number, "error", error))
    check("nothing was changed", asked(peer, get(15)) == (15, "value", 100))
    os.unlink(PROGRAM)
    check("a program that is gone is a general error", asked(peer, set_of(16, 50)) == (16, "error", GENERAL_ERROR))
    check("which is said", f"ptpm-clock: {PROGRAM}: No such file or directory\n" in clock.text())
    check("it ends in order", clock.end()[0] == 0 and "the device agreed: 3\n" in clock.text() and "the device objected: 6\n" in clock.text())
    peer.close()
    for name in [PROGRAM, work, write("not-executable", "")]:
        check(f"{name} is refused at the start", device_clock("--ask", name).end(None)[0] == 2)


def what_a_program_inherits():
    """No descriptor, no right, no word of the environment, and no signal that is held."""
    os.environ["SECRET"] = "7"
    script = """#!/usr/bin/python3
import os, signal
found = (sorted(os.listdir("/proc/self/fd")), [os.readlink(f"/proc/self/fd/{one}") for one in (0, 1)], dict(os.environ),
         os.getuid(), os.getsid(0) == os.getpid(), list(signal.pthread_sigmask(signal.SIG_BLOCK, [])), open("/proc/self/status").read())
open("WORK/found", "w").write(repr(found))
"""
    name = write("inherits", script.replace("WORK", work))
    os.chmod(name, 0o755), os.chmod(work, 0o777)
    held = os.open("/dev/zero", os.O_RDONLY)
    os.set_inheritable(held, True)
    clock, peer = device_clock("--user", "nobody", "--ask", name), Peer("peer")
    os.chmod(peer.path, 0o777)
    check("it runs", asked(peer, set_of(1, 100)) == (1, "value", 100))
    descriptors, streams, environment, user, is_leader, mask, status = ast.literal_eval(read("found"))
    status = dict(line.split(":", 1) for line in status.splitlines())
    check(f"its descriptors are the streams: {descriptors}", descriptors == ["0", "1", "2", "3"])        # 3 is that of its listing
    check("the first two of them are nothing", streams == ["/dev/null"] * 2)
    check(f"its environment is a path: {environment}", set(environment) <= {"PATH", "LC_CTYPE"})         # Python sets that one
    check("it is the clock's user, in a session of its own", (user, is_leader) == (65534, True))
    check(f"no signal is held: {mask}", mask == [])
    check("it has no rights, and can gain none", [int(status[one], 16) for one in ["CapPrm", "CapEff", "CapAmb", "NoNewPrivs"]] == [0, 0, 0, 1])
    with open("/proc/self/status") as file:
        check("it has no filter of system calls", f"\nSeccomp:{status['Seccomp']}\n" in file.read())
    check("it ignores no signal but Python's two", int(status["SigIgn"], 16) & ~(1 << signal.SIGPIPE - 1 | 1 << signal.SIGXFSZ - 1) == 0)
    clock.end()
    os.close(held)
    os.chmod(work, 0o700)
    peer.close()
    del os.environ["SECRET"]


def programs_that_say_nothing():
    """One that dies by a signal or takes too long: the change counts as lost, and comes again."""
    clock, peer, other = device_clock("--ask-time", "1", "--ask", program("kill -SEGV $$\n")), Peer("peer"), Peer("other")
    check("a program that dies says nothing", asked(peer, set_of(1, 100), 0.5) is None and len(runs()) == 1)
    check("and is said", "was ended by a signal, and the change counts as lost\n" in clock.text())
    write("says", "exit 0\n")
    check("the change that comes again is asked about again", asked(peer, set_of(1, 100)) == (1, "value", 100) and len(runs()) == 2)
    write("says", f"sleep {LONG} & sleep {LONG}\n")
    began = time.monotonic()
    peer.ask(set_of(2, 50))
    check("it runs, with what it has started", wait_until(lambda: processes_with(LONG) == 2))
    check("others are answered meanwhile", [asked(other, message(number, STRANGER, ME)) for number in range(5)] == [(number, "value", 100) for number in range(5)])
    check("so is another manager", asked(other, message(1, SECOND_MANAGER, ME)) == (1, "value", 100))
    check("it is ended once its time is up, and said", wait_until(lambda: "took too long, and the change counts as lost\n" in clock.text()))
    check("after a second", 0.9 < time.monotonic() - began < 2 * SLOW)
    check("with what it has started", wait_until(lambda: processes_with(LONG) == 0, 1) and answer_at(peer, 0.2) is None)
    write("says", f"sleep {LONG} & exit 5\n")
    check("so is what it leaves when it exits", asked(peer, set_of(2, 50)) == (2, "error", NOT_SETABLE)
          and wait_until(lambda: processes_with(LONG) == 0, 1))
    write("says", "sleep 0.8\n")
    status, said, _ = manage("-u", path, "-k", os.path.join(work, "numbers"), "-t", "40", "-a", "4", "set", "PRIORITY1", "60")
    check("its manager is told that this may be why", status == 3 and "or its device has not agreed yet" in said)
    check("and has the answer later", wait_until(lambda: asked(other, message(9, STRANGER, ME)) == (9, "value", 60)))
    check("it ends in order", clock.end()[0] == 0 and "the device said nothing: 2\n" in clock.text())


def changes_that_wait():
    """While a program runs its copies start none, its manager's later requests are lost, and changes of others come after it."""
    clock = device_clock("--ask", program(f"while [ ! -e {work}/go ]; do sleep 0.02; done; exit 0\n"))
    peer, other = Peer("peer"), Peer("other")
    peer.ask(set_of(7, 100))
    check("it runs", wait_until(lambda: len(runs()) == 1))
    for _ in range(50):
        peer.ask(set_of(7, 100))
    peer.ask(set_of(8, 60))
    peer.ask(get(9))
    other.ask(set_of(3, 70, SECOND_MANAGER))
    other.ask(set_of(4, 80, SECOND_MANAGER))
    pause(0.3)
    check("one program runs", len(runs()) == 1 and answer_at(peer, 0.1) is None and answer_at(other, 0.1) is None)
    write("go", "")
    check("the change is made once", answer_at(peer) == (7, "value", 100) and answer_at(peer, 0.3) is None)
    check("and then that of the other manager, whose later one is lost", answer_at(other) == (3, "value", 70) and answer_at(other, 0.3) is None)
    check("each was asked about once", [one.split("|")[:2] for one in runs()] == [[MANAGER + "/1", "7"], [SECOND_MANAGER + "/1", "3"]])
    check("what was lost comes again", asked(peer, set_of(8, 60)) == (8, "value", 60) and asked(other, set_of(4, 80, SECOND_MANAGER)) == (4, "value", 80))
    check("it ends in order", clock.end()[0] == 0 and "not taken while the device was asked: 53\n" in clock.text())


def floods_while_a_program_runs():
    """Copies, GETs and other changes of managers and of strangers without end, at a port and from programs of this host."""
    wire = Wire("clk0", 10)
    clock = Clock("-s", os.path.join(work, "saved"), "-u", path, "-m", MANAGER + "/1", "-m", SECOND_MANAGER + "/1", "--manager-rate", "100000",
                  "--ask", program("sleep 1; exit 0\n"), ME, wire.name)
    peer = Peer("peer")
    peer.socket.setblocking(False)
    wire.come_in(set_of(7, 100))
    check("it runs", wait_until(lambda: len(runs()) == 1))
    end, sent, answers = time.monotonic() + 0.8, 0, []
    while time.monotonic() < end:
        for octets in [set_of(7, 100), set_of(8 + sent % 100, 60), message(9 + sent % 100, MANAGER, ME), message(sent % 65536, STRANGER, ME), b"\x0d" * 60]:
            wire.come_in(octets)
            sent += 1
        try:
            peer.ask(set_of(sent % 65536, 70, STRANGER))
            peer.ask(message(sent % 65536, STRANGER, ME))
        except BlockingIOError:
            pass
        answers += wire.sent(0.002)
    check(f"one program ran in a flood of {sent}", len(runs()) == 1)
    strangers = [one for one in answers if one[34:42].hex() == STRANGER]
    check(f"strangers were answered meanwhile, {len(strangers)} times", len(strangers) > 5 and all(one[54] == 128 for one in strangers))
    check("its manager was not", not [one for one in answers if one[34:42].hex() == MANAGER])
    found = []
    wait_until(lambda: found.extend(one for one in wire.sent(0.1) if one[34:42].hex() == MANAGER) or found)
    check("and then is answered its change", [(one[31], one[54]) for one in found[:1]] == [(7, 100)])
    check("it ends in order", clock.end()[0] == 0)
    wire.remove()


# A device that writes down what it was asked for, and looks there whether it has a change.
JOURNAL = """case $1 in look) shift; grep -qx "$*" WORK/journal; exit;; esac
echo "$*" >> WORK/journal; """


def journal(says="exit 0"):
    """Such a device, which after it has written does what is said."""
    write("journal", "")
    return program(JOURNAL.replace("WORK", work) + says + "\n")


def changes():
    """The sequenceIds of what the device was asked for."""
    return [int(line.split()[1]) for line in read("journal").splitlines()]


def looks():
    return sum(one.startswith("look|") for one in runs())


def kills_while_a_program_runs():
    """The program of the run before is gone by the next start. That one looks, and never asks for the change again."""
    words = ("-s", os.path.join(work, "saved"), "--ask", journal(f"sleep {LONG}"))
    clock, peer = device_clock(*words), Peer("peer")
    for change, number in enumerate([signal.SIGKILL, signal.SIGTERM], 7):
        peer.ask(set_of(change, 100 + change))
        check("it runs", wait_until(lambda: processes_with(LONG) == 1))
        status, took = clock.end(number)
        check(f"the clock ends at once by {number.name}: {status}", took < 2 * SLOW and status == (0 if number == signal.SIGTERM else -number))
        check("and its program with it", wait_until(lambda: processes_with(LONG) == 0, 1) and processes_with(PROGRAM) == 0)
        clock = device_clock(*words)
        check("the next start finds that the device has the change", wait_until(lambda: "a change was under way: the device has it\n" in clock.text()))
        check("its copy is answered so", asked(peer, set_of(change, 100 + change)) == (change, "value", 100 + change))
        check("and the device was asked once for it", changes() == list(range(7, change + 1)) and looks() == change - 6)
    clock.end(signal.SIGKILL)
    clock = device_clock(*words)
    check("that answer is kept", asked(peer, set_of(8, 108)) == (8, "value", 108) and looks() == 2)
    beside = [one for one in filter(str.isdigit, os.listdir("/proc")) if is_child(one, clock.process.pid)]
    peer.ask(set_of(9, 50))
    check("it runs", len(beside) == 1 and wait_until(lambda: processes_with(LONG) == 1))
    os.kill(int(beside[0]), signal.SIGKILL)
    check("without the process between, the clock ends, and says so", clock.end(None)[0] == 2 and "the process that runs it is gone\n" in clock.text())
    check("and its program with it", wait_until(lambda: processes_with(LONG) == 0, 1))


def values_over_the_rate():
    """The file of a value is read for a GET that is answered, and for no GET above the rate."""
    wire, file = Wire("clk0", 10), write("value", "4711")
    clock = Clock("--rate", "10", "--give", "2017", file, ME, wire.name)
    watch = LIBC.inotify_init1(os.O_NONBLOCK)
    LIBC.inotify_add_watch(watch, file.encode(), 0x20 | 0x10)           # IN_OPEN, and IN_CLOSE_NOWRITE: no two alike
    for number in range(200):
        wire.come_in(message(number)[:52] + bytes.fromhex("2017"))
    answers = wire.sent(0.5)
    opened = len(os.read(watch, 65536)) // 16 // 2
    check(f"of 200 GETs {len(answers)} are answered, and its file is read {opened} times",
          opened == len(answers) < 40 and all(one[54:] == b"4711" for one in answers))
    os.close(watch)
    clock.end()
    wire.remove()


def value_get(number, port, source=STRANGER, target=ME):
    """A GET of 2014 at a port."""
    octets = bytearray(field_set(number, "2014", b"", source, 0, port))
    octets[34:42] = bytes.fromhex(target)
    return bytes(octets)


def values_of_ports():
    """Each port answers with its own value: to a stranger each that is asked, and to a manager one, also if it asks again."""
    wires = [Wire(f"clk{number}", 10 + number) for number in range(3)]
    words = [word for port in (1, 2, 3) for word in ("--give", f"2014/{port}", write(f"value{port}", f"v{port}"))]
    clock = Clock("-m", MANAGER + "/1", "-u", path, *words, ME, *(wire.name for wire in wires))
    every, stranger = "ff" * 8, [(port, b"v%d" % port) for port in (1, 2, 3)]

    def answered(octets, at=0):
        """The port of each answer that goes out there, and its octets, or None in place of a refusal."""
        wires[at].come_in(octets)
        return [(int.from_bytes(one[28:30], "big"), None if one[48:50] == b"\0\2" else one[54:]) for one in wires[at].sent() if one[46] & 15 == 2]
    check("a GET of a port is answered by that port", answered(value_get(1, 2)) == [(2, b"v2")])
    check("also at another one", answered(value_get(2, 1), 2) == [(1, b"v1")])
    check("a GET of every port by each", answered(value_get(3, 0xFFFF)) == stranger)
    check("so is that to every clock", answered(value_get(4, 0xFFFF, target=every), 1) == stranger)
    check("which is passed on once", [len(wires[at].sent()) for at in (0, 2)] == [1, 1])
    check("a GET of a port to every clock", answered(value_get(5, 3, target=every)) == [(3, b"v3")])
    check("a manager's", answered(value_get(6, 2, MANAGER)) == [(2, b"v2")])
    write("value2", "w2")
    check("and its copy, as it was kept", answered(value_get(6, 2, MANAGER)) == [(2, b"v2")])
    check("a manager's GET of every port has one answer", answered(value_get(7, 0xFFFF, MANAGER), 1) == [(2, b"w2")])
    os.unlink(os.path.join(work, "value2"))
    check("a port without a value refuses", answered(value_get(8, 2)) == [(2, None)])
    check("and the others answer", answered(value_get(9, 0xFFFF)) == [stranger[0], stranger[2]])
    peer = Peer("peer")
    peer.ask(value_get(10, 3))
    check("at the Unix socket too", peer.socket.recv(2048)[28:30] == b"\0\3")
    peer.close()
    check("it ends in order", clock.end()[0] == 0)
    for wire in wires:
        wire.remove()
    for given, said in [("2014/65", "a port has a number from 1 to 64"), ("2014/", "a port has a number"),
                        ("2014/2", "there is no port 2; the number of ports is 1"), ("c000", "it is an id of ptp4l"),
                        ("TIME_STATUS_NP", "it is an id of ptp4l"), ("2005", "the clock has a value of its own")]:
        clock = Clock("-u", path, "--give", given, "value", ME)
        check(f"{given} is refused", clock.end(None)[0] == 2 and said in clock.text())
    for one, other in [("2014", "2014/1"), ("2014/1", "2014")]:
        clock = Clock("-u", path, "--give", one, "value", "--give", other, "value", ME)
        check(f"{one} and {other} are refused", clock.end(None)[0] == 2 and "the id is given twice" in clock.text())


def changes_that_are_not_saved():
    """A change is saved as under way before the device is asked for it. If the clock is killed after that and before the decision is
    saved, it looks. One that can't be saved waits until it can."""
    words = ("-s", os.path.join(work, "saved"), "-u", path, "-m", MANAGER + "/1", "-m", SECOND_MANAGER + "/1", "--ask", journal(), ME)
    clock, peer, other = Clock(*words, env=TRACED), Peer("peer"), Peer("other")
    disk = Disk(clock, SLOWLY)
    peer.ask(set_of(7, 100))
    check("nothing is asked before it is saved", not wait_until(runs, 0.1 / SLOW))        # the disk is no slower for a slow clock
    check("and then it is", wait_until(lambda: changes() == [7]))
    check("nothing is answered before that is saved", answer_at(peer, 0.1 / SLOW) is None)
    clock.end(signal.SIGKILL)
    disk.mend()
    clock = Clock(*words, env=TRACED)
    check("its copy is answered", asked(peer, set_of(7, 100)) == (7, "value", 100) and asked(peer, message(1, STRANGER, ME)) == (1, "value", 100))
    check("and the device was asked once, and then whether it has it", changes() == [7] and looks() == 1)
    disk = Disk(clock, FAILING)
    check("for one that can't be saved it is not asked", asked(peer, set_of(8, 60), 0.7) is None and changes() == [7])
    check("nor for its copy, and nobody sees it", asked(peer, set_of(8, 60), 0.7) is None and asked(peer, message(2, STRANGER, ME)) == (2, "value", 100))
    other.ask(message(3, SECOND_MANAGER, ME))
    disk.mend()
    check("it is asked and answered once it can", answer_at(peer) == (8, "value", 60) and changes() == [7, 8])
    check("so is another manager", answer_at(other) == (3, "value", 100))
    check("it ends in order", clock.end()[0] == 0)


def what_a_look_says():
    """By a status of 0 the device has the change that was under way as the clock was killed. By any other it is refused, and that is kept."""
    lacks, unknown = "lacks it", "does not know"
    for status, found in [("exit 0", "has it\n"), ("exit 1", lacks), ("exit 2", unknown), ("exit 4", unknown), ("kill -9 $$", unknown), (f"sleep {LONG}", unknown)]:
        words = ("-s", os.path.join(work, "saved"), "--ask-time", "1", "--ask", program("kill -9 $(cat WORK/clock); sleep 9\n".replace("WORK", work)))
        clock, peer = device_clock(*words), Peer("peer")
        write("clock", str(clock.process.pid))
        peer.ask(set_of(7, 100))
        check("the clock is killed", clock.end(None)[0] == -signal.SIGKILL)
        write("says", f"[ $1 = look ] || exit 0; {status}\n")
        clock = device_clock(*words)
        wanted = (7, "value", 100) if status == "exit 0" else (7, "error", GENERAL_ERROR)
        check(f"after {status} it is said: {found}", wait_until(lambda: "a change was under way: the device " + found in clock.text()))
        write("says", "exit 0\n")
        check(f"and answered: {wanted}", asked(peer, set_of(7, 100)) == wanted and asked(peer, set_of(7, 100)) == wanted)
        check("and shown so", asked(peer, message(1, STRANGER, ME)) == (1, "value", 100 if status == "exit 0" else 128))
        check("the words of a look are those of the change behind it", runs() == [runs()[0], "look|" + runs()[0]])
        check("the next change is asked for", asked(peer, set_of(8, 60)) == (8, "value", 60))
        check("it ends in order", clock.end()[0] == 0)
        peer.close()
        os.unlink(os.path.join(work, "saved"))


def looks_while_a_clock_runs():
    """A program that a signal ended, or that took too long, is not run for the change again: it is asked whether the device has it."""
    words = ("-s", os.path.join(work, "saved"), "--ask-time", "1", "--ask")
    clock, peer, other = device_clock(*words, journal("kill -SEGV $$")), Peer("peer"), Peer("other")
    check("a program that dies after its write has made the change", asked(peer, set_of(1, 100)) == (1, "value", 100) and changes() == [1])
    check("which is said", f"{PROGRAM} was ended by a signal, and is asked whether the device has the change\n" in clock.text())
    write("says", JOURNAL.replace("WORK", work).replace("echo", f"sleep {LONG}; echo"))
    peer.ask(set_of(2, 50))
    check("it runs", wait_until(lambda: processes_with(LONG) == 1))
    other.ask(field_set(5, "2006", b"\7\0", SECOND_MANAGER))
    check("others are answered meanwhile", asked(other, message(1, STRANGER, ME)) == (1, "value", 100))
    check("one that takes too long before its write has not made it", answer_at(peer, 4) == (2, "error", GENERAL_ERROR) and changes() == [1])
    write("says", JOURNAL.replace("WORK", work) + "exit 0\n")
    check("it ends in order", clock.end()[0] == 0 and "the device said nothing: 2\n" in clock.text())


def devices_that_are_gone():
    """A change was under way, and the next start has no program: nobody can tell. Nor is its manager there any more."""
    saved = os.path.join(work, "saved")
    for managers in [("-m", MANAGER + "/1"), ("-m", SECOND_MANAGER + "/1")]:
        clock, peer = device_clock("-s", saved, "--ask", journal(f"sleep {LONG}")), Peer("peer")
        peer.ask(set_of(7, 100))
        check("it runs", wait_until(lambda: processes_with(LONG) == 1))
        clock.end(signal.SIGKILL)
        clock = Clock("-s", saved, "-u", path, *managers, ME)
        is_there = MANAGER + "/1" in managers
        wanted = (7, "error", GENERAL_ERROR if is_there else NOT_SUPPORTED)
        check("it is decided without a device", asked(peer, set_of(7, 100))[:2] == wanted[:2] and asked(peer, message(1, STRANGER, ME)) == (1, "value", 128))
        check("the next change is made", asked(peer, set_of(8, 60, managers[1][:16])) == (8, "value", 60))
        check("it ends in order", clock.end()[0] == 0)
        peer.close()
        os.unlink(saved)


def owners_that_move_the_domain():
    """A change that is under way is decided in its domain. The owner's SET of DOMAIN is not taken meanwhile, and is taken after it."""
    owner = os.path.join(work, "owner")
    words = ("--owner", owner, "-s", os.path.join(work, "saved"), "--ask", program("sleep 2"))
    clock, peer, other = device_clock(*words), Peer("peer"), Peer("other")
    peer.ask(set_of(7, 100))
    check("it runs", wait_until(lambda: len(runs()) == 1))
    for domain, taken in [(5, None), (None, (2, "value", 60)), (5, (3, "value", 5))]:
        number = taken[0] if taken else 1
        field = ("2005", b"\x3c\0") if domain is None else ("2007", bytes([domain, 0]))
        if number == 3:
            check("the change is made", answer_at(peer, 4) == (7, "value", 100))
        other.socket.sendto(field_set(number, *field, STRANGER), owner)
        check(f"the owner's SET of {field[0]} is answered {taken}", answer_at(other, 4 if taken else 0.5) == taken)
    check("it ends in order", clock.end()[0] == 0)


def states_of_another_clock():
    """A file with a change under way is named by its clock too."""
    saved = os.path.join(work, "saved")
    clock, peer = device_clock("-s", saved, "--ask", journal(f"sleep {LONG}")), Peer("peer")
    peer.ask(set_of(7, 100))
    check("it runs", wait_until(lambda: processes_with(LONG) == 1))
    clock.end(signal.SIGKILL)
    clock = Clock("-s", saved, "-u", path, "aabbccfffeddee02")
    check("another clock does not start", clock.end(None)[0] == 1 and f"it has the state of clock {ME}\n" in clock.text())


# Where a clock is killed in a SET: at each of four fsync, of two saves, and as it or the process beside it sends. Its device kills it too, and
# it is killed once it has answered. Its start has three fsync, in another thread.
POINTS = [*(("fsync", 4, at) for at in (1, 2, 3, 4)), ("sendto", 2, 1), ("sendto", 2, 2), "before", "after", "answered"]
ROUNDS = int(os.environ.get("ROUNDS", "1"))


class Cut:
    """SETs to a clock that is killed at such a point of one of them, and started again; what each was answered at last."""

    def __init__(self, *words):
        self.words, self.peer, self.number, self.answers = words, Peer("peer"), 0, {}

    def ask(self):
        """Sends the SET that is not answered yet, or the next one, once; whether it is answered."""
        try:
            found = asked(self.peer, set_of(self.number, self.number % 251), 0.1)
        except OSError:
            time.sleep(0.02)                # the clock is not there yet
            return False
        self.answers.update({found[0]: found[1:]} if found else {})
        return self.number in self.answers

    def live(self, point, sets):
        """A life that is to end after this many SETs; whether a kill ended it."""
        traced = ["strace", "-D", "-f", "-q", "-o", "/dev/null", "-e", f"trace={point[0]}",
                  "-e", f"inject={point[0]}:signal=KILL:when={point[1] * sets + point[2]}"] if isinstance(point, tuple) else []
        clock = subprocess.Popen([*traced, CLOCK, "--user", "root", *self.words], stderr=subprocess.DEVNULL, env=TRACED)
        started.append(clock)
        write("clock", str(clock.pid))
        for done in range(1, 10):
            if done == sets and point in ("before", "after"):
                write(point, "")
            self.number += self.number in self.answers or self.number == 0
            while clock.poll() is None and not self.ask():
                pass
            if done == sets and point == "answered":
                clock.kill()
            if clock.poll() is not None or point == "answered" and done == sets:
                break
        return clock.wait(10 * SLOW) in (-signal.SIGKILL, 2)            # 2 without the process beside it


def kills_at_each_point():
    """Further SETs after each kill. None is asked of the device twice, each answer is so, and a refused one was not asked."""
    dies = "dies() { [ ! -e WORK/$1 ] || { rm WORK/$1; kill -9 $(cat WORK/clock); sleep 60; }; }\n"
    name = program((dies + JOURNAL.replace("echo", "dies before\necho") + "\ndies after\nexit 0\n").replace("WORK", work))
    write("journal", "")
    cut = Cut("-s", os.path.join(work, "saved"), "-u", path, "-m", MANAGER + "/1", "--ask", name, ME)
    kills = sum(cut.live(POINTS[turn % len(POINTS)], turn // len(POINTS) % 5 + 1) for turn in range(ROUNDS * len(POINTS)))
    clock = device_clock(*cut.words[:2], "--ask", name)
    wait_until(cut.ask)
    done = [one for one, answer in cut.answers.items() if answer == ("value", one % 251)]
    refused = [one for one, answer in cut.answers.items() if answer == ("error", GENERAL_ERROR)]
    print(f"{cut.number} SETs and {kills} kills: {len(changes())} were asked for, {len(refused)} refused")
    check(f"each life was ended by a kill: {kills}", kills == ROUNDS * len(POINTS))
    check("the device was asked for no change twice", len(set(changes())) == len(changes()))
    check("it was asked for each that was done, and for none that was refused", changes() == done and len(done) + len(refused) == cut.number)
    check("it ends in order", clock.end()[0] == 0)
    cut.peer.close()


def questions_that_are_not_taken():
    """The question to the program can't be handed on: the change counts as lost, and the next one is asked about."""
    words = ("-u", path, "-m", MANAGER + "/1", "-m", SECOND_MANAGER + "/1", "--ask", program("exit 0\n"), ME)
    clock, peer = Clock(*words, env=TRACED), Peer("peer")
    calls = Calls(clock, "sendto", "error=ENOBUFS:when=1")
    check("a question that is not taken runs no program", asked(peer, set_of(7, 100), 0.5) is None and runs() == [])
    check("which is said", f"ptpm-clock: {PROGRAM} could not be asked, and the change counts as lost\n" in clock.text())
    check("the change comes again and is made", asked(peer, set_of(7, 100)) == (7, "value", 100) and len(runs()) == 1)
    calls.mend()
    check("so is another manager's", asked(peer, set_of(3, 60, SECOND_MANAGER)) == (3, "value", 60))
    check("it ends in order", clock.end()[0] == 0 and "the device said nothing: 1\n" in clock.text())


def is_child(process, parent):
    try:
        with open(f"/proc/{process}/stat") as file:
            return file.read().rpartition(")")[2].split()[1] == str(parent)
    except OSError:
        return False


ATTACKS = [limits_of_hardware, limits_that_are_wrong, what_a_program_says, what_a_program_inherits, programs_that_say_nothing,
           changes_that_wait, floods_while_a_program_runs, kills_while_a_program_runs, what_a_look_says, looks_while_a_clock_runs,
           devices_that_are_gone, owners_that_move_the_domain, states_of_another_clock, values_over_the_rate, values_of_ports]
if HAS_STRACE:
    ATTACKS += [changes_that_are_not_saved, kills_at_each_point, questions_that_are_not_taken]
