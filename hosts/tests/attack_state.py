"""What may become of the file of a clock's state (clock.c -s): of one that is damaged, in the way, another clock's or another
program's, of a disk without room, and of calls that fail as it is saved."""
import os
import re
import shutil
import signal
import stat
import subprocess
import time

from attack_numbers import next_number
from attack_saves import Calls
from attacking import (CLOCK, HAS_STRACE, MANAGE, MANAGER, ME, OTHER, SLOW, TRACED, Clock, Peer, check, clear, fill_disk, flips, get, image_in, manage,
                       octets, path, run, saves_in, sealed, wait_until, work, write_octets)

NOBODY = 65534
state, session = (os.path.join(work, name) for name in ("state", "session"))
UNIX = ("-m", MANAGER + "/1", "-u", path, ME)
WORDS = ("-s", state, *UNIX)


def begins(*words, user=None):
    """A clock that ends as soon as it has started: its status, and what it says."""
    who = {} if user is None else {"user": user, "group": user, "extra_groups": []}
    stays = ["--user", "root"] if user is None and "--user" not in words else []
    done = subprocess.run([CLOCK, "-n", "0", *stays, *words], stdout=subprocess.PIPE, stderr=subprocess.STDOUT, text=True, timeout=60, **who)
    return done.returncode, done.stdout


def is_refused(status, why, *words, user=None):
    """Whether a clock does not start for this reason, before it has made its socket."""
    found, said = begins(*words, user=user)
    return (found, why in said, "in domain" in said, os.path.exists(path)) == (status, True, False, False)


def sets(number, *words):
    """A run of the manager that sets PRIORITY1: whether the clock answers it, and has the value."""
    status, said, _ = manage("-u", path, "-k", session, *words, "set", "PRIORITY1", str(number))
    return status == 0 and said.splitlines()[-1:] == [f"priority1 {number}"] and value() == number


def value():
    """What the clock has, read by nobody; None where it does not answer."""
    said = run(MANAGE, "-u", path, "-a", "10", "--target", ME, "get", "PRIORITY1").stdout
    return int(said.split()[1]) if said.startswith("priority1 ") else None


def saves_of(clock):
    """How many saves a clock has reported, once what it reports is written."""
    time.sleep(0.3)
    return clock.text().count("saved: ")


def saved_state():
    """The file of a clock of which the manager has set PRIORITY1, and of whose GET an entry is kept."""
    clock = Clock(*WORDS)
    check("a clock that saves is asked", sets(100) and stat.S_IMODE(os.stat(state).st_mode) == 0o600)
    check("a clock that saves ends in order", clock.end()[0] == 0)
    return octets(state)


def states():
    """A state outlasts its clock, and not only where that ends in order."""
    whole = saved_state()
    clock = Clock(*WORDS)
    check("the state is as it was", value() == 100 and image_in(octets(state)) == image_in(whole) and "PRIORITY1" not in clock.text())
    check("and has one save more", saves_in(octets(state)) == saves_in(whole) + 1)
    check("it goes on from there", sets(50))
    clock.end(signal.SIGKILL)
    clock = Clock("-v", *WORDS)
    check("also where it was killed", value() == 50)
    saves = saves_of(clock)
    peer, number = Peer("peer"), next_number("session")
    check("a manager's GET is a change", peer.is_answered(number) and saves_of(clock) == saves + 1)
    check("its repeat is none", peer.is_answered(number) and saves_of(clock) == saves + 1)
    peer.ask(get((number - 1) % 65536))
    check("an old copy is dropped", saves_of(clock) == saves + 1 and clock.text().count("7 DROPPED_OLD") == 1)
    peer.close()
    clock.process.send_signal(signal.SIGUSR1)
    time.sleep(0.2)
    for line in [f"saved: {saves + 1}", r"microseconds of a save, least: \d+", r"microseconds of a save, mean: \d+",
                 r"microseconds of a save, most: \d+"]:
        check(f"it counts {line}", re.search(f"^{line}$", clock.text(), re.M) is not None)
    clock.end()
    check("a clock without a file saves nothing", begins("-v", *UNIX)[0] == 0 and "saved" not in begins("-v", *UNIX)[1])


def configurations():
    """What the command line has otherwise than before."""
    clock = Clock("-d", "7", *WORDS)
    check("-d counts at the first start", " in domain 7: " in clock.text())
    peer = Peer("peer")
    peer.ask(get(5)[:4] + b"\7" + get(5)[5:])
    check("a manager asks", len(peer.socket.recv(2048)) > 0)
    peer.close()
    clock.end()
    said = begins("-d", "3", *WORDS)[1]
    check("and at no later one, which is said", f"{state}: -d 3 counts only at the first start: the clock is in domain 7\n" in said
          and " in domain 7: " in said)
    check("nor is the same domain reported", "counts" not in begins("-d", "7", *WORDS)[1])
    gone = f"{state}: 1 manager of it is not configured any more, and what was kept of its requests is forgotten\n"
    check("a manager that is gone loses its entry", gone in begins("-s", state, "-u", path, ME)[1])
    check("which is said once", "configured any more" not in begins("-s", state, "-u", path, ME)[1])
    whole = octets(state)
    for why, words in [("OTHER_CLOCK: " + state + ": it has the state of clock " + ME, (OTHER,)), ("OTHER_PORTS", (ME, "lo", "attack0"))]:
        check(f"it does not start: {why}", is_refused(1, why, "-s", state, "-u", path, *words) and octets(state) == whole)


def name_of(content):
    """The name by which the clock refuses a file with these octets, before it has made its socket; None if it does not, or changes it."""
    write_octets(state, content)
    status, said = begins(*WORDS)
    named = re.search(f"^ptpm-clock: it does not start: ([A-Z_]+): {re.escape(state)}: ", said, re.M)
    return named[1] if status == 1 and named and not os.path.exists(path) and octets(state) == content else None


def damages():
    """A file of which octets are missing or others: each is refused, and stays."""
    whole = saved_state()
    image, count = image_in(whole), saves_in(whole)
    cut = [whole[:size] for size in range(len(whole))]
    wrong = [content.hex() for content in cut if name_of(content) != ("NOT_AN_IMAGE" if len(content) < 12 else "DAMAGED")]
    check(f"a file that is cut is refused, except {wrong[:3]}", wrong == [])
    more = [whole + b"\0", whole + whole, whole + whole[-16:], sealed(whole), sealed(image + b"\0"), sealed(image[:-1]), whole[:-16] + sealed(b"")]
    wrong = [content.hex() for content in more if name_of(content) != "DAMAGED"]
    check(f"what follows a seal, or is sealed and no image, is refused, except {wrong[:3]}", wrong == [])
    bits = [name_of(content) for content in flips(whole)]
    check("a file with another bit is refused", bits == ["NOT_AN_IMAGE"] * 32 + ["DAMAGED"] * (len(bits) - 32))
    print(f"a state of {len(whole)} octets: {len(cut)} beginnings and {len(bits)} other bits, and {bits.count(None)} of these are not refused")
    for name, content in [("NOT_AN_IMAGE", b"7\n"), ("OTHER_VERSION", image[:5] + b"\2" + image[6:]), ("OTHER_KIND", image[:4] + b"\2" + image[5:])]:
        check(f"a seal makes no state of {name}", name_of(sealed(content)) == name)
    write_octets(state, whole)
    check("the whole one is not refused", begins(*WORDS)[0] == 0 and octets(state) == sealed(image, count + 1))


def files_in_the_way():
    """What is no file of a state, or can't be used as one."""
    folder = os.path.join(work, "folder")
    os.mkdir(folder)
    os.symlink("nothing", state)
    check("a link is refused", is_refused(2, f"{state}: it is a link", *WORDS) and os.readlink(state) == "nothing")
    os.unlink(state), os.mkdir(state)
    check("a folder is refused", is_refused(2, f"{state}: it is not a regular file", *WORDS))
    os.rmdir(state), os.mkfifo(state)
    check("a pipe is refused", is_refused(2, f"{state}: it is not a regular file", *WORDS))
    os.unlink(state)
    not_made = f"its folder can't be made: mkdir -p {folder}/no makes the one above it"
    for name, why in [(folder + "/", "no name of a file"), (folder + "/no/no/state", not_made), ("/proc/state", "")]:
        fault = ".lock" if why == "" else ""
        check(f"{name} is refused", is_refused(2, f"{name}{fault}: {why}", "-s", name, *UNIX))
    inner = os.path.join(folder, "state")
    os.mkdir(inner + ".new")
    check("a folder in the way of a new file is", is_refused(2, f"{inner}.new: File exists", "-s", inner, *UNIX))
    check("and no lock is left without a state", os.listdir(folder) == ["state.new"])
    os.rmdir(inner + ".new")
    write_octets(inner + ".new", b"left over")
    status, _ = begins("-s", inner, *UNIX)
    check("a file that a killed save left is not", status == 0 and sorted(os.listdir(folder)) == ["state", "state.lock"])
    write_octets(inner, b"7\n")
    why = f'NOT_AN_IMAGE: {inner}: it has no state of a clock: ptpm-clock(8), "Saved state", says how to go on'
    check("what is no state is refused", is_refused(1, why, "-s", inner, *UNIX) and octets(inner) == b"7\n")


def places_without_rights():
    """A file and a folder that the clock's user may not read or write, and a disk that nobody may write."""
    folder = os.path.join(work, "folder")
    inner = os.path.join(folder, "state")
    own = ("-s", inner, "-m", MANAGER + "/1", "-u", os.path.join(work, "nobodys"), ME)
    os.chmod(work, 0o777), os.mkdir(folder)
    check("a folder that can't be written", is_refused(2, f"{inner}.lock: Permission denied", *own, user=NOBODY) and os.listdir(folder) == [])
    check("nor by the user that it becomes", is_refused(2, f"{inner}.new: Permission denied", "--user", "nobody", *own))
    shutil.rmtree(folder), os.mkdir(folder)
    begins(*own)
    os.chmod(folder, 0o777), os.chmod(inner + ".lock", 0o666)
    whole = octets(inner)
    check("a file that can't be read", is_refused(2, f"{inner}: Permission denied", *own, user=NOBODY) and octets(inner) == whole)
    status, _ = begins("--user", "nobody", *own)
    check("which root reads, and which is its user's then", status == 0 and os.stat(inner).st_uid == NOBODY and image_in(octets(inner)) == image_in(whole))
    shutil.rmtree(folder)
    made = os.path.join(work, "made", "state")
    for turn in ["first", "second"]:
        status, said = begins("-s", made, "--user", "nobody", "-m", MANAGER + "/1", "-u", os.path.join(work, "nobodys"), ME)
        check(f"a folder that is missing is made for the user that it becomes, at the {turn} start: {said}", status == 0)
    check("and is his", os.stat(os.path.dirname(made)).st_uid == os.stat(made).st_uid == NOBODY)
    for name in (os.path.dirname(made), made, made + ".lock"):
        os.chown(name, 1, 1)
    for what in ["stays", "is"]:
        check("one of another user is refused", is_refused(2, f"{made}.new: Permission denied", "-s", made, "--user", "nobody", *own[2:]))
        check(f"and its lock {what} that user's", os.stat(made + ".lock").st_uid == 1)
        os.unlink(made + ".lock")
    os.mkdir(folder)
    run("mount", "-t", "tmpfs", "-o", "ro", "tmpfs", folder)
    check("a disk that can't be written", is_refused(2, f"{inner}.lock: Read-only file system", *own) and os.listdir(folder) == [])
    run("umount", folder)
    run("mount", "-t", "tmpfs", "-o", "size=16k", "tmpfs", folder)
    filler = fill_disk(folder)
    check("a disk without room for a state", is_refused(2, f"{inner}.new: No space left on device", *own) and os.listdir(folder) == [os.path.basename(filler)])
    run("umount", folder)


def second_clocks():
    """Two clocks with one file."""
    clock = Clock(*WORDS)
    other = ("-s", state, "-m", MANAGER + "/1", "-u", path + "2", ME)
    status, said = begins(*other)
    check("the second one is refused", status == 2 and not os.path.exists(path + "2")
          and said == f"ptpm-clock: {state}: another clock, process {clock.process.pid}, has it\n")
    check("the first one goes on", sets(77))
    clock.end(signal.SIGKILL)
    check("and a later one takes the file", begins(*other)[0] == 0)


def full_disks():
    """A disk that is full as the clock saves: it answers by what the file has, and the change waits."""
    folder = os.path.join(work, "folder")
    os.mkdir(folder)
    run("mount", "-t", "tmpfs", "-o", "size=64k", "tmpfs", folder)
    inner = os.path.join(folder, "state")
    clock = Clock("-v", "-s", inner, *UNIX)
    check("there is room at first", sets(100))
    whole = octets(inner)
    filler = fill_disk(folder)
    status, said, _ = manage("-u", path, "-k", session, "-t", "40", "-a", "4", "set", "PRIORITY1", "50")
    check("nothing is answered that is not saved", status == 3)
    check("and the manager is told that this may be why", "or the clock can't save its state" in said)
    time.sleep(0.3)
    said = f"ptpm-clock: {inner}.new: no change is answered: No space left on device\n"
    check("which is said", said in clock.text() and ", 0 of 1 sent, 1 once it is saved\n" in clock.text())
    check("the clock and the file are as before", value() == 100 and octets(inner) == whole and not os.path.exists(inner + ".new"))
    os.unlink(filler)
    check("once there is room what waited is saved", wait_until(lambda: clock.text().count("saved: ") == 4))
    check("and it goes on", sets(60))
    clock.process.send_signal(signal.SIGUSR1)
    time.sleep(0.2)
    check("saves that failed are counted", re.search(r"^not saved: [1-9]", clock.text(), re.M) is not None)
    clock.end(signal.SIGKILL)
    clock = Clock("-s", inner, *UNIX)
    check("and is there after a restart", value() == 60)
    clock.end()
    run("umount", folder)


def calls_that_fail():
    """Each call of a save that fails once: nothing leaves before a later save, and all is well after it."""
    if not HAS_STRACE:
        return
    new = state + ".new"
    for name, where, *words in [("write", new, "-P", new), ("fsync", new, "-P", new), ("renameat", state), ("fsync", state, "-P", work)]:
        clear()
        clock = Clock("-v", *WORDS, env=TRACED)
        calls, began = Calls(clock, name, "error=EIO:when=1", *words), time.monotonic()
        check(f"{name} fails, and the manager is answered all the same, after the next try", sets(50) and time.monotonic() - began > 1)
        calls.mend()
        said = f"ptpm-clock: {where}: no change is answered: Input/output error\n"
        check("the failure is said", wait_until(lambda: said in clock.text()))
        lines = [line for line in clock.text().splitlines() if " 5 ANSWERED_NEW" in line]
        check(f"nothing leaves before a save: {lines}", len(lines) > 1 and all(line.endswith(", 0 of 1 sent, 1 once it is saved") for line in lines))
        check("and it ends in order", clock.end()[0] == 0 and "not saved: 1\n" in clock.text())
    clock, number = Clock(*WORDS), next_number("session")
    os.unlink(state), os.mkdir(state + ".new")
    peer = Peer("peer")
    peer.socket.settimeout(2 * SLOW)
    check("a clock whose file is gone answers no manager", not peer.is_answered(number))
    os.rmdir(state + ".new")
    check("and then it has a file again", wait_until(lambda: os.path.exists(state)) and clock.end()[0] == 0 and image_in(octets(state)) is not None)


ATTACKS = [states, configurations, damages, files_in_the_way, places_without_rights, second_clocks, full_disks, calls_that_fail]
