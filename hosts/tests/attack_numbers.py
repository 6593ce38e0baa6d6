"""What may become of a manager's session: of the file that keeps it, and of runs that are killed, hang, or go beside each other.
What a run of manage.c reports is so all the same."""
import fcntl
import os
import re
import shutil
import signal
import socket
import stat
import subprocess
import tempfile
import time

from attacking import (HAS_STRACE, MANAGE, MANAGER, ME, OTHER, SLOW, Clock, Peer, asks, by_both, check, fill_disk, flips, image_in, manage, octets, path,
                       read, response, run, saves_in, sealed, start, wait_until, work, write, write_octets)


def words_of(number, *words):
    """A run of the manager, whose session is kept in this file."""
    return [MANAGE, "-m", MANAGER + "/1", "-u", path, "-k", number, "--target", ME, *words]


def image(first, begun, request=b"", manager=MANAGER + "0001", clock=ME, ports=255, hops=1, attempts=30, domain=0):
    """What the file has of a session that began this many requests from a number on; the latest is under way if it is given: its
    action, id, port, the size of the dataField, and the dataField."""
    body = (bytes.fromhex(manager + clock) + bytes([ports]) + first.to_bytes(2, "big") + bytes([hops, attempts, domain])
            + begun.to_bytes(8, "big") + (begun - bool(request)).to_bytes(8, "big") + bytes([bool(request)]) + request)
    return b"ptpm" + bytes([2, 1, 0, 0]) + len(body).to_bytes(4, "big") + body


def set_of(value):
    """A SET of PRIORITY2, which is an id of no port, in an image."""
    return bytes.fromhex("012006ffff0002") + bytes([value, 0])


def write_session(content):
    return write_octets("number", sealed(content))


def next_number(name):
    content = octets(name)
    return (int.from_bytes(content[31:33], "big") + int.from_bytes(content[36:44], "big")) % 65536


def files_in_the_way():
    clock = Clock("-m", MANAGER + "/1", "-u", path, ME)
    number = write_session(image(7, 0))
    os.chmod(number, 0o640)
    os.chown(number, 1, 2)
    found = (asks("-k", number), os.stat(number))[1]
    check("a session's file keeps its mode and its owner", (stat.S_IMODE(found.st_mode), found.st_uid, found.st_gid) == (0o640, 1, 2))
    os.unlink(number)
    for make, what in [(os.mkfifo, "a pipe"), (os.mkdir, "a folder")]:
        make(number)
        check(f"{what} is no session's file", asks("-k", number)[0] == 2)
        os.rmdir(number) if os.path.isdir(number) else os.unlink(number)
    for name in ["number", "number.lock"]:
        os.symlink(write("victim", "5\n"), os.path.join(work, name))
        status, _, _ = asks("-k", number)
        check(f"{name} as a link is refused", status == 2 and read("victim") == "5\n")
        os.unlink(os.path.join(work, name))
        if os.path.exists(number + ".lock"):
            os.unlink(number + ".lock")
    os.symlink(os.path.join(work, "victim"), number + ".new")
    status, _, _ = asks("-k", number)
    check("number.new as a link is not followed", status == 0 and read("victim") == "5\n" and len(image_in(octets("number"))) == 53)
    os.unlink(number)
    clock.end()


def files_without_a_session():
    """Images of sessions that were written by hand, and are refused."""
    whole = image(7, 2)
    refused = [(whole[:size], "NOT_AN_IMAGE" if size < 12 else "DAMAGED") for size in range(len(whole) + 1)] + [
        (b"7\n", "NOT_AN_IMAGE"), (b"ptpn" + whole[4:], "NOT_AN_IMAGE"), (whole + b"\0", "DAMAGED"), (whole * 40, "DAMAGED")]
    refused += [(sealed(content), name) for content, name in [
        (whole[:5] + b"\2" + whole[6:], "OTHER_VERSION"), (whole[:4] + b"\1" + whole[5:], "OTHER_KIND"),
        (whole[:6] + b"\1" + whole[7:], "DAMAGED"), (image(7, 1000001), "DAMAGED"), (image(7, 2, ports=0), "DAMAGED"),
        (image(7, 1, set_of(50))[:36] + bytes(16) + b"\1" + set_of(50), "DAMAGED"), (image(7, 2, ports=2), "OTHER_SESSION"),
        (image(7, 2, manager=MANAGER + "0002"), "OTHER_SESSION"), (image(7, 2, clock=OTHER), "OTHER_SESSION"),
        (image(7, 2, set_of(50), clock=OTHER), "OTHER_SESSION")]]
    two, wrong = TwoManagers(), []
    for content, name in refused:
        write_octets("number", content)
        two.last, two.said, _ = two.sets()
        if not two.said.startswith(f"ptpm-manage: nothing was asked: {name}: ") or octets("number") != content or two.last != 2:
            wrong.append((content.hex(), two.said))
    check(f"{len(refused)} files without a session are refused by name, and stay, except {wrong}", wrong == [])
    check("nothing was sent then", two.value() == "priority2 128")
    two.clock.end()


def sessions():
    """How sessions of this manager go on whose images were written by hand."""
    two = TwoManagers()
    for content, words, after in [
            (image(7, 2), (), image(7, 4)),
            (image(100, 2, set_of(77)), (), image(100, 4)),
            (image(200, 999999), (), image((200 + 999999) % 65536, 2, attempts=3)),
            (image(20000, 2, hops=4, attempts=1), (), image(20002, 2, attempts=3)),
            (image(20100, 2, domain=5), (), image(20100, 4)),
            (image(20200, 2, set_of(78)), ("--give-up",), image(20200, 4))]:
        write_session(content)
        done = two.is_honest(*words)
        check(f"the session {content.hex()} goes on", done and two.last == 0 and image_in(octets("number")) == after)
        told = [line for line in two.said.splitlines() if "of an earlier run" in line or "priority2 7" in line]
        lead = "ptpm-manage: set PRIORITY2 of an earlier run, number "
        wanted = {77: [lead + "101, had no answer yet, and was sent again:", "ptpm-manage: priority2 77"],
                  78: [lead + "20201, is given up: a get shows whether it was carried out"]}
        value = content[-2] if len(content) > 53 else 0
        check("what was under way is reported", told == wanted.get(value, []))
    number = next_number("number")
    write_session(image(number, 1, bytes.fromhex("012007ffff00020400")))
    status, said, _ = two.sets()
    check("a clock that an earlier run's SET moves to another domain", status == 3 and "ptpm-manage: domainNumber 4\n" in said)
    status, said, _ = two.sets("-d", "4")
    check("is asked there by the session", status == 0 and said == "priority2 50\n")
    two.clock.end()


def reports_that_are_lost():
    """An answer that can't be printed is none that was reported: the next run prints it."""
    two = TwoManagers()
    write_session(image(7, 0))
    with open("/dev/full", "w") as full:
        lost = subprocess.run(words_of(two.number, "set", "PRIORITY2", "70"), stdout=full, stderr=subprocess.DEVNULL)
    check("an answer is not printed", lost.returncode == 4 and two.value() == "priority2 70")
    check("the next run prints it", two.is_honest() and two.last == 0 and "ptpm-manage: priority2 70\n" in two.said)
    write_session(image(20, 1, set_of(71)))
    with open("/dev/full", "w") as full:
        lost = subprocess.run(words_of(two.number, "get", "DOMAIN"), stdout=subprocess.PIPE, stderr=full)
    check("nor is one of an earlier run", (lost.returncode, lost.stdout) == (4, b"") and two.value() == "priority2 71")
    check("and the next run prints that", two.is_honest() and two.last == 0 and "ptpm-manage: priority2 71\n" in two.said)
    write_session(image(40, 0))
    lost = subprocess.run(["sh", "-c", 'exec "$@" <&- >&- 2>&-', "sh", *words_of(two.number, "set", "PRIORITY2", "72")])
    check("where the streams are closed it is in no file", lost.returncode == 4 and b"priority2" not in octets("number.lock"))
    check("and the next run prints it", two.is_honest() and two.last == 0 and "ptpm-manage: priority2 72\n" in two.said)
    two.clock.end()


def runs_at_once():
    """80 runs of one manager with one file."""
    clock = Clock("-m", MANAGER + "/1", "-u", path, ME)
    number = write_session(image(16384, 0))
    runs = [start("manage", "-m", MANAGER + "/1", "-w", "0", "-u", path, "-k", number, "set", "PRIORITY1", "100", "--target", ME,
                  stdout=subprocess.DEVNULL, stderr=subprocess.DEVNULL) for _ in range(80)]
    check("80 runs at once are all answered", [one.wait() for one in runs] == [0] * 80)
    check("each has two numbers of its own", image_in(octets("number")) == image(16384, 160))
    clock.end()
    check("each is carried out once", "answer 5: 160\n" in clock.text())
    os.unlink(number)


def runs_beside_each_other():
    """Ten runs of one manager with one file, at a clock that answers each of them at the address that it asks from."""
    clock = socket.socket(socket.AF_INET, socket.SOCK_DGRAM)
    clock.setsockopt(socket.SOL_SOCKET, socket.SO_REUSEADDR, 1)
    clock.bind(("127.0.0.2", 320))
    clock.settimeout(2)
    runs = [start("manage", "-m", MANAGER + "/1", "-w", "0", "--udp", "127.0.0.2", "-t", "500", "-a", "4", "-k",
                  os.path.join(work, "number"), "get", "PRIORITY1", "--target", ME, stdout=subprocess.DEVNULL,
                  stderr=subprocess.DEVNULL) for _ in range(10)]
    asked, drawn = 0, set()
    while any(one.poll() is None for one in runs) and asked < 80:
        try:
            request, peer = clock.recvfrom(2048)
        except OSError:
            continue
        asked += 1
        if request[52:54] == bytes.fromhex("2000") and request[28:30] == bytes.fromhex("0001"):
            drawn.add(request[54:])
        time.sleep(0.05)
        clock.sendto(response(request, request[52:54] + bytes.fromhex("6400")), peer)
    check("ten runs beside each other are all answered", [one.wait() for one in runs] == [0] * 10)
    check("each draws its own octets", len(drawn) == 10 and all(len(octets) == 20 for octets in drawn))
    clock.close()


def clocks_that_are_not_there():
    """Twenty runs of one manager, some while others end, at a peer that answers nothing. Each has its socket beside the peer's while
    it has its turn."""
    deaf, number, runs, most = Peer("socket"), os.path.join(work, "number"), [], 0
    while len(runs) < 20 or any(one.poll() is None for one in runs):
        if len(runs) < 20:
            runs.append(start("manage", "-m", MANAGER + "/1", "-w", "0", "-u", path, "-t", "10", "-a", "1", "-k", number, "set",
                              "PRIORITY1", "100", "--target", ME, stdout=subprocess.DEVNULL, stderr=subprocess.DEVNULL))
        most = max(most, sum(name.startswith("socket.") for name in os.listdir(work)))
        time.sleep(0.02)
    check("a run without an answer has its turn alone", most == 1)
    check("it leaves no file of its session, and no lock", os.listdir(work) == ["socket"])


def losses_of_power():
    """A session is on the disk before it is in place of the old one, and the folder after that: before a request goes out, and
    after its answer is reported. A run that was killed may not have come to the folder, so each run begins with that."""
    if not HAS_STRACE:
        return
    clock = Clock("-m", MANAGER + "/1", "-u", path, ME)
    kept = ["fsync", "rename", "fsync"]
    words = words_of(os.path.join(work, "number"), "-w", "0", "get", "PRIORITY1")
    for what, wanted in [("a new session", ["fsync", "sendmsg", *kept, *kept, "sendmsg", "write", *kept]),
                         ("a session", ["fsync", *kept, "sendmsg", *kept, "sendmsg", "write", *kept])]:
        traced = run("strace", "-e", "trace=fsync,renameat,renameat2,sendmsg,write", *words)
        calls = [line.split("(")[0] for line in traced.stdout.splitlines() if "(" in line and not re.match(r"write\([^1]", line)]
        calls = ["rename" if call.startswith("rename") else call for call in calls]
        check(f"{what} is on the disk when it has to be: {calls}", calls == wanted)
    clock.end()


def next_sent(port, is_wanted):
    """The next message that goes out at a port and is wanted."""
    found = []
    wait_until(lambda: found or found.extend(filter(is_wanted, port.sent())), 30)
    if not found:
        raise OSError("nothing was asked")
    return found[0]


def has_open(process, name):
    """Whether a program has this file open."""
    folder = f"/proc/{process.pid}/fd"
    try:
        return any(os.readlink(os.path.join(folder, one)) == name for one in os.listdir(folder))
    except OSError:                     # one that was closed meanwhile
        return False


@by_both
def answers_to_others(port):
    """Another run of this host, in no session, asks for the id of a SET with its number. The answer to that one is none to the SET, though
    it comes in first. The session has started before the other run asks, which then waits for no start: it waits for its turn."""
    me, number = ("-m", MANAGER + "/1"), os.path.join(work, "number")
    for who, words in [((), ("-t", str(3000 * SLOW), "survey", "PRIORITY1")), (me, ("-t", str(3000 * SLOW), "survey", "PRIORITY1")),
                       (me, ("-t", "30000", "--target", ME + "-300", "get", "PRIORITY1"))]:
        with open(number + ".lock", "a") as turn:
            fcntl.lockf(turn, fcntl.LOCK_EX)
            session = start("manage", *who, "-w", "0", "-i", port.name, "-k", number, "-a", "1", "-t", "30000", "--target", ME, "set", "PRIORITY1",
                            "100", stdout=subprocess.PIPE, stderr=subprocess.DEVNULL, text=True)
            wait_until(lambda: has_open(session, os.path.realpath(turn.name)), 30)
            port.sent()
            other = start("manage", *who, "-i", port.name, "-a", "1", *words, stdout=subprocess.PIPE, text=True)
            asked = next_sent(port, lambda request: request[52:54] == b"\x20\x05")
            write_session(image((int.from_bytes(asked[30:32], "big") - 1) % 65536, 0, manager=asked[20:28].hex() + "0001"))
        port.come_in(response(next_sent(port, lambda request: request[52:54] == b"\x20\x00"), b"\x20\x00" + bytes(20)))
        changing = next_sent(port, lambda request: request[46] == 1)
        check(f"{who} {words} has the number of the SET", changing[30:32] == asked[30:32])
        port.come_in(response(asked, b"\x20\x05\x07\x00"))
        port.come_in(response(changing, b"\x20\x05\x64\x00"))
        check("the SET has its own answer", (session.communicate()[0], session.returncode) == ("priority1 100\n", 0))
        check("and the other run its own", other.communicate()[0].endswith("priority1 7\n") and other.returncode == 0)


class TwoManagers:
    """A clock, its manager, whose SET of PRIORITY2 to 50 is made again and again, and another one who sets 60 in between. The manager waits
    for each answer twice as long as a whole run has taken at most, or longer: a busy machine takes its time."""

    def __init__(self):
        self.clock = Clock("-m", MANAGER + "/1", "-m", OTHER + "/1", "-u", path, ME)
        self.number = os.path.join(work, "number")
        self.last, self.said = None, ""         # the status of its last run, and what that printed
        self.wait = 30 * SLOW                   # milliseconds
        self.value()

    def value(self):
        """What the clock has, read by nobody."""
        began = time.monotonic()
        found = run(MANAGE, "-u", path, "--target", ME, "get", "PRIORITY2").stdout.strip()
        if found:
            self.wait = max(self.wait, round(2000 * (time.monotonic() - began)))
        return found

    def other_sets(self):
        done = run(MANAGE, "-m", OTHER + "/1", "-w", "0", "-u", path, "--target", ME, "set", "PRIORITY2", "60")
        return done.returncode == 0 and self.value() == "priority2 60"

    def sets(self, *words):
        return manage("-u", path, "-k", self.number, "-a", "3", "-t", str(self.wait), *words, "set", "PRIORITY2", "50")

    def is_honest(self, *words):
        """Whether what a run reports is so: status 0 and the value that the clock has; or a failure, and it has what it had."""
        self.last, self.said, _ = self.sets(*words)
        is_reported = self.said.splitlines()[-1:] == ["priority2 50"]
        return self.value() == "priority2 50" if is_reported else self.last in (2, 3)


def seals():
    """A session's file of which a bit is another one, or what follows an octet is lost, or to which octets were added: each is
    refused, and stays."""
    two = TwoManagers()

    def name_of(content):
        write_octets("number", content)
        two.last, two.said, _ = two.sets()
        named = re.match(r"ptpm-manage: nothing was asked: ([A-Z_]+): " + re.escape(two.number) + ": ", two.said)
        return named[1] if named and two.last == 2 and octets("number") == content else None
    for content in [image(7, 2), image(7, 2, set_of(50))]:
        whole = sealed(content, 5)
        bits = [name_of(other) for other in flips(whole)]
        cut = [whole[:size] for size in range(len(whole))]
        wrong = [other.hex() for other in cut if name_of(other) != ("NOT_AN_IMAGE" if len(other) < 12 else "DAMAGED")]
        check("a session's file with another bit is refused", bits == ["NOT_AN_IMAGE"] * 32 + ["DAMAGED"] * (len(bits) - 32))
        check(f"one that is cut is refused, except {wrong}", wrong == [])
        more = [whole + b"\0", whole + whole, whole + whole[-16:], sealed(whole), sealed(content + b"\0"), sealed(content[:-1])]
        check("and one to which octets were added", [name_of(other) for other in more] == ["DAMAGED"] * len(more))
        print(f"a session's file of {len(whole)} octets: {len(cut)} beginnings and {len(bits)} other bits, and {bits.count(None)} of these are not "
              "refused")
    check("nothing was sent then", two.value() == "priority2 128")
    write_octets("number", sealed(image(20, 2), 5))
    check("a whole one goes on", two.is_honest() and two.last == 0 and saves_in(octets("number")) == 8)
    two.clock.end()


def old_files():
    """A session's file that is lost, one that is brought back from an older copy, and two copies that are used by turns."""
    two = TwoManagers()
    write_session(image(1000, 0))
    check("a session begins", two.is_honest() and two.last == 0)
    older = octets("number")
    os.unlink(two.number)
    check("a session whose file was lost begins anew", two.other_sets() and two.is_honest() and two.last == 0)
    newer, number = octets("number"), next_number("number")
    for content in [older, older, *map(sealed, [image(number - 1, 0), image(number - 2, 0), image(number - 2, 1, set_of(40))])]:
        write_octets("number", content)
        is_true = two.other_sets() and two.is_honest()
        check(f"an older copy of the file, {content.hex()}, is dropped by the clock", is_true and two.last == 3)
    check("which is reported", all(part in two.said for part in [
        "this one was not sent", f"set PRIORITY2 of an earlier run, number {number - 2}, comes first; --give-up gives it up",
        "and has by now", "priority2 60", " since another file or a copy of the manager is ahead", two.number]))
    write_octets("number", newer)
    copies = [two.number, os.path.join(work, "copy")]
    shutil.copy(*copies)
    for turn in range(6):
        two.number = copies[turn % 2]
        check("of two copies by turns", two.other_sets() and two.is_honest())
    two.clock.end()


def latest_numbers():
    """A new session, whatever the latest number is that the clock has of its manager."""
    for latest in [0, 1, 16383, 16384, 16385, 32767, 32768, 32769, 49151, 49152, 49153, 65535]:
        two, peer = TwoManagers(), Peer("peer")
        check(f"the latest number is {latest}", peer.is_answered(latest) and two.other_sets())
        for _ in range(2):
            check(f"a new session after number {latest}", two.is_honest() and two.last == 0)
        two.clock.end()
        peer.close()
        os.unlink(two.number)


def calls_of(trace):
    """The system calls of a program after its start, where it catches signals: each name, and which of its calls it is."""
    counts, calls, is_started = {}, [], False
    for line in trace.splitlines():
        name = line.split("(")[0]
        counts[name] = counts.get(name, 0) + 1
        is_started = is_started or name == "rt_sigaction"
        if is_started and name.isidentifier():
            calls.append((name, counts[name]))
    return calls


def kills():
    """A run that is killed at any of its system calls, with a file of its session and without one, and the command again."""
    if not HAS_STRACE:
        return
    two = TwoManagers()
    words = words_of(two.number, "-w", "0", "-a", "3", "-t", str(two.wait), "set", "PRIORITY2", "50")
    for is_new in [True, False]:
        run("strace", "-qq", "-o", os.path.join(work, "trace"), *words)
        calls = calls_of(read("trace"))
        check("it makes calls", ("sendmsg", 2) in calls and ("renameat", 1) in calls and two.value() == "priority2 50")
        wrong = []
        for name, place in calls:
            if is_new:
                os.unlink(two.number)
            run("strace", "-qq", "-o", "/dev/null", "-e", f"inject={name}:signal=KILL:when={place}", *words)
            for left in [name for name in os.listdir(work) if name.startswith("socket.")]:
                os.unlink(os.path.join(work, left))
            if not (two.other_sets() and two.is_honest() and two.last == 0):
                wrong.append((name, place))
        check(f"killed at each of {len(calls)} calls, and again, except {wrong}", wrong == [])
    two.clock.end()


def users():
    """A user without root's rights, whose numbers are below his own folder."""
    folder = tempfile.mkdtemp()
    home = os.path.join(folder, "home")
    os.chmod(folder, 0o755)
    os.mkdir(home)
    os.chown(home, 65534, 65534)
    program = shutil.copy(MANAGE, folder)

    def run_by_user(*words):
        return subprocess.run([program, "-i", "attack0", "-m", MANAGER + "/1", "--target", ME, *words, "set", "PRIORITY1", "100"],
                              user=65534, group=65534, extra_groups=[], env={"HOME": home}, stderr=subprocess.PIPE, text=True)
    done, over_ethernet = run_by_user(), run_by_user("-2")
    said = "ptpm-manage: nothing was sent: "
    check("UDP port 320 says what it takes", done.returncode == 2 and done.stderr == said + "UDP port 320: Permission denied: it takes "
          "root, or the capability CAP_NET_BIND_SERVICE\n")
    state = os.path.join(home, ".local", "state", "ptpm")
    check("the numbers of a user are below his folder, and no lock where nothing was sent", os.listdir(state) == [])
    check("Ethernet says what it takes", over_ethernet.returncode == 2 and over_ethernet.stderr == said + "a socket of Ethernet: "
          "Operation not permitted: it takes root, or the capability CAP_NET_RAW\n")
    shutil.rmtree(folder)


def hung_runs():
    """A run that holds its lock and hangs, and one that waits a minute for it: they begin at the first step and end at the second."""
    folder = tempfile.mkdtemp()
    number = os.path.join(folder, "number")
    words = words_of(number, "-w", "100000", "get", "DOMAIN")
    hung = subprocess.Popen(words, stderr=subprocess.DEVNULL)
    try:
        time.sleep(0.5 * SLOW)
        hung.send_signal(signal.SIGSTOP)
        waiting = subprocess.Popen(words, stderr=subprocess.PIPE, text=True)
        yield
        said = waiting.communicate(timeout=90)[1]
        check("a run says for how long another one holds its lock, and which", waiting.returncode == 2
              and said.startswith(f"ptpm-manage: nothing was sent: {number}: another run, process {hung.pid}, has held it for 6"))
        check("and nothing but the lock lies there", os.listdir(folder) == ["number.lock"])
        yield
    finally:
        for each in [hung, waiting]:
            each.kill()
            each.wait()
        shutil.rmtree(folder)


def places_without_room():
    """A folder that can't be written, a disk that is full, and no folder at all."""
    two, folder = TwoManagers(), os.path.join(work, "folder")
    os.mkdir(folder)
    run("mount", "-t", "tmpfs", "-o", "size=16k", "tmpfs", folder)
    two.number = os.path.join(folder, "number")
    check("there is room at first", two.is_honest() and two.last == 0)
    for is_new in [False, True]:
        fill_disk(folder)
        if is_new:
            os.unlink(two.number)
            fill_disk(folder, "filler2")
        two.clock.text()
        check("a full disk", two.other_sets() and two.is_honest() and two.last == 2
              and f"the request was not sent: --numbers {two.number}.new: No space left on device" in two.said)
        check("nothing was sent then, and nothing new lies there", os.path.exists(two.number) != is_new
              and not os.path.exists(two.number + ".new"))
    os.unlink(os.path.join(folder, "filler"))
    os.unlink(os.path.join(folder, "filler2"))
    check("room again", two.is_honest() and two.last == 0)
    run("mount", "-o", "remount,ro", folder)
    check("a folder that can't be written", two.other_sets() and two.is_honest() and two.last == 2
          and "Read-only file system" in two.said)
    os.environ["XDG_STATE_HOME"] = folder
    status, text, _ = manage("-u", path, "set", "PRIORITY2", "50")
    said = (f"ptpm-manage: the request was not sent: {folder}/ptpm/{MANAGER}-1.{ME}: Read-only file system; "
            "--numbers FILE keeps the session elsewhere\n")
    check("a usual folder that can't be made", status == 2 and text == said and two.value() == "priority2 60")
    os.environ["XDG_STATE_HOME"] = os.path.join(work, "state")
    run("umount", folder)
    two.clock.end()


ATTACKS = [files_in_the_way, files_without_a_session, sessions, seals, reports_that_are_lost, runs_at_once, runs_beside_each_other,
           clocks_that_are_not_there, losses_of_power, old_files, latest_numbers, kills, places_without_room, users]
