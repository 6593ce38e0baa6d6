"""What may answer a collection of manage.c: strangers without end, junk, answers to others, two clocks with one identity; and what may
become of the program that shows the site."""
import os
import random
import re
import select
import signal
import subprocess
import time

from attacking import HOME, MANAGE, ME, OTHER, SLOW, Peer, check, has_own_socket, is_sanitized, path, read, response, start, started, work, write

# The dataFields of the six ids and of PRIORITY1, of a clock with one port (IEEE 1588-2019, 15.5.3).
DEFAULT, CURRENT, PARENT, TIMES, PORT, TEXT, PRIORITY1 = 0x2000, 0x2001, 0x2002, 0x2003, 0x2004, 0x0002, 0x2005


def field(name, clock, priority=128, ports=1):
    return {
        DEFAULT: bytes([1, 0]) + ports.to_bytes(2, "big") + bytes([priority, 248, 0xFE, 255, 255, 128]) + clock + bytes(2),
        CURRENT: bytes(18),
        PARENT: clock + bytes([0, 0, 0, 0]) + bytes([255, 255, 127, 255, 255, 255, priority, 248, 0xFE, 255, 255, 128]) + clock,
        TIMES: bytes([0, 37, 0, 0xA0]),
        PORT: clock + bytes([0, 1, 6]) + bytes(9) + bytes([1, 3, 0, 1, 0, 2]),
        TEXT: bytes([1, 0x61]),
        PRIORITY1: bytes([priority, 0]),
    }[name]


# Finds the repository's `ptpm` if there is no other.
WITH_OWN = dict(os.environ, PATH=os.environ["PATH"] + ":" + os.path.dirname(HOME))


def answer(request, clock, **members):
    """The answer of a clock's port 1 to a request for one of the six."""
    return response(request, request[52:54] + field(int.from_bytes(request[52:54], "big"), clock, **members), clock=clock)


def changed(message, place, octets):
    return message[:place] + octets + message[place + len(octets):]


class Site:
    """Whoever answers at a Unix socket: each request is handed to a function, which has a list of datagrams for it. More than
    `most` requests are not read."""

    MOST_SECONDS = 1000                 # a busy machine takes its time

    def __init__(self, answers, *words, idle=lambda: [], most=1 << 30, **streams):
        self.peer = Peer("socket")
        self.output = [open(os.path.join(work, name), "w+b") for name in ("printed", "said")]
        self.process = start("manage", "-u", path, *words, stdout=self.output[0], stderr=self.output[1], **streams)
        began = time.monotonic()
        self.requests, self.asker = [], None
        while self.process.poll() is None and time.monotonic() < began + self.MOST_SECONDS:
            if select.select([self.peer.socket][:most - len(self.requests)], [], [], 0.02)[0]:
                request, self.asker = self.peer.socket.recvfrom(2048)
                self.requests.append(request)
                self.send(answers(request))
            elif self.asker is not None:
                self.send(idle())
        self.status = self.process.wait(10)
        self.took = time.monotonic() - began
        self.peer.close()

    def send(self, datagrams):
        for one in datagrams:
            try:
                self.peer.socket.sendto(one, self.asker)
            except OSError:
                return

    def read(self, place):
        self.output[place].seek(0)
        return self.output[place].read().decode()

    def lines(self):
        return self.read(0).splitlines()

    def answers(self):
        """The answers among the lines of a collection, each without the words before it."""
        datagrams = [line.split()[-1] for line in self.lines() if not line.startswith("#") and " taken=" not in line]
        return [datagram for datagram in datagrams if datagram[1] == "d" and datagram[93] == "2"]

    def said(self):
        return self.read(1)


def identity(number):
    return bytes.fromhex("02") + number.to_bytes(7, "big")


def strangers_without_end():
    """5,000 clocks answer the first request, where 4,096 have room. No other is read."""
    many = [identity(number) for number in range(5000)]
    site = Site(lambda request: [answer(request, clock) for clock in many], "-t", "4000", "-a", "1", "collect", most=1)
    clocks = {line[40:56] for line in site.answers()}
    check("of 5,000 clocks 4,096 are collected", len(clocks) == 4096 and len(site.answers()) == 4096)
    check("the others are counted, and the status says so", site.status == 3 and "there is room for 4096 clocks and 65536 answers: 904 more answers are left out" in site.said())
    check("where there is no room for requests it ends all the same", site.took < 60 * SLOW)


def plan_of_too_many():
    """4,200 clocks answer all that a plan of every clock asks, and 104 have no place: the plan does not end as if it had all of them."""
    many = [identity(number) for number in range(4200)]
    file = write("plan.toml", "version = 1\n[[every]]\nPRIORITY1 = 128\n")
    site = Site(lambda request: [answer(request, clock) for clock in many], "-t", "4000", "-a", "1", "plan", file, env=WITH_OWN)
    check("of 4,200 clocks a plan has 4,096", f"{identity(4095).hex()} PRIORITY1" in site.read(0))
    check("and the status says so", site.status == 3 and "more answers are left out" in site.said())


def strangers_that_are_one():
    """One host answers the first request as 1,000 clocks, and then reads: each is asked by itself once, at a pace, and then no more."""
    many, times = [identity(number) for number in range(1000)], []

    def reply(request):
        times.append(time.monotonic())
        return [answer(request, clock) for clock in many] if len(times) == 1 else []
    site = Site(reply, "-t", "100", "-a", "10", "collect")
    pace = max(sum(begin <= one < begin + 0.5 for one in times[place:place + 5000]) for place, begin in enumerate(times) if place % 50 == 0)
    check(f"1,000 clocks that are one are asked {len(times)} times, and {pace} in half a second", site.status == 0
          and 5000 < len(times) < 5700 and pace < 1700)
    check("they are asked no more", "1000 clocks gave no new answer when they were asked one by one: they are asked no more\n" in site.said())
    few = Site(lambda request: [answer(request, clock) for clock in many[:100]] if request[52:54] == b"\x20\0" else [], "-t", "1000", "-a", "3",
               "collect")
    alone = sum(request[34:42] != bytes([255]) * 8 for request in few.requests)
    check(f"a hundred are not, and are asked {alone} times", 500 < alone <= 3 * 500 and "asked no more" not in few.said())


def strangers_that_never_end():
    """A new clock answers in each silence, and answers no more."""
    count = iter(range(1, 1 << 30))
    asked = []

    def reply(request):
        asked[:] = [request]
        return []

    site = Site(reply, "-t", "50", "-a", "3", "collect", idle=lambda: [answer(asked[0], identity(next(count)))])
    check("a silence that never comes is not waited for", site.status == 0 and site.answers() and site.took < 10 * SLOW)


class Strangers:
    """One host that answers as 2,100 new clocks in each look of a watch, before a clock that is there. That one ends before the sixth look, and
    the attack after the tenth. `seen` has what was written before each look, and `most` the memory that the watch took, in KiB."""
    REAL, NEW, FIRST, ENDS, LAST = identity(0xFFFFFFFFFF), 2100, 1, 6, 10

    def __init__(self, *words):
        self.latest, self.looks, self.seen, self.most = None, 0, [], 0
        self.written = os.path.join(work, "written")
        environment = dict(os.environ, PATH=os.path.dirname(HOME) + ":" + os.environ["PATH"])
        Site(self.answers, *words, "--output", self.written, "-t", "500", "-a", "1", "--once", "--watch", "1", "status", env=environment)

    def answers(self, request):
        to_all = request[34:42] == bytes([255]) * 8
        if to_all and (self.looks == 0 or self.written_last() != self.latest):
            self.next_look()
        is_attack = to_all and self.FIRST <= self.looks <= self.LAST
        clocks = [identity(self.looks << 16 | place) for place in range(self.NEW)] if is_attack else []
        clocks += [self.REAL] if self.looks < self.ENDS else []
        of_real = answer(request, self.REAL)
        return (of_real.replace(self.REAL, clock) for clock in clocks if to_all or request[34:42] == clock)

    def written_last(self):
        """Which file was written: each look writes another, and asks everybody several times before."""
        return os.stat(self.written).st_ino if os.path.exists(self.written) else None

    def next_look(self):
        self.latest, self.looks = self.written_last(), self.looks + 1
        self.seen.append(read(self.written) if os.path.exists(self.written) else "")
        process = started[-1]
        with open(f"/proc/{process.pid}/status") as status:
            self.most = int(re.search(r"VmHWM:\s*(\d+)", status.read())[1])
        if self.looks == self.LAST + 4:
            process.send_signal(signal.SIGINT)


def strangers_in_a_watch():
    """A watch names the clock that is there, finds within two looks that it ended, and is never OK from then on."""
    name = Strangers.REAL.hex()
    shown = Strangers("--json")
    check("a watch names the clock that is there", all(f'"clockIdentity":"{name}"' in text for text in shown.seen[1:6]))
    finds = [f'"clockIdentity":"{name}","domainNumber":0,"finding":"gone"' in text for text in shown.seen]
    check(f"it finds within two looks that it ended: {finds}", not any(finds[:6]) and all(finds[7:]))
    print(f"a watch of 2,100 new clocks a look takes {shown.most} KiB")
    check("it takes less than 40 MB", shown.most < 40000 or is_sanitized(MANAGE))
    words = [text.partition(" - ")[0] for text in Strangers("--nagios", "--ignore", "two_grandmasters,gm_free_running").seen[1:]]
    check(f"a plugin is never OK again: {words}", "PTP OK" not in words[6:])


class Crowd(Strangers):
    """5,000 a look, where 4,096 have room, from the third to the fifth. The clock that is there stays."""
    NEW, FIRST, ENDS, LAST = 5000, 3, 99, 5


def crowds_before_a_known_clock():
    """A clock that answered in two looks has a place in the next one, though a crowd answers before it."""
    crowd = Crowd("--json")
    named = [f'"clockIdentity":"{Crowd.REAL.hex()}"}}' in text for text in crowd.seen]
    check(f"each look has the clock that is there: {named}", len(named) > 6 and all(named[1:]))
    check("what had no place is counted", all('"answers":' in text for text in crowd.seen[3:6]))


def junk():
    """What is no answer to the request, before the one that is."""
    draw = random.Random(1588)
    me, other = bytes.fromhex(ME), bytes.fromhex(OTHER)

    def reply(request):
        good = answer(request, me)
        yield from (draw.randbytes(draw.randrange(1, 1500)) for _ in range(100))
        yield from (good[:size] for size in range(1, len(good)))
        stranger = answer(request, other)
        yield changed(stranger, 4, bytes([9]))                                  # another domain
        yield changed(stranger, 30, bytes([stranger[30] ^ 1]))                  # another number
        yield changed(stranger, 34, other)                                      # to another manager
        yield changed(stranger, 46, bytes([0]))                                 # a request
        yield changed(stranger, 52, bytes([0x20, 0x05]))                        # another id
        yield changed(stranger, 2, bytes([5, 0]))                               # longer than the datagram
        yield good + b"what follows is passed over"

    site = Site(reply, "-t", "1000", "collect")
    untaken = [(line.split()[-1][40:56], word) for line in site.lines() for word in line.split() if word.startswith("taken=")]
    check("what could have been an answer is written as that", sorted(untaken) == [(OTHER, "taken=late"), (OTHER, "taken=unreadable")])
    check("junk is no answer", site.status == 0 and len(site.answers()) == 6 and {line[40:56] for line in site.answers()} == {ME})
    check("what follows a message is not printed", all(len(line) == 2 * int(line[4:8], 16) for line in site.answers()))


def late_without_room():
    """70 clocks answer under another number, where 64 have room: what has none is counted, and the status says so."""
    def reply(request):
        yield answer(request, bytes.fromhex(ME))
        yield from (changed(answer(request, identity(number)), 30, bytes([request[30] ^ 1])) for number in range(70))

    site = Site(reply, "-t", "1000", "collect")
    left_out = re.search(r"#ptpm .* left_out=(\d+) ", site.lines()[-1])
    check("64 answers that came late are written", sum(" taken=late " in line for line in site.lines()) == 64)
    check("the others are left out", site.status == 3 and f"{left_out[1]} more ignored answers have no line" in site.said() and int(left_out[1]) > 0)


def one_identity():
    """Two clocks with one identity, each answer twice; then what differs is printed once more, and no copy."""
    me = bytes.fromhex(ME)
    site = Site(lambda request: 2 * [answer(request, me), answer(request, me, priority=7)], "-t", "1000", "collect")
    check("the answers of two clocks with one identity are printed", site.status == 0 and len(site.answers()) == 8)


def ids_that_lack():
    """A clock that answers three of the six, and one of its two ports: the rest is asked of it alone, and so often."""
    me = bytes.fromhex(ME)

    def reply(request):
        return [answer(request, me, ports=2)] if request[52:54] in (b"\x20\x00", b"\x20\x01", b"\x20\x04") else []

    site = Site(reply, "-t", "300", "-a", "4", "collect")
    everybody = [request for request in site.requests if request[34:44] == bytes([255]) * 10]
    everybody, censuses = everybody[:6], everybody[6:]
    alone = [request for request in site.requests if request[34:44] == me + bytes([255, 255])]
    ids = sorted(request[52:54].hex() for request in alone)
    check("two censuses ask whether others are there", [request[52:54] for request in censuses] == [b"\x20\0"] * 2)
    check("what a clock lacks is asked of it alone", site.status == 0 and len(everybody) == 6
          and ids == sorted(4 * ["0002", "2002", "2003", "2004"]))
    numbers = {request[52:54]: request[30:32] for request in everybody}
    check("a repeat has its number", len(set(numbers.values())) == 6 and len({request[20:30] for request in site.requests}) == 1
          and all(request[30:32] == numbers[request[52:54]] for request in alone))
    check("it goes through seven boundary clocks", all(request[44:46] == b"\x07\x07" for request in site.requests))


def signals_to_collect():
    """SIGINT ends it: what came is printed."""
    me = bytes.fromhex(ME)
    site = []

    def reply(request):
        if request[52:54] == b"\x00\x02":
            os.kill(site[0].process.pid, signal.SIGINT)
            return []
        return [answer(request, me)]

    class Held(Site):
        def __init__(self, *words):
            site.append(self)
            super().__init__(reply, *words)

    held = Held("-t", "5000", "collect")
    check("SIGINT ends a collection, and what came is printed", held.status == 130 and len(held.answers()) == 5
          and "ended by a signal" in held.said() and held.took < 5 * SLOW and not has_own_socket())


def programs_that_show():
    """A program ptpm that hangs, one that is killed, and none."""
    me = bytes.fromhex(ME)
    folder = os.path.join(work, "shown")
    os.mkdir(folder)
    program = os.path.join(folder, "ptpm")
    environment = dict(os.environ, PATH=folder + ":" + os.environ["PATH"])

    def shown(script, *words):
        write("shown/ptpm", "#!/bin/sh\n" + script + "\n")
        os.chmod(program, 0o755)
        return Site(lambda request: [answer(request, me)], *words, "-t", "500", "status", env=environment)

    site = shown("echo monitor 1; kill -KILL $$")
    check("a program ptpm that is killed is a fault", site.status == 1 and "ended by signal 9" in site.said())
    site = shown("echo monitor 1; kill -TERM $PPID; exec sleep 60")
    check("a program ptpm that hangs is ended by a signal", site.status == 143 and site.took < 10 * SLOW)
    site = shown("echo monitor 1; echo print octets 17; echo 'no findings here'; exit 1")
    check("what it prints is printed as it is", site.status == 1 and site.lines() == ["no findings here"] and site.took < 2 * SLOW)
    site = shown("echo monitor 1; echo print octets 3000000; yes | head -c 3000000; exit 0")
    check("it may print three million octets and read none", site.status == 0 and len(site.read(0)) == 3000000)
    site = shown("echo monitor 2; exec sleep 60")
    check("one of another version asks nothing", site.status == 2 and not site.requests and "is of another version" in site.said())
    os.unlink(program)
    site = Site(lambda request: [], "status", env=dict(os.environ, PATH=folder))
    check("where there is no program ptpm nothing is asked", site.status == 2 and not site.requests
          and "the program ptpm is neither beside" in site.said())


def refusals_of_memory():
    """Each request for memory is refused, with all later ones: what is shown is the whole site, or a failure with its reason. The
    program that shows it here needs none: it has one look, and prints three findings if a clock is there."""
    if is_sanitized(MANAGE):
        return                                                              # its memory is the sanitizer's
    me = bytes.fromhex(ME)
    folder = os.path.join(work, "shown")
    os.mkdir(folder)
    write("shown/ptpm.c", r"""#include <string.h>
#include <unistd.h>
static char line[4096];
static int next_line(void) {
    size_t size = 0;
    while (size < sizeof line - 1 && read(0, line + size, 1) == 1 && line[size] != '\n') size++;
    int is_whole = line[size] == '\n';
    line[size] = '\0';
    return is_whole;
}
static int says(const char *text) { return write(1, text, strlen(text)) > 0; }
int main(void) {
    int clocks = 0;
    if (!says("monitor 1\n") || !next_line() || !says("look 7\n")) return 3;
    while (next_line() && strcmp(line, "end") != 0) clocks += strncmp(line, "clock ", 6) == 0;
    if (strcmp(line, "end") != 0 || clocks == 0) return 3;
    says("print octets 60\nfindings: 3\n0 a intervals 1\n0 b intervals 2\n0 c intervals 3\n");
    return next_line() && strcmp(line, "printed") == 0 ? 1 : 3;
}""")
    refuser = os.path.join(folder, "refuse.so")
    subprocess.run(["cc", "-O1", "-fPIC", "-shared", "-o", refuser, os.path.join(HOME, "../tools/refuse_memory.c")], check=True)
    subprocess.run(["cc", "-o", os.path.join(folder, "ptpm"), os.path.join(folder, "ptpm.c")], check=True)
    environment = dict(os.environ, PATH=folder + ":" + os.environ["PATH"], LD_PRELOAD=refuser)
    wrong, refused, numbers = [], 0, range(14, 90, 2)
    for number in numbers:
        site = Site(lambda request: [answer(request, me)], "-t", "20", "status", "--once", env=dict(environment, REFUSE_MEMORY=f"{number}+"))
        is_whole = site.status == 1 and len(site.lines()) == 4
        refused += not is_whole
        if not is_whole and not (site.status in (1, 2) and site.lines() == [] and site.said() != ""):
            wrong.append((number, site.status, site.lines(), site.said()))
    check(f"without memory a site is whole or fails, except {wrong}", wrong == [] and 0 < refused < len(numbers))


ATTACKS = [strangers_without_end, plan_of_too_many, strangers_that_are_one, strangers_that_never_end, strangers_in_a_watch,
           crowds_before_a_known_clock, junk, late_without_room, one_identity, ids_that_lack, signals_to_collect, programs_that_show, refusals_of_memory]
