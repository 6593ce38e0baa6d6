"""What a clock may answer to what manage.c asks it alone: another value than was asked, or an error from another of its ports. What a
run reports as done is what it asked."""
import os
import random
import shutil
import subprocess
import time

import attacking
from attack_collect import Site, changed
from attack_wire import Wire, frame_four
from attacking import MANAGER, ME, SLOW, by_both, check, response, run, start, work, write

NOT_AS_ASKED = 5


def by(field):
    """What answers each request by this dataField."""
    return lambda request: [response(request, request[52:54] + field)]


def sets(answers, *words):
    return Site(answers, "--target", ME, *words)


@by_both
def values_that_were_not_asked():
    """A SET is done if it is answered by what it asked: each member of it, and no reserved octet."""
    said = attacking.manager + ": the answer is not what was asked: "
    one = ("set", "PRIORITY1", "100")
    utc = ("set", "UTC_PROPERTIES", "currentUtcOffset", "38", "leap61", "false", "leap59", "false", "currentUtcOffsetValid", "true")
    for words, field, status, others in [
            (one, b"\x64\x00", 0, []), (one, b"\x64\x09", 0, []),
            (one, b"\x07\x00", NOT_AS_ASKED, ["priority1 100"]), (one, b"", NOT_AS_ASKED, ["priority1 100"]),
            (one, b"\x64\x00\x00\x00", NOT_AS_ASKED, ["priority1 100"]),
            (("-x", "set", "PRIORITY1", "6400"), b"\x64\x01", 0, []),
            (("set", "SLAVE_ONLY", "true"), b"\x02\x00", 0, []),            # as a ptp4l has the flag
            (("set", "SLAVE_ONLY", "true"), b"\x00\x00", NOT_AS_ASKED, ["slaveOnly true"]),
            (("set", "USER_DESCRIPTION", "--text", "ab"), b"\x02ab\x07", 0, []),
            (("set", "USER_DESCRIPTION", "--text", "ab"), b"\x02ac\x00", NOT_AS_ASKED, ["userDescription ab"]),
            (utc, b"\x00\x26\x04\x01", 0, []),
            (utc, b"\x00\x25\x00\x00", NOT_AS_ASKED, ["currentUtcOffset 38", "currentUtcOffsetValid true"]),
            (("set", "c001", "0102"), b"\x01\x02", 0, []), (("set", "c001", "0102"), b"\x01\x03", NOT_AS_ASKED, ["value 0102"]),
            (("get", "PRIORITY1"), b"\x07\x00", 0, [])]:
        site = sets(by(field), *words)
        told = [line[len(said):] for line in site.said().splitlines() if line.startswith(said)]
        check(f"{words} that is answered by {field.hex() or 'nothing'}", (site.status, told) == (status, others) and len(site.lines()) > 0)
    if attacking.manager == "ptpm":
        return                                                      # which prints no JSON
    site = sets(by(b"\x07\x00"), "--json", *one)
    check("the object says it", site.status == NOT_AS_ASKED and '"members":{"priority1":7},"isAsAsked":false}' in site.read(0))
    check("and only then", "isAsAsked" not in sets(by(b"\x64\x00"), "--json", *one).read(0))


@by_both
def values_of_an_earlier_run():
    """What is sent again for an earlier run is judged too, and the session goes on after an answer that was not asked."""
    number = os.path.join(work, "number")
    words = ("-m", MANAGER + "/1", "-w", "0", "-k", number)
    lost = Site(lambda request: by(bytes(20))(request) if request[52:54] == b"\x20\0" else [], *words, "-a", "1", "-t", "1000", "--target", ME,
                "set", "PRIORITY1", "100")
    check("a SET has no answer", lost.status == 3)
    site = Site(by(b"\x07\x00"), *words, "--target", ME, "get", "PRIORITY1")
    check("another value is said of an earlier run's SET", site.status == 0
          and "{0}: priority1 7\n{0}: the answer is not what was asked: priority1 100\n".format(attacking.manager) in site.said())
    for _ in range(2):
        site = Site(by(b"\x07\x00"), *words, "--target", ME, "set", "PRIORITY1", "100")
        check("a request that was answered otherwise is over", site.status == NOT_AS_ASKED and "earlier run" not in site.said())


class OneManager:
    """A clock beyond a port that takes each number of its one manager once, keeps the answer, and answers to the group."""

    def __init__(self, port):
        self.port, self.latest, self.kept, self.value = port, None, None, bytes(2)

    def hear(self):
        for request in self.port.sent():
            if request[46] > 2 or request[34:42].hex() != ME:
                continue
            number, asked = int.from_bytes(request[30:32], "big"), request[46:47] + request[52:]
            if self.latest is not None and number == self.latest and asked == self.kept[0]:
                self.port.come_in(self.kept[1])
            elif self.latest is None or 0 < (number - self.latest) % 65536 < 32768:
                if request[46] == 1:
                    self.value = request[54:56]
                field = self.value if request[52:54] == b"\x20\x05" else bytes(20)
                self.latest, self.kept = number, (asked, response(request, request[52:54] + field))
                self.port.come_in(self.kept[1])

    def hears_until(self, runs):
        """Answers until these runs have ended: what each printed, and its status."""
        while any(one.poll() is None for one in runs):
            self.hear()
            time.sleep(0.001)
        return [(one.communicate()[0], one.returncode) for one in runs]


@by_both
def copies_at_once(port):
    """Two runs at a time, one with a session's file and one with its copy: none ends with 0 that was answered for the other."""
    clock, wrong, told, both = OneManager(port), [], 0, 0
    files = [os.path.join(work, name) for name in ("number", "copy")]
    port.sent()

    def begins(file, value):
        return start("manage", "-m", MANAGER + "/1", "-w", "0", "-i", port.name, "-a", "5", "-t", "40", "--give-up", "-k", file, "--target",
                     ME, "set", "PRIORITY1", str(value), stdout=subprocess.PIPE, stderr=subprocess.DEVNULL, text=True)
    for turn in range(20):
        if turn == 0 or not os.path.exists(files[0]):
            clock.hears_until([begins(files[0], 1)])
        shutil.copy(files[0], files[1])
        values = (2 * turn + 10, 2 * turn + 11)
        ends = clock.hears_until([begins(file, value) for file, value in zip(files, values)])
        wrong += [(value, end) for value, end in zip(values, ends) if end[1] == 0 and end[0] != f"priority1 {value}\n"]
        told += any(status == NOT_AS_ASKED for _, status in ends)
        both += all(status == 0 for _, status in ends)
    check(f"of two runs with a file and its copy none has the other's answer as its own: {wrong}", wrong == [])
    print(f"of 20 pairs with a file and its copy {told} had a run that was answered for the other, and {both} ended with 0 both")


@by_both
def errors_of_other_ports():
    """A boundary clock that refuses at the port where the request came in: it is the answer, and an earlier run's too."""
    def reply(request):
        return response(request, b"\0\6" + request[52:54] + bytes(4), 2)
    site = Site(lambda request: [reply(request)], "--target", ME + "-2", "set", "LOG_SYNC_INTERVAL", "1")
    check("an error from port 1 answers what port 2 was asked", site.status == 1 and site.lines() == ["refused NOT_SUPPORTED"]
          and site.took < 5 * SLOW and len(site.requests) == 1)
    for what, change in [("to another number", (30, b"\x12\x34")), ("of another clock", (20, bytes(7) + b"\1")),
                         ("for another manager", (34, bytes(7) + b"\1")), ("of another domain", (4, b"\1")),
                         ("of another id", (54, b"\x20\x09"))]:
        site = Site(lambda request: [changed(reply(request), *change)], "--target", ME + "-2", "-a", "2", "-t", "50", "set", "LOG_SYNC_INTERVAL", "1")
        check(f"an error {what} from there is none", site.status == 3)
    site = Site(lambda request: [response(request, request[52:54] + b"\1\0")], "--target", ME + "-2", "-a", "2", "-t", "50", "set",
                "LOG_SYNC_INTERVAL", "1")
    check("nor is a value of another port", site.status == 3)


def port_of(request):
    """The port of the clock that it names."""
    return int.from_bytes(request[42:44], "big")


@by_both
def ports_of_a_switch():
    """A switch with many ports: one of them is named, answers, and refuses."""
    def reply(request, port):
        return [response(request, request[52:54] + (request[54:] or b"\x03\0"), port=port)]
    for words, printed in [(("-T", ME + "-20", "get", "LOG_SYNC_INTERVAL"), "logSyncInterval 3"), (("--target", ME, "-p", "20", "set",
                            "LOG_SYNC_INTERVAL", "-2"), "logSyncInterval -2"), (("--target", ME + "-65534", "set", "LOG_SYNC_INTERVAL", "1"), "logSyncInterval 1")]:
        site = Site(lambda request: reply(request, port_of(request)), *words)
        named = {port_of(request) for request in site.requests}
        check(f"{words} is asked of that port", (site.status, site.lines()) == (0, [printed]) and named == {65534 if "65534" in str(words) else 20})
    for named, port in [(20, 1), (20, 21), (300, 1), (300, 255), (300, 301)]:
        site = Site(lambda request: reply(request, port), "--target", f"{ME}-{named}", "-a", "2", "-t", "50", "get", "LOG_SYNC_INTERVAL")
        check(f"an answer of port {port} is none of port {named}", site.status == 3)
        site = Site(lambda request: reply(request, port), "--target", f"{ME}-{named}", "get", "PRIORITY1")
        check("but it is for an id of the clock", site.status == 0 and site.lines() == ["priority1 3"])

    def refusal(request):
        octets = bytearray(response(request, b"\0\6" + request[52:54] + bytes(4), 2))
        octets[46] = 4                                              # ACKNOWLEDGE
        return [bytes(octets)]
    site = Site(refusal, "-m", MANAGER + "/1", "--target", ME + "-300", "command", "DISABLE_PORT")
    check("a refusal of a manager's COMMAND there counts", (site.status, site.lines()) == (1, ["refused NOT_SUPPORTED"]))
    site = Site(lambda request: [], "--target", ME + "-256", "-k", os.path.join(work, "number"), "get", "LOG_SYNC_INTERVAL")
    check("no session is kept of a port above 255", site.status == 2 and site.requests == [] and os.listdir(work).count("number") == 0)


@by_both
def sets_at_a_switch_that_loses():
    """SETs at port 20 of a switch, which takes each number once and keeps its answer. Three of ten requests are lost, and as many
    answers."""
    lots, taken, values, wrong = random.Random(7), {}, [], []

    def answers(request):
        number = request[20:32]                                     # of this manager
        if lots.random() < 0.3:
            return []
        if number not in taken:
            values.extend([request[54]] if request[46] == 1 else [])
            field = request[54:] if request[46] == 1 else bytes(20)
            taken[number] = (request, response(request, request[52:54] + field, port=20))
        wrong.extend([request] if request != taken[number][0] or port_of(request) != 20 else [])
        return [] if lots.random() < 0.3 else [taken[number][1]]
    wanted, ends, sent = list(range(100, 120)), [], 0
    for value in wanted:
        site = Site(answers, "-m", MANAGER + "/1", "-w", "0", "-t", "20", "-k", os.path.join(work, "number"), "--target", ME + "-20",
                    "set", "ANNOUNCE_RECEIPT_TIMEOUT", str(value))
        ends.append((site.status, site.lines()))
        sent += len(site.requests)
    check(f"each SET there is answered: {ends}", ends == [(0, [f"announceReceiptTimeout {value}"]) for value in wanted])
    check(f"each is carried out once, in its order: {values}", values == wanted)
    check(f"each number is of one request at that port: {wrong}", wrong == [])
    check("and some were sent again", sent > len(taken) > len(wanted))


def a_plan_for_a_switch():
    """A plan that changes port 20 of a switch. The program `ptpm` is a script here, which prints the plan."""
    step = f"step 1 2 0 {ME} 20 200b 0000 fd00 {ME}/20 LOG_SYNC_INTERVAL 0 -> -3"
    folder, state, value = os.path.join(work, "programs"), os.path.join(work, "state"), [bytes(2)]
    os.mkdir(folder)
    write("programs/ptpm", f"#!/bin/sh\n[ $2 = --asks ] || printf 'plan 12345678: 1 change at 1 clock\\n\\n{step}\\n'\n")
    os.chmod(os.path.join(folder, "ptpm"), 0o755)

    def answers(request):
        if request[46] == 1:
            value[0] = request[54:56]
        return [response(request, request[52:54] + (value[0] if request[52:54] == b"\x20\x0b" else bytes(20)), port=20)]
    site = Site(answers, "-m", MANAGER + "/1", "-w", "0", "apply", write("site.toml", "version = 1\n"),
                env=dict(os.environ, PATH=folder + ":" + os.environ["PATH"], XDG_STATE_HOME=state))
    check("a plan for port 20 is applied", site.status == 0 and "1 of 1 done" in site.read(0) and value == [b"\xfd\0"])
    sets = [(request[20:30].hex(), port_of(request)) for request in site.requests if request[46] == 1]
    check(f"by the manager, at that port: {sets}", set(sets) == {(MANAGER + "0001", 20)})
    check("in the session of the clock", os.path.exists(os.path.join(state, "ptpm", f"{MANAGER}-1.{ME}")))


def asked_at(wire, answers, *words):
    """The status of a run at this link, and what it prints and says. Each request that comes is handed to a function, which puts frames."""
    asking = start("manage", "-i", wire.name, "-m", MANAGER + "/1", "-w", "0", "-a", "5", "-t", "300", *words, stdout=subprocess.PIPE,
                   stderr=subprocess.PIPE, text=True)
    while asking.poll() is None:
        for request in wire.sent(0.05):
            answers(request)
    printed, said = asking.communicate()
    return asking.returncode, printed, said


def answer_to(request, value=100):
    """What the clock answers: the priority1 that was asked, or another one."""
    field = {b"\x20\x05": request[54:] or bytes([value, 0])}.get(request[52:54], bytes(20))
    return response(request, request[52:54] + field)


@by_both
def blind_answers():
    """Somebody beyond a router guesses the numbers of a manager, at a clock that isn't there, and answers in the name of a neighbour. Or the
    clock answers so: to UDP port 320 of this host, where it is heard as a copy."""
    wire, router = Wire("clk0", 10), bytes.fromhex("0200000000fe")
    run("ip", "neigh", "replace", "10.7.10.254", "lladdr", router.hex(":"), "dev", wire.name)
    def guesses(request):
        """From all numbers the right one is among these, as if it had been hit early."""
        answer = answer_to(request)
        for number in [*range(5), int.from_bytes(request[30:32], "big")]:
            wire.put(frame_four(answer[:30] + number.to_bytes(2, "big") + answer[32:], wire.neighbour, wire.own, wire.station, ttl=250, by=router))
    for words in [("set", "PRIORITY1", "100"), ("get", "PRIORITY1")]:
        status, printed, said = asked_at(wire, guesses, "--target", ME, *words)
        check(f"nobody answers {words} from beyond a router", (status, printed) == (3, ""))
        check("and that is said", f" from {wire.neighbour} " in said and "another machine sent it, or none has that address" in said)
    for ttl, words, is_taken in [(64, (), True), (64, ("--ttl-security",), False), (255, ("--ttl-security",), True)]:
        status, printed, said = asked_at(
            wire, lambda request: wire.put(frame_four(answer_to(request), wire.neighbour, wire.own, wire.station, ttl=ttl)),
            "--target", ME, *words, "set", "PRIORITY1", "100")
        check(f"a neighbour answers so with TTL {ttl} and {words}", (status, printed) == ((0, "priority1 100\n") if is_taken else (3, "")))
        check("what a router may have passed on is said", ("may have forwarded it: --ttl-security" in said) != is_taken)
    wire.remove()


@by_both
def guessed_numbers():
    """A neighbour who guesses. Few wrong numbers are late answers; more of them let no answer count, even a right one."""
    wire = Wire("clk0", 10)
    for wrong, is_taken in [(5, True), (100, False)]:
        def guesses(request):
            answer = answer_to(request)
            right = int.from_bytes(request[30:32], "big")
            for number in [*((right + 1000 + ahead) % 65536 for ahead in range(wrong)), right]:
                wire.come_in(answer[:30] + number.to_bytes(2, "big") + answer[32:])
        words = ("-k", os.path.join(work, f"number{wrong}"), "--target", ME)
        status, printed, said = asked_at(wire, guesses, *words, "get", "PRIORITY1")
        check(f"with {wrong} wrong numbers an answer is taken: {is_taken}", (status, printed) == ((0, "priority1 100\n") if is_taken else (3, "")))
        check("many are said", ("answers had numbers that were not asked" in said) != is_taken)
    wire.remove()


@by_both
def answers_in_another_way():
    """The first answer of a run shows in which way the clock answers. Its others count only there."""
    wire, other = Wire("clk0", 10), bytes.fromhex("0200000000fd")
    run("ip", "neigh", "replace", "10.7.10.8", "lladdr", other.hex(":"), "dev", wire.name)
    by_group = lambda answer: wire.come_in(answer)
    ways = {"by unicast": lambda answer: wire.put(frame_four(answer, wire.neighbour, wire.own, wire.station)),
            "from another neighbour": lambda answer: wire.put(frame_four(answer, "10.7.10.8", by=other))}
    for name, other_way in [("by the group", by_group), *ways.items()]:
        def answers(request):
            (other_way if request[46] == 1 else by_group)(answer_to(request))
        status, printed, said = asked_at(wire, answers, "--target", ME, "set", "PRIORITY1", "100")
        check(f"a SET is answered {name} alone after a GET by the group",
              (status, printed) == ((0, "priority1 100\n") if name == "by the group" else (3, "")))
        check("another way is said", ("came by a different path than the first one" in said) == (name != "by the group"))
        shutil.rmtree(os.path.join(work, "state"), ignore_errors=True)
    wire.remove()


@by_both
def names_of_this_host():
    """A manager that nobody names has not the identity of a clock of this host, whose MAC it takes. It says its name at first."""
    wire = Wire("clk0", 10)
    mac = wire.station
    own = (bytes([mac[0] ^ 2]) + mac[1:3] + b"\xff\xfe" + mac[3:]).hex()
    asked = []
    asking = start("manage", "-i", wire.name, "-w", "0", "-a", "5", "-t", "300", "--target", ME, "set", "PRIORITY1", "100",
                   stdout=subprocess.PIPE, stderr=subprocess.PIPE, text=True)
    while asking.poll() is None:
        for request in wire.sent(0.05):
            asked.append(request[20:28].hex())
            wire.come_in(answer_to(request))
    printed, said = asking.communicate()
    check("a manager has no identity of a clock of this host", printed == "priority1 100\n" and set(asked) == {own})
    check("it says its name at first", f"this manager is {own}/1, from the MAC of the interface" in said)
    wire.remove()


def namesakes():
    """A clock that answers under the identity of the manager is refused by its name."""
    wire = Wire("clk0", 10)
    asking = start("manage", "-i", wire.name, "-a", "2", "-t", "200", "-m", MANAGER + "/1", "survey", "PRIORITY1", stdout=subprocess.PIPE,
                   stderr=subprocess.PIPE, text=True)
    while asking.poll() is None:
        for request in wire.sent(0.05):
            wire.come_in(response(request, request[52:54] + b"\x07\x00", clock=bytes.fromhex(MANAGER)))
            wire.come_in(response(request, request[52:54] + b"\x08\x00"))
    printed, said = asking.communicate()
    check("a namesake is no clock of a survey", printed == f"{ME}/1 priority1 8\n")
    check("and is named", said.count(f"ptpm-manage: a clock has this manager's identity {MANAGER}: ") == 1)
    wire.remove()


ATTACKS = [names_of_this_host, namesakes, blind_answers, guessed_numbers, answers_in_another_way, values_that_were_not_asked,
           values_of_an_earlier_run, errors_of_other_ports, ports_of_a_switch, sets_at_a_switch_that_loses, a_plan_for_a_switch]
