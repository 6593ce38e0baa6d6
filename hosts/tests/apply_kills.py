"""Runs of ptpm-manage that are killed while they change three clocks, for hosts/tests/apply. They are killed at random times, over a link that
loses 30, repeats 20 and swaps 10 of a hundred frames each way, or at each call by which they save and send. `resume` ends each apply.
After each kill what the clocks took as new is set beside the journal, and what was reported too."""
import glob
import os
import signal
import subprocess
import time

from apply_link import SET, Troubles
from apply_network import ANSWERED_NEW, MANAGER, Clock, Network
from apply_runs import Broken, Journal, Runs, beginning, chained
from trying import HOME

IDENTITIES = [f"02c0fffffe00010{number}" for number in (1, 2, 3)]
VALUES = {"PRIORITY1": (0, 255), "PRIORITY2": (0, 255), "CLOCK_ACCURACY": (0x17, 0x31)}
PORT_VALUES = {"LOG_SYNC_INTERVAL": (-8, 1), "ANNOUNCE_RECEIPT_TIMEOUT": (2, 10)}
REFUSED_ID, REFUSED_FIELD = 0x6001, "f700"          # LOG_MIN_PDELAY_REQ_INTERVAL, -9: below the profile's range
TROUBLES = Troubles(loss=0.30, repeat=0.20, swap=0.10)
CRASHES = 0.1                                       # of a clock after a run
MOST_LIVES, PATIENT_AFTER, PATIENCE = 400, 60, 60
KILLS, LOSES, FAILS = ENDS = ("KILLS", "LOSES", "FAILS")     # what may become of a run at a call (dies.c)
MOST_CALLS, FEW_CALLS = 25, 12                      # of a step and what comes before it; of what comes before it
GIVE_UPS = 0.15                                     # of the runs after the first
SETTLED = 0.1                                       # by then what was on its way has come in,
MOST_LATE, LATE = 5, "no answer from"                 # runs that are left alone, and what one says to which a clock gave none
MOST_SAVING, COPIES = 10, 1                         # and a clock has saved, and judged it; and copies, if it judges them


def judged(asked, answers):
    """Each request beside its answer, and the copies that got none: a clock judges no copy of a request that waits for a save. None if
    others got none."""
    pairs, copies, seen, rest = [], [], set(), iter(asked)
    for answer, size in answers:
        request = next(rest, None)
        while request is not None and request.content() in seen and (answer == ANSWERED_NEW or request.whole != size):
            copies.append(request)
            request = next(rest, None)
        if request is None:
            return None
        seen.add(request.content())
        pairs.append((request, answer, size))
    copies += rest
    return (pairs, copies) if all(copy.content() in seen for copy in copies) else None


class Observed:
    """What a clock took as new: each answer that it logged beside the request that came in there."""

    def __init__(self, network, clock):
        self.network, self.clock, self.counted = network, clock, 0

    def asked(self):
        seen = list(self.network.observer.seen[self.clock.name])
        return [request for request in seen if (request.source, request.target) == (MANAGER, self.clock.identity)]

    def sets(self):
        """The SETs that it took as new since the last `count`: the id and the dataField."""
        began = time.monotonic()
        while True:
            asked, answers, passed = self.asked(), self.clock.answers(), time.monotonic() - began
            pairs, copies = judged(asked, answers) or (None, [])
            if (pairs is not None and (not copies or passed > COPIES)) or passed > MOST_SAVING:
                break
            time.sleep(0.05)
        if pairs is None:
            raise Broken(f"{self.clock.name}: {len(asked)} requests came in, and {len(answers)} were judged")
        found = []
        for request, answer, size in pairs:
            if request.whole != size:
                raise Broken(f"{self.clock.name}: a request of {request.whole} octets beside one of {size}")
            if answer == ANSWERED_NEW and request.action == SET:
                found.append((request.id, request.field.hex()))
        return found

    def new(self):
        return self.sets()[self.counted:]

    def count(self):
        self.counted = len(self.sets())


class Changes(Runs):
    """Plans for three clocks, and what is checked of what became of them."""

    def __init__(self, work, seed, troubles=None):
        super().__init__(work, seed)
        self.network = Network(work, [Clock(f"c{place}", identity) for place, identity in enumerate(IDENTITIES)], None, troubles, seed)
        self.observed = [Observed(self.network, clock) for clock in self.network.clocks.values()]

    def words(self):
        return self.network.words()

    def end(self):
        self.network.end()

    def plan(self):
        lines, is_refused = [], self.chance.random() < 0.25
        for place, identity in enumerate(IDENTITIES):
            lines += ["[[clock]]", f'identity = "{identity}"']
            lines += [f"{name} = {self.chance.randint(*VALUES[name])}" for name in VALUES if self.chance.random() < 0.6]
            if self.chance.random() < 0.5:
                lines += [f'USER_DESCRIPTION = "rack {self.chance.randrange(1000000)}"']
            lines += ["[[clock.port]]", "number = 1"]
            lines += [f"{name} = {self.chance.randint(*PORT_VALUES[name])}" for name in PORT_VALUES if self.chance.random() < 0.5]
            if is_refused and place == 1:
                lines += ["LOG_MIN_PDELAY_REQ_INTERVAL = -9"]
        return self.write_plan(lines)

    def crash(self):
        """One of the clocks crashes while nothing is on its way to it."""
        self.network.crash(self.chance.choice(list(self.network.clocks.values())))
        self.counts["crashes of a clock"] += 1

    def check(self, journal):
        """The clocks took the steps that are told, each once and in order, or these and the one that is begun."""
        super().check(journal)
        self.is_taken = False
        for clock in self.observed:
            own = [place for place, step in enumerate(journal.steps) if step["clock"] == clock.clock.identity]
            told = [self.change(journal, place) for place in own if place in journal.told]
            also = [self.change(journal, place) for place in own if place == journal.begun]
            new = clock.new()
            self.is_taken |= new != told
            if new != told and new != told + also:
                raise Broken(f"{clock.clock.name} took {new}; told {told}, begun {also}, journal {journal.place()}")
        for place, note in journal.told.items():
            self.check_outcome(journal.steps[place], note)

    def change(self, journal, place):
        return journal.steps[place]["id"], journal.steps[place]["after"]

    def check_outcome(self, step, note):
        is_refused = (step["id"], step["after"]) == (REFUSED_ID, REFUSED_FIELD)
        if note["outcome"] != ("refused WRONG_VALUE" if is_refused else "done") or (not is_refused and note["octets"] != step["after"]):
            raise Broken(f"{step} is told as {note}")

    def check_end(self, journal):
        super().check_end(journal)
        for clock in self.observed:
            clock.count()


class Kills:
    """Plans of a site are applied, killed at random times, resumed and rolled back. Between two runs a clock may crash."""

    def __init__(self, site, longest_apply, longest_resume):
        self.site, self.chance, self.counts = site, site.chance, site.counts
        self.longest = {"apply": longest_apply, "rollback": longest_apply, "resume": longest_resume}

    def life(self, words, seconds, before):
        """A run, killed this long after its journal is there; its status, or None if it was killed."""
        process = self.site.start(words)
        end = time.monotonic() + PATIENCE
        while process.poll() is None and time.monotonic() < end and (words[0] != "resume" and self.site.journals() == before):
            time.sleep(0.002)
        try:
            return process.wait(seconds)
        except subprocess.TimeoutExpired:
            process.send_signal(signal.SIGKILL)
            process.wait()
            return None

    def until_end(self, words):
        """Runs and kills until there is a journal that has an end; the journal, or None if there was nothing to do."""
        before, journal = self.site.journals(), None
        for life in range(MOST_LIVES):
            seconds = PATIENCE if life > PATIENT_AFTER else self.chance.uniform(0, self.longest[words[0]])
            status = self.life(words, seconds, before)
            self.counts["kills"] += status is None
            time.sleep(SETTLED)
            made = self.site.journals() - before
            journal = Journal(made.pop()) if made else None
            if status is None:
                self.site.places["no journal" if journal is None else journal.place()] += 1
            if journal is None and status in (1, 2, 4):
                raise Broken(f"{words} ended with {status}: {self.site.said()}")
            if journal is None and status in (0, 5):
                return None
            if journal is not None:
                self.site.check(journal)
                self.site.check_report(journal)
                if journal.end:
                    return journal
                if self.chance.random() < CRASHES:
                    self.site.crash()
                words = ["resume"]
        raise Broken(f"{words} did not end in {MOST_LIVES} runs")

    def round(self):
        before = self.site.journals()
        journal = self.until_end(["apply", self.site.plan()])
        self.counts["plans"] += 1
        if journal is None:
            return
        self.site.check_end(journal)
        if self.chance.random() < 1 / 3 and journal.told:
            name = os.path.basename((self.site.journals() - before).pop())[:-len(".journal")]
            back = self.until_end(["rollback", name])
            self.counts["rollbacks"] += 1
            if back is not None:
                self.site.check_end(back)

    def run(self, kills):
        began = time.monotonic()
        try:
            while self.counts["kills"] < kills:
                self.round()
        finally:
            self.site.end()
        self.site.tell(began)


def kill_at_clocks(work, kills, seed):
    Kills(Changes(work, seed, TROUBLES), 0.4, 1.0).run(kills)


class Points(Changes):
    """An apply of three steps, or four with one that is refused, whose journal is made here. Its first `resume` is killed at one of the calls
    by which it saves and sends: at the first, in the next apply at the second, and so on. At the next three such calls it is
    killed again, or the call fails; the last run is left alone. Some of these runs give up. At some kills the machine loses its power too
    (dies.c), and what earlier runs did not synchronize is lost with it. Every second apply begins without files of sessions."""

    def __init__(self, work, seed):
        super().__init__(work, seed)
        self.folder = os.path.join(work, "state/ptpm/apply")
        os.makedirs(self.folder)
        self.has = {(0, 0, 0x2005): "8000", (1, 0, 0x2006): "8000", (1, 1, 0x200B): "0000", (1, 1, REFUSED_ID): "0000"}

    def step(self, place, port, number, after):
        before = self.has[place, port, number]
        return {"clock": IDENTITIES[place], "domain": 0, "port": port, "id": number, "before": before, "after": after}

    def make(self, call):
        """The path of a new journal, the only one: each that a run reads is a call more."""
        for path in glob.glob(os.path.join(self.folder, "*.journal")):
            os.remove(path)
        for path in glob.glob(os.path.join(self.work, "state/ptpm/*-1.*")) if call % 2 == 0 else []:
            os.remove(path)
        value = f"{call % 100:02x}00"
        steps = [self.step(0, 0, 0x2005, value), self.step(1, 0, 0x2006, value), self.step(1, 1, 0x200B, f"{254 + call % 2:02x}00")]
        if call % 4 == 0:
            steps.append(self.step(1, 1, REFUSED_ID, REFUSED_FIELD))
        name = f"20260101-000000-{call:08x}-0000"
        path = os.path.join(self.folder, name + ".journal")
        with open(path, "wb") as file:
            file.write(chained(beginning(name, MANAGER, steps)))
        return path

    def is_killed_at(self, call, by, *more):
        """Whether a `resume` was killed at this call; 0 is none."""
        preloaded = {"LD_PRELOAD": os.path.join(HOME, "dies.so"), "DIES_AT": str(call), "DIES_FROM": "start", by: "1"}
        is_killed = self.start(["resume", *more], **preloaded).wait(PATIENCE) in (-signal.SIGKILL, 128 + signal.SIGKILL)
        self.counts["kills"] += is_killed
        self.counts["kills that give up"] += is_killed and more != ()
        self.counts["power cuts"] += is_killed and by == LOSES
        self.counts["power cuts after a kill and a run"] += is_killed and by == LOSES and self.is_after_kill
        self.is_after_kill = is_killed and by == KILLS
        return is_killed

    def now_has(self, journal):
        """What the clocks have after an apply: what was done, and of a step that was given up what the clock took."""
        for place, step in enumerate(journal.steps):
            is_taken = place in journal.told or (place == journal.begun and self.is_taken)
            if is_taken and step["after"] != REFUSED_FIELD:
                self.has[IDENTITIES.index(step["clock"]), step["port"], step["id"]] = step["after"]

    def noted(self, path):
        """The journal after a run, beside what the clocks took and what was reported."""
        time.sleep(SETTLED)
        journal = Journal(path)
        self.places[journal.place()] += 1
        self.check(journal)
        self.check_report(journal)
        return journal

    def ended(self, path, more):
        """The journal after a run that is left alone. On a busy machine a clock may answer late: then a further run goes on."""
        for _ in range(MOST_LATE):
            self.is_killed_at(0, KILLS, *more)
            journal = self.noted(path)
            if journal.end or LATE not in self.said():
                break
            self.counts["runs without an answer"] += 1
        return journal

    def point(self, call):
        """Whether the apply was killed at this call, and so goes on beyond it."""
        path, more = self.make(call), []
        self.is_after_kill = False
        is_killed = self.is_killed_at(call, self.chance.choice(ENDS[:2]))
        for at in (None, *(self.chance.randrange(1, self.chance.choice((FEW_CALLS, MOST_CALLS))) for _ in range(3))):
            if at is not None:
                self.is_killed_at(at, self.chance.choice(ENDS), *more)
            more = ["--give-up"] if self.chance.random() < GIVE_UPS else []
            self.noted(path)
        journal = self.ended(path, more)
        self.check_end(journal)
        self.now_has(journal)
        return is_killed

    def run(self, kills=None):
        """Kills at each call, or as many kills as are asked."""
        began, call = time.monotonic(), 1
        try:
            while self.point(call) and (kills is None or self.counts["kills"] < kills):
                call += 1
        finally:
            self.end()
        self.counts["calls"] = call - 1
        self.tell(began)
