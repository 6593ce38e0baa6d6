"""Runs of ptpm-manage that are killed while they change a site, and their journals, for apply, apply_kills.py and apply_ptp4l.py. A journal's
octets are those of crates/ptpm_journal/specs."""
import glob
import os
import random
import re
import struct
import subprocess
import time
import zlib
from collections import Counter

from apply_network import environment


STRANGER = "another program has used its session"


KINDS = HEAD, STEP, BEGUN, NOT_BEGUN, LET_GO, TOLD, POLICY, END, TEXT = range(1, 10)
NAMES = {"begun": BEGUN, "not_begun": NOT_BEGUN, "let_go": LET_GO, "told": TOLD, "end": END}
OUTCOMES = ["", "done", "refused", "answered"]
ENDINGS = ["", "complete", "refused", "answered", "changed", "given up", "rolled back", "stopped", "in part"]
ERRORS = {0: "", 4: " WRONG_VALUE", 6: " NOT_SUPPORTED"}
IN_ONE_ROW, LAST_GROUP, NO_STEP, TIME = 2, 6, 65535, 1767225600
MAGIC = b"PTPJ"


class Broken(Exception):
    """What was promised does not hold."""


def chained(records):
    """The file of a journal that has these records, each a kind and a body. After each is the CRC-32 of that of the one before and of it."""
    crc, file = 0, MAGIC
    for kind, body in records:
        record = struct.pack(">HB", len(body) + 1, kind) + body
        crc = zlib.crc32(record, zlib.crc32(struct.pack(">I", crc)))
        file += record + struct.pack(">I", crc)
    return file


def split(file):
    """The octets of each whole record of a file."""
    at, records = len(MAGIC), []
    while at + 2 <= len(file) and (end := at + 6 + struct.unpack_from(">H", file, at)[0]) <= len(file) and any(file[at:end]):
        records.append(file[at:end])
        at = end
    return records


def records_of(path):
    """The whole records of a journal: the kind and the body of each."""
    with open(path, "rb") as opened:
        file = opened.read()
    records = [(record[2], record[3:-4]) for record in split(file)]
    if not file.startswith(chained(records)):
        raise Broken(f"{path} has a wrong record")
    return records


def beginning(name, manager, steps):
    """The records of a journal without notes. A step has its clock, domain, port and id, and what was there before and after."""
    identity, port = manager.split("/")
    head = struct.pack(">BBB8sHHB", 2, IN_ONE_ROW, 1, bytes.fromhex(identity), int(port), len(steps), len(name)) + name.encode() + b"\0"
    yield HEAD, head
    for step in steps:
        before, after = bytes.fromhex(step["before"]), bytes.fromhex(step["after"])
        body = struct.pack(">8sBBHH", bytes.fromhex(step["clock"]), step["domain"], LAST_GROUP, step["port"], step["id"])
        yield STEP, body + struct.pack(">H", len(before)) + before + struct.pack(">H", len(after)) + after


def note_of(words):
    """A note, of its words: `begun 0 7`, `told 0 done 3200`, `end changed 1`, `end complete -`."""
    kind, first, *more = words
    if kind == "end":
        body = struct.pack(">BHQ", ENDINGS.index(first.replace("_", " ")), NO_STEP if more[0] == "-" else int(more[0]), TIME)
    elif kind == "told":
        answer = bytes.fromhex(more[1])
        body = struct.pack(">HBHQH", int(first), OUTCOMES.index(more[0]), 0, TIME, len(answer)) + answer
    elif kind == "begun":
        body = struct.pack(">HHQ", int(first), int(more[0]), TIME)
    else:
        body = struct.pack(">HQ", int(first), TIME)
    return NAMES[kind], body


class Journal:
    """What a journal's whole records say."""

    def __init__(self, path):
        self.steps, self.told, self.begun, self.end, self.is_let_go = [], {}, None, None, False
        for kind, body in records_of(path):
            self.take(kind, body)

    def take(self, kind, body):
        if kind == STEP:
            self.take_step(body)
        elif kind == END:
            self.end = ENDINGS[body[0]]
        elif kind == LET_GO:
            self.is_let_go = True
        elif kind == TOLD:
            place, outcome, error = struct.unpack_from(">HBH", body)
            self.told[place], self.begun = {"outcome": OUTCOMES[outcome] + ERRORS[error], "octets": body[15:].hex()}, None
        elif kind in (BEGUN, NOT_BEGUN):
            self.begun = struct.unpack_from(">H", body)[0] if kind == BEGUN else None

    def take_step(self, body):
        clock, domain, _, port, id, size = struct.unpack_from(">8sBBHHH", body)
        before, after = body[16:16 + size], body[18 + size:]
        self.steps.append({"clock": clock.hex(), "domain": domain, "port": port, "id": id, "before": before.hex(), "after": after.hex()})

    def state(self, step):
        """As a report has it."""
        if step in self.told:
            return self.told[step]["outcome"]
        return "may be" if step == self.begun else "not asked"

    def place(self):
        return "ended" if self.end else "a step is begun" if self.begun is not None else "between steps"


class Runs:
    """Runs of the program in a state folder of their own, and what is counted of them."""

    def __init__(self, work, seed):
        self.work, self.chance = work, random.Random(seed)
        self.counts, self.places = Counter(), Counter()
        self.is_taken = False               # whether a clock took the step that is begun and not told

    def words(self):
        """The program, and the way."""
        raise NotImplementedError

    def journals(self):
        return set(glob.glob(os.path.join(self.work, "state/ptpm/apply/*.journal")))

    def start(self, words, **more):
        with open(os.path.join(self.work, "said"), "w") as said:
            return subprocess.Popen([*self.words(), "-w", "100", "-t", "40", *words], stdout=said, stderr=said,
                                    env={**environment(os.path.join(self.work, "state")), **more})

    def said(self):
        """What the latest run printed."""
        with open(os.path.join(self.work, "said")) as said:
            return said.read()

    def write_plan(self, lines):
        path = os.path.join(self.work, "plan.toml")
        with open(path, "w") as file:
            file.write("\n".join(["version = 1", *lines]) + "\n")
        return path

    def crash(self):
        """What is changed crashes, if it keeps what it has."""

    def check(self, journal):
        """The steps that are told are the first ones."""
        if sorted(journal.told) != list(range(len(journal.told))):
            raise Broken(f"told {sorted(journal.told)} of {len(journal.steps)}")

    def check_report(self, journal):
        """What the latest run printed of steps, if it came to that, is what the journal has. It may know that a step which is begun there was
        not sent."""
        report = re.split(r"^(?:apply|rollback) \S+: .*\n", self.said(), flags=re.M)[1:]
        for place, state in re.findall(r"^  (\d+) ([^:]+): ", "".join(report), re.M):
            is_unsent = state == "not asked" and journal.begun == int(place) - 1 and not self.is_taken
            if state != journal.state(int(place) - 1) and not is_unsent:
                raise Broken(f"step {place} is reported as {state}, and is {journal.state(int(place) - 1)}")
            self.counts["lines of reports"] += 1
        if STRANGER in self.said():
            raise Broken(f"no other program is there: {self.said()}")

    def check_marks(self):
        """One that ended may have been killed before it removed its marks."""
        for path in glob.glob(os.path.join(self.work, "state/ptpm/*.apply")):
            with open(path) as mark:
                if not Journal(mark.read().strip()).end:
                    raise Broken(f"{path} names an apply that is open")

    def check_end(self, journal):
        """It ends after its last step, or at the first that is refused."""
        is_refused = any(note["outcome"] != "done" for note in journal.told.values())
        is_over = is_refused or len(journal.told) == len(journal.steps)
        is_given_up = journal.end == "given up" and journal.is_let_go == (journal.begun is not None)
        if not is_given_up and (journal.begun is not None or journal.end != ("refused" if is_refused else "complete") or not is_over):
            raise Broken(f"it ended as {journal.end}, with {len(journal.told)} of {len(journal.steps)} told")
        self.check_marks()
        self.counts[journal.end] += 1
        self.counts["steps told"] += len(journal.told)

    def tell(self, began):
        counted = ", ".join(f"{what} {count}" for what, count in sorted(self.counts.items()))
        killed = ", ".join(f"{place} {count}" for place, count in sorted(self.places.items()))
        print(f"{counted}; killed at: {killed}; {time.monotonic() - began:.0f} s")
