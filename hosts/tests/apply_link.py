"""The manager's end of the network of hosts/tests/apply. This process moves its frames. It may lose and repeat them, and swap two of one
way. It may do something before a request passes on."""
import os
import random
import select
import threading
import time
from collections import namedtuple

GET, SET = 0, 1
HEADERS = 42                        # of Ethernet, IPv4 and UDP
LONGEST_HELD = 0.05                 # a frame waits this many seconds at most for the one that overtakes it

# What becomes of frames, as parts of one.
Troubles = namedtuple("Troubles", "loss repeat swap")
NO_TROUBLES = Troubles(0, 0, 0)


class Request:
    """A management message for the clocks, of the frame that has it."""

    def __init__(self, frame):
        message = frame[HEADERS:]
        self.whole = len(frame) - HEADERS
        self.source = f"{message[20:28].hex()}/{int.from_bytes(message[28:30], 'big')}"
        self.number = int.from_bytes(message[30:32], "big")
        self.target = message[34:42].hex()
        self.action = message[46] & 15
        self.id = int.from_bytes(message[52:54], "big")
        self.field = message[54:]

    def content(self):
        """What copies of it have in common."""
        return self.number, self.action, self.id, self.field


def request_of(frame):
    """The request in a frame, or None."""
    is_udp = frame[12:14] == b"\x08\x00" and frame[23] == 17 and frame[36:38] == b"\x01\x40"
    is_request = is_udp and len(frame) >= HEADERS + 54 and frame[HEADERS] & 15 == 13 and frame[HEADERS + 46] & 15 in (0, 1, 3)
    return Request(frame) if is_request else None


class Way:
    """Frames that go to one end. One at a time is held until the next has passed."""

    def __init__(self, end, troubles, seed):
        self.end, self.troubles, self.chance = end, troubles, random.Random(seed)
        self.held, self.held_until = None, 0.0
        self.counts = {"frames": 0, "lost": 0, "repeated": 0, "swapped": 0}

    def happens(self, part, what):
        does = self.chance.random() < part
        self.counts[what] += does
        return does

    def pass_on(self, frame):
        self.counts["frames"] += 1
        if self.happens(self.troubles.loss, "lost"):
            return
        copies = 1 + self.happens(self.troubles.repeat, "repeated")
        is_held = self.held is None and self.happens(self.troubles.swap, "swapped")
        for _ in range(copies - is_held):
            self.write(frame)
        if is_held:
            self.held, self.held_until = frame, time.monotonic() + LONGEST_HELD
        else:
            self.release()

    def write(self, frame):
        try:
            os.write(self.end, frame)
        except OSError:                     # the end is down
            self.counts["lost"] += 1

    def release(self):
        if self.held is not None:
            self.write(self.held)
        self.held = None

    def release_late(self):
        if self.held is not None and time.monotonic() > self.held_until:
            self.release()


class Middle(threading.Thread):
    """Moves frames between the manager's end and the first link."""

    def __init__(self, near, far, troubles, seed):
        super().__init__(daemon=True)
        self.near, self.far = near, far
        self.to_clocks, self.to_manager = (Way(end, troubles or NO_TROUBLES, 2 * seed + way) for way, end in enumerate((far, near)))
        self.is_mute = self.is_cut = False  # answers are lost; all is
        self.hushed = None                  # the identity of a clock whose answers are lost, to one id or (empty) to all,
        self.hushed_for = 0.0               # and for how many seconds from the next request on
        self.hushed_until = 0.0
        self.dead = set()                   # the identities of clocks to which no request passes, and from which no answer does
        self.before = None                  # called with each request before it passes on
        self.is_over = False

    def ask(self, frame):
        request = request_of(frame)
        if request is not None and self.before is not None:
            self.before(request)
        if request is not None and self.hushed is not None and not self.hushed_until:
            self.hushed_until = time.monotonic() + self.hushed_for
        if not self.is_cut and (request is None or request.target not in self.dead):
            self.to_clocks.pass_on(frame)

    def hush(self, identity, seconds, id):
        self.hushed, self.hushed_for, self.hushed_until = (bytes.fromhex(identity), bytes.fromhex(id)), seconds, 0.0

    def is_hushed(self, frame):
        if frame[HEADERS + 20:HEADERS + 28].hex() in self.dead:
            return True
        is_of_id = time.monotonic() < self.hushed_until and frame[HEADERS + 52:HEADERS + 54].startswith(self.hushed[1])
        return is_of_id and frame[HEADERS + 20:HEADERS + 28] == self.hushed[0]

    def run(self):
        while not self.is_over:
            for end in select.select([self.near, self.far], [], [], LONGEST_HELD / 2)[0]:
                frame = os.read(end, 2048)
                if end == self.near:
                    self.ask(frame)
                elif not self.is_mute and not self.is_cut and not self.is_hushed(frame):
                    self.to_manager.pass_on(frame)
            self.to_clocks.release_late()
            self.to_manager.release_late()

    def end(self):
        self.is_over = True
        self.join()
        os.close(self.near)
        os.close(self.far)
