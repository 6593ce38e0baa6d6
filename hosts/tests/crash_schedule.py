"""What happens in a run of hosts/tests/crashes, drawn by chance: requests, deliveries, observations, saves and crashes; and then a quiet
network in which nothing is lost any more."""
import struct

from crash_hosts import GIVES_UP, ptpm
from crash_model import (COMMAND, DISABLE_PORT, ENABLE_PORT, GET, MASTER, NULL_PTP_MANAGEMENT, OF_NO_PROFILE, OF_PORT, PORT_DATA_SET,
                         READ_OF_CLOCK, READ_OF_PORT, SET, SMALL, USER_DESCRIPTION, UTC_PROPERTIES, VERSION_NUMBER, WHOLE_CLOCK, Request,
                         observed, text_field)
from crash_network import HOPS, MOST_HOPS, READER, READER_IDENTITY, Origin, asks

CRASH, CRASH_UNSAVED = 0.04, 0.08
GOES_ON = 0.05
LATEST = 8
PRIORITY1, DOMAIN = 0x2005, 0x2007
FORWARDING, ANY_STATE = (5, MASTER, 8, 9), (1, 2, 4, 5, MASTER, 7, 8, 9)
ROUNDS = 6


# ---- requests

def draw_field(chance, id_):
    """The dataField of a SET, in its range for the most part."""
    if id_ == USER_DESCRIPTION:
        return text_field(bytes(chance.choices(b"abcdefgh", k=chance.choice((0, 1, 6, 128)))))
    if id_ == UTC_PROPERTIES:
        return struct.pack(">hBB", chance.randint(-99, 99), chance.randrange(8), 0)
    if id_ in SMALL:
        value = chance.choice(sorted(SMALL[id_].taken)) if chance.random() < 0.8 else chance.randrange(256)
        return bytes([value, 0]) + bytes(2 * (chance.random() < 0.05))
    return b""


def draw_request(chance, ports, free_ports, may_move):
    """A request that a clock carries out or refuses. One that would part the managers from a clock is none of them."""
    kind = chance.random()
    port = chance.randint(1, ports)
    if kind < 0.35:
        id_ = chance.choice((*READ_OF_CLOCK, *READ_OF_PORT, PRIORITY1, ENABLE_PORT, OF_NO_PROFILE))
        return Request(GET, id_, port if id_ in OF_PORT else 0, chance.choice((b"", b"", bytes(2))))
    if kind < 0.45 and free_ports:
        return Request(COMMAND, chance.choice((ENABLE_PORT, DISABLE_PORT, NULL_PTP_MANAGEMENT)), chance.choice(free_ports), b"")
    if kind < 0.5:
        id_ = chance.choice((PRIORITY1, VERSION_NUMBER, OF_NO_PROFILE, PORT_DATA_SET))
        return Request(chance.choice((SET, COMMAND)), id_, port if id_ in OF_PORT else 0, b"")
    ids = [PRIORITY1, PRIORITY1, USER_DESCRIPTION, UTC_PROPERTIES, NULL_PTP_MANAGEMENT, *SMALL]
    id_ = chance.choice([id_ for id_ in ids if may_move or id_ != DOMAIN])
    return Request(SET, id_, port if id_ in OF_PORT else 0, draw_field(chance, id_))


class Schedule:
    """Events by chance over a world."""

    def __init__(self, world):
        self.world, self.chance = world, world.chance
        self.is_row = world.wiring.is_row

    def free_ports(self, clock):
        """Ports that no message of another clock takes its way by."""
        return list(range(3 if self.is_row else 1, clock.ports + 1))

    def domain_of(self, session):
        return self.world.clocks[self.world.targets[session.number]].state.sets["domain"]

    def begin(self, session):
        if self.chance.random() < GOES_ON:
            self.world.go_on_with(session, self.chance.randint(HOPS, MOST_HOPS))
        clock = self.world.clocks[self.world.targets[session.number]]
        self.world.begin(session, draw_request(self.chance, clock.ports, self.free_ports(clock), not self.is_row))

    # ---- one event

    def step(self):
        kind = self.chance.random()
        if kind < 0.45 and self.world.frames:
            self.deliver()
        elif kind < 0.75:
            self.at_session(self.chance.choice(self.world.sessions))
        else:
            self.at_clock(self.chance.randrange(len(self.world.clocks)))

    def deliver(self):
        """One of the latest for the most part, or any."""
        count = len(self.world.frames)
        first = max(0, count - LATEST) if self.chance.random() < 0.8 else 0
        self.world.deliver(self.chance.randrange(first, count))

    def is_to_crash(self, host):
        """At any moment, and more often where something is unsaved."""
        return self.chance.random() < (CRASH_UNSAVED if host.is_unsaved else CRASH)

    def at_session(self, session):
        kind = self.chance.random()
        if self.is_to_crash(session):
            self.world.crash_session(session)
        elif session.to_tell and not session.is_unsaved:
            self.world.tell(session, session.tell_late())
        elif kind < 0.05:
            session.retune(self.chance.choice((self.domain_of(session), 0, 4)))
        elif GIVES_UP and session.asked is not None and kind < 0.08:
            self.world.give_up(session)
        elif session.domain != self.domain_of(session) and kind < 0.4:
            session.retune(self.domain_of(session))
        elif session.may_send and kind < 0.7:
            self.world.send(session)
        elif session.asked is None and (not session.is_unsaved or kind < 0.8):
            self.begin(session)
        elif session.is_unsaved:
            self.world.save_session(session, self.chance)

    def at_clock(self, number):
        kind, clock = self.chance.random(), self.world.clocks[number]
        if self.is_to_crash(clock):
            self.world.crash_clock(number)
        elif kind < 0.15:
            self.observe(number)
        elif kind < 0.3:
            self.read(number)
        elif kind < 0.45:
            self.world.hand_of_owner(number, draw_request(self.chance, clock.ports, self.free_ports(clock), not self.is_row))
        elif clock.is_unsaved and kind < 0.9:
            self.world.save_clock(number, self.chance)

    def read(self, number):
        clock = self.world.clocks[number]
        id_ = self.chance.choice((*WHOLE_CLOCK, PORT_DATA_SET))
        message = asks(READER_IDENTITY, clock.identity, clock.shown.sets["domain"], self.chance.randrange(65536), Request(GET, id_, 1, b""))
        self.world.post(READER, message, Origin(None, False))

    def observe(self, number):
        """Nothing is saved for an observation."""
        clock, chance = self.world.clocks[number], self.chance
        members = dict(steps_removed=chance.randrange(9), offset=chance.randint(-9, 9) << 16)
        of_library = dict(steps_removed=members["steps_removed"], offset_from_master=members["offset"])
        if chance.random() < 0.3:
            members["clock_accuracy"] = of_library["clock_accuracy"] = chance.choice((0x20, 0x25, 0xFE))
        ports = {port: (chance.choice(ANY_STATE if port in self.free_ports(clock) else FORWARDING), chance.randint(-9, 9))
                 for port in range(1, chance.randint(0, clock.ports) + 1)}
        places = [ptpm.ObservedPort(state=state, peer_delay=delay) for state, delay in ports.values()]
        clock.observe(ptpm.ObservedClock(**of_library), places, lambda sets: observed(sets, members, ports))
        self.world.judge_sets(number)
        self.world.counts["observations"] += 1

    # ---- the quiet end

    def save_all(self):
        for number, clock in enumerate(self.world.clocks):
            if clock.is_unsaved:
                self.world.save_clock(number, None)
        for session in self.world.sessions:
            if session.is_unsaved:
                self.world.save_session(session, None)
            self.world.tell(session, session.tell_late())

    def deliver_all(self):
        """All that never came in, and what comes of it."""
        place = 0
        while place < len(self.world.frames):
            if place not in self.world.came_in:
                self.world.deliver(place)
                self.save_all()
            place += 1

    def answer_all(self):
        self.save_all()
        self.deliver_all()
        for _ in range(ROUNDS):
            for session in self.world.sessions:
                session.retune(self.domain_of(session))
                if session.asked is not None:
                    self.world.send(session)
            self.deliver_all()

    def run(self, steps):
        for _ in range(steps):
            self.step()
        self.answer_all()
        for session in self.world.sessions:
            if session.asked is None:
                self.begin(session)
        self.answer_all()
        self.world.judge_end()
