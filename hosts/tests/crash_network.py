"""Clocks, sessions and a reader over a network in memory, for hosts/tests/crashes. Each datagram that was ever sent may come in, often,
late, in any order, or never. What the library does is held against the model; and what managers were told and the reader read against what
the clocks have after all."""
import struct
from collections import Counter
from typing import NamedTuple, Optional

from crash_hosts import ATTEMPTS, ClockHost, SessionHost, Waiting, ptpm
from crash_model import CLOCK_SET, GET, NEW, PORT_COMMAND, PORT_DATA_SET, PORT_SET, REPEAT, UNNUMBERED, WHOLE_CLOCK, Answer, Asked, field_of

READER = "reader"                               # an end of a link
READER_IDENTITY = bytes([0x0A, 0x0B, 0x0C, 0xFF, 0xFE, 0x0D, 0x0E, 0x0F, 0, 1])
OWNER, OWNER_IDENTITY = "owner", bytes([0x0A, 0x0B, 0x0C, 0xFF, 0xFE, 0x0D, 0x0E, 0x10, 0, 1])
EVERY_RIGHT, OBJECTS, MADE_AGAIN = CLOCK_SET | PORT_SET | PORT_COMMAND, 0.1, 0.3
HOPS = 3
LEAST_HOPS, MOST_HOPS = 2, 8                    # of a row of three clocks two pass a message on


class Broken(Exception):
    """The library is not what the model says: nothing after that can be judged."""


class Origin(NamedTuple):
    """What a datagram has to do with: a manager's request, or none if it is the reader's; and what a reply to the reader shows, a clock
    with the requests that it had accepted."""

    asked: Optional[Asked]
    is_reply: bool
    clock: Optional[int] = None
    shown: tuple = ()


class Frame(NamedTuple):
    """A datagram on its way to one end: a port (a clock and its number), a session (its number), or the reader."""

    octets: bytes
    end: object
    origin: Origin


class Wiring(NamedTuple):
    """The ends of each link. Either all are on one, or the clocks are in a row and pass messages on."""

    links: list
    is_row: bool

    def others(self, end):
        return [other for link in self.links if end in link for other in link if other != end]


def draw_wiring(chance, ports, sessions):
    """Ports get more, where a row needs two at a clock."""
    if chance.random() < 0.6:
        return Wiring([[(i, 1) for i in range(len(ports))] + list(range(sessions)) + [READER]], False)
    ports[:] = [max(count, 2) for count in ports]
    links = [[READER, (0, 1)]] + [[(i - 1, 2), (i, 1)] for i in range(1, len(ports))] + [[(len(ports) - 1, 2)]]
    for number in range(sessions):
        chance.choice(links).append(number)
    return Wiring(links, True)


def answer_in(octets):
    """What a RESPONSE or an ACKNOWLEDGE says (15.5.3, 15.5.4)."""
    if octets[49] == 2:
        return Answer(None, int.from_bytes(octets[52:54], "big"))
    return Answer(None if octets[46] & 15 == 4 else octets[54:])


def asks(source, identity, domain, number, request):
    """A request of a clock (13.3, 15.4)."""
    field = request.field
    head = b"\x0d\x12" + struct.pack(">HB", 54 + len(field), domain) + bytes(15) + source + struct.pack(">HBB", number, 4, 0x7F)
    return head + identity + struct.pack(">HBBBBHHH", request.port or 0xFFFF, HOPS, HOPS, request.action, 0, 1, 2 + len(field), request.id) + field


class World:
    """All of it, as it is at one moment."""

    def __init__(self, chance, planted=None):
        self.chance, self.wrong, self.counts = chance, [], Counter()
        self.frames, self.came_in = [], set()
        ports = [chance.randint(1, 3) for _ in range(chance.randint(1, 3))]
        owners = self.draw_sessions(len(ports))
        self.wiring = draw_wiring(chance, ports, len(self.targets))
        self.rights = [chance.choice((7, 7, 7, CLOCK_SET, PORT_SET | PORT_COMMAND, 0)) for _ in self.targets]
        names = [ptpm.PortIdentity(ptpm.Identity(bytes([2, 0, 0, 0xFF, 0xFE, 0, 0, 16 + i])), 1) for i in owners]
        identities = [bytes([0xAA, 0xBB, 0xCC, 0xFF, 0xFE, 0, 0, i + 1]) for i in range(len(ports))]
        self.clocks = [ClockHost(identity, count, self.managers_of(i, names), chance.choice((LEAST_HOPS, HOPS, MOST_HOPS)), planted)
                       for i, (identity, count) in enumerate(zip(identities, ports))]
        self.sessions = [SessionHost(i, self.settings(names[i], self.clocks[target]), planted) for i, target in enumerate(self.targets)]
        self.replied = {}                       # what left first in reply to each request
        self.read = [()] * len(ports)           # the requests of each clock that the reader saw the effect of

    def draw_sessions(self, clocks):
        """One to three managers, each with one to all of the clocks, and a session for each: whose they are. Their targets are theirs."""
        self.managers = self.chance.randint(1, 3)
        pairs = [(manager, target) for manager in range(self.managers)
                 for target in self.chance.sample(range(clocks), self.chance.randint(1, clocks))]
        self.targets = [target for _, target in pairs]
        return [manager for manager, _ in pairs]

    def managers_of(self, clock, names):
        """The managers of a clock with their rights. It knows the others too, with all rights, and is never asked by them."""
        rights = dict.fromkeys(names, 7)
        rights.update((name, had) for name, had, target in zip(names, self.rights, self.targets) if target == clock)
        return [ptpm.Manager(name, ptpm.Rights(had)) for name, had in rights.items()]

    def settings(self, name, clock):
        first = self.chance.choice((0, 7, 32760, 65530, self.chance.randrange(65536)))
        return ptpm.SessionSettings(name, ptpm.Identity(clock.identity), first, hops=HOPS, attempts=ATTEMPTS,
                                    target_ports=clock.ports)

    def note(self, holds, kind, what):
        """A promise that does not hold is wrong."""
        if not holds:
            self.wrong.append((kind, " ".join(map(str, what))))

    def need(self, holds, *what):
        """Where the library is not as the model, the run ends."""
        if not holds:
            raise Broken(" ".join(map(str, what)))

    # ---- datagrams

    def post(self, end, octets, origin):
        """What leaves at an end is there for each other end of its link. What is for others is there too, but hardly, where nobody
        passes it on."""
        for other in self.wiring.others(end):
            is_to_pass = self.wiring.is_row and isinstance(other, tuple)
            if is_to_pass or octets[34:34 + len(self.name_of(other))] == self.name_of(other) or self.chance.random() < 0.1:
                self.frames.append(Frame(octets, other, origin))
        self.counts["datagrams"] += 1
        if origin.is_reply and origin.asked:
            answer = answer_in(octets)
            before = self.replied.setdefault(origin.asked, answer)
            self.note(before == answer, "one request has two replies", (origin.asked, before, answer))

    def name_of(self, end):
        """What the target of a message for this end begins with."""
        if end == READER:
            return READER_IDENTITY
        if isinstance(end, tuple):
            return self.clocks[end[0]].identity
        manager = self.sessions[end].settings.manager
        return manager.clock.octets + manager.port.to_bytes(2, "big")

    def deliver(self, place):
        frame = self.frames[place]
        self.counts["deliveries"] += 1
        self.counts["copies of what had come in"] += place in self.came_in
        self.came_in.add(place)
        if frame.end == READER:
            if frame.octets[34:44] == READER_IDENTITY and frame.origin.is_reply:
                self.read_by_reader(frame)
        elif isinstance(frame.end, int):
            self.hear(self.sessions[frame.end], frame)
        else:
            self.turn(*frame.end, frame)

    def read_by_reader(self, frame):
        clock, shown = frame.origin.clock, frame.origin.shown
        stands = self.clocks[clock].state.accepted[:len(shown)] == shown
        self.note(stands, "what was read is gone", ("clock", clock, "showed", shown[-1:]))
        if stands and len(shown) > len(self.read[clock]):
            self.read[clock] = shown

    # ---- a clock

    def turn(self, number, port, frame):
        """What a clock makes of a datagram: as the model says."""
        host, asked = self.clocks[number], frame.origin.asked
        is_request = asked is not None and not frame.origin.is_reply and self.targets[asked.manager] == number
        wanted = host.state.verdict(asked, frame.octets[4]) if is_request else None
        say = ptpm.Objection.NOT_SETABLE if wanted == NEW and self.chance.random() < OBJECTS else None
        was_unsaved, taken = host.is_unsaved, host.take(port, frame.octets, say)
        if taken is None:
            self.counts["requests without a place"] += 1
            return
        found = taken.answer.name
        self.counts[f"answers {found}"] += 1
        self.need(found == wanted if wanted else found not in (NEW, REPEAT), "clock", number, "makes", found, "of", asked, "not", wanted)
        if wanted == NEW:
            self.note(asked not in self.replied, "a request is carried out twice", ("clock", number, asked))
            host.go_on_as(host.state.after(asked, self.rights[asked.manager], say and int(say)), was_unsaved)
        kept = host.state.latest(asked.manager).answer if wanted in (NEW, REPEAT) else None
        self.give_out(number, taken, frame.origin, asked if kept else None, kept)
        self.judge_sets(number)

    def give_out(self, number, taken, origin, asked, answer):
        """Sends the messages of a turn, or has them wait."""
        host = self.clocks[number]
        if taken.waiting:
            self.counts["messages that waited"] += taken.waiting
            host.asking.append(Waiting(asked, answer, taken.waiting))
        if asked and taken.messages:
            self.judge_reply(host, asked, answer, taken.messages)
        for _, octets in taken.messages if asked is None else ():
            self.judge_shown(host, octets)
        self.leave(number, [(at, octets, self.origin_of(octets, number, origin)) for at, octets in taken.messages])

    def judge_shown(self, host, octets):
        """The reader is answered by what is shown."""
        if octets[20:28] == host.identity and octets[34:44] == READER_IDENTITY:
            id_, port = int.from_bytes(octets[52:54], "big"), int.from_bytes(octets[28:30], "big")
            self.need(octets[54:] == field_of(host.shown.sets, id_, port), "the reader is shown what is not saved", octets.hex())

    def hand_of_owner(self, number, request):
        """The owner's request is answered as that of a manager with every right, and nothing of it is kept."""
        host = self.clocks[number]
        asked = Asked(OWNER, host.owner_asked, request)
        message = asks(OWNER_IDENTITY, host.identity, host.state.sets["domain"], host.owner_asked, request)
        was_unsaved, taken = host.is_unsaved, host.take(1, message, None, True)
        if taken is None:
            return
        self.counts["requests of owners"] += 1
        host.owner_asked += 1
        wanted = UNNUMBERED if request.action == GET else NEW
        self.need(taken.answer.name == wanted, "the owner of clock", number, "is answered", taken.answer.name)
        after = host.state.after(asked, EVERY_RIGHT)
        if request.action != GET:
            host.go_on_as(after, was_unsaved)
        self.give_out(number, taken, Origin(asked, True), asked, after.accepted[-1].answer)
        self.judge_sets(number)

    def release(self, number, messages):
        """What leaves once it is saved goes to those who waited for it, in their order."""
        host, messages = self.clocks[number], list(messages)
        while messages and host.asking:
            waiting = host.asking.pop(0)
            made, messages = messages[:waiting.count], messages[waiting.count:]
            self.need(len(made) == waiting.count, "a part of the messages leaves to", waiting.asked)
            self.judge_reply(host, waiting.asked, waiting.answer, made)
            self.leave(number, [(at, octets, Origin(waiting.asked, True)) for at, octets in made])
        self.need(not messages, "clock", number, "sends what nobody waits for")

    def origin_of(self, octets, number, origin):
        """A message is the clock's own, or passed on."""
        host = self.clocks[number]
        if octets[20:28] != host.identity:
            return origin
        return Origin(origin.asked, True, *(() if origin.asked else (number, host.shown.accepted)))

    def judge_reply(self, host, asked, kept, made):
        """One reply, and it is the one of the time when the request was carried out."""
        own = [answer_in(octets) for _, octets in made if octets[20:28] == host.identity]
        self.need(own == [kept], asked, "is answered", own, "and not", kept)
        if asked.manager == OWNER and asked.request.action != GET:
            host.owner_told.append((asked, kept))

    def judge_sets(self, number):
        """The data sets that are shown are those that the requests make that count as saved, each once and in this order."""
        host = self.clocks[number]
        for id_, port in [(id_, 0) for id_ in WHOLE_CLOCK] + [(PORT_DATA_SET, i + 1) for i in range(host.ports)]:
            found, wanted = host.clock.read(id_, port), field_of(host.shown.sets, id_, port)
            if found != wanted:
                raise Broken(f"clock {number} has {found.hex()} at {id_:04x}, and not {wanted.hex()}: {host.shown.accepted}")

    def leave(self, number, messages):
        for port, octets, origin in messages:
            if octets[34:44] != OWNER_IDENTITY:
                self.post((number, port), octets, origin)

    def save_clock(self, number, chance):
        """A step of a save: an image is made, or stored, or confirmed. Without chance all of them. One that was made before may be
        confirmed late."""
        host = self.clocks[number]
        late = host.save
        if late is None or chance and chance.random() < MADE_AGAIN:
            host.make_image()
            if late and late.is_saved and late.token != host.save.token:
                self.confirm_late(number, late)
        elif late.is_saved is None:
            self.counts["saves of clocks"] += 1
            host.store(chance)
            self.counts["saves that failed"] += not host.save.is_saved
        elif late.is_saved:
            self.confirm(number, late)
        else:
            host.save = None
        if chance is None and host.is_unsaved:
            self.save_clock(number, None)

    def confirm(self, number, save):
        self.release(number, self.clocks[number].confirm(save))
        self.judge_sets(number)

    def confirm_late(self, number, save):
        """The word that an earlier image is saved does not count."""
        self.counts["earlier images"] += 1
        try:
            self.confirm(number, save)
        except ptpm.Error as refused:
            self.need(refused.name == "OTHER_IMAGE", "an earlier image is refused with", refused.name)

    def crash_clock(self, number):
        self.counts["crashes of clocks"] += 1
        self.counts["changes that were lost unsaved"] += self.clocks[number].is_unsaved
        messages, asking = self.clocks[number].crash()
        for waiting in asking if messages else ():
            made, messages = messages[:waiting.count], messages[waiting.count:]
            self.leave(number, [(at, octets, Origin(waiting.asked, True)) for at, octets in made])
        self.judge_restart(number)

    def judge_restart(self, number):
        """Nothing is gone of what was reported or read."""
        self.judge_sets(number)
        accepted = self.clocks[number].state.accepted
        shown = self.read[number]
        self.note(accepted[:len(shown)] == shown, "what was read is gone", ("clock", number, "showed", shown[-1:]))
        for session in self.sessions:
            for told in session.told if self.targets[session.number] == number else ():
                self.note(told in accepted, "what was reported is gone", ("clock", number, told))
        for told in self.clocks[number].owner_told:
            self.note(told in accepted, "what the owner was told is gone", ("clock", number, told))

    # ---- a session

    def hear(self, session, frame):
        wanted = frame.origin.is_reply and frame.origin.asked is not None and frame.origin.asked is session.asked
        asked = session.asked
        is_taken, told = session.take(frame.octets)
        self.need(is_taken or not wanted or frame.octets[4] != session.domain, "the answer is not taken to", asked)
        self.note(wanted or not is_taken, "the answer to another request is taken", (frame.origin.asked, "for", asked))
        self.judge_session(session)
        self.tell(session, told)

    def judge_session(self, session):
        issued, wanted = session.session.issued, len(session.state.begun) - session.state.earlier
        self.need(issued == wanted, "session", session.number, "has begun", issued, "requests, and not", wanted)
        self.need(session.session.is_busy() == session.state.is_under_way, "session", session.number, "is busy or idle, and should not be")

    def tell(self, session, told):
        """What the owner is told was carried out once at the clock, and is no other than before."""
        if told is None:
            return
        accepted = self.clocks[self.targets[session.number]].state.accepted
        self.counts["reports"] += 1
        self.counts["reports that came again"] += told in session.told
        self.note(accepted.count(told) == 1, "what is reported was not carried out so", told)
        others = [before for before in session.told if before[0] is told[0] and before != told]
        self.note(not others, "one request has two reports", (told, others))
        session.told.append(told)

    def go_on_with(self, session, hops):
        session.go_on_with(hops)
        self.counts["sessions that went on at their next number"] += 1

    def begin(self, session, request):
        session.begin(request)
        self.judge_session(session)
        self.counts["requests"] += 1

    def send(self, session):
        octets = session.send()
        number = (session.settings.first + session.asked.index - session.state.earlier - 1) % 65536
        self.need(int.from_bytes(octets[30:32], "big") == number, session.asked, "has another number than", number)
        self.post(session.number, octets, Origin(session.asked, False))

    def give_up(self, session):
        session.give_up()
        self.judge_session(session)
        self.counts["requests that were given up"] += 1

    def save_session(self, session, chance):
        self.counts["saves of sessions"] += 1
        session.save(chance)
        self.counts["saves that failed"] += session.is_unsaved

    def crash_session(self, session):
        self.counts["crashes of sessions"] += 1
        session.crash()
        self.judge_session(session)

    # ---- after all

    def judge_end(self):
        """Each request that stands was answered, and carried out once, in the order of its manager. One that was given up may have been."""
        for number in range(len(self.clocks)):
            self.judge_restart(number)
        for session in self.sessions:
            accepted = self.clocks[self.targets[session.number]].state.accepted
            own = tuple(one.asked for one in accepted if one.asked.manager == session.number)
            told = {asked for asked, _ in session.told}
            self.note(not session.state.is_under_way, "a request is never answered", (session.asked,))
            silent = [asked for asked in own if asked not in told | session.state.let_go and asked is not session.asked]
            self.note(not silent, "a request is never reported", silent)
            wanted = tuple(asked for asked in session.state.begun if asked in own or asked not in session.state.let_go)
            self.note(own == wanted, "other requests are carried out than were asked", (own, "and not", wanted))
