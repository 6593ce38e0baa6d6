"""A clock and a session over the library as a host has them that saves and loses its power, for hosts/tests/crashes. The clock takes
datagrams while it is saved, and what shows a change waits for that. With each state goes its state in the model, also into the storage.
Hosts that break one rule each are planted ones."""
import dataclasses
import sys
from enum import Enum
from pathlib import Path
from typing import NamedTuple, Optional

sys.path.insert(0, str(Path(__file__).resolve().parents[2] / "bindings/python"))
import ptpm  # noqa: E402
from ptpm import HandleAnswer, SessionAnswer  # noqa: E402
from ptpm import _header as header  # noqa: E402
from ptpm.requests import Requests  # noqa: E402

from crash_model import DEFAULT_DATA_SET, GET, Answer, Asked, ClockState, ManagerState, start  # noqa: E402

SAVE_FAILS, SAVE_LIES = 0.2, 0.3
PLACES = 12                                     # of messages that wait for a save: a clock of three ports sends five at most
STARTING_HOPS_AT, HOPS_AT = 44, 45
GIVES_UP = hasattr(Requests, "give_up")         # if the library lets requests go
LIBRARY_SAVES = hasattr(ptpm.SavingClock, "take")       # and has a clock that takes datagrams while it is saved
ATTEMPTS = 3


class Planted(Enum):
    """Hosts that break a rule. Each is caught, or the rule is not needed."""

    CLOCK_SENDS_FIRST = "a clock's messages leave before its save"
    SESSION_SENDS_FIRST = "a request leaves before its save"
    CLOCK_SAVE_LIES = "a clock's save says it is done, and the old image stays"
    SESSION_SAVE_LIES = "a session's save says it is done, and the old image stays"
    CLOCK_LEAVES_GETS_OUT = "a clock saves nothing for a GET"
    SESSION_LEAVES_GETS_OUT = "a session saves nothing before a GET"
    CLOCK_SAVES_CHANGES_ALONE = "a clock saves only if a member changed"
    FAILED_SAVE_IS_DONE = "a clock takes a save that failed for one that is done"
    STRANGERS_SEE_LIVE = "others than managers are shown what is not saved"
    REPEAT_AT_ONCE = "a repeat is answered while something is unsaved"
    SAVE_GIVES_ALL = "a save also gives out what came after its image"
    ANY_TOKEN = "the word that an earlier image is saved counts for a later one"
    OBSERVED_LIVE_ALONE = "what is observed while something is unsaved is not shown"
    COPY_IS_NOT_OBSERVED = "what is observed during a save is not shown after it"
    IMAGE_OF_SHOWN = "an image has what is shown"
    REST_COUNTS_AS_SAVED = "what came after an image counts as saved with it"
    SHOWN_IS_LIVE = "a save shows all that came, also after its image"
    OWNER_AT_ONCE = "the owner is answered before a save"
    OWNER_IS_NO_CHANGE = "nothing is saved for the owner"
    OBJECTION_NOT_KEPT = "a request to which the device objected is not kept"
    SENDS_AFTER_A_RESTART = "what waited for a save leaves after a restart"
    SAVES_BEFORE_IT_REPORTS = "a session saves an answer before it reports it"
    CLOCK_STARTS_FRESH = "a clock starts afresh after a restart"
    SESSION_STARTS_FRESH = "a session starts afresh after a restart"


class Storage:
    """What non-volatile storage has of a clock or session, and what a loss of power leaves of that. A save that fails may have been made
    all the same, and may be gone again with the power."""

    def __init__(self, held):
        self.held = self.durable = held

    def save(self, held, chance, is_lying):
        """Whether it says that it is saved. Without chance nothing goes wrong."""
        if is_lying and chance and chance.random() < SAVE_LIES:
            return True
        if chance and chance.random() < SAVE_FAILS:
            self.held = chance.choice((self.held, held))
            self.durable = chance.choice((self.durable, self.held))
            return False
        self.held = self.durable = held
        return True

    def lose_power(self):
        self.held = self.durable
        return self.held


def with_fewer_hops(octets, most):
    """What came in, with boundaryHops of this many at most, and startingBoundaryHops lowered by as much: as ptpm-clock has it."""
    less = octets[HOPS_AT] - most
    if less <= 0:
        return octets
    return octets[:STARTING_HOPS_AT] + bytes([max(octets[STARTING_HOPS_AT] - less, 0), most]) + octets[HOPS_AT + 1:]


class Taken(NamedTuple):
    """What became of a datagram, and how many of its messages wait."""

    answer: object
    messages: list
    changed: object
    waiting: int = 0


class Batch:
    """What ptpm.SavingClock does, over clocks that send at once, and with one rule less if it is a planted one."""

    def __init__(self, clock, restored, managers, is_saved, planted):
        self.live, self.restored, self.managers, self.planted = clock, restored, managers, planted
        self.shown, self.copied = self.copy(), None
        self.changes, self.confirmed, self.token = 0, 0 if is_saved else -1, None
        self.waiting, self.first = [], 0

    def close(self):
        for clock in filter(None, (self.live, self.shown, self.copied)):
            clock.close()

    def copy(self, managers=None):
        return self.restored(self.live.image(), self.managers if managers is None else managers)

    def show(self, clock):
        self.shown.close()
        self.shown = clock

    def is_unsaved(self):
        return self.changes != self.confirmed

    def is_numbered(self, octets):
        sources = [one.identity.clock.octets + one.identity.port.to_bytes(2, "big") for one in self.managers]
        return octets[34:42] == self.live.read(DEFAULT_DATA_SET)[10:18] and octets[20:30] in sources

    def take(self, port, octets, say=None, of_owner=False):
        is_held = of_owner or self.is_numbered(octets)
        if self.confirmed < 0 or is_held and len(self.waiting) + self.live.most_sent() > PLACES:
            raise ptpm.Error(header.PTPM_UNSAVED)
        if not is_held:
            handled = (self.live if self.planted is Planted.STRANGERS_SEE_LIVE else self.shown).handle(port, octets)
            return Taken(handled.answer, handled.messages, handled.changed)
        before = None if self.is_unsaved() else self.copy()
        handled = self.take_of_owner(port, octets) if of_owner else self.take_of_manager(port, octets, say)
        is_new = handled.answer == HandleAnswer.ANSWERED_NEW and not self.is_left_out(handled, octets[46] == GET, of_owner)
        self.changes += is_new
        if before is not None:
            self.show(before if is_new else self.copy())
        leaves_first = (self.planted is Planted.CLOCK_SENDS_FIRST or self.planted is Planted.OWNER_AT_ONCE and of_owner
                        or self.planted is Planted.REPEAT_AT_ONCE and not is_new)
        if not self.is_unsaved() or leaves_first:
            return Taken(handled.answer, handled.messages, handled.changed)
        self.waiting += handled.messages
        return Taken(handled.answer, [], handled.changed, len(handled.messages))

    def is_left_out(self, handled, is_get, of_owner):
        """Whether a turn has changed nothing that is to be saved."""
        return (of_owner and is_get or self.planted is Planted.OWNER_IS_NO_CHANGE and of_owner
                or self.planted is Planted.CLOCK_LEAVES_GETS_OUT and is_get
                or self.planted is Planted.CLOCK_SAVES_CHANGES_ALONE and not handled.changed)

    def take_of_manager(self, port, octets, say):
        if say is None or self.planted is not Planted.OBJECTION_NOT_KEPT:
            return self.live.handle(port, octets, say)
        with self.copy() as other:
            return other.handle(port, octets, say)

    def take_of_owner(self, port, octets):
        """Another clock, whose one manager is the owner, judges it and makes the answer."""
        owner = ptpm.Manager(ptpm.PortIdentity(ptpm.Identity(octets[20:28]), int.from_bytes(octets[28:30], "big")), ptpm.Rights(7))
        with self.copy([owner]) as other:
            asked = other.ask(port, octets)
            handled = other.handle(port, octets)
        if asked is not None and asked.action != GET:
            self.live.set(asked.action, asked.id, asked.port, asked.octets)
        return dataclasses.replace(handled, answer=HandleAnswer.ANSWERED_UNNUMBERED) if octets[46] == GET else handled

    def observe(self, members, ports):
        kept = {Planted.OBSERVED_LIVE_ALONE: self.shown if self.is_unsaved() else None, Planted.COPY_IS_NOT_OBSERVED: self.copied}
        for clock in (self.live, self.shown, self.copied):
            if clock is not None and clock is not kept.get(self.planted):
                clock.observe(members, ports)

    def read(self, named, port):
        return self.shown.read(named, port)

    def image(self):
        if self.copied is not None:
            self.copied.close()
        self.copied, self.token, self.first = self.copy(), self.changes, len(self.waiting)
        return (self.shown if self.planted is Planted.IMAGE_OF_SHOWN else self.live).image(), self.token

    def saved(self, token):
        if token != self.token and self.planted is not Planted.ANY_TOKEN:
            raise ptpm.Error(header.PTPM_OTHER_IMAGE)
        gives_all = self.planted is Planted.SAVE_GIVES_ALL or self.changes == self.token
        self.confirmed = self.changes if self.planted is Planted.REST_COUNTS_AS_SAVED else self.token
        count = len(self.waiting) if gives_all else self.first
        leaving, self.waiting, self.first = self.waiting[:count], self.waiting[count:], 0
        is_all = not self.is_unsaved() or self.planted is Planted.SHOWN_IS_LIVE
        if is_all or self.copied is not None:
            self.show(self.copy() if is_all else self.copied)
            self.copied = None
        return ptpm.Saved(leaving, False)


class Waiting(NamedTuple):
    """A request whose messages wait, what it is to be answered, and how many messages these are."""

    asked: Asked
    answer: Answer
    count: int


class Save(NamedTuple):
    """An image with its token, what the model has of it, and what storing it came to: nothing yet, or whether it is saved."""

    image: bytes
    token: int
    state: ClockState
    is_saved: Optional[bool] = None


class ClockHost:
    """A clock with its storage, and who waits for a save. No message that comes in keeps more hops than these."""

    def __init__(self, identity, ports, managers, hops, planted):
        self.identity, self.ports, self.managers, self.hops, self.planted = identity, ports, managers, hops, planted
        self.begin_fresh()
        image, token = self.clock.image()
        self.storage = Storage((image, self.state))
        self.clock.saved(token)
        self.owner_asked, self.owner_told = 0, []

    def begin(self, clock, state, is_saved):
        self.clock = Batch(clock, self.restored, self.managers, is_saved, self.planted) if self.planted or not LIBRARY_SAVES \
            else ptpm.SavingClock(clock, PLACES)
        self.state = self.shown = self.copied = state
        self.asking, self.save = [], None

    def begin_fresh(self):
        settings = ptpm.ClockSettings(ptpm.Identity(self.identity))
        self.begin(ptpm.Clock(settings, [ptpm.PortSettings()] * self.ports, self.managers), ClockState(start(self.identity, self.ports)), False)

    def restored(self, image, managers):
        return ptpm.Clock.restore(ptpm.Identity(self.identity), self.ports, managers, image)[0]

    @property
    def is_unsaved(self):
        return self.clock.is_unsaved()

    def take(self, port, octets, say=None, of_owner=False):
        """What became of a datagram; None where its messages would have no place."""
        try:
            return self.clock.take(port, with_fewer_hops(octets, self.hops), say, of_owner)
        except ptpm.Error as refused:
            assert refused.name == "UNSAVED", refused.name
            return None

    def go_on_as(self, state, was_unsaved):
        """The model after a request. What is shown stays while something is unsaved."""
        if not was_unsaved:
            self.shown = self.state
        self.state = state
        if not self.is_unsaved:
            self.shown = state

    def observe(self, members, ports, in_model):
        self.clock.observe(members, ports)
        self.state, self.shown, self.copied = (state._replace(sets=in_model(state.sets)) for state in (self.state, self.shown, self.copied))

    def make_image(self):
        """An image is made. The one before it counts no more."""
        self.save, self.copied = Save(*self.clock.image(), self.state), self.state

    def store(self, chance):
        is_lying = self.planted is Planted.CLOCK_SAVE_LIES
        is_saved = self.storage.save((self.save.image, self.save.state), chance, is_lying)
        self.save = self.save._replace(is_saved=is_saved or self.planted is Planted.FAILED_SAVE_IS_DONE)

    def confirm(self, save):
        """What leaves once this image is saved."""
        leaving = self.clock.saved(save.token).messages
        self.shown = self.copied if self.is_unsaved else self.state
        self.save = None
        return leaving

    def crash(self):
        """What leaves after a restart: nothing."""
        image, state = self.storage.lose_power()
        leaving = self.clock.waiting if self.planted is Planted.SENDS_AFTER_A_RESTART else []
        asking = self.asking
        self.clock.close()
        if self.planted is Planted.CLOCK_STARTS_FRESH:
            self.begin_fresh()
            self.clock.saved(self.clock.image()[1])
        else:
            self.begin(self.restored(image, self.managers), state, True)
        return leaving, asking


class SessionHost:
    """A manager's session with its storage, and what its owner was told."""

    def __init__(self, number, settings, planted):
        self.number, self.settings, self.planted = number, settings, planted
        self.begin_fresh()
        self.storage = Storage(self.to_save)
        self.told, self.to_tell = [], None

    def begin_fresh(self):
        self.session, self.state = Requests(self.settings), ManagerState()
        self.domain, self.is_unsaved, self.to_tell = self.settings.domain, False, None

    @property
    def to_save(self):
        return self.session.image(), self.state, self.settings

    @property
    def asked(self):
        """The request that has no answer yet."""
        return self.state.begun[-1] if self.state.is_under_way else None

    @property
    def may_send(self):
        leaves_first = (self.planted is Planted.SESSION_SENDS_FIRST
                        or self.planted is Planted.SESSION_LEAVES_GETS_OUT and self.asked and self.asked.request.action == GET)
        return self.asked is not None and (not self.is_unsaved or leaves_first)

    def begin(self, request):
        self.session.begin(request.action, request.id, request.field, request.port)
        asked = Asked(self.number, len(self.state.begun) + 1, request)
        self.state, self.is_unsaved = self.state._replace(begun=self.state.begun + (asked,), is_under_way=True), True

    def go_on_with(self, hops):
        """A session that has other hops goes on for this one, at its next number. The save of its next request is enough for that."""
        self.settings = dataclasses.replace(self.settings, first=self.session.next_number, hops=hops)
        self.session.close()
        self.session = Requests(self.settings)
        self.session.retune(self.domain)
        self.state, self.is_unsaved = self.state._replace(earlier=len(self.state.begun)), True

    def send(self):
        """The message, with all attempts anew once they are used up."""
        try:
            return self.session.send()
        except ptpm.Error as refused:
            assert refused.name == "GAVE_UP", refused.name
            self.session.resume(ATTEMPTS)
            return self.session.send()

    def take(self, octets):
        """Whether a datagram is the answer; and what the owner is told then."""
        if self.session.receive(octets) != SessionAnswer.ANSWERED:
            return False, None
        report = self.session.report()
        told = self.asked, Answer(None if report.is_done or report.error else report.octets, report.error)
        self.state, self.is_unsaved = self.state._replace(is_under_way=False), True
        if self.planted is Planted.SAVES_BEFORE_IT_REPORTS:
            self.to_tell = told
            return True, None
        return True, told

    def save(self, chance):
        is_lying = self.planted is Planted.SESSION_SAVE_LIES
        self.is_unsaved = not self.storage.save(self.to_save, chance, is_lying)

    def give_up(self):
        """Lets the request under way go. The save of the next one is enough for that."""
        self.session.give_up()
        self.state, self.is_unsaved = self.state._replace(is_under_way=False, let_go=self.state.let_go | {self.asked}), True

    def tell_late(self):
        """What a planted host kept back until it was saved."""
        told, self.to_tell = self.to_tell, None
        return told

    def retune(self, domain):
        self.session.retune(domain)
        self.domain = domain

    def crash(self):
        """The request under way goes on, with all its attempts. The domain is noted without a save: the owner says it again."""
        image, state, settings = self.storage.lose_power()
        if self.planted is Planted.SESSION_STARTS_FRESH:
            self.begin_fresh()
            return
        self.session.close()
        self.settings, self.session = settings, Requests(settings)
        self.session.restore(image)
        self.state, self.is_unsaved, self.to_tell = state, False, None
        self.session.retune(self.domain)
