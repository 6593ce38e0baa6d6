"""What a clock has and answers by IEEE 1588-2019, clause 15, and by this project's profile (docs/protocol.md), for hosts/tests/crashes: the
library's data sets, verdicts and replies are held against it. A state of the model is never changed; what follows is a new one."""
import struct
from typing import NamedTuple, Optional

GET, SET, COMMAND = 0, 1, 3
NULL_PTP_MANAGEMENT, USER_DESCRIPTION, UTC_PROPERTIES = 0x0000, 0x0002, 0x2011
DEFAULT_DATA_SET, CURRENT_DATA_SET, PARENT_DATA_SET, TIME_PROPERTIES_DATA_SET, PORT_DATA_SET = range(0x2000, 0x2005)
SLAVE_ONLY, VERSION_NUMBER, ENABLE_PORT, DISABLE_PORT, OF_NO_PROFILE = 0x2008, 0x200C, 0x200D, 0x200E, 0x2FFF
NO_SUCH_ID, WRONG_LENGTH, WRONG_VALUE, NOT_SETABLE, NOT_SUPPORTED = range(2, 7)
CLOCK_SET, PORT_SET, PORT_COMMAND = 1, 2, 4
DISABLED, LISTENING, MASTER = 3, 4, 6


def signed(least, most):
    """The octets of these numbers in two's complement."""
    return {number & 255 for number in range(least, most + 1)}


class Small(NamedTuple):
    """An id whose dataField is one member of an octet, and a reserved octet: what a SET of it takes."""

    member: str
    taken: set


SMALL_OF_CLOCK = {0x2005: Small("priority1", set(range(256))), 0x2006: Small("priority2", set(range(256))),
                  0x2007: Small("domain", set(range(256))), 0x2010: Small("clock_accuracy", {*range(0x17, 0x32), 0xFE})}
SMALL_OF_PORT = {0x2009: Small("log_announce", signed(-4, 4)), 0x200A: Small("receipt_timeout", set(range(2, 11))),
                 0x200B: Small("log_sync", signed(-8, 1)), 0x6000: Small("delay_mechanism", {1, 2, 0xFE}),
                 0x6001: Small("log_min_pdelay", signed(-8, 5))}
SMALL = {**SMALL_OF_CLOCK, **SMALL_OF_PORT}
READ_OF_CLOCK = (DEFAULT_DATA_SET, CURRENT_DATA_SET, PARENT_DATA_SET, TIME_PROPERTIES_DATA_SET, USER_DESCRIPTION, UTC_PROPERTIES,
                 SLAVE_ONLY, *SMALL_OF_CLOCK)
READ_OF_PORT = (NULL_PTP_MANAGEMENT, PORT_DATA_SET, VERSION_NUMBER, *SMALL_OF_PORT)
OF_PORT = {*READ_OF_PORT, ENABLE_PORT, DISABLE_PORT}
TO_SET = {NULL_PTP_MANAGEMENT, USER_DESCRIPTION, UTC_PROPERTIES, *SMALL}
TO_COMMAND = {NULL_PTP_MANAGEMENT, ENABLE_PORT, DISABLE_PORT}
# What the data sets show beside the small members: these tell all of a clock.
WHOLE_CLOCK = (DEFAULT_DATA_SET, CURRENT_DATA_SET, PARENT_DATA_SET, TIME_PROPERTIES_DATA_SET, USER_DESCRIPTION)


class Request(NamedTuple):
    """What is asked of a clock. The port matters for an id of a port alone."""

    action: int
    id: int
    port: int
    field: bytes


class Answer(NamedTuple):
    """A dataField, an error, or neither: a COMMAND was carried out."""

    value: Optional[bytes]
    error: Optional[int] = None


class Asked:
    """A request that a manager began: one is another than any other, whatever it says."""

    def __init__(self, manager, index, request):
        self.manager, self.index, self.request = manager, index, request

    def __repr__(self):
        action = {GET: "GET", SET: "SET", COMMAND: "COMMAND"}[self.request.action]
        return f"request {self.index} of manager {self.manager} ({action} {self.request.id:04x} {self.request.field.hex() or '-'})"


class Accepted(NamedTuple):
    """A request that a clock has accepted, and its reply."""

    asked: Asked
    answer: Answer


# ---- data sets

def start(identity, ports):
    """The data sets of a clock that is its own grandmaster, and of its ports, all MASTER, with this profile's defaults."""
    port = dict(state=MASTER, log_min_delay_req=0, peer_delay=0, log_announce=1, receipt_timeout=3, log_sync=0, delay_mechanism=1,
                log_min_pdelay=0)
    return dict(identity=identity, domain=0, priority1=128, clock_class=248, clock_accuracy=0xFE, priority2=128, steps_removed=0, offset=0,
                mean_delay=0, utc_offset=37, utc_flags=0, text=b"", ports=(port,) * ports)


def with_port(sets, port, **members):
    ports = list(sets["ports"])
    ports[port - 1] = {**ports[port - 1], **members}
    return {**sets, "ports": tuple(ports)}


def text_field(text):
    """A PTPText (5.3.9), padded to even."""
    return bytes([len(text)]) + text + b"\0" * (1 - len(text) % 2)


def quality(sets):
    return struct.pack(">BBH", sets["clock_class"], sets["clock_accuracy"], 0xFFFF)


def field_of_port(sets, id_, number):
    port = sets["ports"][number - 1]
    if id_ == PORT_DATA_SET:
        rest = [port[name] for name in ("log_announce", "receipt_timeout", "log_sync", "delay_mechanism", "log_min_pdelay")]
        return (sets["identity"] + struct.pack(">HBBq", number, port["state"], port["log_min_delay_req"], port["peer_delay"])
                + bytes(rest) + b"\2")
    if id_ == VERSION_NUMBER:
        return b"\2\0"
    return bytes([port[SMALL_OF_PORT[id_].member], 0]) if id_ in SMALL_OF_PORT else b""


def field_of(sets, id_, number):
    """The dataField that a GET is answered (15.5.3)."""
    own = sets["identity"]
    if id_ in OF_PORT:
        return field_of_port(sets, id_, number)
    if id_ in SMALL_OF_CLOCK:
        return bytes([sets[SMALL_OF_CLOCK[id_].member], 0])
    if id_ == USER_DESCRIPTION:
        return text_field(sets["text"])
    if id_ == UTC_PROPERTIES:
        return struct.pack(">hBB", sets["utc_offset"], sets["utc_flags"], 0)
    if id_ == TIME_PROPERTIES_DATA_SET:
        return struct.pack(">hBB", sets["utc_offset"], sets["utc_flags"], 0xA0)
    if id_ == CURRENT_DATA_SET:
        return struct.pack(">Hqq", sets["steps_removed"], sets["offset"], sets["mean_delay"])
    if id_ == PARENT_DATA_SET:
        own_quality = bytes([sets["priority1"]]) + quality(sets) + bytes([sets["priority2"]])
        return own + struct.pack(">HBBHi", 0, 0, 0, 0xFFFF, 0x7FFFFFFF) + own_quality + own
    if id_ == DEFAULT_DATA_SET:
        head = struct.pack(">BBHB", 1, 0, len(sets["ports"]), sets["priority1"])
        return head + quality(sets) + bytes([sets["priority2"]]) + own + bytes([sets["domain"], 0])
    return b"\0\0"                              # SLAVE_ONLY: a boundary clock is none


def observed(sets, members, ports):
    """What is observed of a clock, and the state and the peer delay of some ports. A disabled port stays so."""
    found = {**sets, **members}
    for number, (state, delay) in ports.items():
        stays = sets["ports"][number - 1]["state"] == DISABLED
        found = with_port(found, number, peer_delay=delay, **({} if stays else {"state": state}))
    return found


# ---- a request that is new

def right_for(request):
    """The right that a request of an id of the profile needs."""
    if request.action == SET:
        return PORT_SET if request.id in OF_PORT else CLOCK_SET
    return PORT_COMMAND if request.action == COMMAND and request.id != NULL_PTP_MANAGEMENT else 0


def refusal(request, rights):
    """Why a request is refused, by the first reason that holds."""
    action, id_, _, field = request
    if id_ not in OF_PORT and id_ not in READ_OF_CLOCK:
        return NO_SUCH_ID
    if action == SET and id_ not in TO_SET:
        return NOT_SETABLE
    if action == (COMMAND if id_ not in TO_COMMAND else GET if id_ in (ENABLE_PORT, DISABLE_PORT) else None):
        return NOT_SUPPORTED
    if right_for(request) & ~rights:
        return NOT_SUPPORTED
    if action == GET:
        return None
    size = 2 if id_ in SMALL else 4 if id_ == UTC_PROPERTIES else len(field) if id_ == USER_DESCRIPTION else 0
    if len(field) != size:
        return WRONG_LENGTH
    is_bad = id_ in SMALL and field[0] not in SMALL[id_].taken or id_ == UTC_PROPERTIES and field[2] & 3 == 3
    return WRONG_VALUE if is_bad else None


def changed_by(sets, request):
    """The data sets after a request that is not refused."""
    action, id_, number, field = request
    if action == GET or id_ == NULL_PTP_MANAGEMENT:
        return sets
    if id_ == USER_DESCRIPTION:
        return {**sets, "text": field[1:1 + field[0]]}
    if id_ == UTC_PROPERTIES:
        flags = sets["utc_flags"] & ~7 | field[2] & 7
        return {**sets, "utc_offset": int.from_bytes(field[:2], "big", signed=True), "utc_flags": flags}
    if id_ == DISABLE_PORT:
        return with_port(sets, number, state=DISABLED)
    if id_ == ENABLE_PORT:
        return with_port(sets, number, state=LISTENING) if sets["ports"][number - 1]["state"] == DISABLED else sets
    if id_ in SMALL_OF_PORT:
        return with_port(sets, number, **{SMALL[id_].member: field[0]})
    return {**sets, SMALL[id_].member: field[0]}


def carried_out(sets, request, rights):
    """The data sets after a request, and its answer."""
    error = refusal(request, rights)
    if error is not None:
        return sets, Answer(None, error)
    sets = changed_by(sets, request)
    return sets, Answer(None if request.action == COMMAND else field_of(sets, request.id, request.port))


# ---- a clock

OTHER_DOMAIN, NEW, REPEAT, OLD, CONFLICT = "OTHER_DOMAIN", "ANSWERED_NEW", "ANSWERED_REPEAT", "DROPPED_OLD", "DROPPED_CONFLICT"
UNNUMBERED = "ANSWERED_UNNUMBERED"


class ClockState(NamedTuple):
    """The data sets, and all requests that were accepted, in their order."""

    sets: dict
    accepted: tuple = ()

    def latest(self, manager):
        return next((one for one in reversed(self.accepted) if one.asked.manager == manager), None)

    def verdict(self, asked, domain):
        """What becomes of a copy of a manager's request. Its index says what is newer; no number comes round in a trial."""
        latest = self.latest(asked.manager)
        index = latest.asked.index if latest else 0
        if asked.index == index and asked.request == latest.asked.request:
            return REPEAT
        if domain != self.sets["domain"]:
            return OTHER_DOMAIN
        return NEW if asked.index > index else CONFLICT if asked.index == index else OLD

    def after(self, asked, rights, objection=None):
        """The clock that has carried out a new request, or the device's objection to a change that it would have made itself."""
        sets, answer = carried_out(self.sets, asked.request, rights)
        if objection is not None and asked.request.action != GET and answer.error is None:
            sets, answer = self.sets, Answer(None, objection)
        return ClockState(sets, self.accepted + (Accepted(asked, answer),))


class ManagerState(NamedTuple):
    """All requests that were begun, in their order, whether the last has no answer yet, and those that were given up without one. A session
    may go on from an earlier one, at its next number: how many requests were begun before it."""

    begun: tuple = ()
    is_under_way: bool = False
    let_go: frozenset = frozenset()
    earlier: int = 0
