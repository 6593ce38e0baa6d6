"""The header ptpm.h: its constants, its structs and its calls, by its names. The header says what each of them is, and what a caller
has to do. Some of its enums are classes here, and an answer of several is here once. The library compares the sizes of the STRUCTS with
its own."""

import sys
from ctypes import POINTER, Structure, c_bool, c_char, c_char_p, c_int8, c_int16, c_int32, c_int64
from ctypes import c_size_t, c_uint8, c_uint16, c_uint32, c_uint64, c_void_p, sizeof
from enum import IntEnum, IntFlag
from typing import Any, Dict, List, Tuple, Type

from .enumeration import Answer, Enumeration

if sizeof(c_void_p) != 8 or sys.byteorder != "little":
    raise ImportError("ptpm is built only for 64-bit little-endian processors")

# tools/bindings -u writes all that follows from ptpm.h.

PTPM_VERSION = "0.1.0"; PTPM_VERSION_NUMBER = 100
PTPM_MOST_PORTS = 64; PTPM_MOST_MANAGERS = 64; PTPM_MOST_IDS = 32
PTPM_DELAY_E2E = 1; PTPM_DELAY_P2P = 2; PTPM_DELAY_NONE = 0xFE
PTPM_CLOCK_SET = 1; PTPM_PORT_SET = 2; PTPM_PORT_COMMAND = 4
PTPM_AGREES = 0; PTPM_OBJECTS = 1; PTPM_GIVES = 2
PTPM_OF_CLOCK = 0; PTPM_OF_PORT = 1; PTPM_MAY_SET = 2; PTPM_MAY_COMMAND = 4
PTPM_NOTHING = 0; PTPM_NOTE_BEGUN = 1; PTPM_SAVE_IT = 2; PTPM_SEND_IT = 3; PTPM_SEND_READ = 4; PTPM_WAIT = 5
PTPM_NOTE_ANSWER = 6; PTPM_FAILED = 7
PTPM_RECORD_HEAD = 1; PTPM_RECORD_STEP = 2; PTPM_RECORD_BEGUN = 3; PTPM_RECORD_NOT_BEGUN = 4; PTPM_RECORD_LET_GO = 5
PTPM_RECORD_TOLD = 6; PTPM_RECORD_POLICY = 7; PTPM_RECORD_END = 8; PTPM_RECORD_TEXT = 9
PTPM_KEEPS_GOING = 1; PTPM_IN_ONE_ROW = 2
PTPM_STEP_DONE = 1; PTPM_STEP_REFUSED = 2; PTPM_STEP_ANSWERED = 3
PTPM_END_COMPLETE = 1; PTPM_END_REFUSED = 2; PTPM_END_ANSWERED = 3; PTPM_END_CHANGED = 4; PTPM_END_GIVEN_UP = 5
PTPM_END_ROLLED_BACK = 6; PTPM_END_STOPPED = 7; PTPM_END_IN_PART = 8
PTPM_NO_STEP = 65535
PTPM_MARK_UNTOUCHED = 0; PTPM_MARK_BEGUN = 1; PTPM_MARK_DONE = 2; PTPM_MARK_REFUSED = 3; PTPM_MARK_ANSWERED = 4
PTPM_MARK_LET_GO = 5; PTPM_MARK_NONE = 6
PTPM_STOP_AT_FAILURE = 0; PTPM_KEEP_GOING = 1; PTPM_GIVE_UP = 2; PTPM_SETTLE_ALONE = 3
PTPM_EVENT_BEGIN = 0; PTPM_EVENT_FOUND = 1; PTPM_EVENT_BEGINS = 2; PTPM_EVENT_UNSENT = 3; PTPM_EVENT_VALUE = 4
PTPM_EVENT_REFUSED = 5; PTPM_EVENT_SILENT = 6; PTPM_EVENT_DONE = 7; PTPM_EVENT_PASSES = 8; PTPM_EVENT_STOPS = 9
PTPM_EVENT_NOT_WRITTEN = 10; PTPM_EVENT_INTERRUPTED = 11
PTPM_DO_LOOK = 1; PTPM_DO_SETTLE = 2; PTPM_DO_LET_GO = 3; PTPM_DO_READ = 4; PTPM_DO_CHECK = 5; PTPM_DO_ASK = 6; PTPM_DO_NOTE = 7
PTPM_DO_GO_ON = 8; PTPM_DO_LEAVE = 9; PTPM_DO_END = 10
PTPM_OPEN_SILENT = 1; PTPM_OPEN_UNKNOWN = 2; PTPM_OPEN_NOT_WRITTEN = 3; PTPM_OPEN_INTERRUPTED = 4; PTPM_OPEN_SETTLED = 5
PTPM_NOTHING_LEFT = 0; PTPM_QUESTION_LEFT = 1; PTPM_GET_LEFT = 2; PTPM_CHANGE_LEFT = 3
PTPM_NO_NUMBER = 65536
PTPM_MOST_SENT = 15; PTPM_MOST_READ = 130; PTPM_MOST_OCTETS = 1472; PTPM_SESSION_IMAGE_OCTETS = 1478
PTPM_CLOCK_IMAGE_OCTETS = 27385
PTPM_RECORD_OCTETS = 8221
PTPM_SEAL_OCTETS = 16
PTPM_MOST_ANSWERS = 16384; PTPM_SURVEY_PORT = 65534
PTPM_SAVING = 0; PTPM_OTHER_DOMAIN = 1; PTPM_NOT_A_REPLY = 10; PTPM_OTHER_TARGET = 11; PTPM_OTHER_SOURCE = 12
PTPM_OTHER_NUMBER = 14; PTPM_OTHER_CONTENT = 15; PTPM_TOO_SHORT = 16; PTPM_NOT_MANAGEMENT = 17; PTPM_BAD_VERSION = 18
PTPM_BAD_LENGTH = 19; PTPM_BAD_ACTION = 20; PTPM_BAD_TLV_TYPE = 21; PTPM_BAD_TLV_LENGTH = 22; PTPM_BAD_TEXT = 23
PTPM_NO_CLOCK = 32; PTPM_NO_PORT = 33; PTPM_NO_ROOM = 34; PTPM_NO_MEMORY = 35; PTPM_NO_SESSION = 37; PTPM_IDLE = 43
PTPM_NO_SURVEY = 46; PTPM_NO_ASKER = 120; PTPM_NO_JOURNAL = 126; PTPM_NO_ROLLOUT = 130; PTPM_OTHER_SIZES = 47
PTPM_GRANDMASTER_DIFFERS = 50; PTPM_TOO_MANY_MANAGERS = 51; PTPM_MANAGER_TWICE = 52; PTPM_IDENTITY_IS_ZERO = 56
PTPM_UNSAVED = 118; PTPM_UNDER_WAY = 123; PTPM_BAD_CLOCK_ACCURACY = 70; PTPM_BAD_LEAP59 = 88; PTPM_BAD_STATE = 94
PTPM_STARTED = 0; PTPM_NO_PORTS = 48; PTPM_TOO_MANY_PORTS = 49; PTPM_MANAGER_IS_EVERY = 53; PTPM_TARGET_IS_EVERY = 54
PTPM_SAME_CLOCK = 55; PTPM_TARGET_IS_ZERO = 57; PTPM_BAD_IDENTITY = 64; PTPM_BAD_USER_DESCRIPTION = 66
PTPM_BAD_LOG_ANNOUNCE = 97; PTPM_BAD_RECEIPT_TIMEOUT = 98; PTPM_BAD_LOG_SYNC = 99; PTPM_BAD_DELAY_MECHANISM = 100
PTPM_BAD_LOG_MIN_PDELAY = 101
PTPM_BAD_DOMAIN = 65; PTPM_BAD_TWO_STEP = 67; PTPM_BAD_PRIORITY1 = 68; PTPM_BAD_CLOCK_CLASS = 69; PTPM_BAD_VARIANCE = 71
PTPM_BAD_PRIORITY2 = 72; PTPM_BAD_STEPS_REMOVED = 73; PTPM_BAD_OFFSET_FROM_MASTER = 74; PTPM_BAD_MEAN_PATH_DELAY = 75
PTPM_BAD_PARENT_PORT = 76; PTPM_BAD_PARENT_STATS = 77; PTPM_BAD_OBSERVED_VARIANCE = 78; PTPM_BAD_OBSERVED_RATE = 79
PTPM_BAD_GRANDMASTER_PRIORITY1 = 80; PTPM_BAD_GRANDMASTER_CLASS = 81; PTPM_BAD_GRANDMASTER_ACCURACY = 82
PTPM_BAD_GRANDMASTER_VARIANCE = 83; PTPM_BAD_GRANDMASTER_PRIORITY2 = 84; PTPM_BAD_GRANDMASTER = 85; PTPM_BAD_UTC_OFFSET = 86
PTPM_BAD_LEAP61 = 87; PTPM_BAD_UTC_VALID = 89; PTPM_BAD_PTP_TIMESCALE = 90; PTPM_BAD_TIME_TRACEABLE = 91
PTPM_BAD_FREQUENCY_TRACEABLE = 92; PTPM_BAD_TIME_SOURCE = 93; PTPM_BAD_LOG_MIN_DELAY_REQ = 95; PTPM_BAD_PEER_DELAY = 96
PTPM_OWN_MESSAGE = 2; PTPM_NOT_ADDRESSED = 3; PTPM_NOT_A_REQUEST = 4; PTPM_ANSWERED_NEW = 5; PTPM_ANSWERED_REPEAT = 6
PTPM_DROPPED_OLD = 7; PTPM_DROPPED_CONFLICT = 8; PTPM_ANSWERED_UNNUMBERED = 9; PTPM_BAD_SAY = 121; PTPM_NOTHING_UNDER_WAY = 124
PTPM_RELAYING = 0; PTPM_TOO_MANY_IDS = 133; PTPM_CLOCK_HAS_ID = 134; PTPM_RELAYED_TWICE = 135; PTPM_BAD_SCOPE = 136
PTPM_BAD_ACTIONS = 137; PTPM_BAD_SIZES = 138
PTPM_ASKED_CHANGE = 29; PTPM_ASKED_VALUE = 30
PTPM_SET_HERE = 0
PTPM_OBSERVED = 0
PTPM_READ = 0; PTPM_NOT_READABLE = 36
PTPM_BEGUN = 0; PTPM_BUSY = 38; PTPM_NEEDS_PORT = 39; PTPM_NOT_PERMITTED = 40; PTPM_BAD_VALUE = 41; PTPM_COUNT_AT_MAXIMUM = 42
PTPM_SENT = 0; PTPM_GAVE_UP = 44
PTPM_RESUMED = 0
PTPM_GIVEN_UP = 0; PTPM_OUT_OF_REACH = 112
PTPM_RETUNED = 0
PTPM_ANSWERED = 0; PTPM_NOTHING_ASKED = 13
PTPM_TAKEN = 0; PTPM_AGAIN = 27; PTPM_FULL = 28
PTPM_VALUE = 0; PTPM_DONE = 25; PTPM_REFUSED = 26; PTPM_NO_REPORT = 45
PTPM_SAVED = 0; PTPM_ACT_NOW = 31; PTPM_OTHER_IMAGE = 119
PTPM_RESTORED = 0; PTPM_NOT_AN_IMAGE = 104; PTPM_OTHER_VERSION = 105; PTPM_OTHER_KIND = 106; PTPM_DAMAGED = 107
PTPM_OTHER_CLOCK = 108; PTPM_OTHER_PORTS = 109; PTPM_OTHER_SESSION = 110
PTPM_PARSED = 0; PTPM_NOT_WORDS = 113; PTPM_UNKNOWN_ID = 114; PTPM_WORD_COUNT = 115; PTPM_OTHER_NAME = 116; PTPM_NO_VALUE = 117

PTPM_ASKED = 0
PTPM_JOURNALED = 0; PTPM_NO_RECORD = 127; PTPM_NOT_ALLOWED = 128; PTPM_JOURNAL_WHOLE = 129
PTPM_ROLLED = 0; PTPM_HAS_ENDED = 131; PTPM_OUT_OF_TURN = 132
PTPM_NO_ID = 65536; PTPM_MOST_NAME = 27
PTPM_PORT_STATES = 1; PTPM_DELAY_MECHANISMS = 2; PTPM_TIME_SOURCES = 3
PTPM_MOST_FIELD_TEXT = 5034
PTPM_NO_MEMBER = 0; PTPM_IS_NUMBER = 1; PTPM_IS_FLAG = 2; PTPM_IS_INTERVAL = 3; PTPM_IS_CLOCK = 4; PTPM_IS_PORT = 5
PTPM_IS_CLOCKS = 6; PTPM_IS_TEXT = 7; PTPM_IS_OCTETS = 8; PTPM_IS_PORT_STATE = 16; PTPM_IS_DELAY_MECHANISM = 17
PTPM_IS_TIME_SOURCE = 18; PTPM_IS_TIMESTAMPING = 19
PTPM_MOST_TAKES = 69


class ManagementId(IntEnum):
    """The managementIds of this profile (15.5.2.3, table 59). A clock may be asked for others, by their numbers."""

    NULL_PTP_MANAGEMENT = 0x0000; USER_DESCRIPTION = 0x0002; DEFAULT_DATA_SET = 0x2000; CURRENT_DATA_SET = 0x2001
    PARENT_DATA_SET = 0x2002; TIME_PROPERTIES_DATA_SET = 0x2003; PORT_DATA_SET = 0x2004; PRIORITY1 = 0x2005; PRIORITY2 = 0x2006
    DOMAIN = 0x2007; SLAVE_ONLY = 0x2008; LOG_ANNOUNCE_INTERVAL = 0x2009; ANNOUNCE_RECEIPT_TIMEOUT = 0x200a
    LOG_SYNC_INTERVAL = 0x200b; VERSION_NUMBER = 0x200c; ENABLE_PORT = 0x200d; DISABLE_PORT = 0x200e; CLOCK_ACCURACY = 0x2010
    UTC_PROPERTIES = 0x2011; DELAY_MECHANISM = 0x6000; LOG_MIN_PDELAY_REQ_INTERVAL = 0x6001


class PortState(Enumeration):
    """A portState (table 20)."""

    INITIALIZING = 1; FAULTY = 2; DISABLED = 3; LISTENING = 4; PRE_MASTER = 5; MASTER = 6; PASSIVE = 7; UNCALIBRATED = 8
    SLAVE = 9


class ClockMembers(IntFlag):
    """Members of a clock."""

    IDENTITY = 1 << 0; DOMAIN = 1 << 1; USER_DESCRIPTION = 1 << 2; TWO_STEP = 1 << 3; PRIORITY1 = 1 << 4; CLOCK_CLASS = 1 << 5
    CLOCK_ACCURACY = 1 << 6; VARIANCE = 1 << 7; PRIORITY2 = 1 << 8; STEPS_REMOVED = 1 << 9; OFFSET_FROM_MASTER = 1 << 10
    MEAN_PATH_DELAY = 1 << 11; PARENT_PORT = 1 << 12; PARENT_STATS = 1 << 13; OBSERVED_VARIANCE = 1 << 14
    OBSERVED_RATE = 1 << 15; GRANDMASTER_PRIORITY1 = 1 << 16; GRANDMASTER_CLASS = 1 << 17; GRANDMASTER_ACCURACY = 1 << 18
    GRANDMASTER_VARIANCE = 1 << 19; GRANDMASTER_PRIORITY2 = 1 << 20; GRANDMASTER = 1 << 21; UTC_OFFSET = 1 << 22
    LEAP61 = 1 << 23; LEAP59 = 1 << 24; UTC_VALID = 1 << 25; PTP_TIMESCALE = 1 << 26; TIME_TRACEABLE = 1 << 27
    FREQUENCY_TRACEABLE = 1 << 28; TIME_SOURCE = 1 << 29


class PortMembers(IntFlag):
    """Members of a port."""

    STATE = 1 << 0; LOG_MIN_DELAY_REQ = 1 << 1; PEER_DELAY = 1 << 2; LOG_ANNOUNCE = 1 << 3; RECEIPT_TIMEOUT = 1 << 4
    LOG_SYNC = 1 << 5; DELAY_MECHANISM = 1 << 6; LOG_MIN_PDELAY = 1 << 7


class Objection(IntEnum):
    """The errors with which a device may object (15.5.4.3)."""

    WRONG_VALUE = 4; NOT_SETABLE = 5; NOT_SUPPORTED = 6; GENERAL_ERROR = 0xFFFE


class Action(IntEnum):
    """What a clock may be asked for: the actionField of a request."""

    GET = 0; SET = 1; COMMAND = 3


class HandleAnswer(Answer):
    """What became of a datagram that a clock was given (enum ptpm_handled)."""

    OTHER_DOMAIN = 1; OWN_MESSAGE = 2; NOT_ADDRESSED = 3; NOT_A_REQUEST = 4; ANSWERED_NEW = 5; ANSWERED_REPEAT = 6
    DROPPED_OLD = 7; DROPPED_CONFLICT = 8; ANSWERED_UNNUMBERED = 9; TOO_SHORT = 16; NOT_MANAGEMENT = 17; BAD_VERSION = 18
    BAD_LENGTH = 19; BAD_ACTION = 20; BAD_TLV_TYPE = 21; BAD_TLV_LENGTH = 22; BAD_TEXT = 23


class SessionAnswer(Answer):
    """What became of a datagram that a session was given (enum ptpm_session_received)."""

    ANSWERED = 0; OTHER_DOMAIN = 1; NOT_A_REPLY = 10; OTHER_TARGET = 11; OTHER_SOURCE = 12; NOTHING_ASKED = 13; OTHER_NUMBER = 14
    OTHER_CONTENT = 15; TOO_SHORT = 16; NOT_MANAGEMENT = 17; BAD_VERSION = 18; BAD_LENGTH = 19; BAD_ACTION = 20
    BAD_TLV_TYPE = 21; BAD_TLV_LENGTH = 22; BAD_TEXT = 23


class SurveyAnswer(Answer):
    """What became of a datagram that a survey was given (enum ptpm_survey_received)."""

    TAKEN = 0; OTHER_DOMAIN = 1; NOT_A_REPLY = 10; OTHER_TARGET = 11; OTHER_SOURCE = 12; OTHER_NUMBER = 14; OTHER_CONTENT = 15
    TOO_SHORT = 16; NOT_MANAGEMENT = 17; BAD_VERSION = 18; BAD_LENGTH = 19; BAD_ACTION = 20; BAD_TLV_TYPE = 21
    BAD_TLV_LENGTH = 22; BAD_TEXT = 23; AGAIN = 27; FULL = 28


class ptpm_clock(Structure):
    _fields_ = [("at", c_void_p), ("live", c_bool), ("restored", c_bool)]


class ptpm_clock_settings(Structure):
    _fields_ = [("offset_from_master", c_int64), ("mean_path_delay", c_int64), ("observed_rate", c_int32), ("variance", c_uint16),
        ("steps_removed", c_uint16), ("observed_variance", c_uint16), ("grandmaster_variance", c_uint16),
        ("parent_port_number", c_uint16), ("utc_offset", c_int16), ("identity", c_uint8 * 8), ("parent_port_clock", c_uint8 * 8),
        ("grandmaster", c_uint8 * 8), ("domain", c_uint8), ("two_step", c_uint8), ("priority1", c_uint8),
        ("clock_class", c_uint8), ("clock_accuracy", c_uint8), ("priority2", c_uint8), ("parent_stats", c_uint8),
        ("grandmaster_priority1", c_uint8), ("grandmaster_class", c_uint8), ("grandmaster_accuracy", c_uint8),
        ("grandmaster_priority2", c_uint8), ("leap61", c_uint8), ("leap59", c_uint8), ("utc_valid", c_uint8),
        ("ptp_timescale", c_uint8), ("time_traceable", c_uint8), ("frequency_traceable", c_uint8), ("time_source", c_uint8),
        ("has_parent_port", c_uint8), ("has_grandmaster", c_uint8), ("has_grandmaster_priority1", c_uint8),
        ("has_grandmaster_class", c_uint8), ("has_grandmaster_accuracy", c_uint8), ("has_grandmaster_variance", c_uint8),
        ("has_grandmaster_priority2", c_uint8), ("user_description_size", c_uint8), ("user_description", c_uint8 * 129)]


class ptpm_port_settings(Structure):
    _fields_ = [("peer_delay", c_int64), ("state", c_uint8), ("log_min_delay_req", c_int8), ("log_announce", c_int8),
        ("receipt_timeout", c_uint8), ("log_sync", c_int8), ("delay_mechanism", c_uint8), ("log_min_pdelay", c_int8)]


class ptpm_observed_clock(Structure):
    _fields_ = [("offset_from_master", c_int64), ("mean_path_delay", c_int64), ("observed_rate", c_int32), ("variance", c_uint16),
        ("steps_removed", c_uint16), ("observed_variance", c_uint16), ("grandmaster_variance", c_uint16),
        ("parent_port_number", c_uint16), ("utc_offset", c_int16), ("parent_port_clock", c_uint8 * 8),
        ("grandmaster", c_uint8 * 8), ("clock_class", c_uint8), ("clock_accuracy", c_uint8), ("parent_stats", c_uint8),
        ("grandmaster_priority1", c_uint8), ("grandmaster_class", c_uint8), ("grandmaster_accuracy", c_uint8),
        ("grandmaster_priority2", c_uint8), ("leap61", c_uint8), ("leap59", c_uint8), ("utc_valid", c_uint8),
        ("ptp_timescale", c_uint8), ("time_traceable", c_uint8), ("frequency_traceable", c_uint8), ("time_source", c_uint8),
        ("has_clock_class", c_uint8), ("has_clock_accuracy", c_uint8), ("has_variance", c_uint8), ("has_steps_removed", c_uint8),
        ("has_offset_from_master", c_uint8), ("has_mean_path_delay", c_uint8), ("has_parent_stats", c_uint8),
        ("has_observed_variance", c_uint8), ("has_observed_rate", c_uint8), ("is_grandmaster", c_uint8),
        ("has_grandmaster", c_uint8), ("has_utc_offset", c_uint8), ("has_leap61", c_uint8), ("has_leap59", c_uint8),
        ("has_utc_valid", c_uint8), ("has_ptp_timescale", c_uint8), ("has_time_traceable", c_uint8),
        ("has_frequency_traceable", c_uint8), ("has_time_source", c_uint8)]


class ptpm_observed_port(Structure):
    _fields_ = [("peer_delay", c_int64), ("state", c_uint8), ("has_state", c_uint8), ("has_peer_delay", c_uint8)]


class ptpm_manager_settings(Structure):
    _fields_ = [("clock", c_uint8 * 8), ("port", c_uint16), ("rights", c_uint8)]


class ptpm_sent(Structure):
    _fields_ = [("port", c_uint16), ("size", c_uint16), ("octets", c_uint8 * 1472)]


class ptpm_answer(Structure):
    _fields_ = [("port", c_uint16), ("size", c_uint16), ("octets", c_uint8 * 184)]


class ptpm_shared(Structure):
    _fields_ = [("ports", c_uint64), ("size", c_uint64), ("count", c_uint64)]


class ptpm_changed(Structure):
    _fields_ = [("clock", c_uint32), ("ports", c_uint8 * 64)]


class ptpm_taken(Structure):
    _fields_ = [("count", c_uint64), ("waiting", c_uint64), ("changed", ptpm_changed)]


class ptpm_question(Structure):
    _fields_ = [("manager", c_uint8 * 8), ("manager_port", c_uint16), ("number", c_uint16), ("id", c_uint16), ("port", c_uint16),
        ("size", c_uint16), ("action", c_uint8), ("octets", c_uint8 * 130)]


class ptpm_say(Structure):
    _fields_ = [("error", c_uint16), ("size", c_uint16), ("kind", c_uint8), ("octets", c_uint8 * 1418)]


class ptpm_limit(Structure):
    _fields_ = [("id", c_uint16), ("port", c_uint16), ("values", c_uint8 * 32)]


class ptpm_relayed_id(Structure):
    _fields_ = [("id", c_uint16), ("scope", c_uint8), ("actions", c_uint8), ("right", c_uint8), ("least", c_uint16),
        ("most", c_uint16)]


class ptpm_session(Structure):
    _fields_ = [("at", c_void_p), ("live", c_bool), ("restored", c_bool)]


class ptpm_session_settings(Structure):
    _fields_ = [("port", c_uint16), ("target_ports", c_uint16), ("first", c_uint16), ("clock", c_uint8 * 8),
        ("target", c_uint8 * 8), ("domain", c_uint8), ("hops", c_uint8), ("attempts", c_uint8)]


class ptpm_survey(Structure):
    _fields_ = [("at", c_void_p), ("live", c_bool), ("restored", c_bool)]


class ptpm_survey_settings(Structure):
    _fields_ = [("port", c_uint16), ("number", c_uint16), ("id", c_uint16), ("clock", c_uint8 * 8), ("domain", c_uint8),
        ("hops", c_uint8)]


class ptpm_asker(Structure):
    _fields_ = [("at", c_void_p), ("live", c_bool), ("restored", c_bool)]


class ptpm_asker_settings(Structure):
    _fields_ = [("session", ptpm_session_settings), ("nobody", c_uint16), ("timeout", c_uint32), ("wait", c_uint32)]


class ptpm_handed(Structure):
    _fields_ = [("tag", c_uint64), ("time", c_uint64), ("what", c_uint32), ("number", c_uint16), ("was_sent", c_bool),
        ("is_read_answered", c_bool)]


class ptpm_journal(Structure):
    _fields_ = [("at", c_void_p), ("live", c_bool), ("restored", c_bool)]


class ptpm_journal_record(Structure):
    _fields_ = [("time", c_uint64), ("first", c_uint32), ("second", c_uint32), ("first_size", c_uint16),
        ("second_size", c_uint16), ("count", c_uint16), ("port", c_uint16), ("id", c_uint16), ("step", c_uint16),
        ("number", c_uint16), ("error", c_uint16), ("clock", c_uint8 * 8), ("kind", c_uint8), ("flags", c_uint8),
        ("together", c_uint8), ("domain", c_uint8), ("group", c_uint8), ("what", c_uint8), ("zero", c_uint8 * 2)]


class ptpm_rollout(Structure):
    _fields_ = [("at", c_void_p), ("live", c_bool), ("restored", c_bool)]


class ptpm_rollout_event(Structure):
    _fields_ = [("time", c_uint64), ("what", c_uint32), ("number", c_uint16), ("error", c_uint16)]


class ptpm_rollout_action(Structure):
    _fields_ = [("what", c_uint32), ("lane", c_uint16), ("step", c_uint16), ("domain", c_uint8), ("ending", c_uint8),
        ("why", c_uint8), ("zero", c_uint8)]


class ptpm_source(Structure):
    _fields_ = [("clock", c_uint8 * 8), ("port", c_uint16)]


class ptpm_passed_on(Structure):
    _fields_ = [("seed", c_uint64), ("places", c_uint64 * 6 * 4096)]


class ptpm_rate(Structure):
    _fields_ = [("rate", c_uint64), ("left", c_uint64), ("time", c_uint64)]


# Why a call was refused, in the words of bindings/rust/src/error.rs.
WHY: Dict[int, str] = {
    PTPM_NO_CLOCK: "the handle holds no clock",
    PTPM_NO_PORT: "the clock lacks the port",
    PTPM_NO_ROOM: "there are too few octets, or too few places for messages",
    PTPM_NO_MEMORY: "there is no memory",
    PTPM_NOT_READABLE: "the id is not in the table, or permits no GET",
    PTPM_NO_SESSION: "the handle holds no session",
    PTPM_BUSY: "a request is not answered yet",
    PTPM_NEEDS_PORT: "no port of the clock is named",
    PTPM_NOT_PERMITTED: "the action is none that the call takes",
    PTPM_BAD_VALUE: "the dataField has an odd number of octets, or over 1,418",
    PTPM_COUNT_AT_MAXIMUM: "the session has begun 1,000,000 requests",
    PTPM_IDLE: "no request is unanswered",
    PTPM_GAVE_UP: "no attempts are left",
    PTPM_NO_REPORT: "no request was begun, or the latest is not answered",
    PTPM_NO_SURVEY: "the handle holds no survey",
    PTPM_OTHER_SIZES: "the library that is linked is of another version",
    PTPM_NO_PORTS: "a clock has a port or more",
    PTPM_TOO_MANY_PORTS: "a clock has 64 ports at most, and that of a session 255",
    PTPM_GRANDMASTER_DIFFERS: "the clock is its own grandmaster, with another priority or quality",
    PTPM_TOO_MANY_MANAGERS: "a clock has 64 managers at most",
    PTPM_MANAGER_TWICE: "a manager is named twice, or nobody of an asker is its manager",
    PTPM_MANAGER_IS_EVERY: "the manager's identity is all ones, which means every clock",
    PTPM_TARGET_IS_EVERY: "the managed clock's identity is all ones, which means every clock",
    PTPM_SAME_CLOCK: "the managed clock has the manager's identity",
    PTPM_IDENTITY_IS_ZERO: "the clock's identity is all zeros",
    PTPM_TARGET_IS_ZERO: "the managed clock's identity is all zeros",
    PTPM_BAD_IDENTITY: "the clock's identity is all ones, which means every clock",
    PTPM_BAD_USER_DESCRIPTION: "a userDescription is UTF-8, of 128 octets at most",
    PTPM_BAD_CLOCK_ACCURACY: "a clockAccuracy is 0x17 to 0x31, or 0xFE",
    PTPM_BAD_LEAP59: "leap61 and leap59 are never both set",
    PTPM_BAD_STATE: "a portState is 1 to 9, and an enabled port is not observed as DISABLED",
    PTPM_BAD_LOG_ANNOUNCE: "a logAnnounceInterval is -4 to 4",
    PTPM_BAD_RECEIPT_TIMEOUT: "an announceReceiptTimeout is 2 to 10",
    PTPM_BAD_LOG_SYNC: "a logSyncInterval is -8 to 1",
    PTPM_BAD_DELAY_MECHANISM: "a delayMechanism is 1, 2 or 0xFE",
    PTPM_BAD_LOG_MIN_PDELAY: "a logMinPdelayReqInterval is -8 to 5",
    PTPM_NOT_AN_IMAGE: "the octets are not an image",
    PTPM_OTHER_VERSION: "the image is of another version",
    PTPM_OTHER_KIND: "the image is of something else",
    PTPM_DAMAGED: "the image or journal is damaged",
    PTPM_OTHER_CLOCK: "the image is of a clock of another identity",
    PTPM_OTHER_PORTS: "the image is of a clock with another number of ports",
    PTPM_OTHER_SESSION: "the image is of another manager, clock, number of ports or first number",
    PTPM_OUT_OF_REACH: "32,767 requests were begun since the latest that was answered",
    PTPM_NOT_WORDS: "the last octet is not a zero, a word is not UTF-8, or there are over 20",
    PTPM_UNKNOWN_ID: "this profile lacks the managementId",
    PTPM_WORD_COUNT: "there are more or fewer words than a name and a value for each member",
    PTPM_OTHER_NAME: "a word is not the name of the member that comes next",
    PTPM_NO_VALUE: "a word is not a value of the member, or no SET has the member",
    PTPM_UNSAVED: "the clock is not saved, and this call needs a save first",
    PTPM_OTHER_IMAGE: "not the latest image, or the image was confirmed already",
    PTPM_NO_ASKER: "the handle holds no asker",
    PTPM_UNDER_WAY: "a change of the device is under way, and this call has to wait for it",
    PTPM_NOTHING_UNDER_WAY: "no change of the device is under way",
    PTPM_NO_JOURNAL: "the handle holds no journal",
    PTPM_NO_RECORD: "a record has no such kind, outcome or ending, or too many octets",
    PTPM_NOT_ALLOWED: "no run makes this record here",
    PTPM_JOURNAL_WHOLE: "there is no further record",
    PTPM_NO_ROLLOUT: "the handle holds no rollout",
    PTPM_HAS_ENDED: "the journal has an end",
    PTPM_OUT_OF_TURN: "the event answers no action that is due",
    PTPM_TOO_MANY_IDS: "a device has 32 ids of its own at most",
    PTPM_CLOCK_HAS_ID: "the clock itself knows the id",
    PTPM_RELAYED_TWICE: "the id is given twice",
    PTPM_BAD_SCOPE: "an id is of the clock or of a port",
    PTPM_BAD_ACTIONS: "an id takes SET, COMMAND or both",
    PTPM_BAD_SIZES: "the least size is over the most, or the most is over 130",
    PTPM_BAD_SAY: "what a device says is of no kind, has an error that no device gives, or gives what is not a dataField",
}


CALLS: Dict[str, Tuple[Any, List[Any]]] = {
    "ptpm_version": (c_uint32, []),
    "ptpm_sizes_agree": (c_uint32, [POINTER(c_size_t), c_size_t]),
    "ptpm_clock_defaults": (None, [POINTER(ptpm_clock_settings)]),
    "ptpm_port_defaults": (None, [POINTER(ptpm_port_settings)]),
    "ptpm_clock_start": (c_uint32, [POINTER(ptpm_clock), POINTER(ptpm_clock_settings), POINTER(ptpm_port_settings), c_size_t,
        POINTER(ptpm_manager_settings), c_size_t]),
    "ptpm_clock_handle": (c_uint32, [POINTER(ptpm_clock), c_uint16, c_char_p, c_size_t, POINTER(ptpm_sent), c_size_t,
        POINTER(c_size_t)]),
    "ptpm_clock_handle_shared": (c_uint32, [POINTER(ptpm_clock), c_uint16, POINTER(c_uint8), c_size_t, POINTER(ptpm_answer),
        c_size_t, POINTER(ptpm_shared)]),
    "ptpm_clock_relay": (c_uint32, [POINTER(ptpm_clock), POINTER(ptpm_relayed_id), c_size_t]),
    "ptpm_clock_ask": (c_uint32, [POINTER(ptpm_clock), c_uint16, c_char_p, c_size_t, POINTER(ptpm_question)]),
    "ptpm_clock_take": (c_uint32, [POINTER(ptpm_clock), c_uint16, c_char_p, c_size_t, POINTER(ptpm_say), c_uint8,
        POINTER(ptpm_sent), c_size_t, POINTER(ptpm_taken)]),
    "ptpm_clock_undertake": (c_uint32, [POINTER(ptpm_clock), c_uint16, c_char_p, c_size_t, POINTER(ptpm_question)]),
    "ptpm_clock_under_way": (c_uint32, [POINTER(ptpm_clock), POINTER(ptpm_question)]),
    "ptpm_clock_decide": (c_uint32, [POINTER(ptpm_clock), POINTER(ptpm_say), POINTER(ptpm_sent), c_size_t, POINTER(ptpm_taken)]),
    "ptpm_limit_range": (None, [POINTER(ptpm_limit), c_int32, c_int32]),
    "ptpm_limits_say": (c_uint16, [POINTER(ptpm_limit), c_size_t, POINTER(ptpm_question)]),
    "ptpm_clock_set": (c_uint32, [POINTER(ptpm_clock), c_uint8, c_uint16, c_uint16, c_char_p, c_size_t, POINTER(ptpm_changed),
        POINTER(c_uint16)]),
    "ptpm_clock_observe": (c_uint32, [POINTER(ptpm_clock), POINTER(ptpm_observed_clock), POINTER(ptpm_observed_port), c_size_t,
        POINTER(c_uint64)]),
    "ptpm_clock_read": (c_uint32, [POINTER(ptpm_clock), c_uint16, c_uint16, POINTER(c_uint8), c_size_t, POINTER(c_size_t)]),
    "ptpm_clock_image": (c_uint32, [POINTER(ptpm_clock), POINTER(c_uint8), c_size_t, POINTER(c_size_t)]),
    "ptpm_clock_transit": (c_size_t, [POINTER(ptpm_clock), c_uint16, c_char_p, c_size_t, POINTER(ptpm_sent), c_size_t]),
    "ptpm_clock_saving": (c_uint32, [POINTER(ptpm_clock), c_size_t]),
    "ptpm_clock_image_of": (c_uint32, [POINTER(ptpm_clock), POINTER(c_uint8), c_size_t, POINTER(c_size_t), POINTER(c_uint64)]),
    "ptpm_clock_saved": (c_uint32, [POINTER(ptpm_clock), c_uint64]),
    "ptpm_clock_next": (c_size_t, [POINTER(ptpm_clock), POINTER(ptpm_sent)]),
    "ptpm_clock_free": (c_size_t, [POINTER(ptpm_clock)]),
    "ptpm_clock_unsaved": (c_uint32, [POINTER(ptpm_clock)]),
    "ptpm_clock_restore": (c_uint32, [POINTER(ptpm_clock), c_char_p, c_size_t, POINTER(ptpm_manager_settings), c_size_t, c_char_p,
        c_size_t, POINTER(c_size_t)]),
    "ptpm_clock_most_sent": (c_size_t, [POINTER(ptpm_clock)]),
    "ptpm_clock_stop": (None, [POINTER(ptpm_clock)]),
    "ptpm_session_start": (c_uint32, [POINTER(ptpm_session), POINTER(ptpm_session_settings)]),
    "ptpm_session_begin": (c_uint32, [POINTER(ptpm_session), c_uint8, c_uint16, c_uint16, c_char_p, c_size_t]),
    "ptpm_session_begin_at": (c_uint32, [POINTER(ptpm_session), c_uint8, c_uint16, c_uint16, c_char_p, c_size_t]),
    "ptpm_session_send": (c_uint32, [POINTER(ptpm_session), POINTER(c_uint8), c_size_t, POINTER(c_size_t)]),
    "ptpm_session_resume": (c_uint32, [POINTER(ptpm_session), c_uint8]),
    "ptpm_session_give_up": (c_uint32, [POINTER(ptpm_session)]),
    "ptpm_session_retune": (c_uint32, [POINTER(ptpm_session), c_uint8]),
    "ptpm_session_receive": (c_uint32, [POINTER(ptpm_session), c_char_p, c_size_t]),
    "ptpm_session_image": (c_uint32, [POINTER(ptpm_session), POINTER(c_uint8), c_size_t, POINTER(c_size_t)]),
    "ptpm_session_restore": (c_uint32, [POINTER(ptpm_session), POINTER(ptpm_session_settings), c_char_p, c_size_t]),
    "ptpm_session_issued": (c_uint64, [POINTER(ptpm_session)]),
    "ptpm_session_report": (c_uint32, [POINTER(ptpm_session), POINTER(c_uint8), c_size_t, POINTER(c_size_t), POINTER(c_uint16)]),
    "ptpm_session_stop": (None, [POINTER(ptpm_session)]),
    "ptpm_survey_start": (c_uint32, [POINTER(ptpm_survey), POINTER(ptpm_survey_settings)]),
    "ptpm_survey_start_at": (c_uint32, [POINTER(ptpm_survey), POINTER(ptpm_survey_settings), c_char_p]),
    "ptpm_survey_send": (c_uint32, [POINTER(ptpm_survey), POINTER(c_uint8), c_size_t, POINTER(c_size_t)]),
    "ptpm_survey_receive": (c_uint32, [POINTER(ptpm_survey), c_char_p, c_size_t]),
    "ptpm_survey_count": (c_size_t, [POINTER(ptpm_survey)]),
    "ptpm_survey_answer": (c_uint32, [POINTER(ptpm_survey), c_size_t, POINTER(ptpm_source), POINTER(c_uint8), c_size_t,
        POINTER(c_size_t), POINTER(c_uint16)]),
    "ptpm_survey_stop": (None, [POINTER(ptpm_survey)]),
    "ptpm_asker_start": (c_uint32, [POINTER(ptpm_asker), POINTER(ptpm_asker_settings), c_char_p]),
    "ptpm_asker_restore": (c_uint32, [POINTER(ptpm_asker), POINTER(ptpm_asker_settings), c_char_p, c_char_p, c_size_t]),
    "ptpm_asker_ask": (c_uint32, [POINTER(ptpm_asker), c_uint64, c_uint64, c_uint8, c_uint16, c_uint16, c_char_p, c_size_t,
        c_uint8, POINTER(ptpm_handed)]),
    "ptpm_asker_settle": (c_uint32, [POINTER(ptpm_asker), c_uint64, c_uint64, c_uint8, POINTER(ptpm_handed)]),
    "ptpm_asker_let_go": (c_uint32, [POINTER(ptpm_asker), POINTER(ptpm_handed)]),
    "ptpm_asker_hear": (c_uint32, [POINTER(ptpm_asker), c_char_p, c_size_t, POINTER(ptpm_handed)]),
    "ptpm_asker_wake": (c_uint32, [POINTER(ptpm_asker), c_uint64, POINTER(ptpm_handed)]),
    "ptpm_asker_unsent": (c_uint32, [POINTER(ptpm_asker), POINTER(ptpm_handed)]),
    "ptpm_asker_saved": (c_uint32, [POINTER(ptpm_asker), c_uint64, POINTER(ptpm_handed)]),
    "ptpm_asker_noted": (c_uint32, [POINTER(ptpm_asker), POINTER(ptpm_handed)]),
    "ptpm_asker_message": (c_uint32, [POINTER(ptpm_asker), POINTER(c_uint8), c_size_t, POINTER(c_size_t)]),
    "ptpm_asker_image": (c_uint32, [POINTER(ptpm_asker), POINTER(c_uint8), c_size_t, POINTER(c_size_t)]),
    "ptpm_asker_earlier": (c_uint32, [POINTER(ptpm_asker), c_uint8, POINTER(c_uint8)]),
    "ptpm_asker_report": (c_uint32, [POINTER(ptpm_asker), POINTER(c_uint8), c_size_t, POINTER(c_size_t), POINTER(c_uint16)]),
    "ptpm_asker_stop": (None, [POINTER(ptpm_asker)]),
    "ptpm_journal_start": (c_uint32, [POINTER(ptpm_journal)]),
    "ptpm_journal_add": (c_uint32, [POINTER(ptpm_journal), POINTER(ptpm_journal_record), c_char_p, c_size_t, c_char_p, c_size_t,
        POINTER(c_uint8), c_size_t, POINTER(c_size_t)]),
    "ptpm_journal_next": (c_uint32, [POINTER(ptpm_journal), c_char_p, c_size_t, POINTER(ptpm_journal_record), POINTER(c_size_t)]),
    "ptpm_journal_mark": (c_uint32, [POINTER(ptpm_journal), c_uint16]),
    "ptpm_journal_stop": (None, [POINTER(ptpm_journal)]),
    "ptpm_rollout_open": (c_uint32, [POINTER(ptpm_rollout), c_char_p, c_size_t, c_uint32, POINTER(c_size_t)]),
    "ptpm_rollout_turn": (c_uint32, [POINTER(ptpm_rollout), POINTER(ptpm_rollout_event), c_char_p, c_size_t,
        POINTER(ptpm_rollout_action)]),
    "ptpm_rollout_record": (c_uint32, [POINTER(ptpm_rollout), POINTER(c_uint8), c_size_t, POINTER(c_size_t)]),
    "ptpm_rollout_stop": (None, [POINTER(ptpm_rollout)]),
    "ptpm_image_seal_in": (c_uint32, [POINTER(c_uint8), c_size_t, c_size_t, c_uint64, POINTER(c_size_t)]),
    "ptpm_image_unseal": (c_uint32, [c_char_p, c_size_t, POINTER(c_uint64), POINTER(c_size_t)]),
    "ptpm_newest_image_in": (c_size_t, [c_char_p, c_size_t, c_size_t, POINTER(c_uint64), POINTER(c_size_t)]),
    "ptpm_passed_on_is_first": (c_bool, [POINTER(ptpm_passed_on), c_char_p, c_size_t, c_uint64, c_uint64]),
    "ptpm_passed_on_is_first_of": (c_bool, [c_uint64, POINTER(c_uint64), c_size_t, c_char_p, c_size_t, c_uint64, c_uint64]),
    "ptpm_rate_start": (None, [POINTER(ptpm_rate), c_uint64, c_uint64]),
    "ptpm_rate_take": (c_bool, [POINTER(ptpm_rate), c_uint64]),
    "ptpm_id_named": (c_uint32, [c_char_p, c_size_t]),
    "ptpm_id_parse": (c_uint32, [c_char_p, c_size_t]),
    "ptpm_id_at": (c_uint32, [c_size_t]),
    "ptpm_id_name": (c_size_t, [c_uint16, POINTER(c_char), c_size_t]),
    "ptpm_other_id_named": (c_uint32, [c_char_p, c_size_t]),
    "ptpm_other_id_at": (c_uint32, [c_size_t]),
    "ptpm_other_id_name": (c_size_t, [c_uint16, POINTER(c_char), c_size_t]),
    "ptpm_answer_name": (c_size_t, [c_uint32, POINTER(c_char), c_size_t]),
    "ptpm_error_name": (c_size_t, [c_uint16, POINTER(c_char), c_size_t]),
    "ptpm_number_named": (c_uint32, [c_uint32, c_char_p, c_size_t]),
    "ptpm_identity_parse": (c_bool, [c_char_p, c_size_t, POINTER(c_uint8)]),
    "ptpm_port_identity_parse": (c_bool, [c_char_p, c_size_t, POINTER(c_uint8), POINTER(c_uint16)]),
    "ptpm_field_text": (c_size_t, [c_uint16, c_char_p, c_size_t, POINTER(c_char), c_size_t]),
    "ptpm_member_kind": (c_uint32, [c_uint16, c_char_p, c_size_t, c_size_t]),
    "ptpm_field_parse": (c_uint32, [c_uint16, c_char_p, c_size_t, POINTER(c_uint8), c_size_t, POINTER(c_size_t),
        POINTER(c_size_t)]),
    "ptpm_field_takes": (c_size_t, [c_uint16, c_size_t, POINTER(c_char), c_size_t]),
}

STRUCTS: List[Type[Structure]] = [
    ptpm_clock, ptpm_clock_settings, ptpm_port_settings, ptpm_observed_clock, ptpm_observed_port, ptpm_manager_settings,
    ptpm_sent, ptpm_answer, ptpm_shared, ptpm_changed, ptpm_session, ptpm_session_settings, ptpm_survey, ptpm_survey_settings,
    ptpm_source, ptpm_passed_on, ptpm_rate, ptpm_asker, ptpm_asker_settings, ptpm_handed, ptpm_question, ptpm_say, ptpm_limit,
    ptpm_relayed_id, ptpm_taken, ptpm_journal, ptpm_journal_record, ptpm_rollout, ptpm_rollout_event, ptpm_rollout_action
]
