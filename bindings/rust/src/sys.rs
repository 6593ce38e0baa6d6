//! The header `ptpm.h` as it is: its constants, its structs and its calls, by its names. The declarations have no comments here.
//! `ptpm.h` documents each of them: what it is, what a call takes, answers and writes, and what a caller owes. It lies at
//! `hosts/ptpm.h` of the repository, and is installed beside the library.
#![allow(missing_docs, non_camel_case_types)]

use core::ffi::{c_char, c_void};
use core::mem::size_of;

/// Says whether a call with this answer was refused.
#[inline]
pub const fn ptpm_is_refusal(answer: u32) -> bool {
    answer >= 32
}

/// Compares these declarations with the library that is linked.
pub fn ptpm_header_agrees() -> ptpm_started {
    // SAFETY: the sizes may be read, and are as many as is said.
    unsafe { ptpm_sizes_agree(SIZES.as_ptr(), SIZES.len()) }
}

// tools/bindings -u writes all that follows from ptpm.h.

pub const PTPM_VERSION: &str = "0.1.0"; pub const PTPM_VERSION_NUMBER: u32 = 100;
pub const PTPM_ID_NULL_PTP_MANAGEMENT: u16 = 0x0000; pub const PTPM_ID_USER_DESCRIPTION: u16 = 0x0002;
pub const PTPM_ID_DEFAULT_DATA_SET: u16 = 0x2000; pub const PTPM_ID_CURRENT_DATA_SET: u16 = 0x2001;
pub const PTPM_ID_PARENT_DATA_SET: u16 = 0x2002; pub const PTPM_ID_TIME_PROPERTIES_DATA_SET: u16 = 0x2003;
pub const PTPM_ID_PORT_DATA_SET: u16 = 0x2004; pub const PTPM_ID_PRIORITY1: u16 = 0x2005;
pub const PTPM_ID_PRIORITY2: u16 = 0x2006; pub const PTPM_ID_DOMAIN: u16 = 0x2007; pub const PTPM_ID_SLAVE_ONLY: u16 = 0x2008;
pub const PTPM_ID_LOG_ANNOUNCE_INTERVAL: u16 = 0x2009; pub const PTPM_ID_ANNOUNCE_RECEIPT_TIMEOUT: u16 = 0x200a;
pub const PTPM_ID_LOG_SYNC_INTERVAL: u16 = 0x200b; pub const PTPM_ID_VERSION_NUMBER: u16 = 0x200c;
pub const PTPM_ID_ENABLE_PORT: u16 = 0x200d; pub const PTPM_ID_DISABLE_PORT: u16 = 0x200e;
pub const PTPM_ID_CLOCK_ACCURACY: u16 = 0x2010; pub const PTPM_ID_UTC_PROPERTIES: u16 = 0x2011;
pub const PTPM_ID_DELAY_MECHANISM: u16 = 0x6000; pub const PTPM_ID_LOG_MIN_PDELAY_REQ_INTERVAL: u16 = 0x6001;
pub const PTPM_MOST_PORTS: usize = 64; pub const PTPM_MOST_MANAGERS: usize = 64; pub const PTPM_MOST_IDS: usize = 32;
pub const PTPM_STATE_INITIALIZING: u8 = 1; pub const PTPM_STATE_FAULTY: u8 = 2; pub const PTPM_STATE_DISABLED: u8 = 3;
pub const PTPM_STATE_LISTENING: u8 = 4; pub const PTPM_STATE_PRE_MASTER: u8 = 5; pub const PTPM_STATE_MASTER: u8 = 6;
pub const PTPM_STATE_PASSIVE: u8 = 7; pub const PTPM_STATE_UNCALIBRATED: u8 = 8; pub const PTPM_STATE_SLAVE: u8 = 9;
pub const PTPM_DELAY_E2E: u8 = 1; pub const PTPM_DELAY_P2P: u8 = 2; pub const PTPM_DELAY_NONE: u8 = 0xFE;
pub const PTPM_CLOCK_SET: u8 = 1; pub const PTPM_PORT_SET: u8 = 2; pub const PTPM_PORT_COMMAND: u8 = 4;
pub const PTPM_CHANGED_IDENTITY: u32 = 1 << 0; pub const PTPM_CHANGED_DOMAIN: u32 = 1 << 1;
pub const PTPM_CHANGED_USER_DESCRIPTION: u32 = 1 << 2; pub const PTPM_CHANGED_TWO_STEP: u32 = 1 << 3;
pub const PTPM_CHANGED_PRIORITY1: u32 = 1 << 4; pub const PTPM_CHANGED_CLOCK_CLASS: u32 = 1 << 5;
pub const PTPM_CHANGED_CLOCK_ACCURACY: u32 = 1 << 6; pub const PTPM_CHANGED_VARIANCE: u32 = 1 << 7;
pub const PTPM_CHANGED_PRIORITY2: u32 = 1 << 8; pub const PTPM_CHANGED_STEPS_REMOVED: u32 = 1 << 9;
pub const PTPM_CHANGED_OFFSET_FROM_MASTER: u32 = 1 << 10; pub const PTPM_CHANGED_MEAN_PATH_DELAY: u32 = 1 << 11;
pub const PTPM_CHANGED_PARENT_PORT: u32 = 1 << 12; pub const PTPM_CHANGED_PARENT_STATS: u32 = 1 << 13;
pub const PTPM_CHANGED_OBSERVED_VARIANCE: u32 = 1 << 14; pub const PTPM_CHANGED_OBSERVED_RATE: u32 = 1 << 15;
pub const PTPM_CHANGED_GRANDMASTER_PRIORITY1: u32 = 1 << 16; pub const PTPM_CHANGED_GRANDMASTER_CLASS: u32 = 1 << 17;
pub const PTPM_CHANGED_GRANDMASTER_ACCURACY: u32 = 1 << 18; pub const PTPM_CHANGED_GRANDMASTER_VARIANCE: u32 = 1 << 19;
pub const PTPM_CHANGED_GRANDMASTER_PRIORITY2: u32 = 1 << 20; pub const PTPM_CHANGED_GRANDMASTER: u32 = 1 << 21;
pub const PTPM_CHANGED_UTC_OFFSET: u32 = 1 << 22; pub const PTPM_CHANGED_LEAP61: u32 = 1 << 23;
pub const PTPM_CHANGED_LEAP59: u32 = 1 << 24; pub const PTPM_CHANGED_UTC_VALID: u32 = 1 << 25;
pub const PTPM_CHANGED_PTP_TIMESCALE: u32 = 1 << 26; pub const PTPM_CHANGED_TIME_TRACEABLE: u32 = 1 << 27;
pub const PTPM_CHANGED_FREQUENCY_TRACEABLE: u32 = 1 << 28; pub const PTPM_CHANGED_TIME_SOURCE: u32 = 1 << 29;
pub const PTPM_CHANGED_PORT_STATE: u8 = 1 << 0; pub const PTPM_CHANGED_PORT_LOG_MIN_DELAY_REQ: u8 = 1 << 1;
pub const PTPM_CHANGED_PORT_PEER_DELAY: u8 = 1 << 2; pub const PTPM_CHANGED_PORT_LOG_ANNOUNCE: u8 = 1 << 3;
pub const PTPM_CHANGED_PORT_RECEIPT_TIMEOUT: u8 = 1 << 4; pub const PTPM_CHANGED_PORT_LOG_SYNC: u8 = 1 << 5;
pub const PTPM_CHANGED_PORT_DELAY_MECHANISM: u8 = 1 << 6; pub const PTPM_CHANGED_PORT_LOG_MIN_PDELAY: u8 = 1 << 7;
pub const PTPM_CHANGED_STATE: u8 = 1 << 0; pub const PTPM_CHANGED_LOG_MIN_DELAY_REQ: u8 = 1 << 1;
pub const PTPM_CHANGED_PEER_DELAY: u8 = 1 << 2; pub const PTPM_CHANGED_LOG_ANNOUNCE: u8 = 1 << 3;
pub const PTPM_CHANGED_RECEIPT_TIMEOUT: u8 = 1 << 4; pub const PTPM_CHANGED_LOG_SYNC: u8 = 1 << 5;
pub const PTPM_CHANGED_DELAY_MECHANISM: u8 = 1 << 6; pub const PTPM_CHANGED_LOG_MIN_PDELAY: u8 = 1 << 7;
pub const PTPM_AGREES: u8 = 0; pub const PTPM_OBJECTS: u8 = 1; pub const PTPM_GIVES: u8 = 2;
pub const PTPM_ERROR_WRONG_VALUE: u16 = 4; pub const PTPM_ERROR_NOT_SETABLE: u16 = 5; pub const PTPM_ERROR_NOT_SUPPORTED: u16 = 6;
pub const PTPM_ERROR_GENERAL_ERROR: u16 = 0xFFFE;
pub const PTPM_OF_CLOCK: u32 = 0; pub const PTPM_OF_PORT: u32 = 1; pub const PTPM_MAY_SET: u32 = 2;
pub const PTPM_MAY_COMMAND: u32 = 4;
pub const PTPM_GET: u8 = 0; pub const PTPM_SET: u8 = 1; pub const PTPM_COMMAND: u8 = 3;
pub const PTPM_NOTHING: u32 = 0; pub const PTPM_NOTE_BEGUN: u32 = 1; pub const PTPM_SAVE_IT: u32 = 2;
pub const PTPM_SEND_IT: u32 = 3; pub const PTPM_SEND_READ: u32 = 4; pub const PTPM_WAIT: u32 = 5;
pub const PTPM_NOTE_ANSWER: u32 = 6; pub const PTPM_FAILED: u32 = 7;
pub const PTPM_RECORD_HEAD: u32 = 1; pub const PTPM_RECORD_STEP: u32 = 2; pub const PTPM_RECORD_BEGUN: u32 = 3;
pub const PTPM_RECORD_NOT_BEGUN: u32 = 4; pub const PTPM_RECORD_LET_GO: u32 = 5; pub const PTPM_RECORD_TOLD: u32 = 6;
pub const PTPM_RECORD_POLICY: u32 = 7; pub const PTPM_RECORD_END: u32 = 8; pub const PTPM_RECORD_TEXT: u32 = 9;
pub const PTPM_KEEPS_GOING: u32 = 1; pub const PTPM_IN_ONE_ROW: u32 = 2;
pub const PTPM_STEP_DONE: u32 = 1; pub const PTPM_STEP_REFUSED: u32 = 2; pub const PTPM_STEP_ANSWERED: u32 = 3;
pub const PTPM_END_COMPLETE: u32 = 1; pub const PTPM_END_REFUSED: u32 = 2; pub const PTPM_END_ANSWERED: u32 = 3;
pub const PTPM_END_CHANGED: u32 = 4; pub const PTPM_END_GIVEN_UP: u32 = 5; pub const PTPM_END_ROLLED_BACK: u32 = 6;
pub const PTPM_END_STOPPED: u32 = 7; pub const PTPM_END_IN_PART: u32 = 8;
pub const PTPM_NO_STEP: u32 = 65535;
pub const PTPM_MARK_UNTOUCHED: u32 = 0; pub const PTPM_MARK_BEGUN: u32 = 1; pub const PTPM_MARK_DONE: u32 = 2;
pub const PTPM_MARK_REFUSED: u32 = 3; pub const PTPM_MARK_ANSWERED: u32 = 4; pub const PTPM_MARK_LET_GO: u32 = 5;
pub const PTPM_MARK_NONE: u32 = 6;
pub const PTPM_STOP_AT_FAILURE: u32 = 0; pub const PTPM_KEEP_GOING: u32 = 1; pub const PTPM_GIVE_UP: u32 = 2;
pub const PTPM_SETTLE_ALONE: u32 = 3;
pub const PTPM_EVENT_BEGIN: u32 = 0; pub const PTPM_EVENT_FOUND: u32 = 1; pub const PTPM_EVENT_BEGINS: u32 = 2;
pub const PTPM_EVENT_UNSENT: u32 = 3; pub const PTPM_EVENT_VALUE: u32 = 4; pub const PTPM_EVENT_REFUSED: u32 = 5;
pub const PTPM_EVENT_SILENT: u32 = 6; pub const PTPM_EVENT_DONE: u32 = 7; pub const PTPM_EVENT_PASSES: u32 = 8;
pub const PTPM_EVENT_STOPS: u32 = 9; pub const PTPM_EVENT_NOT_WRITTEN: u32 = 10; pub const PTPM_EVENT_INTERRUPTED: u32 = 11;
pub const PTPM_DO_LOOK: u32 = 1; pub const PTPM_DO_SETTLE: u32 = 2; pub const PTPM_DO_LET_GO: u32 = 3;
pub const PTPM_DO_READ: u32 = 4; pub const PTPM_DO_CHECK: u32 = 5; pub const PTPM_DO_ASK: u32 = 6;
pub const PTPM_DO_NOTE: u32 = 7; pub const PTPM_DO_GO_ON: u32 = 8; pub const PTPM_DO_LEAVE: u32 = 9;
pub const PTPM_DO_END: u32 = 10;
pub const PTPM_OPEN_SILENT: u32 = 1; pub const PTPM_OPEN_UNKNOWN: u32 = 2; pub const PTPM_OPEN_NOT_WRITTEN: u32 = 3;
pub const PTPM_OPEN_INTERRUPTED: u32 = 4; pub const PTPM_OPEN_SETTLED: u32 = 5;
pub const PTPM_NOTHING_LEFT: u32 = 0; pub const PTPM_QUESTION_LEFT: u32 = 1; pub const PTPM_GET_LEFT: u32 = 2;
pub const PTPM_CHANGE_LEFT: u32 = 3;
pub const PTPM_NO_NUMBER: u32 = 65536;
pub const PTPM_MOST_SENT: usize = 15; pub const PTPM_MOST_READ: usize = 130; pub const PTPM_MOST_OCTETS: usize = 1472;
pub const PTPM_SESSION_IMAGE_OCTETS: usize = 1478; pub const PTPM_CLOCK_IMAGE_OCTETS: usize = 27385;
pub const PTPM_RECORD_OCTETS: u32 = 8221;
pub const PTPM_SEAL_OCTETS: usize = 16;
pub const PTPM_MOST_ANSWERS: usize = 16384; pub const PTPM_SURVEY_PORT: u16 = 65534;
pub const PTPM_SAVING: u32 = 0; pub const PTPM_OTHER_DOMAIN: u32 = 1; pub const PTPM_NOT_A_REPLY: u32 = 10;
pub const PTPM_OTHER_TARGET: u32 = 11; pub const PTPM_OTHER_SOURCE: u32 = 12; pub const PTPM_OTHER_NUMBER: u32 = 14;
pub const PTPM_OTHER_CONTENT: u32 = 15; pub const PTPM_TOO_SHORT: u32 = 16; pub const PTPM_NOT_MANAGEMENT: u32 = 17;
pub const PTPM_BAD_VERSION: u32 = 18; pub const PTPM_BAD_LENGTH: u32 = 19; pub const PTPM_BAD_ACTION: u32 = 20;
pub const PTPM_BAD_TLV_TYPE: u32 = 21; pub const PTPM_BAD_TLV_LENGTH: u32 = 22; pub const PTPM_BAD_TEXT: u32 = 23;
pub const PTPM_NO_CLOCK: u32 = 32; pub const PTPM_NO_PORT: u32 = 33; pub const PTPM_NO_ROOM: u32 = 34;
pub const PTPM_NO_MEMORY: u32 = 35; pub const PTPM_NO_SESSION: u32 = 37; pub const PTPM_IDLE: u32 = 43;
pub const PTPM_NO_SURVEY: u32 = 46; pub const PTPM_NO_ASKER: u32 = 120; pub const PTPM_NO_JOURNAL: u32 = 126;
pub const PTPM_NO_ROLLOUT: u32 = 130; pub const PTPM_OTHER_SIZES: u32 = 47; pub const PTPM_GRANDMASTER_DIFFERS: u32 = 50;
pub const PTPM_TOO_MANY_MANAGERS: u32 = 51; pub const PTPM_MANAGER_TWICE: u32 = 52; pub const PTPM_IDENTITY_IS_ZERO: u32 = 56;
pub const PTPM_UNSAVED: u32 = 118; pub const PTPM_UNDER_WAY: u32 = 123; pub const PTPM_BAD_CLOCK_ACCURACY: u32 = 70;
pub const PTPM_BAD_LEAP59: u32 = 88; pub const PTPM_BAD_STATE: u32 = 94;
pub type ptpm_started = u32; pub const PTPM_STARTED: u32 = 0; pub const PTPM_START_NO_MEMORY: u32 = 35;
pub const PTPM_START_OTHER_SIZES: u32 = 47; pub const PTPM_NO_PORTS: u32 = 48; pub const PTPM_TOO_MANY_PORTS: u32 = 49;
pub const PTPM_START_GRANDMASTER_DIFFERS: u32 = 50; pub const PTPM_START_TOO_MANY_MANAGERS: u32 = 51;
pub const PTPM_START_MANAGER_TWICE: u32 = 52; pub const PTPM_MANAGER_IS_EVERY: u32 = 53; pub const PTPM_TARGET_IS_EVERY: u32 = 54;
pub const PTPM_SAME_CLOCK: u32 = 55; pub const PTPM_START_IDENTITY_IS_ZERO: u32 = 56; pub const PTPM_TARGET_IS_ZERO: u32 = 57;
pub const PTPM_BAD_IDENTITY: u32 = 64; pub const PTPM_BAD_USER_DESCRIPTION: u32 = 66;
pub const PTPM_START_BAD_CLOCK_ACCURACY: u32 = 70; pub const PTPM_START_BAD_LEAP59: u32 = 88;
pub const PTPM_START_BAD_STATE: u32 = 94; pub const PTPM_BAD_LOG_ANNOUNCE: u32 = 97; pub const PTPM_BAD_RECEIPT_TIMEOUT: u32 = 98;
pub const PTPM_BAD_LOG_SYNC: u32 = 99; pub const PTPM_BAD_DELAY_MECHANISM: u32 = 100;
pub const PTPM_BAD_LOG_MIN_PDELAY: u32 = 101;
pub const PTPM_BAD_DOMAIN: u32 = 65; pub const PTPM_BAD_TWO_STEP: u32 = 67; pub const PTPM_BAD_PRIORITY1: u32 = 68;
pub const PTPM_BAD_CLOCK_CLASS: u32 = 69; pub const PTPM_BAD_VARIANCE: u32 = 71; pub const PTPM_BAD_PRIORITY2: u32 = 72;
pub const PTPM_BAD_STEPS_REMOVED: u32 = 73; pub const PTPM_BAD_OFFSET_FROM_MASTER: u32 = 74;
pub const PTPM_BAD_MEAN_PATH_DELAY: u32 = 75; pub const PTPM_BAD_PARENT_PORT: u32 = 76; pub const PTPM_BAD_PARENT_STATS: u32 = 77;
pub const PTPM_BAD_OBSERVED_VARIANCE: u32 = 78; pub const PTPM_BAD_OBSERVED_RATE: u32 = 79;
pub const PTPM_BAD_GRANDMASTER_PRIORITY1: u32 = 80; pub const PTPM_BAD_GRANDMASTER_CLASS: u32 = 81;
pub const PTPM_BAD_GRANDMASTER_ACCURACY: u32 = 82; pub const PTPM_BAD_GRANDMASTER_VARIANCE: u32 = 83;
pub const PTPM_BAD_GRANDMASTER_PRIORITY2: u32 = 84; pub const PTPM_BAD_GRANDMASTER: u32 = 85;
pub const PTPM_BAD_UTC_OFFSET: u32 = 86; pub const PTPM_BAD_LEAP61: u32 = 87; pub const PTPM_BAD_UTC_VALID: u32 = 89;
pub const PTPM_BAD_PTP_TIMESCALE: u32 = 90; pub const PTPM_BAD_TIME_TRACEABLE: u32 = 91;
pub const PTPM_BAD_FREQUENCY_TRACEABLE: u32 = 92; pub const PTPM_BAD_TIME_SOURCE: u32 = 93;
pub const PTPM_BAD_LOG_MIN_DELAY_REQ: u32 = 95; pub const PTPM_BAD_PEER_DELAY: u32 = 96;
pub type ptpm_handled = u32; pub const PTPM_HANDLE_OTHER_DOMAIN: u32 = 1; pub const PTPM_OWN_MESSAGE: u32 = 2;
pub const PTPM_NOT_ADDRESSED: u32 = 3; pub const PTPM_NOT_A_REQUEST: u32 = 4; pub const PTPM_ANSWERED_NEW: u32 = 5;
pub const PTPM_ANSWERED_REPEAT: u32 = 6; pub const PTPM_DROPPED_OLD: u32 = 7; pub const PTPM_DROPPED_CONFLICT: u32 = 8;
pub const PTPM_ANSWERED_UNNUMBERED: u32 = 9; pub const PTPM_HANDLE_TOO_SHORT: u32 = 16;
pub const PTPM_HANDLE_NOT_MANAGEMENT: u32 = 17; pub const PTPM_HANDLE_BAD_VERSION: u32 = 18;
pub const PTPM_HANDLE_BAD_LENGTH: u32 = 19; pub const PTPM_HANDLE_BAD_ACTION: u32 = 20;
pub const PTPM_HANDLE_BAD_TLV_TYPE: u32 = 21; pub const PTPM_HANDLE_BAD_TLV_LENGTH: u32 = 22;
pub const PTPM_HANDLE_BAD_TEXT: u32 = 23; pub const PTPM_HANDLE_NO_CLOCK: u32 = 32; pub const PTPM_HANDLE_NO_PORT: u32 = 33;
pub const PTPM_HANDLE_NO_ROOM: u32 = 34; pub const PTPM_HANDLE_NO_MEMORY: u32 = 35; pub const PTPM_HANDLE_UNSAVED: u32 = 118;
pub const PTPM_BAD_SAY: u32 = 121; pub const PTPM_HANDLE_UNDER_WAY: u32 = 123; pub const PTPM_NOTHING_UNDER_WAY: u32 = 124;
pub type ptpm_relaying = u32; pub const PTPM_RELAYING: u32 = 0; pub const PTPM_RELAY_NO_CLOCK: u32 = 32;
pub const PTPM_TOO_MANY_IDS: u32 = 133; pub const PTPM_CLOCK_HAS_ID: u32 = 134; pub const PTPM_RELAYED_TWICE: u32 = 135;
pub const PTPM_BAD_SCOPE: u32 = 136; pub const PTPM_BAD_ACTIONS: u32 = 137; pub const PTPM_BAD_SIZES: u32 = 138;
pub const PTPM_RELAY_NO_MEMORY: u32 = 35;
pub type ptpm_asking = u32; pub const PTPM_ASKED_NOTHING: u32 = 0; pub const PTPM_ASKED_CHANGE: u32 = 29;
pub const PTPM_ASKED_VALUE: u32 = 30; pub const PTPM_ASKING_NO_CLOCK: u32 = 32; pub const PTPM_ASKING_NO_PORT: u32 = 33;
pub const PTPM_ASKING_UNSAVED: u32 = 118; pub const PTPM_ASKING_UNDER_WAY: u32 = 123;
pub type ptpm_set_here = u32; pub const PTPM_SET_HERE: u32 = 0; pub const PTPM_SET_REFUSED: u32 = 26;
pub const PTPM_SET_NO_CLOCK: u32 = 32; pub const PTPM_SET_NO_PORT: u32 = 33; pub const PTPM_SET_NOT_PERMITTED: u32 = 40;
pub const PTPM_SET_BAD_VALUE: u32 = 41; pub const PTPM_SET_UNDER_WAY: u32 = 123;
pub type ptpm_observed = u32; pub const PTPM_OBSERVED: u32 = 0; pub const PTPM_OBSERVE_NO_CLOCK: u32 = 32;
pub const PTPM_OBSERVE_NO_PORT: u32 = 33; pub const PTPM_OBSERVE_GRANDMASTER_DIFFERS: u32 = 50;
pub const PTPM_OBSERVE_BAD_CLOCK_ACCURACY: u32 = 70; pub const PTPM_OBSERVE_BAD_LEAP59: u32 = 88;
pub const PTPM_OBSERVE_BAD_STATE: u32 = 94;
pub type ptpm_read = u32; pub const PTPM_READ: u32 = 0; pub const PTPM_READ_NO_CLOCK: u32 = 32;
pub const PTPM_READ_NO_PORT: u32 = 33; pub const PTPM_READ_NO_ROOM: u32 = 34; pub const PTPM_NOT_READABLE: u32 = 36;
pub type ptpm_begun = u32; pub const PTPM_BEGUN: u32 = 0; pub const PTPM_BEGIN_NO_MEMORY: u32 = 35;
pub const PTPM_BEGIN_NO_SESSION: u32 = 37; pub const PTPM_BUSY: u32 = 38; pub const PTPM_NEEDS_PORT: u32 = 39;
pub const PTPM_NOT_PERMITTED: u32 = 40; pub const PTPM_BAD_VALUE: u32 = 41; pub const PTPM_COUNT_AT_MAXIMUM: u32 = 42;
pub type ptpm_sending = u32; pub const PTPM_SENT: u32 = 0; pub const PTPM_SEND_NO_ROOM: u32 = 34;
pub const PTPM_SEND_NO_SESSION: u32 = 37; pub const PTPM_SEND_IDLE: u32 = 43; pub const PTPM_GAVE_UP: u32 = 44;
pub const PTPM_SEND_NO_SURVEY: u32 = 46;
pub type ptpm_resumed = u32; pub const PTPM_RESUMED: u32 = 0; pub const PTPM_RESUME_NO_SESSION: u32 = 37;
pub const PTPM_RESUME_IDLE: u32 = 43;
pub type ptpm_given_up = u32; pub const PTPM_GIVEN_UP: u32 = 0; pub const PTPM_GIVE_UP_NO_SESSION: u32 = 37;
pub const PTPM_GIVE_UP_IDLE: u32 = 43; pub const PTPM_OUT_OF_REACH: u32 = 112;
pub type ptpm_retuned = u32; pub const PTPM_RETUNED: u32 = 0; pub const PTPM_RETUNE_NO_SESSION: u32 = 37;
pub type ptpm_session_received = u32; pub const PTPM_ANSWERED: u32 = 0; pub const PTPM_SESSION_OTHER_DOMAIN: u32 = 1;
pub const PTPM_SESSION_NOT_A_REPLY: u32 = 10; pub const PTPM_SESSION_OTHER_TARGET: u32 = 11;
pub const PTPM_SESSION_OTHER_SOURCE: u32 = 12; pub const PTPM_NOTHING_ASKED: u32 = 13;
pub const PTPM_SESSION_OTHER_NUMBER: u32 = 14; pub const PTPM_SESSION_OTHER_CONTENT: u32 = 15;
pub const PTPM_SESSION_TOO_SHORT: u32 = 16; pub const PTPM_SESSION_NOT_MANAGEMENT: u32 = 17;
pub const PTPM_SESSION_BAD_VERSION: u32 = 18; pub const PTPM_SESSION_BAD_LENGTH: u32 = 19;
pub const PTPM_SESSION_BAD_ACTION: u32 = 20; pub const PTPM_SESSION_BAD_TLV_TYPE: u32 = 21;
pub const PTPM_SESSION_BAD_TLV_LENGTH: u32 = 22; pub const PTPM_SESSION_BAD_TEXT: u32 = 23;
pub const PTPM_SESSION_NO_MEMORY: u32 = 35; pub const PTPM_SESSION_NO_SESSION: u32 = 37;
pub type ptpm_survey_received = u32; pub const PTPM_TAKEN: u32 = 0; pub const PTPM_SURVEY_OTHER_DOMAIN: u32 = 1;
pub const PTPM_SURVEY_NOT_A_REPLY: u32 = 10; pub const PTPM_SURVEY_OTHER_TARGET: u32 = 11;
pub const PTPM_SURVEY_OTHER_SOURCE: u32 = 12; pub const PTPM_SURVEY_OTHER_NUMBER: u32 = 14;
pub const PTPM_SURVEY_OTHER_CONTENT: u32 = 15; pub const PTPM_SURVEY_TOO_SHORT: u32 = 16;
pub const PTPM_SURVEY_NOT_MANAGEMENT: u32 = 17; pub const PTPM_SURVEY_BAD_VERSION: u32 = 18;
pub const PTPM_SURVEY_BAD_LENGTH: u32 = 19; pub const PTPM_SURVEY_BAD_ACTION: u32 = 20;
pub const PTPM_SURVEY_BAD_TLV_TYPE: u32 = 21; pub const PTPM_SURVEY_BAD_TLV_LENGTH: u32 = 22;
pub const PTPM_SURVEY_BAD_TEXT: u32 = 23; pub const PTPM_AGAIN: u32 = 27; pub const PTPM_FULL: u32 = 28;
pub const PTPM_SURVEY_NO_MEMORY: u32 = 35; pub const PTPM_SURVEY_NO_SURVEY: u32 = 46;
pub type ptpm_reported = u32; pub const PTPM_VALUE: u32 = 0; pub const PTPM_DONE: u32 = 25; pub const PTPM_REFUSED: u32 = 26;
pub const PTPM_REPORT_NO_ROOM: u32 = 34; pub const PTPM_REPORT_NO_SESSION: u32 = 37; pub const PTPM_NO_REPORT: u32 = 45;
pub const PTPM_REPORT_NO_SURVEY: u32 = 46; pub const PTPM_REPORT_NO_ASKER: u32 = 120;
pub type ptpm_saved = u32; pub const PTPM_SAVED: u32 = 0; pub const PTPM_ACT_NOW: u32 = 31;
pub const PTPM_SAVE_NO_CLOCK: u32 = 32; pub const PTPM_SAVE_NO_ROOM: u32 = 34; pub const PTPM_SAVE_NO_MEMORY: u32 = 35;
pub const PTPM_SAVE_NO_SESSION: u32 = 37; pub const PTPM_OTHER_IMAGE: u32 = 119;
pub type ptpm_restored = u32; pub const PTPM_RESTORED: u32 = 0; pub const PTPM_RESTORE_NO_MEMORY: u32 = 35;
pub const PTPM_RESTORE_TOO_MANY_MANAGERS: u32 = 51; pub const PTPM_RESTORE_MANAGER_TWICE: u32 = 52;
pub const PTPM_RESTORE_IDENTITY_IS_ZERO: u32 = 56; pub const PTPM_NOT_AN_IMAGE: u32 = 104;
pub const PTPM_OTHER_VERSION: u32 = 105; pub const PTPM_OTHER_KIND: u32 = 106; pub const PTPM_DAMAGED: u32 = 107;
pub const PTPM_OTHER_CLOCK: u32 = 108; pub const PTPM_OTHER_PORTS: u32 = 109; pub const PTPM_OTHER_SESSION: u32 = 110;
pub type ptpm_parsed = u32; pub const PTPM_PARSED: u32 = 0; pub const PTPM_PARSE_NO_ROOM: u32 = 34;
pub const PTPM_NOT_WORDS: u32 = 113; pub const PTPM_UNKNOWN_ID: u32 = 114; pub const PTPM_WORD_COUNT: u32 = 115;
pub const PTPM_OTHER_NAME: u32 = 116; pub const PTPM_NO_VALUE: u32 = 117;
pub type ptpm_asker_restored = u32; pub const PTPM_ASKER_RESTORED: u32 = 0; pub const PTPM_ASKER_RESTORE_NO_MEMORY: u32 = 35;
pub const PTPM_ASKER_RESTORE_NO_PORTS: u32 = 48; pub const PTPM_ASKER_RESTORE_TOO_MANY_PORTS: u32 = 49;
pub const PTPM_ASKER_RESTORE_MANAGER_TWICE: u32 = 52; pub const PTPM_ASKER_RESTORE_MANAGER_IS_EVERY: u32 = 53;
pub const PTPM_ASKER_RESTORE_TARGET_IS_EVERY: u32 = 54; pub const PTPM_ASKER_RESTORE_SAME_CLOCK: u32 = 55;
pub const PTPM_ASKER_RESTORE_TARGET_IS_ZERO: u32 = 57; pub const PTPM_ASKER_RESTORE_NOT_AN_IMAGE: u32 = 104;
pub const PTPM_ASKER_RESTORE_OTHER_VERSION: u32 = 105; pub const PTPM_ASKER_RESTORE_OTHER_KIND: u32 = 106;
pub const PTPM_ASKER_RESTORE_DAMAGED: u32 = 107; pub const PTPM_ASKER_RESTORE_OTHER_SESSION: u32 = 110;
pub type ptpm_asked = u32; pub const PTPM_ASKED: u32 = 0; pub const PTPM_ASK_NO_ROOM: u32 = 34;
pub const PTPM_ASK_NO_MEMORY: u32 = 35; pub const PTPM_ASK_BUSY: u32 = 38; pub const PTPM_ASK_NEEDS_PORT: u32 = 39;
pub const PTPM_ASK_NOT_PERMITTED: u32 = 40; pub const PTPM_ASK_BAD_VALUE: u32 = 41; pub const PTPM_ASK_COUNT_AT_MAXIMUM: u32 = 42;
pub const PTPM_ASK_IDLE: u32 = 43; pub const PTPM_ASK_OUT_OF_REACH: u32 = 112; pub const PTPM_ASK_NO_ASKER: u32 = 120;
pub type ptpm_journaled = u32; pub const PTPM_JOURNALED: u32 = 0; pub const PTPM_JOURNAL_NO_ROOM: u32 = 34;
pub const PTPM_JOURNAL_NO_MEMORY: u32 = 35; pub const PTPM_JOURNAL_OTHER_VERSION: u32 = 105;
pub const PTPM_JOURNAL_DAMAGED: u32 = 107; pub const PTPM_JOURNAL_NO_JOURNAL: u32 = 126; pub const PTPM_NO_RECORD: u32 = 127;
pub const PTPM_NOT_ALLOWED: u32 = 128; pub const PTPM_JOURNAL_WHOLE: u32 = 129;
pub type ptpm_rolled = u32; pub const PTPM_ROLLED: u32 = 0; pub const PTPM_ROLLOUT_NO_ROOM: u32 = 34;
pub const PTPM_ROLLOUT_NO_MEMORY: u32 = 35; pub const PTPM_ROLLOUT_BAD_VALUE: u32 = 41;
pub const PTPM_ROLLOUT_OTHER_VERSION: u32 = 105; pub const PTPM_ROLLOUT_DAMAGED: u32 = 107;
pub const PTPM_ROLLOUT_NO_ROLLOUT: u32 = 130; pub const PTPM_HAS_ENDED: u32 = 131; pub const PTPM_OUT_OF_TURN: u32 = 132;
pub const PTPM_NO_ID: u32 = 65536; pub const PTPM_MOST_NAME: usize = 27;
pub const PTPM_PORT_STATES: u32 = 1; pub const PTPM_DELAY_MECHANISMS: u32 = 2; pub const PTPM_TIME_SOURCES: u32 = 3;
pub const PTPM_MOST_FIELD_TEXT: usize = 5034;
pub type ptpm_member_kind = u32; pub const PTPM_NO_MEMBER: u32 = 0; pub const PTPM_IS_NUMBER: u32 = 1;
pub const PTPM_IS_FLAG: u32 = 2; pub const PTPM_IS_INTERVAL: u32 = 3; pub const PTPM_IS_CLOCK: u32 = 4;
pub const PTPM_IS_PORT: u32 = 5; pub const PTPM_IS_CLOCKS: u32 = 6; pub const PTPM_IS_TEXT: u32 = 7;
pub const PTPM_IS_OCTETS: u32 = 8; pub const PTPM_IS_PORT_STATE: u32 = 16; pub const PTPM_IS_DELAY_MECHANISM: u32 = 17;
pub const PTPM_IS_TIME_SOURCE: u32 = 18; pub const PTPM_IS_TIMESTAMPING: u32 = 19;
pub const PTPM_MOST_TAKES: usize = 69;

#[repr(C)]
pub struct ptpm_clock { pub at: *mut c_void, pub live: bool, pub restored: bool }
#[repr(C)] #[derive(Clone, Copy)]
pub struct ptpm_clock_settings { pub offset_from_master: i64, pub mean_path_delay: i64, pub observed_rate: i32, pub variance: u16,
        pub steps_removed: u16, pub observed_variance: u16, pub grandmaster_variance: u16, pub parent_port_number: u16,
        pub utc_offset: i16, pub identity: [u8; 8], pub parent_port_clock: [u8; 8], pub grandmaster: [u8; 8], pub domain: u8,
        pub two_step: u8, pub priority1: u8, pub clock_class: u8, pub clock_accuracy: u8, pub priority2: u8, pub parent_stats: u8,
        pub grandmaster_priority1: u8, pub grandmaster_class: u8, pub grandmaster_accuracy: u8, pub grandmaster_priority2: u8,
        pub leap61: u8, pub leap59: u8, pub utc_valid: u8, pub ptp_timescale: u8, pub time_traceable: u8,
        pub frequency_traceable: u8, pub time_source: u8, pub has_parent_port: u8, pub has_grandmaster: u8,
        pub has_grandmaster_priority1: u8, pub has_grandmaster_class: u8, pub has_grandmaster_accuracy: u8,
        pub has_grandmaster_variance: u8, pub has_grandmaster_priority2: u8, pub user_description_size: u8,
        pub user_description: [u8; 129] }
#[repr(C)] #[derive(Clone, Copy)]
pub struct ptpm_port_settings { pub peer_delay: i64, pub state: u8, pub log_min_delay_req: i8, pub log_announce: i8,
        pub receipt_timeout: u8, pub log_sync: i8, pub delay_mechanism: u8, pub log_min_pdelay: i8 }
#[repr(C)] #[derive(Clone, Copy)]
pub struct ptpm_observed_clock { pub offset_from_master: i64, pub mean_path_delay: i64, pub observed_rate: i32, pub variance: u16,
        pub steps_removed: u16, pub observed_variance: u16, pub grandmaster_variance: u16, pub parent_port_number: u16,
        pub utc_offset: i16, pub parent_port_clock: [u8; 8], pub grandmaster: [u8; 8], pub clock_class: u8,
        pub clock_accuracy: u8, pub parent_stats: u8, pub grandmaster_priority1: u8, pub grandmaster_class: u8,
        pub grandmaster_accuracy: u8, pub grandmaster_priority2: u8, pub leap61: u8, pub leap59: u8, pub utc_valid: u8,
        pub ptp_timescale: u8, pub time_traceable: u8, pub frequency_traceable: u8, pub time_source: u8, pub has_clock_class: u8,
        pub has_clock_accuracy: u8, pub has_variance: u8, pub has_steps_removed: u8, pub has_offset_from_master: u8,
        pub has_mean_path_delay: u8, pub has_parent_stats: u8, pub has_observed_variance: u8, pub has_observed_rate: u8,
        pub is_grandmaster: u8, pub has_grandmaster: u8, pub has_utc_offset: u8, pub has_leap61: u8, pub has_leap59: u8,
        pub has_utc_valid: u8, pub has_ptp_timescale: u8, pub has_time_traceable: u8, pub has_frequency_traceable: u8,
        pub has_time_source: u8 }
#[repr(C)] #[derive(Clone, Copy)]
pub struct ptpm_observed_port { pub peer_delay: i64, pub state: u8, pub has_state: u8, pub has_peer_delay: u8 }
#[repr(C)] #[derive(Clone, Copy)]
pub struct ptpm_manager_settings { pub clock: [u8; 8], pub port: u16, pub rights: u8 }
#[repr(C)] #[derive(Clone, Copy)]
pub struct ptpm_sent { pub port: u16, pub size: u16, pub octets: [u8; 1472] }
#[repr(C)] #[derive(Clone, Copy)]
pub struct ptpm_answer { pub port: u16, pub size: u16, pub octets: [u8; 184] }
#[repr(C)] #[derive(Clone, Copy)]
pub struct ptpm_shared { pub ports: u64, pub size: u64, pub count: u64 }
#[repr(C)] #[derive(Clone, Copy)]
pub struct ptpm_changed { pub clock: u32, pub ports: [u8; 64] }
#[repr(C)] #[derive(Clone, Copy)]
pub struct ptpm_taken { pub count: u64, pub waiting: u64, pub changed: ptpm_changed }
#[repr(C)] #[derive(Clone, Copy)]
pub struct ptpm_question { pub manager: [u8; 8], pub manager_port: u16, pub number: u16, pub id: u16, pub port: u16,
        pub size: u16, pub action: u8, pub octets: [u8; 130] }
#[repr(C)] #[derive(Clone, Copy)]
pub struct ptpm_say { pub error: u16, pub size: u16, pub kind: u8, pub octets: [u8; 1418] }
#[repr(C)] #[derive(Clone, Copy)]
pub struct ptpm_limit { pub id: u16, pub port: u16, pub values: [u8; 32] }
#[repr(C)] #[derive(Clone, Copy)]
pub struct ptpm_relayed_id { pub id: u16, pub scope: u8, pub actions: u8, pub right: u8, pub least: u16, pub most: u16 }
#[repr(C)]
pub struct ptpm_session { pub at: *mut c_void, pub live: bool, pub restored: bool }
#[repr(C)] #[derive(Clone, Copy)]
pub struct ptpm_session_settings { pub port: u16, pub target_ports: u16, pub first: u16, pub clock: [u8; 8], pub target: [u8; 8],
        pub domain: u8, pub hops: u8, pub attempts: u8 }
#[repr(C)]
pub struct ptpm_survey { pub at: *mut c_void, pub live: bool, pub restored: bool }
#[repr(C)] #[derive(Clone, Copy)]
pub struct ptpm_survey_settings { pub port: u16, pub number: u16, pub id: u16, pub clock: [u8; 8], pub domain: u8, pub hops: u8 }
#[repr(C)]
pub struct ptpm_asker { pub at: *mut c_void, pub live: bool, pub restored: bool }
#[repr(C)] #[derive(Clone, Copy)]
pub struct ptpm_asker_settings { pub session: ptpm_session_settings, pub nobody: u16, pub timeout: u32, pub wait: u32 }
#[repr(C)] #[derive(Clone, Copy)]
pub struct ptpm_handed { pub tag: u64, pub time: u64, pub what: u32, pub number: u16, pub was_sent: bool,
        pub is_read_answered: bool }
#[repr(C)]
pub struct ptpm_journal { pub at: *mut c_void, pub live: bool, pub restored: bool }
#[repr(C)] #[derive(Clone, Copy)]
pub struct ptpm_journal_record { pub time: u64, pub first: u32, pub second: u32, pub first_size: u16, pub second_size: u16,
        pub count: u16, pub port: u16, pub id: u16, pub step: u16, pub number: u16, pub error: u16, pub clock: [u8; 8],
        pub kind: u8, pub flags: u8, pub together: u8, pub domain: u8, pub group: u8, pub what: u8, pub zero: [u8; 2] }
#[repr(C)]
pub struct ptpm_rollout { pub at: *mut c_void, pub live: bool, pub restored: bool }
#[repr(C)] #[derive(Clone, Copy)]
pub struct ptpm_rollout_event { pub time: u64, pub what: u32, pub number: u16, pub error: u16 }
#[repr(C)] #[derive(Clone, Copy)]
pub struct ptpm_rollout_action { pub what: u32, pub lane: u16, pub step: u16, pub domain: u8, pub ending: u8, pub why: u8,
        pub zero: u8 }
#[repr(C)] #[derive(Clone, Copy)]
pub struct ptpm_source { pub clock: [u8; 8], pub port: u16 }
#[repr(C)] #[derive(Clone, Copy)]
pub struct ptpm_passed_on { pub seed: u64, pub places: [[u64; 6]; 4096] }
#[repr(C)] #[derive(Clone, Copy)]
pub struct ptpm_rate { pub rate: u64, pub left: u64, pub time: u64 }

impl crate::ManagementId {
    pub const NULL_PTP_MANAGEMENT: Self = Self(0x0000); pub const USER_DESCRIPTION: Self = Self(0x0002);
    pub const DEFAULT_DATA_SET: Self = Self(0x2000); pub const CURRENT_DATA_SET: Self = Self(0x2001);
    pub const PARENT_DATA_SET: Self = Self(0x2002); pub const TIME_PROPERTIES_DATA_SET: Self = Self(0x2003);
    pub const PORT_DATA_SET: Self = Self(0x2004); pub const PRIORITY1: Self = Self(0x2005);
    pub const PRIORITY2: Self = Self(0x2006); pub const DOMAIN: Self = Self(0x2007); pub const SLAVE_ONLY: Self = Self(0x2008);
    pub const LOG_ANNOUNCE_INTERVAL: Self = Self(0x2009); pub const ANNOUNCE_RECEIPT_TIMEOUT: Self = Self(0x200a);
    pub const LOG_SYNC_INTERVAL: Self = Self(0x200b); pub const VERSION_NUMBER: Self = Self(0x200c);
    pub const ENABLE_PORT: Self = Self(0x200d); pub const DISABLE_PORT: Self = Self(0x200e);
    pub const CLOCK_ACCURACY: Self = Self(0x2010); pub const UTC_PROPERTIES: Self = Self(0x2011);
    pub const DELAY_MECHANISM: Self = Self(0x6000); pub const LOG_MIN_PDELAY_REQ_INTERVAL: Self = Self(0x6001);
}
impl crate::ClockMembers {
    pub const IDENTITY: Self = Self(1 << 0); pub const DOMAIN: Self = Self(1 << 1);
    pub const USER_DESCRIPTION: Self = Self(1 << 2); pub const TWO_STEP: Self = Self(1 << 3);
    pub const PRIORITY1: Self = Self(1 << 4); pub const CLOCK_CLASS: Self = Self(1 << 5);
    pub const CLOCK_ACCURACY: Self = Self(1 << 6); pub const VARIANCE: Self = Self(1 << 7);
    pub const PRIORITY2: Self = Self(1 << 8); pub const STEPS_REMOVED: Self = Self(1 << 9);
    pub const OFFSET_FROM_MASTER: Self = Self(1 << 10); pub const MEAN_PATH_DELAY: Self = Self(1 << 11);
    pub const PARENT_PORT: Self = Self(1 << 12); pub const PARENT_STATS: Self = Self(1 << 13);
    pub const OBSERVED_VARIANCE: Self = Self(1 << 14); pub const OBSERVED_RATE: Self = Self(1 << 15);
    pub const GRANDMASTER_PRIORITY1: Self = Self(1 << 16); pub const GRANDMASTER_CLASS: Self = Self(1 << 17);
    pub const GRANDMASTER_ACCURACY: Self = Self(1 << 18); pub const GRANDMASTER_VARIANCE: Self = Self(1 << 19);
    pub const GRANDMASTER_PRIORITY2: Self = Self(1 << 20); pub const GRANDMASTER: Self = Self(1 << 21);
    pub const UTC_OFFSET: Self = Self(1 << 22); pub const LEAP61: Self = Self(1 << 23); pub const LEAP59: Self = Self(1 << 24);
    pub const UTC_VALID: Self = Self(1 << 25); pub const PTP_TIMESCALE: Self = Self(1 << 26);
    pub const TIME_TRACEABLE: Self = Self(1 << 27); pub const FREQUENCY_TRACEABLE: Self = Self(1 << 28);
    pub const TIME_SOURCE: Self = Self(1 << 29);
}
impl crate::PortMembers {
    pub const STATE: Self = Self(1 << 0); pub const LOG_MIN_DELAY_REQ: Self = Self(1 << 1);
    pub const PEER_DELAY: Self = Self(1 << 2); pub const LOG_ANNOUNCE: Self = Self(1 << 3);
    pub const RECEIPT_TIMEOUT: Self = Self(1 << 4); pub const LOG_SYNC: Self = Self(1 << 5);
    pub const DELAY_MECHANISM: Self = Self(1 << 6); pub const LOG_MIN_PDELAY: Self = Self(1 << 7);
}

extern "C" {
    pub fn ptpm_version() -> u32;
    pub fn ptpm_sizes_agree(sizes: *const usize, count: usize) -> ptpm_started;
    pub fn ptpm_clock_defaults(settings: *mut ptpm_clock_settings);
    pub fn ptpm_port_defaults(settings: *mut ptpm_port_settings);
    pub fn ptpm_clock_start(clock: *mut ptpm_clock, settings: *const ptpm_clock_settings, ports: *const ptpm_port_settings,
        port_count: usize, managers: *const ptpm_manager_settings, manager_count: usize) -> ptpm_started;
    pub fn ptpm_clock_handle(clock: *mut ptpm_clock, port: u16, datagram: *const u8, size: usize, sent: *mut ptpm_sent,
        room: usize, count: *mut usize) -> ptpm_handled;
    pub fn ptpm_clock_handle_shared(clock: *mut ptpm_clock, port: u16, datagram: *mut u8, size: usize, answers: *mut ptpm_answer,
        room: usize, shared: *mut ptpm_shared) -> ptpm_handled;
    pub fn ptpm_clock_relay(clock: *mut ptpm_clock, ids: *const ptpm_relayed_id, id_count: usize) -> ptpm_relaying;
    pub fn ptpm_clock_ask(clock: *const ptpm_clock, port: u16, datagram: *const u8, size: usize,
        asked: *mut ptpm_question) -> ptpm_asking;
    pub fn ptpm_clock_take(clock: *mut ptpm_clock, port: u16, datagram: *const u8, size: usize, say: *const ptpm_say,
        of_owner: u8, sent: *mut ptpm_sent, room: usize, taken: *mut ptpm_taken) -> ptpm_handled;
    pub fn ptpm_clock_undertake(clock: *mut ptpm_clock, port: u16, datagram: *const u8, size: usize,
        asked: *mut ptpm_question) -> ptpm_asking;
    pub fn ptpm_clock_under_way(clock: *const ptpm_clock, asked: *mut ptpm_question) -> ptpm_asking;
    pub fn ptpm_clock_decide(clock: *mut ptpm_clock, say: *const ptpm_say, sent: *mut ptpm_sent, room: usize,
        taken: *mut ptpm_taken) -> ptpm_handled;
    pub fn ptpm_limit_range(limit: *mut ptpm_limit, least: i32, most: i32);
    pub fn ptpm_limits_say(limits: *const ptpm_limit, limit_count: usize, asked: *const ptpm_question) -> u16;
    pub fn ptpm_clock_set(clock: *mut ptpm_clock, action: u8, id: u16, port: u16, octets: *const u8, size: usize,
        changed: *mut ptpm_changed, error: *mut u16) -> ptpm_set_here;
    pub fn ptpm_clock_observe(clock: *mut ptpm_clock, observed: *const ptpm_observed_clock, ports: *const ptpm_observed_port,
        port_count: usize, left: *mut u64) -> ptpm_observed;
    pub fn ptpm_clock_read(clock: *const ptpm_clock, id: u16, port: u16, octets: *mut u8, room: usize,
        size: *mut usize) -> ptpm_read;
    pub fn ptpm_clock_image(clock: *const ptpm_clock, octets: *mut u8, room: usize, size: *mut usize) -> ptpm_saved;
    pub fn ptpm_clock_transit(clock: *const ptpm_clock, port: u16, datagram: *const u8, size: usize, sent: *mut ptpm_sent,
        room: usize) -> usize;
    pub fn ptpm_clock_saving(clock: *mut ptpm_clock, places: usize) -> ptpm_handled;
    pub fn ptpm_clock_image_of(clock: *mut ptpm_clock, octets: *mut u8, room: usize, size: *mut usize,
        token: *mut u64) -> ptpm_saved;
    pub fn ptpm_clock_saved(clock: *mut ptpm_clock, token: u64) -> ptpm_saved;
    pub fn ptpm_clock_next(clock: *mut ptpm_clock, message: *mut ptpm_sent) -> usize;
    pub fn ptpm_clock_free(clock: *const ptpm_clock) -> usize;
    pub fn ptpm_clock_unsaved(clock: *const ptpm_clock) -> u32;
    pub fn ptpm_clock_restore(clock: *mut ptpm_clock, identity: *const u8, port_count: usize,
        managers: *const ptpm_manager_settings, manager_count: usize, image: *const u8, size: usize,
        gone: *mut usize) -> ptpm_restored;
    pub fn ptpm_clock_most_sent(clock: *const ptpm_clock) -> usize;
    pub fn ptpm_clock_stop(clock: *mut ptpm_clock);
    pub fn ptpm_session_start(session: *mut ptpm_session, settings: *const ptpm_session_settings) -> ptpm_started;
    pub fn ptpm_session_begin(session: *mut ptpm_session, action: u8, id: u16, port: u16, octets: *const u8,
        size: usize) -> ptpm_begun;
    pub fn ptpm_session_begin_at(session: *mut ptpm_session, action: u8, id: u16, port: u16, octets: *const u8,
        size: usize) -> ptpm_begun;
    pub fn ptpm_session_send(session: *mut ptpm_session, octets: *mut u8, room: usize, size: *mut usize) -> ptpm_sending;
    pub fn ptpm_session_resume(session: *mut ptpm_session, attempts: u8) -> ptpm_resumed;
    pub fn ptpm_session_give_up(session: *mut ptpm_session) -> ptpm_given_up;
    pub fn ptpm_session_retune(session: *mut ptpm_session, domain: u8) -> ptpm_retuned;
    pub fn ptpm_session_receive(session: *mut ptpm_session, datagram: *const u8, size: usize) -> ptpm_session_received;
    pub fn ptpm_session_image(session: *const ptpm_session, octets: *mut u8, room: usize, size: *mut usize) -> ptpm_saved;
    pub fn ptpm_session_restore(session: *mut ptpm_session, settings: *const ptpm_session_settings, image: *const u8,
        size: usize) -> ptpm_restored;
    pub fn ptpm_session_issued(session: *const ptpm_session) -> u64;
    pub fn ptpm_session_report(session: *const ptpm_session, octets: *mut u8, room: usize, size: *mut usize,
        error: *mut u16) -> ptpm_reported;
    pub fn ptpm_session_stop(session: *mut ptpm_session);
    pub fn ptpm_survey_start(survey: *mut ptpm_survey, settings: *const ptpm_survey_settings) -> ptpm_started;
    pub fn ptpm_survey_start_at(survey: *mut ptpm_survey, settings: *const ptpm_survey_settings,
        target: *const u8) -> ptpm_started;
    pub fn ptpm_survey_send(survey: *const ptpm_survey, octets: *mut u8, room: usize, size: *mut usize) -> ptpm_sending;
    pub fn ptpm_survey_receive(survey: *mut ptpm_survey, datagram: *const u8, size: usize) -> ptpm_survey_received;
    pub fn ptpm_survey_count(survey: *const ptpm_survey) -> usize;
    pub fn ptpm_survey_answer(survey: *const ptpm_survey, place: usize, source: *mut ptpm_source, octets: *mut u8, room: usize,
        size: *mut usize, error: *mut u16) -> ptpm_reported;
    pub fn ptpm_survey_stop(survey: *mut ptpm_survey);
    pub fn ptpm_asker_start(asker: *mut ptpm_asker, settings: *const ptpm_asker_settings, drawn: *const u8) -> ptpm_started;
    pub fn ptpm_asker_restore(asker: *mut ptpm_asker, settings: *const ptpm_asker_settings, drawn: *const u8, image: *const u8,
        size: usize) -> ptpm_asker_restored;
    pub fn ptpm_asker_ask(asker: *mut ptpm_asker, now: u64, tag: u64, action: u8, id: u16, port: u16, octets: *const u8,
        size: usize, domain: u8, handed: *mut ptpm_handed) -> ptpm_asked;
    pub fn ptpm_asker_settle(asker: *mut ptpm_asker, now: u64, tag: u64, domain: u8, handed: *mut ptpm_handed) -> ptpm_asked;
    pub fn ptpm_asker_let_go(asker: *mut ptpm_asker, handed: *mut ptpm_handed) -> ptpm_asked;
    pub fn ptpm_asker_hear(asker: *mut ptpm_asker, datagram: *const u8, size: usize, handed: *mut ptpm_handed) -> ptpm_asked;
    pub fn ptpm_asker_wake(asker: *mut ptpm_asker, now: u64, handed: *mut ptpm_handed) -> ptpm_asked;
    pub fn ptpm_asker_unsent(asker: *mut ptpm_asker, handed: *mut ptpm_handed) -> ptpm_asked;
    pub fn ptpm_asker_saved(asker: *mut ptpm_asker, now: u64, handed: *mut ptpm_handed) -> ptpm_asked;
    pub fn ptpm_asker_noted(asker: *mut ptpm_asker, handed: *mut ptpm_handed) -> ptpm_asked;
    pub fn ptpm_asker_message(asker: *const ptpm_asker, octets: *mut u8, room: usize, size: *mut usize) -> ptpm_asked;
    pub fn ptpm_asker_image(asker: *const ptpm_asker, octets: *mut u8, room: usize, size: *mut usize) -> ptpm_asked;
    pub fn ptpm_asker_earlier(asker: *const ptpm_asker, domain: u8, there: *mut u8) -> u32;
    pub fn ptpm_asker_report(asker: *const ptpm_asker, octets: *mut u8, room: usize, size: *mut usize,
        error: *mut u16) -> ptpm_reported;
    pub fn ptpm_asker_stop(asker: *mut ptpm_asker);
    pub fn ptpm_journal_start(journal: *mut ptpm_journal) -> ptpm_journaled;
    pub fn ptpm_journal_add(journal: *mut ptpm_journal, record: *const ptpm_journal_record, first: *const u8, first_size: usize,
        second: *const u8, second_size: usize, octets: *mut u8, room: usize, size: *mut usize) -> ptpm_journaled;
    pub fn ptpm_journal_next(journal: *mut ptpm_journal, octets: *const u8, octet_count: usize, record: *mut ptpm_journal_record,
        size: *mut usize) -> ptpm_journaled;
    pub fn ptpm_journal_mark(journal: *const ptpm_journal, step: u16) -> u32;
    pub fn ptpm_journal_stop(journal: *mut ptpm_journal);
    pub fn ptpm_rollout_open(rollout: *mut ptpm_rollout, journal: *const u8, size: usize, choice: u32,
        whole: *mut usize) -> ptpm_rolled;
    pub fn ptpm_rollout_turn(rollout: *mut ptpm_rollout, event: *const ptpm_rollout_event, octets: *const u8, size: usize,
        action: *mut ptpm_rollout_action) -> ptpm_rolled;
    pub fn ptpm_rollout_record(rollout: *const ptpm_rollout, octets: *mut u8, room: usize, size: *mut usize) -> ptpm_rolled;
    pub fn ptpm_rollout_stop(rollout: *mut ptpm_rollout);
    pub fn ptpm_image_seal_in(octets: *mut u8, room: usize, size: usize, count: u64, sealed: *mut usize) -> ptpm_saved;
    pub fn ptpm_image_unseal(octets: *const u8, size: usize, count: *mut u64, image: *mut usize) -> ptpm_restored;
    pub fn ptpm_newest_image_in(octets: *const u8, size: usize, place: usize, count: *mut u64, image: *mut usize) -> usize;
    pub fn ptpm_passed_on_is_first(table: *mut ptpm_passed_on, message: *const u8, size: usize, now: u64, time: u64) -> bool;
    pub fn ptpm_passed_on_is_first_of(seed: u64, places: *mut u64, count: usize, message: *const u8, size: usize, now: u64,
        time: u64) -> bool;
    pub fn ptpm_rate_start(rate: *mut ptpm_rate, tokens: u64, now: u64);
    pub fn ptpm_rate_take(rate: *mut ptpm_rate, now: u64) -> bool;
    pub fn ptpm_id_named(name: *const c_char, size: usize) -> u32;
    pub fn ptpm_id_parse(text: *const c_char, size: usize) -> u32;
    pub fn ptpm_id_at(place: usize) -> u32;
    pub fn ptpm_id_name(id: u16, text: *mut c_char, room: usize) -> usize;
    pub fn ptpm_other_id_named(name: *const c_char, size: usize) -> u32;
    pub fn ptpm_other_id_at(place: usize) -> u32;
    pub fn ptpm_other_id_name(id: u16, text: *mut c_char, room: usize) -> usize;
    pub fn ptpm_answer_name(number: u32, text: *mut c_char, room: usize) -> usize;
    pub fn ptpm_error_name(error: u16, text: *mut c_char, room: usize) -> usize;
    pub fn ptpm_number_named(names: u32, name: *const c_char, size: usize) -> u32;
    pub fn ptpm_identity_parse(text: *const c_char, size: usize, identity: *mut u8) -> bool;
    pub fn ptpm_port_identity_parse(text: *const c_char, size: usize, clock: *mut u8, port: *mut u16) -> bool;
    pub fn ptpm_field_text(id: u16, octets: *const u8, size: usize, text: *mut c_char, room: usize) -> usize;
    pub fn ptpm_member_kind(id: u16, octets: *const u8, size: usize, place: usize) -> ptpm_member_kind;
    pub fn ptpm_field_parse(id: u16, words: *const c_char, size: usize, octets: *mut u8, room: usize, count: *mut usize,
        member: *mut usize) -> ptpm_parsed;
    pub fn ptpm_field_takes(id: u16, place: usize, text: *mut c_char, room: usize) -> usize;
}

const SIZES: [usize; 30] = [
    size_of::<ptpm_clock>(), size_of::<ptpm_clock_settings>(), size_of::<ptpm_port_settings>(), size_of::<ptpm_observed_clock>(),
    size_of::<ptpm_observed_port>(), size_of::<ptpm_manager_settings>(), size_of::<ptpm_sent>(), size_of::<ptpm_answer>(),
    size_of::<ptpm_shared>(), size_of::<ptpm_changed>(), size_of::<ptpm_session>(), size_of::<ptpm_session_settings>(),
    size_of::<ptpm_survey>(), size_of::<ptpm_survey_settings>(), size_of::<ptpm_source>(), size_of::<ptpm_passed_on>(),
    size_of::<ptpm_rate>(), size_of::<ptpm_asker>(), size_of::<ptpm_asker_settings>(), size_of::<ptpm_handed>(),
    size_of::<ptpm_question>(), size_of::<ptpm_say>(), size_of::<ptpm_limit>(), size_of::<ptpm_relayed_id>(),
    size_of::<ptpm_taken>(), size_of::<ptpm_journal>(), size_of::<ptpm_journal_record>(), size_of::<ptpm_rollout>(),
    size_of::<ptpm_rollout_event>(), size_of::<ptpm_rollout_action>()
];
