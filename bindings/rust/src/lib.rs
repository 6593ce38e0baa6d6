//! PTP management (IEEE 1588-2019, clause 15) over the library `libptpm`: an agent of one clock, a manager's session, and a survey.
//!
//! A [`Clock`] takes the datagrams of its ports, and makes the messages that are to be sent:
//!
//! ```
//! use ptpm::{Clock, ClockSettings, Handled, Manager, Outbox, PortSettings, Rights};
//!
//! let settings = ClockSettings::new("aabbcc.fffe.ddee01".parse()?);
//! let manager = Manager::new("001122.3344.556677-1".parse()?, Rights::ALL);
//! let mut clock = Clock::start(&settings, &[PortSettings::new(); 2], &[manager])?;
//! let mut outbox = Outbox::boxed();
//! let datagram = b"\x0d\x12\0\x36\0\0\0\0\0\0\0\0\0\0\0\0\0\0\0\0\x00\x11\x22\x33\x44\x55\x66\x77\0\x01\0\x07\x04\x7f\
//!     \xaa\xbb\xcc\xff\xfe\xdd\xee\x01\xff\xff\x01\x01\0\0\0\x01\0\x02\x20\x05"; // a GET of PRIORITY1
//! let turn = clock.handle(1, datagram, &mut outbox)?;
//! assert_eq!(turn.handled(), Handled::AnsweredNew);
//! for (port, octets) in turn.messages {
//!     assert_eq!((port, &octets[54..]), (1, &[128, 0][..])); // is sent at this port
//! }
//! # Ok::<(), Box<dyn std::error::Error>>(())
//! ```
//!
//! A [`Session`] makes a manager's requests of one clock and judges what comes in, and a [`Survey`] asks every clock at once. An
//! [`Asker`] is a session that says what is to be sent, saved and noted next. None of them opens a socket, reads a clock or starts
//! a thread.
//!
//! # What this crate sees to, and what is left to its user
//!
//! The header `ptpm.h` names the duties of a caller. Each `unsafe` block says which of them it meets. These are left:
//!
//! - No call is made from a signal handler, or in a forked child of a process with threads. Rust lets neither be made without
//!   `unsafe` of its own.
//! - The stack has room for what the header says of each call, and for 500 octets more. [`Clock::take`] takes 2,000 more, and
//!   [`Members`] 5,300. Without optimisation a call takes up to three times as much. An [`Outbox`] has 22,140 octets:
//!   [`Outbox::boxed`] puts them on the heap, and one of fewer places has 1,476 for each.
//! - `malloc`, `realloc` and `free` of the program are those of one allocator.
//!
//! # Without std, and without a C library
//!
//! The crate is `no_std`. Its feature `alloc`, which is there by default, is for what has texts and octets on Rust's heap. With the
//! feature `memory` the library has its memory from a block that the host gives (`give_memory`), and calls no `malloc`. It then takes
//! only `memcpy`, `memmove` and `memset`. `without_std` beside this crate is a program that has no C library.
//!
//! A handle is used by one thread at a time: a clock may be moved to another thread, and is shared by none.
//!
//! ```compile_fail
//! fn shared<T: Sync>() {}
//! shared::<ptpm::Clock>();
//! ```
//!
//! # Where the library comes from
//!
//! `build.rs` puts it together from the assembly in `dist/` of the repository, by the target's C compiler. If `PTPM_LIB_DIR` of the
//! environment names a folder, it links the `libptpm.a` there.
#![no_std]

#[cfg(feature = "alloc")]
extern crate alloc;

mod answers;
mod asker;
mod changed;
mod clock;
#[cfg(feature = "alloc")]
mod data_field;
mod data_sets;
mod device;
mod error;
mod id;
mod identity;
mod members;
mod memory;
mod names;
mod observation;
mod outbox;
mod passing;
pub mod refusals;
mod report;
mod saving_clock;
mod seal;
mod session;
mod settings;
mod survey;
#[rustfmt::skip] // tools/bindings writes it
pub mod sys;
mod time_interval;

pub use answers::{Handled, Received, Surveyed};
pub use asker::{Asker, AskerSettings, Earlier, Handed, Request, DRAWN_OCTETS};
pub use changed::{Changed, ClockMembers, PortMembers};
pub use clock::{clock_image_octets, Clock, Ports, Turn, CLOCK_IMAGE_OCTETS, MOST_PORTS, MOST_READ};
#[cfg(feature = "alloc")]
pub use data_field::NoField;
pub use data_sets::{ClockQuality, CurrentDataSet, DataSet, DefaultDataSet, ParentDataSet, PortDataSet, TimePropertiesDataSet};
pub use device::{Asked, Limit, Objection, RelayedId, Say, Taken};
pub use error::Error;
pub use id::{ManagementErrorId, ManagementId, UnknownId};
pub use identity::{Identity, NoIdentity, PortIdentity};
pub use members::Members;
#[cfg(feature = "memory")]
pub use memory::{clock_memory, give_memory, memory_taken, most_memory_taken, ASKER_MEMORY, SESSION_MEMORY};
pub use observation::{ObservedClock, ObservedGrandmaster, ObservedPort};
pub use outbox::{Messages, Outbox};
pub use passing::{PassedOn, Rate};
pub use refusals::{
    AskError, AskerRestoreError, BeginError, GiveUpError, HandleError, JournalError, ObserveError, ParseError, QuestionError,
    ReadError, ReceiveError, RelayError, ReportError, RestoreError, ResumeError, RetuneError, RolloutError, SaveError, SendError, SetError,
    StartError, SurveyError,
};
#[cfg(feature = "alloc")]
pub use report::Answer;
pub use report::{Report, MOST_DATA, MOST_OCTETS};
pub use saving_clock::{ImageToken, Saved, SavingClock};
pub use seal::{newest_image, seal, unseal, Sealed, SEAL_OCTETS};
pub use session::{Action, Session, SessionSettings, SESSION_IMAGE_OCTETS};
pub use settings::{ClockSettings, DelayMechanism, Manager, PortSettings, PortState, Rights};
#[cfg(feature = "alloc")]
pub use survey::Answers;
pub use survey::{Survey, SurveySettings, SURVEY_PORT};
pub use time_interval::TimeInterval;

/// The version of the library that is linked, as a number: 10,000 times its first part, 100 times the second, and the third.
pub fn version() -> u32 {
    // SAFETY: the call takes nothing.
    unsafe { sys::ptpm_version() }
}
