//! A manager's session that decides what is to be sent, saved and noted next.

use crate::error::{done, Error};
use crate::id::ManagementId;
use crate::memory::alone;
use crate::report::{told, Report, MOST_OCTETS};
use crate::session::{Action, SessionSettings, SESSION_IMAGE_OCTETS};
use crate::sys;
use core::fmt;
use core::mem::MaybeUninit;
use core::ptr::null_mut;

/// How many octets are drawn at random for an asker.
pub const DRAWN_OCTETS: usize = 26;

/// The session of an asker, and how long it waits. Times are in milliseconds, from any moment on, and never go back.
#[derive(Clone, Copy, Debug, PartialEq, Eq)]
pub struct AskerSettings {
    /// `first` is drawn, for a session without a file. `domain` is not read.
    pub session: SessionSettings,
    /// A portNumber of the manager's clock at which nobody manages, from 61440 on.
    pub nobody: u16,
    /// How long an answer is waited for before a request is sent again.
    pub timeout: u32,
    /// How long a new session waits: longer than any copy of a message is on its way.
    pub wait: u32,
}

impl AskerSettings {
    /// An asker that sends again after 200 ms, and first waits for three seconds if it has no file.
    pub const fn new(session: SessionSettings, nobody: u16) -> Self {
        Self { session, nobody, timeout: 200, wait: 3000 }
    }

    /// As the library takes them.
    const fn as_in_c(&self) -> sys::ptpm_asker_settings {
        sys::ptpm_asker_settings { session: self.session.as_in_c(), nobody: self.nobody, timeout: self.timeout, wait: self.wait }
    }
}

/// What a clock is asked.
#[derive(Clone, Copy, Debug, PartialEq, Eq)]
pub struct Request<'a> {
    /// Whether it is a GET, a SET or a COMMAND.
    pub action: Action,
    /// What it is about.
    pub id: ManagementId,
    /// A port of the clock, or 0. A port that is given is named, for an id of the clock too.
    pub port: u16,
    /// The dataField.
    pub octets: &'a [u8],
    /// domainNumber
    pub domain: u8,
}

/// What an asker hands out: what its host does next, and then reports.
#[derive(Clone, Copy, Debug, PartialEq, Eq)]
#[non_exhaustive]
pub enum Handed {
    /// Nothing: it rests, or goes on waiting.
    Nothing,
    /// Note that the request with this tag is begun, with this sequenceId, and then call
    /// [`Asker::noted`].
    NoteBegun {
        /// As the host named its request.
        tag: u64,
        /// The sequenceId.
        number: u16,
    },
    /// Save [`Asker::image`], and then call [`Asker::saved`].
    SaveIt,
    /// Send [`Asker::message`], and wake the asker at this time. If it can't be sent, call [`Asker::unsent`].
    SendIt {
        /// When to call [`Asker::wake`].
        wake: u64,
    },
    /// Send [`Asker::message`], a read by nobody, and wake the asker at this time.
    SendRead {
        /// When to call [`Asker::wake`].
        wake: u64,
    },
    /// Wake the asker at this time.
    Wait {
        /// When to call [`Asker::wake`].
        wake: u64,
    },
    /// Note what [`Asker::report`] says of the request with this tag, and then call
    /// [`Asker::noted`].
    NoteAnswer {
        /// As the host named its request.
        tag: u64,
        /// The sequenceId.
        number: u16,
    },
    /// There is no answer.
    Failed {
        /// Whether a message of the request left.
        was_sent: bool,
        /// Whether the clock answered a read by nobody.
        is_read_answered: bool,
    },
    /// A number that a newer library hands out.
    Other(u32),
}

impl From<sys::ptpm_handed> for Handed {
    fn from(handed: sys::ptpm_handed) -> Self {
        let sys::ptpm_handed { tag, time: wake, what, number, was_sent, is_read_answered } = handed;
        match what {
            sys::PTPM_NOTHING => Self::Nothing,
            sys::PTPM_NOTE_BEGUN => Self::NoteBegun { tag, number },
            sys::PTPM_SAVE_IT => Self::SaveIt,
            sys::PTPM_SEND_IT => Self::SendIt { wake },
            sys::PTPM_SEND_READ => Self::SendRead { wake },
            sys::PTPM_WAIT => Self::Wait { wake },
            sys::PTPM_NOTE_ANSWER => Self::NoteAnswer { tag, number },
            sys::PTPM_FAILED => Self::Failed { was_sent, is_read_answered },
            other => Self::Other(other),
        }
    }
}

/// What an earlier run left under way.
#[derive(Clone, Copy, Debug, PartialEq, Eq)]
#[non_exhaustive]
pub enum Earlier {
    /// Nothing.
    Nothing,
    /// A freshness check. [`Asker::ask`] sends it again.
    Question,
    /// A GET, and the domain in which it is completed ([`Asker::settle`]).
    Get(u8),
    /// A SET or a COMMAND, and the domain in which it is completed.
    Change(u8),
}

/// A session that is handed what came in, what time it is and what was done, and hands out what is to be done next. It sends
/// nothing before its host has saved it, and nothing leaves the file before the host has noted its answer. So a request of an
/// earlier run is completed, and none is carried out twice.
///
/// ```
/// use ptpm::{Action, Asker, AskerSettings, Handed, ManagementId, Report, Request, SessionSettings, MOST_DATA, MOST_OCTETS};
/// # fn save(_image: &[u8]) {}
/// # fn send(_octets: &[u8]) -> bool { true }
/// # fn next_datagram(_before: u64) -> Option<&'static [u8]> { None }
/// # use std::cell::Cell;
/// # let time = Cell::new(0);
/// # let now = || { time.set(time.get() + 1000); time.get() };
///
/// let session = SessionSettings::new("0011223344556677/1".parse()?, "aabbccfffeddee01".parse()?, 7);
/// let mut asker = Asker::start(&AskerSettings::new(session, 61440), &[0; 26])?; // `first` and these octets are drawn at random
/// let request = Request { action: Action::Set, id: ManagementId::PRIORITY1, port: 0, octets: &[100, 0], domain: 0 };
/// let (mut room, mut image, mut wake) = ([0; MOST_OCTETS], [0; ptpm::SESSION_IMAGE_OCTETS], None);
/// let mut next = asker.ask(now(), 1, &request)?;
/// loop {
///     next = match next {
///         Handed::NoteBegun { .. } => asker.noted()?, // in a journal, if there is one
///         Handed::SaveIt => {
///             save(asker.image(&mut image)?);
///             asker.saved(now())?
///         }
///         Handed::SendIt { wake: time } | Handed::SendRead { wake: time } => {
///             wake = Some(time);
///             match send(asker.message(&mut room)?) || matches!(next, Handed::SendRead { .. }) {
///                 true => Handed::Nothing,
///                 false => asker.unsent()?,
///             }
///         }
///         Handed::Wait { wake: time } => {
///             wake = Some(time);
///             Handed::Nothing
///         }
///         Handed::NoteAnswer { .. } => {
///             if let Report::Value(field) = asker.report(&mut [0; MOST_DATA])? {
///                 println!("priority1 {}", field[0]);
///             }
///             wake = None;
///             asker.noted()?
///         }
///         Handed::Failed { .. } => break, // there is no answer
///         _ => match wake {
///             None => break, // it rests
///             Some(time) => match next_datagram(time) {
///                 Some(datagram) => asker.hear(datagram)?,
///                 None => asker.wake(now())?,
///             },
///         },
///     };
/// }
/// # Ok::<(), Box<dyn std::error::Error>>(())
/// ```
pub struct Asker {
    handle: sys::ptpm_asker,
}

// SAFETY: one thread at a time is in a call with a handle, since the type is not Sync: no other thread has a reference to it. A
// handle may be moved, and calls with other handles may run beside it.
unsafe impl Send for Asker {}

impl Asker {
    /// Starts an asker whose session has no file yet. The octets are drawn at random.
    ///
    /// # Errors
    ///
    /// Those of [`Session::start`](crate::Session::start).
    pub fn start(settings: &AskerSettings, drawn: &[u8; DRAWN_OCTETS]) -> Result<Self, Error> {
        done(sys::ptpm_header_agrees())?;
        let mut asker = Self::none();
        // SAFETY: the handle is all zeros before this first call. The settings may be read, and so may what was drawn.
        done(alone(|| unsafe { sys::ptpm_asker_start(&mut asker.handle, &settings.as_in_c(), drawn.as_ptr()) }))?;
        Ok(asker)
    }

    /// Starts an asker with the session of an image: what the session's file has. The first number is the image's, not that
    /// of the settings. Then [`Asker::earlier`] says what is left of an earlier run.
    ///
    /// # Errors
    ///
    /// Those of [`Session::start`](crate::Session::start) and of [`Session::restore`](crate::Session::restore). Do not start
    /// afresh after one of these.
    pub fn restore(settings: &AskerSettings, drawn: &[u8; DRAWN_OCTETS], image: &[u8]) -> Result<Self, Error> {
        done(sys::ptpm_header_agrees())?;
        let mut asker = Self::none();
        let (octets, size) = (image.as_ptr(), image.len());
        // SAFETY: as above, and the octets of the image may be read.
        done(alone(|| unsafe { sys::ptpm_asker_restore(&mut asker.handle, &settings.as_in_c(), drawn.as_ptr(), octets, size) }))?;
        Ok(asker)
    }

    /// A handle that holds nothing.
    const fn none() -> Self {
        Self { handle: sys::ptpm_asker { at: null_mut(), live: false, restored: false } }
    }

    /// What a call hands out.
    fn handed(&mut self, call: impl FnOnce(*mut sys::ptpm_asker, *mut sys::ptpm_handed) -> u32) -> Result<Handed, Error> {
        let mut handed = MaybeUninit::uninit();
        done(alone(|| call(&mut self.handle, handed.as_mut_ptr())))?;
        // SAFETY: each such call writes all of it.
        Ok(unsafe { handed.assume_init() }.into())
    }

    /// Asks a request, which the host names by a tag.
    ///
    /// # Errors
    ///
    /// Those of [`Session::begin`](crate::Session::begin). [`Error::Busy`]: the asker does not rest, or a request of an earlier
    /// run is not completed.
    pub fn ask(&mut self, now: u64, tag: u64, request: &Request<'_>) -> Result<Handed, Error> {
        let Request { action, id, port, octets, domain } = *request;
        let (field, size) = (octets.as_ptr(), octets.len());
        // SAFETY: the dataField may be read, and what is handed out may be written.
        self.handed(|asker, handed| unsafe {
            sys::ptpm_asker_ask(asker, now, tag, action as u8, id.0, port, field, size, domain, handed)
        })
    }

    /// Sends the request of an earlier run again, with its number, until it is answered. A SET or a COMMAND is sent in the domain
    /// in which it was asked. A GET is sent in the domain that is given, as is a SET that moves the clock to that domain.
    ///
    /// # Errors
    ///
    /// [`Error::Idle`]: there is none, or the asker does not rest.
    pub fn settle(&mut self, now: u64, tag: u64, domain: u8) -> Result<Handed, Error> {
        // SAFETY: what is handed out may be written, here and below.
        self.handed(|asker, handed| unsafe { sys::ptpm_asker_settle(asker, now, tag, domain, handed) })
    }

    /// Gives up the request of an earlier run. The host notes that before it saves. The clock may have carried it out, or may still,
    /// until it accepts a later one.
    ///
    /// # Errors
    ///
    /// [`Error::Idle`] or [`Error::OutOfReach`].
    pub fn let_go(&mut self) -> Result<Handed, Error> {
        // SAFETY: as above.
        self.handed(|asker, handed| unsafe { sys::ptpm_asker_let_go(asker, handed) })
    }

    /// Hands in a datagram that came in. A host hands in what has come before it wakes the asker.
    ///
    /// # Errors
    ///
    /// [`Error::NoMemory`]
    pub fn hear(&mut self, datagram: &[u8]) -> Result<Handed, Error> {
        // SAFETY: as above, and the datagram may be read.
        self.handed(|asker, handed| unsafe { sys::ptpm_asker_hear(asker, datagram.as_ptr(), datagram.len(), handed) })
    }

    /// Says what time it is. Before the time that was handed out last, nothing is handed out.
    ///
    /// # Errors
    ///
    /// [`Error::NoMemory`]
    pub fn wake(&mut self, now: u64) -> Result<Handed, Error> {
        // SAFETY: as above.
        self.handed(|asker, handed| unsafe { sys::ptpm_asker_wake(asker, now, handed) })
    }

    /// Says that the message of the latest [`Handed::SendIt`] could not be sent. If no message of the request left before, a
    /// request of this run is taken back, and [`Handed::Failed`] follows its save.
    ///
    /// # Errors
    ///
    /// None, for an asker that was started.
    pub fn unsent(&mut self) -> Result<Handed, Error> {
        // SAFETY: as above.
        self.handed(|asker, handed| unsafe { sys::ptpm_asker_unsent(asker, handed) })
    }

    /// Says that the session is in its file, on the disk, after [`Handed::SaveIt`].
    ///
    /// # Errors
    ///
    /// None, for an asker that was started.
    pub fn saved(&mut self, now: u64) -> Result<Handed, Error> {
        // SAFETY: as above.
        self.handed(|asker, handed| unsafe { sys::ptpm_asker_saved(asker, now, handed) })
    }

    /// Says that what was handed out to be noted is noted.
    ///
    /// # Errors
    ///
    /// [`Error::NoMemory`]
    pub fn noted(&mut self) -> Result<Handed, Error> {
        // SAFETY: as above.
        self.handed(|asker, handed| unsafe { sys::ptpm_asker_noted(asker, handed) })
    }

    /// The message that was handed out last, in the room that it is given. It has no octets if nothing was to be sent.
    ///
    /// # Errors
    ///
    /// None, for an asker that was started.
    pub fn message<'a>(&self, room: &'a mut [u8; MOST_OCTETS]) -> Result<&'a [u8], Error> {
        let mut size = 0;
        // SAFETY: the octets and the size may be written; the octets are borrowed mutably, so they lie apart from the rest.
        done(unsafe { sys::ptpm_asker_message(&self.handle, room.as_mut_ptr(), room.len(), &mut size) })?;
        Ok(&room[..size])
    }

    /// The image of its session, in the room that it is given.
    ///
    /// # Errors
    ///
    /// None, for an asker that was started.
    pub fn image<'a>(&self, room: &'a mut [u8; SESSION_IMAGE_OCTETS]) -> Result<&'a [u8], Error> {
        let mut size = 0;
        // SAFETY: as above.
        done(unsafe { sys::ptpm_asker_image(&self.handle, room.as_mut_ptr(), room.len(), &mut size) })?;
        Ok(&room[..size])
    }

    /// What an earlier run left under way, if this run asks in this domain.
    pub fn earlier(&self, domain: u8) -> Earlier {
        let mut there = 0;
        // SAFETY: the domain may be written.
        match unsafe { sys::ptpm_asker_earlier(&self.handle, domain, &mut there) } {
            sys::PTPM_QUESTION_LEFT => Earlier::Question,
            sys::PTPM_GET_LEFT => Earlier::Get(there),
            sys::PTPM_CHANGE_LEFT => Earlier::Change(there),
            _ => Earlier::Nothing,
        }
    }

    /// The answer that [`Handed::NoteAnswer`] handed out last; its dataField is in the room that is given, for which
    /// [`MOST_DATA`](crate::MOST_DATA) octets are enough.
    ///
    /// # Errors
    ///
    /// [`Error::NoReport`], or [`Error::NoRoom`] for fewer octets than the dataField has.
    pub fn report<'a>(&self, room: &'a mut [u8]) -> Result<Report<'a>, Error> {
        told(room, |octets, most, size, error| {
            // SAFETY: octets, size and error may be written, and lie apart: each is borrowed mutably.
            unsafe { sys::ptpm_asker_report(&self.handle, octets, most, size, error) }
        })
    }
}

impl Drop for Asker {
    fn drop(&mut self) {
        // SAFETY: the handle holds what its start made, or nothing.
        alone(|| unsafe { sys::ptpm_asker_stop(&mut self.handle) });
    }
}

impl fmt::Debug for Asker {
    fn fmt(&self, to: &mut fmt::Formatter<'_>) -> fmt::Result {
        to.debug_struct("Asker").finish_non_exhaustive()
    }
}
