//! A manager's session with one clock.

use crate::answers::Received;
use crate::error::{done, judged, Error};
use crate::id::ManagementId;
use crate::identity::{Identity, PortIdentity};
use crate::memory::alone;
use crate::report::{told, Report, MOST_OCTETS};
use crate::sys;
use core::fmt;
use core::ptr::null_mut;

/// The most octets of a session's image.
pub const SESSION_IMAGE_OCTETS: usize = sys::PTPM_SESSION_IMAGE_OCTETS;

/// What a clock may be asked for: the actionField of a request.
#[derive(Clone, Copy, Debug, PartialEq, Eq, Hash)]
#[repr(u8)]
#[allow(missing_docs)] // the standard's names
pub enum Action {
    Get = sys::PTPM_GET,
    Set = sys::PTPM_SET,
    Command = sys::PTPM_COMMAND,
}

/// One manager, the clock that it manages, and how its requests are numbered and sent. A clock treats a request as new if its
/// number is up to 32,767 ahead of the latest that it accepted from this manager. So a manager that starts again continues with
/// the number after the last that it began.
#[derive(Clone, Copy, Debug, PartialEq, Eq)]
pub struct SessionSettings {
    /// The manager; its clock is not all ones.
    pub manager: PortIdentity,
    /// The managed clock: another one, and neither all ones nor all zeros.
    pub target: Identity,
    /// How many ports the managed clock has at most, 1 to 255.
    pub target_ports: u16,
    /// The sequenceId of the first request.
    pub first: u16,
    /// domainNumber
    pub domain: u8,
    /// startingBoundaryHops of each request.
    pub hops: u8,
    /// How often a request may be sent before it is given up.
    pub attempts: u8,
}

impl SessionSettings {
    /// A session of a manager with a clock of up to 255 ports, in domain 0, over one boundary clock at most, with 30 attempts.
    pub const fn new(manager: PortIdentity, target: Identity, first: u16) -> Self {
        Self { manager, target, target_ports: 255, first, domain: 0, hops: 1, attempts: 30 }
    }

    /// As the library takes them.
    pub(crate) const fn as_in_c(&self) -> sys::ptpm_session_settings {
        sys::ptpm_session_settings {
            port: self.manager.port,
            target_ports: self.target_ports,
            first: self.first,
            clock: self.manager.clock.0,
            target: self.target.0,
            domain: self.domain,
            hops: self.hops,
            attempts: self.attempts,
        }
    }
}

/// One request at a time to one clock, sent until it is answered. A clock of ptpm carries the request out once, however often
/// it is sent.
///
/// ```
/// use ptpm::{Action, Error, ManagementId, Report, Session, SessionSettings, MOST_DATA, MOST_OCTETS};
/// # fn send(_octets: &[u8]) {}
/// # fn next_datagram() -> Option<&'static [u8]> { None }
///
/// let settings = SessionSettings::new("0011223344556677/1".parse()?, "aabbccfffeddee01".parse()?, 7);
/// let mut session = Session::start(&settings)?;
/// session.begin(Action::Set, ManagementId::PRIORITY1, 0, &[100, 0])?;
/// let mut room = [0; MOST_OCTETS];
/// loop {
///     match session.send(&mut room) {
///         Ok(message) => send(message),
///         Err(Error::Idle) => break,           // it is answered
///         Err(Error::GaveUp) => break,         // it may have been carried out, once
///         Err(error) => return Err(error.into()),
///     }
///     while let Some(datagram) = next_datagram() {
///         session.receive(datagram)?;
///     }
/// }
/// let mut room = [0; MOST_DATA];
/// match session.report(&mut room) {
///     Ok(Report::Value(field)) => println!("priority1 {}", field[0]),
///     Ok(Report::Refused(error)) => println!("refused {error}"),
///     other => println!("{other:?}"),
/// }
/// # Ok::<(), Box<dyn std::error::Error>>(())
/// ```
pub struct Session {
    handle: sys::ptpm_session,
}

// SAFETY: one thread at a time is in a call with a handle, since the type is not Sync: no other thread has a reference to it. A
// handle may be moved, and calls with other handles may run beside it.
unsafe impl Send for Session {}

impl Session {
    /// Starts a session that has asked nothing.
    ///
    /// # Errors
    ///
    /// The first of [`Error::OtherSizes`], [`Error::ManagerIsEvery`], [`Error::TargetIsEvery`], [`Error::SameClock`],
    /// [`Error::NoPorts`], [`Error::TooManyPorts`], [`Error::TargetIsZero`] and [`Error::NoMemory`] that holds.
    pub fn start(settings: &SessionSettings) -> Result<Self, Error> {
        done(sys::ptpm_header_agrees())?;
        let mut session = Self::none();
        let settings = settings.as_in_c();
        // SAFETY: the handle is all zeros before this first call, and the settings may be read.
        done(alone(|| unsafe { sys::ptpm_session_start(&mut session.handle, &settings) }))?;
        Ok(session)
    }

    /// Starts the session of an image, with the settings of the session that it belongs to. Its domain, hops and attempts are
    /// those of the image. A request that was not answered stays open, with all its attempts: send it again.
    ///
    /// # Errors
    ///
    /// The first of [`Error::NotAnImage`], [`Error::OtherVersion`], [`Error::OtherKind`], [`Error::Damaged`],
    /// [`Error::OtherSession`] and [`Error::NoMemory`] that holds. Do not start a fresh session after one of these: the clock
    /// would treat its requests as old, or as conflicts.
    pub fn restore(settings: &SessionSettings, image: &[u8]) -> Result<Self, Error> {
        done(sys::ptpm_header_agrees())?;
        let mut session = Self::none();
        let settings = settings.as_in_c();
        // SAFETY: the handle is all zeros before this first call. The settings may be read, and so may the octets of the slice.
        done(alone(|| unsafe { sys::ptpm_session_restore(&mut session.handle, &settings, image.as_ptr(), image.len()) }))?;
        Ok(session)
    }

    /// A handle that holds nothing.
    const fn none() -> Self {
        Self { handle: sys::ptpm_session { at: null_mut(), live: false, restored: false } }
    }

    /// Makes the session's image in the room that it is given. A host saves it before it sends a request, and after it has reported
    /// an answer. How many attempts are left, and the answer to the latest request, are not in it.
    pub fn image<'a>(&self, room: &'a mut [u8; SESSION_IMAGE_OCTETS]) -> Result<&'a [u8], Error> {
        let mut size = 0;
        // SAFETY: the octets and the size may be written; the octets are borrowed mutably, so they lie apart from the rest.
        done(unsafe { sys::ptpm_session_image(&self.handle, room.as_mut_ptr(), room.len(), &mut size) })?;
        Ok(&room[..size])
    }

    /// Begins a request, and discards the answer to the one before. The port matters only for an id of a port. The caller keeps the
    /// number of the next request for a restart: the first one and [`Session::issued`], added up.
    ///
    /// # Errors
    ///
    /// The first of [`Error::Busy`], [`Error::NeedsPort`], [`Error::BadValue`], [`Error::CountAtMaximum`] and [`Error::NoMemory`]
    /// that holds; then nothing changes.
    pub fn begin(&mut self, action: Action, id: ManagementId, port: u16, data: &[u8]) -> Result<(), Error> {
        // SAFETY: the octets and their size are those of a slice, which may be read.
        done(alone(|| unsafe { sys::ptpm_session_begin(&mut self.handle, action as u8, id.0, port, data.as_ptr(), data.len()) }))
    }

    /// Does what [`Session::begin`] does, but names the port for any id. Some clocks answer only if one of their
    /// ports is named, for an id of the clock too. Any port of the clock may answer for such an id.
    ///
    /// # Errors
    ///
    /// Those of [`Session::begin`]: [`Error::NeedsPort`] for each port that the clock lacks.
    pub fn begin_at(&mut self, action: Action, id: ManagementId, port: u16, data: &[u8]) -> Result<(), Error> {
        // SAFETY: the octets and their size are those of a slice, which may be read.
        done(alone(|| unsafe {
            sys::ptpm_session_begin_at(&mut self.handle, action as u8, id.0, port, data.as_ptr(), data.len())
        }))
    }

    /// Makes the message of the unanswered request in the room that it is given, and uses one of its attempts.
    ///
    /// # Errors
    ///
    /// [`Error::Idle`] or [`Error::GaveUp`]; then no attempt is used.
    pub fn send<'a>(&mut self, room: &'a mut [u8; MOST_OCTETS]) -> Result<&'a [u8], Error> {
        let mut size = 0;
        // SAFETY: the octets and the size may be written; the octets are borrowed mutably, so they lie apart from the rest.
        done(unsafe { sys::ptpm_session_send(&mut self.handle, room.as_mut_ptr(), room.len(), &mut size) })?;
        Ok(&room[..size])
    }

    /// Gives the unanswered request this many attempts, whatever was left.
    ///
    /// # Errors
    ///
    /// [`Error::Idle`]
    pub fn resume(&mut self, attempts: u8) -> Result<(), Error> {
        // SAFETY: the handle is live.
        done(unsafe { sys::ptpm_session_resume(&mut self.handle, attempts) })
    }

    /// Gives up the unanswered request, so that the next can be begun. Its number is used for no other, and an answer to it is
    /// ignored from then on. The clock may have carried it out, once, or may still: until it accepts a later request of this session.
    ///
    /// # Errors
    ///
    /// The first of [`Error::Idle`] and [`Error::OutOfReach`] that holds; then nothing changes.
    pub fn give_up(&mut self) -> Result<(), Error> {
        // SAFETY: the handle is live.
        done(alone(|| unsafe { sys::ptpm_session_give_up(&mut self.handle) }))
    }

    /// From now on requests are sent, and replies expected, in this domain. That includes the unanswered
    /// request.
    pub fn retune(&mut self, domain: u8) -> Result<(), Error> {
        // SAFETY: the handle is live.
        done(unsafe { sys::ptpm_session_retune(&mut self.handle, domain) })
    }

    /// Judges a datagram that came in. After [`Received::Answered`] the next request can be begun.
    ///
    /// # Errors
    ///
    /// [`Error::NoMemory`]; then nothing changes, and the answer may be handed in again.
    pub fn receive(&mut self, datagram: &[u8]) -> Result<Received, Error> {
        // SAFETY: the octets and their size are those of a slice, which may be read.
        judged(alone(|| unsafe { sys::ptpm_session_receive(&mut self.handle, datagram.as_ptr(), datagram.len()) }))
            .map(Received::of_number)
    }

    /// How many requests were begun.
    pub fn issued(&self) -> u64 {
        // SAFETY: the handle is live.
        unsafe { sys::ptpm_session_issued(&self.handle) }
    }

    /// Reports what the answer to the latest request says; a dataField is in the room that is given, for which
    /// [`MOST_DATA`](crate::MOST_DATA) octets are enough.
    ///
    /// # Errors
    ///
    /// [`Error::NoReport`], or [`Error::NoRoom`] for fewer octets than the dataField has.
    pub fn report<'a>(&self, room: &'a mut [u8]) -> Result<Report<'a>, Error> {
        told(room, |octets, most, size, error| {
            // SAFETY: octets, size and error may be written, and lie apart: each is borrowed mutably.
            unsafe { sys::ptpm_session_report(&self.handle, octets, most, size, error) }
        })
    }
}

impl Drop for Session {
    fn drop(&mut self) {
        // SAFETY: the handle holds what its start made, or nothing.
        alone(|| unsafe { sys::ptpm_session_stop(&mut self.handle) });
    }
}

impl fmt::Debug for Session {
    fn fmt(&self, to: &mut fmt::Formatter<'_>) -> fmt::Result {
        to.debug_struct("Session").finish_non_exhaustive()
    }
}
