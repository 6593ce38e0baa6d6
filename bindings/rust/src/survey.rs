//! One GET to every clock, or to one, and the first answer of each port.

use crate::answers::Surveyed;
use crate::error::{done, judged, Error};
use crate::id::ManagementId;
use crate::identity::{Identity, PortIdentity};
use crate::memory::alone;
use crate::report::{told, Report, MOST_OCTETS};
#[cfg(feature = "alloc")]
use crate::report::{Answer, MOST_DATA};
use crate::sys;
use core::fmt;
use core::ptr::null_mut;

/// The portNumber of a survey whose manager has port 0. No session has it.
pub const SURVEY_PORT: u16 = sys::PTPM_SURVEY_PORT;

/// One manager, and the GET that it sends to every port of every clock, or of one. Give each survey a number that no message in
/// flight has. A session of the same manager may treat an answer as its own. So the survey's manager has no session: it is
/// another port of the same clockIdentity. Port 0 stands for [`SURVEY_PORT`].
#[derive(Clone, Copy, Debug, PartialEq, Eq)]
pub struct SurveySettings {
    /// The manager; its clock is not all ones.
    pub manager: PortIdentity,
    /// sequenceId
    pub number: u16,
    /// What is asked.
    pub id: ManagementId,
    /// domainNumber
    pub domain: u8,
    /// startingBoundaryHops
    pub hops: u8,
}

impl SurveySettings {
    /// A survey of a manager in domain 0, over one boundary clock at most.
    pub const fn new(manager: PortIdentity, number: u16, id: ManagementId) -> Self {
        Self { manager, number, id, domain: 0, hops: 1 }
    }

    /// As the library takes them.
    const fn as_in_c(&self) -> sys::ptpm_survey_settings {
        sys::ptpm_survey_settings {
            port: self.manager.port,
            number: self.number,
            id: self.id.0,
            clock: self.manager.clock.0,
            domain: self.domain,
            hops: self.hops,
        }
    }
}

/// What a survey asks, and its answers: the first of each port, of 16,384 ports at most.
///
/// ```
/// use ptpm::{DefaultDataSet, ManagementId, Survey, SurveySettings, MOST_OCTETS};
/// # fn send(_octets: &[u8]) {}
/// # fn next_datagram() -> Option<&'static [u8]> { None }
///
/// let settings = SurveySettings::new("0011223344556677/2".parse()?, 7, ManagementId::DEFAULT_DATA_SET);
/// let mut survey = Survey::start(&settings)?;
/// let mut room = [0; MOST_OCTETS];
/// send(survey.send(&mut room)?);
/// while let Some(datagram) = next_datagram() {
///     survey.receive(datagram)?;
/// }
/// for answer in survey.answers() {
///     if let Some(default) = answer.data_set::<DefaultDataSet>() {
///         println!("{} {}", answer.source, default.priority1);
///     }
/// }
/// # Ok::<(), Box<dyn std::error::Error>>(())
/// ```
pub struct Survey {
    handle: sys::ptpm_survey,
}

// SAFETY: one thread at a time is in a call with a handle, since the type is not Sync: no other thread has a reference to it. A
// handle may be moved, and calls with other handles may run beside it.
unsafe impl Send for Survey {}

impl Survey {
    /// Starts a survey of every clock, without answers. The manager has no session ([`SurveySettings`]).
    ///
    /// # Errors
    ///
    /// [`Error::ManagerIsEvery`] or [`Error::NoMemory`].
    pub fn start(settings: &SurveySettings) -> Result<Self, Error> {
        done(sys::ptpm_header_agrees())?;
        let mut survey = Self::none();
        let settings = settings.as_in_c();
        // SAFETY: the handle is all zeros before this first call, and the settings may be read.
        done(alone(|| unsafe { sys::ptpm_survey_start(&mut survey.handle, &settings) }))?;
        Ok(survey)
    }

    /// Starts a survey of one clock, without answers: every port of it is asked, and no other clock answers. A clock treats such
    /// a GET from one of its managers as a numbered request, like one of a session. So the survey's manager is not one of these,
    /// and has no session: for example, it is another port of the same clockIdentity.
    ///
    /// # Errors
    ///
    /// The first of [`Error::ManagerIsEvery`], [`Error::TargetIsEvery`], [`Error::SameClock`], [`Error::TargetIsZero`] and
    /// [`Error::NoMemory`] that holds.
    pub fn start_at(settings: &SurveySettings, target: Identity) -> Result<Self, Error> {
        done(sys::ptpm_header_agrees())?;
        let mut survey = Self::none();
        let settings = settings.as_in_c();
        // SAFETY: the handle is all zeros before this first call. The settings may be read, and so may the identity's octets.
        done(alone(|| unsafe { sys::ptpm_survey_start_at(&mut survey.handle, &settings, target.0.as_ptr()) }))?;
        Ok(survey)
    }

    /// A handle that holds nothing.
    const fn none() -> Self {
        Self { handle: sys::ptpm_survey { at: null_mut(), live: false, restored: false } }
    }

    /// Makes the message of the GET in the room that it is given, the same each time.
    pub fn send<'a>(&self, room: &'a mut [u8; MOST_OCTETS]) -> Result<&'a [u8], Error> {
        let mut size = 0;
        // SAFETY: the octets and the size may be written; the octets are borrowed mutably, so they lie apart from the rest.
        done(unsafe { sys::ptpm_survey_send(&self.handle, room.as_mut_ptr(), room.len(), &mut size) })?;
        Ok(&room[..size])
    }

    /// Judges a datagram that came in, and keeps it if it is the first answer of its port.
    ///
    /// # Errors
    ///
    /// [`Error::NoMemory`]; then nothing changes, and the answer may be handed in again.
    pub fn receive(&mut self, datagram: &[u8]) -> Result<Surveyed, Error> {
        // SAFETY: the octets and their size are those of a slice, which may be read.
        judged(alone(|| unsafe { sys::ptpm_survey_receive(&mut self.handle, datagram.as_ptr(), datagram.len()) }))
            .map(Surveyed::of_number)
    }

    /// How many answers are kept.
    pub fn count(&self) -> usize {
        // SAFETY: the handle is live.
        unsafe { sys::ptpm_survey_count(&self.handle) }
    }

    /// Reports what an answer says, and who gave it; a dataField is in the room that is given, for which
    /// [`MOST_DATA`](crate::MOST_DATA) octets are enough. The answers are counted from 0, in the order in which they came.
    ///
    /// # Errors
    ///
    /// [`Error::NoReport`], or [`Error::NoRoom`] for fewer octets than the dataField has.
    pub fn answer<'a>(&self, place: usize, room: &'a mut [u8]) -> Result<(PortIdentity, Report<'a>), Error> {
        let mut source = sys::ptpm_source { clock: [0; 8], port: 0 };
        let report = told(room, |octets, most, size, error| {
            // SAFETY: source, octets, size and error may be written, and lie apart: each is borrowed mutably.
            unsafe { sys::ptpm_survey_answer(&self.handle, place, &mut source, octets, most, size, error) }
        })?;
        Ok((PortIdentity { clock: Identity(source.clock), port: source.port }, report))
    }

    /// The answers in the order in which they came, each with octets of its own.
    #[cfg(feature = "alloc")]
    pub fn answers(&self) -> Answers<'_> {
        Answers { survey: self, place: 0 }
    }
}

impl Drop for Survey {
    fn drop(&mut self) {
        // SAFETY: the handle holds what its start made, or nothing.
        alone(|| unsafe { sys::ptpm_survey_stop(&mut self.handle) });
    }
}

impl fmt::Debug for Survey {
    fn fmt(&self, to: &mut fmt::Formatter<'_>) -> fmt::Result {
        to.debug_struct("Survey").finish_non_exhaustive()
    }
}

/// The answers of a survey, one after the other.
#[cfg(feature = "alloc")]
#[derive(Debug)]
pub struct Answers<'a> {
    survey: &'a Survey,
    place: usize,
}

#[cfg(feature = "alloc")]
impl Iterator for Answers<'_> {
    type Item = Answer;

    fn next(&mut self) -> Option<Answer> {
        let mut room = [0; MOST_DATA];
        let (source, report) = self.survey.answer(self.place, &mut room).ok()?;
        self.place += 1;
        let value = match report {
            Report::Value(field) => Ok(field.into()),
            Report::Refused(error) => Err(error),
            Report::Done | Report::Other(_) => Ok(alloc::vec::Vec::new()),
        };
        Some(Answer { source, value })
    }
}
