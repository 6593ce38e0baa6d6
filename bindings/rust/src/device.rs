//! What a clock's device is asked, what it says, and what its owner changes at the device itself.

use crate::changed::Changed;
use crate::clock::{Clock, Turn};
use crate::error::{done, judged, Error};
use crate::id::{ManagementErrorId, ManagementId};
use crate::identity::{Identity, PortIdentity};
use crate::outbox::Outbox;
use crate::session::Action;
use crate::settings::Rights;
use crate::sys;
use core::fmt;
use core::mem::MaybeUninit;
use core::ops::RangeInclusive;

/// The most octets of the dataField of a SET that a device is asked about.
const MOST_ASKED: usize = 130;

/// What a device is asked: to carry out a new SET or COMMAND of a manager, which the clock itself does not refuse. Or it is asked for
/// the value of an id that the clock lacks, by a GET that would be answered.
#[derive(Clone, Copy)]
pub struct Asked {
    question: sys::ptpm_question,
}

impl Asked {
    /// sourcePortIdentity of the request.
    pub const fn manager(&self) -> PortIdentity {
        PortIdentity { clock: Identity(self.question.manager), port: self.question.manager_port }
    }

    /// sequenceId of the request.
    pub const fn number(&self) -> u16 {
        self.question.number
    }

    /// Its managementId.
    pub const fn id(&self) -> ManagementId {
        ManagementId(self.question.id)
    }

    /// portNumber of its target; 0xFFFF is every port.
    pub const fn port(&self) -> u16 {
        self.question.port
    }

    /// A SET or a COMMAND to be carried out, or a GET for whose value the device is asked.
    pub const fn action(&self) -> Action {
        match self.question.action {
            sys::PTPM_GET => Action::Get,
            sys::PTPM_COMMAND => Action::Command,
            _ => Action::Set,
        }
    }

    /// The dataField of a SET. A GET and a COMMAND have none.
    pub fn octets(&self) -> &[u8] {
        &self.question.octets[..usize::from(self.question.size)]
    }
}

impl Asked {
    /// What this call would have the device do.
    pub(crate) fn by(call: impl FnOnce(&mut sys::ptpm_question) -> u32) -> Result<Option<Self>, Error> {
        let mut question = sys::ptpm_question {
            manager: [0; 8],
            manager_port: 0,
            number: 0,
            id: 0,
            port: 0,
            size: 0,
            action: 0,
            octets: [0; MOST_ASKED],
        };
        let number = judged(call(&mut question))?;
        Ok(matches!(number, sys::PTPM_ASKED_CHANGE | sys::PTPM_ASKED_VALUE).then_some(Self { question }))
    }
}

impl fmt::Debug for Asked {
    fn fmt(&self, to: &mut fmt::Formatter<'_>) -> fmt::Result {
        to.debug_struct("Asked")
            .field("manager", &self.manager())
            .field("number", &self.number())
            .field("action", &self.action())
            .field("port", &self.port())
            .field("id", &self.id())
            .field("octets", &self.octets())
            .finish()
    }
}

/// The errors with which a device may object (15.5.4.3).
#[allow(missing_docs)] // the standard's names
#[derive(Clone, Copy, Debug, PartialEq, Eq, Hash)]
#[repr(u16)]
pub enum Objection {
    WrongValue = sys::PTPM_ERROR_WRONG_VALUE,
    NotSetable = sys::PTPM_ERROR_NOT_SETABLE,
    NotSupported = sys::PTPM_ERROR_NOT_SUPPORTED,
    GeneralError = sys::PTPM_ERROR_GENERAL_ERROR,
}

impl Objection {
    /// The objection of this managementErrorId.
    const fn of_number(number: u16) -> Option<Self> {
        match number {
            sys::PTPM_ERROR_WRONG_VALUE => Some(Self::WrongValue),
            sys::PTPM_ERROR_NOT_SETABLE => Some(Self::NotSetable),
            sys::PTPM_ERROR_NOT_SUPPORTED => Some(Self::NotSupported),
            sys::PTPM_ERROR_GENERAL_ERROR => Some(Self::GeneralError),
            _ => None,
        }
    }
}

/// The values that a device's hardware has for an id at a port. They are values of the first octet of the dataField of a SET.
#[derive(Clone, Copy)]
#[repr(transparent)]
pub struct Limit {
    limit: sys::ptpm_limit,
}

impl Limit {
    /// No value: at this port the id can't be set, and its COMMAND is not supported. The port 0xFFFF is every port.
    pub const fn none(id: ManagementId, port: u16) -> Self {
        Self { limit: sys::ptpm_limit { id: id.0, port, values: [0; 32] } }
    }

    /// Exactly the values of a range, which is within -128 to 255. Any other range has no value. A number below 0 has the octet of
    /// an Integer8.
    pub fn of_range(id: ManagementId, port: u16, values: RangeInclusive<i32>) -> Self {
        let mut limit = Self::none(id, port);
        // SAFETY: the limit may be written.
        unsafe { sys::ptpm_limit_range(&mut limit.limit, *values.start(), *values.end()) };
        limit
    }

    /// Exactly these values, each as its octet: -4 is 0xFC.
    ///
    /// ```
    /// use ptpm::{DelayMechanism, Limit, ManagementId};
    ///
    /// let mechanisms = [DelayMechanism::EndToEnd as u8, DelayMechanism::None as u8];
    /// let limit = Limit::of_values(ManagementId::DELAY_MECHANISM, 1, &mechanisms);
    /// assert!(limit.has(1) && limit.has(0xfe) && !limit.has(2));
    /// ```
    pub fn of_values(id: ManagementId, port: u16, values: &[u8]) -> Self {
        let mut limit = Self::none(id, port);
        for octet in values {
            limit.limit.values[usize::from(octet / 8)] |= 1 << (octet % 8);
        }
        limit
    }

    /// Whether it has this octet among its values.
    pub const fn has(&self, octet: u8) -> bool {
        self.limit.values[octet as usize / 8] >> (octet % 8) & 1 == 1
    }

    /// The error by which a device with these limits objects. Only limits of the request's id, and of a port that it names,
    /// count. If one of them has no value, a SET is NOT_SETABLE, and a COMMAND is NOT_SUPPORTED. If one lacks the value of a SET,
    /// that is a WRONG_VALUE.
    pub fn objection(limits: &[Self], asked: &Asked) -> Option<Objection> {
        // SAFETY: the limits and the question may be read. A limit is laid out as that of the library.
        Objection::of_number(unsafe { sys::ptpm_limits_say(limits.as_ptr().cast(), limits.len(), &asked.question) })
    }
}

impl fmt::Debug for Limit {
    fn fmt(&self, to: &mut fmt::Formatter<'_>) -> fmt::Result {
        to.debug_struct("Limit")
            .field("id", &ManagementId(self.limit.id))
            .field("port", &self.limit.port)
            .field("values", &self.limit.values)
            .finish()
    }
}

/// What a device says of a datagram.
#[derive(Clone, Copy, Debug, Default, PartialEq, Eq, Hash)]
pub enum Say<'a> {
    /// It agrees, or has nothing to say.
    #[default]
    Agrees,
    /// It can't do what it is asked.
    Objects(Objection),
    /// The dataField of an id that the clock lacks: an even number of octets, 1,418 at most.
    Gives(&'a [u8]),
}

impl From<Option<Objection>> for Say<'_> {
    fn from(objection: Option<Objection>) -> Self {
        objection.map_or(Self::Agrees, Self::Objects)
    }
}

impl Say<'_> {
    /// What the device says, in the library's form.
    pub(crate) fn as_in_c(self) -> sys::ptpm_say {
        let mut say = sys::ptpm_say { error: 0, size: 0, kind: sys::PTPM_AGREES, octets: [0; 1418] };
        match self {
            Self::Agrees => {}
            Self::Objects(objection) => {
                say.kind = sys::PTPM_OBJECTS;
                say.error = objection as u16;
            }
            Self::Gives(octets) => {
                say.kind = sys::PTPM_GIVES;
                say.size = u16::try_from(octets.len()).unwrap_or(u16::MAX);
                if let Some(place) = say.octets.get_mut(..octets.len()) {
                    place.copy_from_slice(octets);
                }
            }
        }
        say
    }
}

/// What came of a datagram.
#[derive(Debug)]
#[must_use = "the messages of a turn are to be sent, whatever became of the datagram"]
pub struct Taken<'a> {
    /// What became of it, and what is to be sent for it at once.
    pub turn: Turn<'a>,
    /// How many more messages wait until a [`SavingClock`](crate::SavingClock) is saved; 0 of any other clock.
    pub waiting: usize,
    /// Which members have a different value than before.
    pub changed: Changed,
}

impl<'a> Taken<'a> {
    /// What this call made of the datagram, with the messages in the outbox.
    ///
    /// # Safety
    ///
    /// The call writes what is taken unless it is refused, and as many places as that counts.
    pub(crate) unsafe fn by<const PLACES: usize>(
        outbox: &'a mut Outbox<PLACES>,
        call: impl FnOnce(*mut sys::ptpm_sent, usize, *mut sys::ptpm_taken) -> u32,
    ) -> Result<Self, Error> {
        let mut taken = MaybeUninit::uninit();
        let (sent, room) = outbox.room();
        let number = judged(call(sent, room, taken.as_mut_ptr()))?;
        // SAFETY: as the caller says.
        let taken: sys::ptpm_taken = unsafe { taken.assume_init() };
        let messages = unsafe { outbox.messages(taken.count as usize) };
        Ok(Self { turn: Turn::of(number, messages), waiting: taken.waiting as usize, changed: taken.changed.into() })
    }
}

/// An id that the clock lacks and its device has, and which SETs and COMMANDs of it reach the device.
#[derive(Clone, Debug, PartialEq, Eq)]
pub struct RelayedId {
    /// managementId: none that the clock knows.
    pub id: ManagementId,
    /// Whether it is of a port. A request of it then names one port.
    pub is_of_port: bool,
    /// Whether a manager may SET it.
    pub may_set: bool,
    /// Whether a manager may send a COMMAND of it.
    pub may_command: bool,
    /// The rights that a manager needs.
    pub right: Rights,
    /// How many octets its dataField has: 130 at most.
    pub sizes: RangeInclusive<u16>,
}

impl RelayedId {
    fn as_in_c(&self) -> sys::ptpm_relayed_id {
        let set = if self.may_set { sys::PTPM_MAY_SET } else { 0 };
        let command = if self.may_command { sys::PTPM_MAY_COMMAND } else { 0 };
        sys::ptpm_relayed_id {
            id: self.id.0,
            scope: u8::from(self.is_of_port),
            actions: (set | command) as u8,
            right: self.right.octet(),
            least: *self.sizes.start(),
            most: *self.sizes.end(),
        }
    }
}

impl Clock {
    /// What a datagram would have the device do, if it came in now at this port. The device is asked to carry out a new SET or
    /// COMMAND of a manager, which the clock itself does not refuse. Or it is asked for the value of an id that the clock lacks,
    /// by a GET that would be answered. For any other datagram it is asked nothing. The call changes nothing.
    ///
    /// # Errors
    ///
    /// [`Error::NoPort`]: the clock lacks the port.
    pub fn ask(&self, port: u16, datagram: &[u8]) -> Result<Option<Asked>, Error> {
        // SAFETY: the datagram may be read, and the question may be written.
        Asked::by(|question| unsafe { sys::ptpm_clock_ask(self.handle_ref(), port, datagram.as_ptr(), datagram.len(), question) })
    }

    /// Gives the clock the ids that its device has and the clock lacks, instead of those that it has. A SET or COMMAND of such an id then
    /// reaches the device, if its row permits it. They are in no image: give them again after a restore.
    ///
    /// # Errors
    ///
    /// [`Error::TooManyIds`], and then the first reason of the first id that has one: [`Error::ClockHasId`], [`Error::RelayedTwice`],
    /// [`Error::BadActions`] or [`Error::BadSizes`]. [`Error::NoMemory`] comes last.
    pub fn relay(&mut self, ids: &[RelayedId]) -> Result<(), Error> {
        let blank = sys::ptpm_relayed_id { id: 0, scope: 0, actions: 0, right: 0, least: 0, most: 0 };
        let mut rows = [blank; sys::PTPM_MOST_IDS + 1];
        for (row, id) in rows.iter_mut().zip(ids) {
            *row = id.as_in_c();
        }
        let count = ids.len().min(rows.len());
        // SAFETY: the rows may be read.
        done(unsafe { sys::ptpm_clock_relay(self.handle_mut(), rows.as_ptr(), count) })
    }

    /// Does what [`Clock::handle`] does, with what the device says, and reports which members of the data sets changed. There are
    /// some only after [`Handled::AnsweredNew`](crate::Handled::AnsweredNew). If the device objects where [`Clock::ask`] would
    /// ask it about a change, the request is answered and kept with that error, and no member changes. If it gives a value where
    /// it would be asked for one, this is the answer. For the GET of a manager the value has 130 octets at most, since the answer
    /// is kept. A longer one is answered with RESPONSE_TOO_BIG, and that is kept. Each later copy of such a request gets the kept
    /// answer. If the device is not asked, what it says does not count.
    ///
    /// # Errors
    ///
    /// As those of [`Clock::handle`]. [`Error::BadSay`]: the device gives an odd number of octets, or more
    /// than 1,418.
    pub fn take<'a, const PLACES: usize>(
        &mut self,
        port: u16,
        datagram: &[u8],
        say: Say<'_>,
        outbox: &'a mut Outbox<PLACES>,
    ) -> Result<Taken<'a>, Error> {
        self.take_of(port, datagram, say, 0, outbox)
    }

    /// Does what [`Clock::take`] does, with a datagram of the device's owner. It is judged as that of a manager with every right, and
    /// nothing of it is kept: a copy of it is carried out again.
    ///
    /// # Errors
    ///
    /// Those of [`Clock::take`].
    pub fn take_of_owner<'a, const PLACES: usize>(
        &mut self,
        port: u16,
        datagram: &[u8],
        say: Say<'_>,
        outbox: &'a mut Outbox<PLACES>,
    ) -> Result<Taken<'a>, Error> {
        self.take_of(port, datagram, say, 1, outbox)
    }

    fn take_of<'a, const PLACES: usize>(
        &mut self,
        port: u16,
        datagram: &[u8],
        say: Say<'_>,
        of_owner: u8,
        outbox: &'a mut Outbox<PLACES>,
    ) -> Result<Taken<'a>, Error> {
        let (octets, size, say) = (datagram.as_ptr(), datagram.len(), say.as_in_c());
        // SAFETY: the datagram and what is said may be read, and the places and what is taken may be written; the places are borrowed
        // mutably, so they lie apart from the rest. The call writes them as it says.
        unsafe {
            Taken::by(outbox, |sent, room, taken| {
                sys::ptpm_clock_take(self.handle_mut(), port, octets, size, &say, of_owner, sent, room, taken)
            })
        }
    }

    /// Carries out a SET or a COMMAND of the device's owner, as one of a manager with every right. It is for a command line of
    /// the device, or for another protocol of management. What is kept of each manager stays: a copy of its latest request gets
    /// the cached answer. The port 0xFFFF is every port. It returns the members that changed, or the error with which that
    /// manager would be refused, and then nothing changes.
    ///
    /// # Errors
    ///
    /// [`Error::NoPort`], [`Error::NotPermitted`] of a GET, or [`Error::BadValue`].
    pub fn set(
        &mut self,
        action: Action,
        id: ManagementId,
        port: u16,
        octets: &[u8],
    ) -> Result<Result<Changed, ManagementErrorId>, Error> {
        let mut changed = MaybeUninit::uninit();
        let mut error = 0;
        let (field, size) = (octets.as_ptr(), octets.len());
        // SAFETY: the dataField may be read, and what changed and the error may be written.
        let number = judged(unsafe {
            sys::ptpm_clock_set(self.handle_mut(), action as u8, id.0, port, field, size, changed.as_mut_ptr(), &mut error)
        })?;
        if number == sys::PTPM_SET_REFUSED {
            return Ok(Err(ManagementErrorId(error)));
        }
        // SAFETY: the call has written what changed.
        Ok(Ok(unsafe { changed.assume_init() }.into()))
    }
}
