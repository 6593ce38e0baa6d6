//! The agent of one clock that is saved while it takes datagrams.

use crate::changed::Changed;
use crate::clock::{Clock, Ports, MOST_READ};
use crate::device::{Asked, Say, Taken};
use crate::error::{done, judged, Error};
use crate::id::{ManagementErrorId, ManagementId};
use crate::identity::Identity;
use crate::memory::alone;
use crate::observation::{ObservedClock, ObservedPort};
use crate::outbox::Outbox;
use crate::session::Action;
use crate::sys;

/// A [`Clock`] that outlasts a loss of power. It shows no change before that is saved. The messages of a change wait for a save,
/// and so do those of all else that managers and the owner ask meanwhile. Anyone else is answered at once, from what was saved.
/// A save has three steps: [`image`](SavingClock::image), the storing of its octets, and [`saved`](SavingClock::saved). If
/// storing fails, `saved` is not called: the next image has all of it.
///
/// ```
/// use ptpm::{Clock, ClockSettings, Manager, Outbox, PortSettings, Rights, SavingClock, Say, CLOCK_IMAGE_OCTETS};
/// # fn store(_image: &[u8]) {}
/// # fn send(_port: u16, _octets: &[u8]) {}
///
/// let settings = ClockSettings::new("aabbccfffeddee01".parse()?);
/// let manager = Manager::new("0011223344556677/1".parse()?, Rights::ALL);
/// let mut clock = SavingClock::new(Clock::start(&settings, &[PortSettings::new()], &[manager])?, 4)?;
/// let (mut outbox, mut room) = (Outbox::boxed(), Box::new([0; CLOCK_IMAGE_OCTETS]));
/// let (image, token) = clock.image(&mut room[..])?; // a clock that was started is not saved yet
/// store(image);
/// clock.saved(token)?;
/// # let datagram = b"\x0d\x12\0\x36\0\0\0\0\0\0\0\0\0\0\0\0\0\0\0\0\x00\x11\x22\x33\x44\x55\x66\x77\0\x01\0\x07\x04\x7f\
/// #     \xaa\xbb\xcc\xff\xfe\xdd\xee\x01\xff\xff\x01\x01\0\0\0\x01\0\x02\x20\x05";
/// let taken = clock.take(1, datagram, Say::Agrees, &mut outbox)?;
/// for (port, octets) in taken.turn.messages {
///     send(port, octets);
/// }
/// # assert_eq!(taken.waiting, 1);
/// if clock.is_unsaved() {
///     let (image, token) = clock.image(&mut room[..])?;
///     store(image); // datagrams may come in meanwhile
///     clock.saved(token)?;
///     while let Some((port, octets)) = clock.next_message(&mut outbox) {
///         send(port, octets);
///     }
/// }
/// # assert!(!clock.is_unsaved());
/// # Ok::<(), Box<dyn std::error::Error>>(())
/// ```
#[derive(Debug)]
pub struct SavingClock {
    clock: Clock,
}

/// Which image of a clock was made last.
#[derive(Clone, Copy, Debug, PartialEq, Eq)]
pub struct ImageToken(u64);

/// What the host does once an image is saved.
#[derive(Clone, Copy, Debug, PartialEq, Eq)]
pub enum Saved {
    /// Nothing more than to send what was released.
    Saved,
    /// It asks its device for the change that is under way ([`SavingClock::undertake`]).
    ActNow,
}

impl SavingClock {
    /// Makes this clock one in which this many messages may wait: [`Clock::most_sent`] or more, each with 1,476 octets. A clock
    /// that was just restored is saved. Any other is not: it takes no datagram before its first save.
    ///
    /// # Errors
    ///
    /// [`Error::NoRoom`] for fewer messages, or [`Error::NoMemory`]; the clock is dropped then.
    pub fn new(mut clock: Clock, places: usize) -> Result<Self, Error> {
        // SAFETY: the handle holds a clock.
        done(alone(|| unsafe { sys::ptpm_clock_saving(clock.handle_mut(), places) }))?;
        Ok(Self { clock })
    }

    /// Does what [`Clock::take`] does. Messages that wait are given by [`SavingClock::next_message`], after a save.
    ///
    /// # Errors
    ///
    /// Those of [`Clock::take`]. [`Error::Unsaved`]: the clock was never saved, a next message has to be taken first, or there
    /// is no place for what the datagram makes ([`SavingClock::free`]). [`Error::UnderWay`]: the datagram has to wait for the
    /// change that is under way ([`SavingClock::undertake`]). Nothing was judged.
    pub fn take<'o, const PLACES: usize>(
        &mut self,
        port: u16,
        datagram: &[u8],
        say: Say<'_>,
        outbox: &'o mut Outbox<PLACES>,
    ) -> Result<Taken<'o>, Error> {
        self.clock.take(port, datagram, say, outbox)
    }

    /// Does what [`Clock::take_of_owner`] does, as [`SavingClock::take`].
    ///
    /// # Errors
    ///
    /// Those of [`SavingClock::take`].
    pub fn take_of_owner<'o, const PLACES: usize>(
        &mut self,
        port: u16,
        datagram: &[u8],
        say: Say<'_>,
        outbox: &'o mut Outbox<PLACES>,
    ) -> Result<Taken<'o>, Error> {
        self.clock.take_of_owner(port, datagram, say, outbox)
    }

    /// Keeps a change as under way, so that the device is asked for it once, whatever happens to the power. A change is what
    /// [`SavingClock::ask`] would now ask of the device. It is in each image from then on. The next save returns
    /// [`Saved::ActNow`] once, and the host asks its device. For any other datagram the call returns what `ask` would, and keeps
    /// nothing.
    ///
    /// ```
    /// # use ptpm::{Clock, ClockSettings, Error, Manager, Outbox, PortSettings, Rights, SavingClock, Saved, Say, CLOCK_IMAGE_OCTETS};
    /// # fn store(_image: &[u8]) {}
    /// # fn write_to_device(_asked: &ptpm::Asked) -> Say<'static> { Say::Agrees }
    /// # let settings = ClockSettings::new("aabbccfffeddee01".parse()?);
    /// # let manager = Manager::new("0011223344556677/1".parse()?, Rights::ALL);
    /// # let mut clock = SavingClock::new(Clock::start(&settings, &[PortSettings::new()], &[manager])?, 4)?;
    /// # let (mut outbox, mut room) = (Outbox::boxed(), Box::new([0; CLOCK_IMAGE_OCTETS]));
    /// # let (_, token) = clock.image(&mut room[..])?;
    /// # clock.saved(token)?;
    /// # let datagram = b"\x0d\x12\0\x38\0\0\0\0\0\0\0\0\0\0\0\0\0\0\0\0\x00\x11\x22\x33\x44\x55\x66\x77\0\x01\0\x07\x04\x7f\
    /// #     \xaa\xbb\xcc\xff\xfe\xdd\xee\x01\xff\xff\x01\x01\x01\0\0\x01\0\x04\x20\x05\x64\0";
    /// # assert!(clock.under_way().is_none());
    /// if let Some(asked) = clock.undertake(1, datagram)? {
    ///     let (image, token) = clock.image(&mut room[..])?;
    ///     store(image);
    ///     if clock.saved(token)? == Saved::ActNow {
    ///         let said = write_to_device(&asked);
    ///         let taken = clock.decide(said, &mut outbox)?; // its answer waits for the next save
    /// #       assert_eq!(taken.waiting, 1);
    ///     }
    /// }
    /// # assert_eq!(clock.decide(Say::Agrees, &mut outbox).map(|_| ()), Err(Error::NothingUnderWay));
    /// # Ok::<(), Box<dyn std::error::Error>>(())
    /// ```
    ///
    /// # Errors
    ///
    /// [`Error::NoPort`]. [`Error::Unsaved`]: the clock was never saved, or there is a next message to be taken first.
    /// [`Error::UnderWay`]: it would be a second change. Nothing changes.
    pub fn undertake(&mut self, port: u16, datagram: &[u8]) -> Result<Option<Asked>, Error> {
        let (octets, size) = (datagram.as_ptr(), datagram.len());
        // SAFETY: the datagram may be read, and the question may be written.
        Asked::by(|question| unsafe { sys::ptpm_clock_undertake(self.clock.handle_mut(), port, octets, size, question) })
    }

    /// The change that is under way. After a restore the device may have been asked already. The host then looks whether the
    /// device has the change, and says so ([`SavingClock::decide`]).
    pub fn under_way(&self) -> Option<Asked> {
        // SAFETY: the question may be written.
        Asked::by(|question| unsafe { sys::ptpm_clock_under_way(self.clock.handle_ref(), question) }).unwrap_or(None)
    }

    /// Does what [`SavingClock::take`] does with the datagram that is under way, at its port. Then nothing is under way, and its messages
    /// wait for a save.
    ///
    /// # Errors
    ///
    /// [`Error::NothingUnderWay`], [`Error::BadSay`], and [`Error::Unsaved`] as of [`SavingClock::take`]. The change stays under way.
    pub fn decide<'o, const PLACES: usize>(&mut self, say: Say<'_>, outbox: &'o mut Outbox<PLACES>) -> Result<Taken<'o>, Error> {
        let say = say.as_in_c();
        // SAFETY: what is said may be read, and the places and what is taken may be written; the places are borrowed mutably, so they
        // lie apart from the rest. The call writes them as it says.
        unsafe { Taken::by(outbox, |sent, room, taken| sys::ptpm_clock_decide(self.clock.handle_mut(), &say, sent, room, taken)) }
    }

    /// Makes the clock's image in the room that it is given. An earlier image can't be confirmed any more.
    ///
    /// # Errors
    ///
    /// Those of [`Clock::image`], and [`Error::NoMemory`] of a clock of over eight ports.
    pub fn image<'a>(&mut self, room: &'a mut [u8]) -> Result<(&'a [u8], ImageToken), Error> {
        let (mut size, mut token) = (0, 0);
        let (octets, most) = (room.as_mut_ptr(), room.len());
        // SAFETY: the octets, the size and the token may be written; the octets are borrowed mutably, so they lie apart.
        done(unsafe { sys::ptpm_clock_image_of(self.clock.handle_mut(), octets, most, &mut size, &mut token) })?;
        Ok((&room[..size], ImageToken(token)))
    }

    /// Says once that a restart would find the latest image, whatever happens to the power. What waited when that image was
    /// made can be had now ([`SavingClock::next_message`]). It returns [`Saved::ActNow`] if the image has a change that is
    /// still under way: once for each, and never for one that a restore found.
    ///
    /// # Errors
    ///
    /// [`Error::OtherImage`]: it is not the latest image, or was confirmed already. Or nothing was unsaved when it was made, and
    /// something was observed since. Nothing changes.
    pub fn saved(&mut self, token: ImageToken) -> Result<Saved, Error> {
        // SAFETY: the handle holds a clock.
        let number = judged(unsafe { sys::ptpm_clock_saved(self.clock.handle_mut(), token.0) })?;
        Ok(if number == sys::PTPM_ACT_NOW { Saved::ActNow } else { Saved::Saved })
    }

    /// The first message that no longer waits for a save: the port that it is to be sent at, and its octets. The host takes all of
    /// them before it hands a datagram in.
    pub fn next_message<'o, const PLACES: usize>(&mut self, outbox: &'o mut Outbox<PLACES>) -> Option<(u16, &'o [u8])> {
        let (message, _) = outbox.room();
        // SAFETY: the place may be written; it is borrowed mutably, so it lies apart from the rest.
        let count = unsafe { sys::ptpm_clock_next(self.clock.handle_mut(), message) };
        // SAFETY: the call has written as many places.
        unsafe { outbox.messages(count) }.next()
    }

    /// How many more messages may wait.
    pub fn free(&self) -> usize {
        // SAFETY: the handle may be read.
        unsafe { sys::ptpm_clock_free(self.clock.handle_ref()) }
    }

    /// Whether the clock has a change that is not saved, or was never saved.
    pub fn is_unsaved(&self) -> bool {
        // SAFETY: the handle may be read.
        unsafe { sys::ptpm_clock_unsaved(self.clock.handle_ref()) != 0 }
    }

    /// Does what [`Clock::ask`] does.
    ///
    /// # Errors
    ///
    /// Those of [`Clock::ask`].
    pub fn ask(&self, port: u16, datagram: &[u8]) -> Result<Option<Asked>, Error> {
        self.clock.ask(port, datagram)
    }

    /// Does what [`Clock::set`] does. The caller acts on what changed, and says "done" to the owner, once an image that was made later
    /// is saved.
    ///
    /// # Errors
    ///
    /// Those of [`Clock::set`].
    pub fn set(
        &mut self,
        action: Action,
        id: ManagementId,
        port: u16,
        octets: &[u8],
    ) -> Result<Result<Changed, ManagementErrorId>, Error> {
        self.clock.set(action, id, port, octets)
    }

    /// Does what [`Clock::observe`] does. Nothing is saved for it.
    ///
    /// # Errors
    ///
    /// Those of [`Clock::observe`].
    pub fn observe(&mut self, observed: &ObservedClock, ports: &[ObservedPort]) -> Result<Ports, Error> {
        self.clock.observe(observed, ports)
    }

    /// Does what [`Clock::read`] does, with what was saved and observed since.
    ///
    /// # Errors
    ///
    /// Those of [`Clock::read`].
    pub fn read<'a>(&self, id: ManagementId, port: u16, room: &'a mut [u8; MOST_READ]) -> Result<&'a [u8], Error> {
        self.clock.read(id, port, room)
    }

    /// The clock, for a call that changes nothing.
    pub(crate) fn clock(&self) -> &Clock {
        &self.clock
    }

    /// The clock's identity, out of its DEFAULT_DATA_SET.
    pub fn identity(&self) -> Result<Identity, Error> {
        self.clock.identity()
    }
}
