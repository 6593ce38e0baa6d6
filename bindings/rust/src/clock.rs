//! The agent of one clock.

use crate::answers::Handled;
use crate::error::{done, judged, Error};
use crate::id::ManagementId;
use crate::identity::Identity;
use crate::memory::alone;
use crate::observation::{ObservedClock, ObservedPort};
use crate::outbox::{Messages, Outbox};
use crate::settings::{ClockSettings, Manager, PortSettings};
use crate::sys;
use core::fmt;
use core::mem::MaybeUninit;
use core::ptr::null_mut;

/// The most octets of a dataField that a clock reads.
pub const MOST_READ: usize = sys::PTPM_MOST_READ;

/// The most ports that a clock has.
pub const MOST_PORTS: usize = sys::PTPM_MOST_PORTS;

/// The most octets of the image of a clock of up to eight ports and sixteen managers.
pub const CLOCK_IMAGE_OCTETS: usize = sys::PTPM_CLOCK_IMAGE_OCTETS;

/// The most octets of the image of a clock with these numbers of ports and managers.
pub const fn clock_image_octets(ports: usize, managers: usize) -> usize {
    417 + 15 * ports + managers * (1438 + 30 * if ports > 8 { ports } else { 8 })
}

const _: () = assert!(clock_image_octets(8, 16) == CLOCK_IMAGE_OCTETS);

/// More ports than a clock has.
const MORE_PORTS: usize = MOST_PORTS + 1;

/// The data sets of a clock, and what becomes of each management message that comes in at its ports. Up to eight ports have about
/// 600 octets on the heap, and 2,144 for each manager. It is stopped when it is dropped.
pub struct Clock {
    handle: sys::ptpm_clock,
}

// SAFETY: one thread at a time is in a call with a handle, since the type is not Sync: no other thread has a reference to it. A
// handle may be moved, and calls with other handles may run beside it.
unsafe impl Send for Clock {}

/// What became of a datagram, and what is to be sent for it.
#[derive(Debug)]
#[must_use = "the messages of a turn are to be sent, whatever became of the datagram"]
pub struct Turn<'a> {
    number: u32,
    /// What the host sends, in this order, each at its port, whatever became of the datagram.
    pub messages: Messages<'a>,
}

impl<'a> Turn<'a> {
    /// The number that a call answered, and what it sends.
    pub(crate) const fn of(number: u32, messages: Messages<'a>) -> Self {
        Self { number, messages }
    }

    /// What became of the datagram.
    #[inline]
    pub const fn handled(&self) -> Handled {
        Handled::of_number(self.number)
    }
}

/// Some ports of a clock.
#[derive(Clone, Copy, Debug, Default, PartialEq, Eq, Hash)]
pub struct Ports(u64);

impl Ports {
    /// Whether there is none.
    pub const fn is_empty(self) -> bool {
        self.0 == 0
    }

    /// Their numbers.
    pub fn iter(self) -> impl Iterator<Item = u16> {
        (1..=MOST_PORTS as u16).filter(move |port| self.0 >> (port - 1) & 1 == 1)
    }
}

impl Clock {
    /// Starts a clock with 1 to 64 ports and at most 64 managers. The first port is port 1.
    ///
    /// # Errors
    ///
    /// The first reason why it does not start. It is [`Error::OtherSizes`], or one from [`Error::NoPorts`] to
    /// [`Error::ManagerTwice`], or a member that is out of its range, or [`Error::IdentityIsZero`], or [`Error::NoMemory`].
    pub fn start(settings: &ClockSettings, ports: &[PortSettings], managers: &[Manager]) -> Result<Self, Error> {
        done(sys::ptpm_header_agrees())?;
        let mut clock = Self::none();
        let settings = settings.as_in_c();
        // SAFETY: the handle is all zeros before this first call. Settings, ports and managers may be read, and are laid out as the
        // library takes them (`settings` asserts it); their sizes are those of the slices.
        done(alone(|| unsafe {
            sys::ptpm_clock_start(
                &mut clock.handle,
                &settings,
                ports.as_ptr().cast(),
                ports.len(),
                managers.as_ptr().cast(),
                managers.len(),
            )
        }))?;
        Ok(clock)
    }

    /// Starts the clock of an image, which must have this identity and this number of ports. Says how many managers' latest
    /// requests were forgotten, since these managers are not among those that are given. Managers and their rights are those
    /// that are given; all else comes from the image.
    ///
    /// # Errors
    ///
    /// The first of [`Error::TooManyManagers`], [`Error::ManagerTwice`], [`Error::IdentityIsZero`], [`Error::NotAnImage`],
    /// [`Error::OtherVersion`], [`Error::OtherKind`], [`Error::Damaged`], [`Error::OtherClock`], [`Error::OtherPorts`] and
    /// [`Error::NoMemory`] that holds. For a clock of over eight ports the last comes earlier. Do not start a fresh clock after
    /// one of these: it would carry out requests once more.
    pub fn restore(identity: Identity, ports: usize, managers: &[Manager], image: &[u8]) -> Result<(Self, usize), Error> {
        done(sys::ptpm_header_agrees())?;
        let mut clock = Self::none();
        let mut gone = 0;
        // SAFETY: the handle is all zeros before this first call. Identity, managers and image may be read, and the managers are laid
        // out as the library takes them (`settings` asserts it); the sizes are those of the slices. `gone` may be written.
        done(alone(|| unsafe {
            sys::ptpm_clock_restore(
                &mut clock.handle,
                identity.0.as_ptr(),
                ports,
                managers.as_ptr().cast(),
                managers.len(),
                image.as_ptr(),
                image.len(),
                &mut gone,
            )
        }))?;
        Ok((clock, gone))
    }

    /// The handle, for the calls of a clock that is saved.
    pub(crate) fn handle_mut(&mut self) -> &mut sys::ptpm_clock {
        &mut self.handle
    }

    /// The handle, for a call that changes nothing.
    pub(crate) fn handle_ref(&self) -> &sys::ptpm_clock {
        &self.handle
    }

    /// A handle that holds nothing.
    const fn none() -> Self {
        Self { handle: sys::ptpm_clock { at: null_mut(), live: false, restored: false } }
    }

    /// Makes the clock's image in the room that it is given. A host saves it before it sends the messages of a turn that is
    /// [`Handled::AnsweredNew`]. Managers and their rights are not in it.
    ///
    /// # Errors
    ///
    /// [`Error::NoRoom`]: there may be fewer octets than [`clock_image_octets`] says.
    pub fn image<'a>(&self, room: &'a mut [u8]) -> Result<&'a [u8], Error> {
        let mut size = 0;
        // SAFETY: the octets and the size may be written; the octets are borrowed mutably, so they lie apart from the rest.
        done(unsafe { sys::ptpm_clock_image(&self.handle, room.as_mut_ptr(), room.len(), &mut size) })?;
        Ok(&room[..size])
    }

    /// Judges a datagram that came in at a port, counted from 1, carries its request out, and makes what is to be sent.
    ///
    /// # Errors
    ///
    /// [`Error::NoPort`]: the clock lacks the port. [`Error::NoRoom`]: it may send more messages than the outbox has places. Nothing was
    /// judged.
    #[inline]
    pub fn handle<'a, const PLACES: usize>(
        &mut self,
        port: u16,
        datagram: &[u8],
        outbox: &'a mut Outbox<PLACES>,
    ) -> Result<Turn<'a>, Error> {
        let mut count = MaybeUninit::uninit();
        let (sent, room) = outbox.room();
        // SAFETY: the datagram may be read, and the places and the count may be written; the places are borrowed mutably, so they
        // lie apart from the rest.
        let number = judged(unsafe {
            sys::ptpm_clock_handle(&mut self.handle, port, datagram.as_ptr(), datagram.len(), sent, room, count.as_mut_ptr())
        })?;
        // SAFETY: the call has written the count, and as many places.
        let messages = unsafe { outbox.messages(count.assume_init()) };
        Ok(Turn { number, messages })
    }

    /// Sets what the host observes about its clock and its first ports, and nothing else. It returns the disabled ports for
    /// which a state was observed: they stay disabled, and the host stops them.
    ///
    /// # Errors
    ///
    /// The first of [`Error::NoPort`], [`Error::GrandmasterDiffers`], [`Error::BadClockAccuracy`], [`Error::BadLeap59`] and
    /// [`Error::BadState`] that holds; then nothing changes.
    pub fn observe(&mut self, observed: &ObservedClock, ports: &[ObservedPort]) -> Result<Ports, Error> {
        let observed = observed.as_in_c();
        let mut places = [ObservedPort::default().as_in_c(); MORE_PORTS];
        let count = ports.len().min(MORE_PORTS); // more than a clock has are refused as they are
        for (place, port) in places.iter_mut().zip(ports) {
            *place = port.as_in_c();
        }
        let mut left = 0;
        // SAFETY: what is observed may be read, and `left` may be written.
        done(unsafe { sys::ptpm_clock_observe(&mut self.handle, &observed, places.as_ptr(), count, &mut left) })?;
        Ok(Ports(left))
    }

    /// Reads the answer that a GET of a managementId would get: the dataField, in the room that it is given. The port matters
    /// only for an id of a port.
    ///
    /// # Errors
    ///
    /// [`Error::NoPort`] or [`Error::NotReadable`].
    pub fn read<'a>(&self, id: ManagementId, port: u16, room: &'a mut [u8; MOST_READ]) -> Result<&'a [u8], Error> {
        let mut size = 0;
        let (octets, most) = (room.as_mut_ptr(), room.len());
        // SAFETY: the octets and the size may be written; the octets are borrowed mutably, so they lie apart from the rest.
        done(unsafe { sys::ptpm_clock_read(&self.handle, id.0, port, octets, most, &mut size) })?;
        Ok(&room[..size])
    }

    /// The most messages that one datagram makes: a copy for each other port, and an answer of each port.
    pub fn most_sent(&self) -> usize {
        // SAFETY: the handle may be read.
        unsafe { sys::ptpm_clock_most_sent(&self.handle) }
    }

    /// The clock's identity, out of its DEFAULT_DATA_SET.
    pub fn identity(&self) -> Result<Identity, Error> {
        let mut room = [0; MOST_READ];
        let field = self.read(ManagementId::DEFAULT_DATA_SET, 0, &mut room)?;
        let mut identity = Identity::default();
        identity.0.copy_from_slice(&field[10..18]); // clockIdentity (table 69)
        Ok(identity)
    }
}

impl Drop for Clock {
    fn drop(&mut self) {
        // SAFETY: the handle holds what its start made, or nothing.
        alone(|| unsafe { sys::ptpm_clock_stop(&mut self.handle) });
    }
}

impl fmt::Debug for Clock {
    fn fmt(&self, to: &mut fmt::Formatter<'_>) -> fmt::Result {
        to.debug_struct("Clock").finish_non_exhaustive()
    }
}
