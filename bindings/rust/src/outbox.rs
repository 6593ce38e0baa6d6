//! The places into which a clock writes its messages, and the messages there.

use crate::sys;
#[cfg(feature = "alloc")]
use alloc::boxed::Box;
use core::fmt;
use core::iter::FusedIterator;
use core::mem::MaybeUninit;
use core::slice;

/// Room for the messages that a clock makes for a datagram, 1,476 octets for each place. Fifteen places are enough for a clock of up to
/// eight ports, one for a clock of one port, and 127 for every clock ([`Clock::most_sent`](crate::Clock::most_sent)). It is used again
/// and again.
pub struct Outbox<const PLACES: usize = { sys::PTPM_MOST_SENT }> {
    places: [MaybeUninit<sys::ptpm_sent>; PLACES],
}

impl Outbox {
    /// Room for a clock of up to eight ports, in a place that the host provides; nothing is written.
    pub const fn new() -> Self {
        Self::with_places()
    }

    /// Room on the heap.
    #[cfg(feature = "alloc")]
    pub fn boxed() -> Box<Self> {
        // SAFETY: an outbox is made of places that need not be written.
        unsafe { Box::<Self>::new_uninit().assume_init() }
    }
}

impl<const PLACES: usize> Outbox<PLACES> {
    /// Room of this many places, such as `Outbox::<1>::with_places()`, in a place that the host provides; nothing is written.
    ///
    /// # Panics
    ///
    /// If there is no place.
    pub const fn with_places() -> Self {
        assert!(PLACES > 0, "an outbox has a place");
        Self { places: [MaybeUninit::uninit(); PLACES] }
    }

    /// The first place, and how many there are, for a call that writes messages from there on.
    #[inline]
    pub(crate) fn room(&mut self) -> (*mut sys::ptpm_sent, usize) {
        (self.places.as_mut_ptr().cast(), self.places.len())
    }

    /// The messages in the first places.
    ///
    /// # Safety
    ///
    /// A call has written `count` places: in each its port, its size, and as many octets as that.
    #[inline]
    pub(crate) unsafe fn messages(&self, count: usize) -> Messages<'_> {
        // SAFETY: the caller says that there are `count` places.
        Messages { rest: unsafe { self.places.get_unchecked(..count) }.iter() }
    }
}

impl Default for Outbox {
    fn default() -> Self {
        Self::new()
    }
}

impl<const PLACES: usize> fmt::Debug for Outbox<PLACES> {
    fn fmt(&self, to: &mut fmt::Formatter<'_>) -> fmt::Result {
        to.debug_struct("Outbox").finish_non_exhaustive()
    }
}

/// The messages that are to be sent, in their order. Each is the port that it is to be sent at, and its octets, which lie in the
/// outbox.
#[derive(Clone)]
pub struct Messages<'a> {
    // In each place its port, its size, and as many octets as that are written.
    rest: slice::Iter<'a, MaybeUninit<sys::ptpm_sent>>,
}

impl<'a> Iterator for Messages<'a> {
    type Item = (u16, &'a [u8]);

    #[inline]
    fn next(&mut self) -> Option<Self::Item> {
        let sent = self.rest.next()?.as_ptr();
        // SAFETY: the library has written the port, the size, and as many octets of this place, which is borrowed for 'a. No
        // reference is made to the octets after them.
        unsafe {
            let octets = (&raw const (*sent).octets).cast::<u8>();
            Some(((*sent).port, slice::from_raw_parts(octets, usize::from((*sent).size))))
        }
    }

    #[inline]
    fn size_hint(&self) -> (usize, Option<usize>) {
        self.rest.size_hint()
    }
}

impl ExactSizeIterator for Messages<'_> {}
impl FusedIterator for Messages<'_> {}

impl fmt::Debug for Messages<'_> {
    fn fmt(&self, to: &mut fmt::Formatter<'_>) -> fmt::Result {
        to.debug_list().entries(self.clone()).finish()
    }
}
