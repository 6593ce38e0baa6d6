//! What a host asks before it forwards a message: whether it has already forwarded it, and whether it is within
//! its rate.

use crate::sys;
#[cfg(feature = "alloc")]
use alloc::{boxed::Box, vec};
use core::fmt;
use core::mem::{align_of, size_of, MaybeUninit};
use core::ops::RangeInclusive;
use core::slice::from_raw_parts_mut;

/// Which messages were forwarded last: 4,096 at most, in about 197,000 octets, or as many as the host has memory for. A message that
/// circulates is forwarded once.
pub struct PassedOn {
    /// Keeps anyone else from knowing where a message is recorded.
    seed: u64,
    places: Places,
}

/// A place in which a message is recorded. The library writes it, and zeros record none.
pub type PassedOnPlace = [u64; 6];

enum Places {
    #[cfg(feature = "alloc")]
    Boxed(Box<[PassedOnPlace]>),
    Lent(&'static mut [PassedOnPlace]),
}

const WORDS: usize = size_of::<sys::ptpm_passed_on>() / size_of::<u64>();
const PLACES: usize = (WORDS - 1) / 6;
const _: () =
    assert!(align_of::<sys::ptpm_passed_on>() == align_of::<u64>() && (1 + 6 * PLACES) * 8 == size_of::<sys::ptpm_passed_on>());

impl PassedOn {
    /// How many words a table of 4,096 messages has, with its seed.
    pub const WORDS: usize = WORDS;

    /// How many places a table may have.
    pub const COUNTS: RangeInclusive<usize> = 16..=1_048_576;

    /// A table on the heap that records no message. The seed is drawn, so that nobody else can predict where a message is recorded.
    #[cfg(feature = "alloc")]
    pub fn new(seed: u64) -> Self {
        Self { seed, places: Places::Boxed(vec![[0; 6]; PLACES].into_boxed_slice()) }
    }

    /// The same for a number of places; `None` if no table may have that number.
    #[cfg(feature = "alloc")]
    pub fn of_size(count: usize, seed: u64) -> Option<Self> {
        Self::COUNTS.contains(&count).then(|| Self { seed, places: Places::Boxed(vec![[0; 6]; count].into_boxed_slice()) })
    }

    /// A table that records no message, in words that the host provides.
    pub fn in_words(words: &'static mut [u64; Self::WORDS], seed: u64) -> Self {
        words.fill(0);
        let after_seed = words[1..].as_mut_ptr().cast();
        // SAFETY: behind the first word there are as many places, which lie within the words and are borrowed with them.
        let places = unsafe { from_raw_parts_mut(after_seed, PLACES) };
        Self { seed, places: Places::Lent(places) }
    }

    /// A table that records no message, in places that the host provides; `None` if no table may have that
    /// number.
    pub fn in_places(places: &'static mut [PassedOnPlace], seed: u64) -> Option<Self> {
        if !Self::COUNTS.contains(&places.len()) {
            return None;
        }
        places.fill([0; 6]);
        Some(Self { seed, places: Places::Lent(places) })
    }

    /// Whether a message is to be forwarded. If so, it is recorded for a time. That time and the present one are in the
    /// same unit, which the host chooses.
    pub fn is_first(&mut self, message: &[u8], now: u64, time: u64) -> bool {
        let places = match &mut self.places {
            #[cfg(feature = "alloc")]
            Places::Boxed(places) => &mut **places,
            Places::Lent(places) => &mut **places,
        };
        let (at, count) = (places.as_mut_ptr().cast(), places.len());
        // SAFETY: the places are zeros, or what the library wrote. The message may be read, and lies apart from the places, which are
        // borrowed mutably.
        unsafe { sys::ptpm_passed_on_is_first_of(self.seed, at, count, message.as_ptr(), message.len(), now, time) }
    }
}

impl fmt::Debug for PassedOn {
    fn fmt(&self, to: &mut fmt::Formatter<'_>) -> fmt::Result {
        to.debug_struct("PassedOn").finish_non_exhaustive()
    }
}

/// A bucket of tokens: N per second, and at most those of one second at once.
pub struct Rate {
    rate: sys::ptpm_rate,
}

impl Rate {
    /// A full bucket of N tokens per second, at most 1,000,000, at a time in milliseconds.
    pub fn new(tokens: u64, now: u64) -> Self {
        let mut rate = MaybeUninit::uninit();
        // SAFETY: the rate may be written, and the call writes all of it.
        unsafe {
            sys::ptpm_rate_start(rate.as_mut_ptr(), tokens, now);
            Self { rate: rate.assume_init() }
        }
    }

    /// Takes a token, if there is one. A time before the latest one counts as the latest.
    pub fn take(&mut self, now: u64) -> bool {
        // SAFETY: the rate is one that the library wrote, and may be written.
        unsafe { sys::ptpm_rate_take(&mut self.rate, now) }
    }
}

impl fmt::Debug for Rate {
    fn fmt(&self, to: &mut fmt::Formatter<'_>) -> fmt::Result {
        to.debug_struct("Rate").finish_non_exhaustive()
    }
}
