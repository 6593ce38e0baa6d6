//! A TimeInterval.

/// A TimeInterval (5.3.2): nanoseconds times 2^16.
///
/// ```
/// use ptpm::TimeInterval;
///
/// assert_eq!(TimeInterval::from_nanoseconds(-3), TimeInterval(-196_608));
/// assert_eq!((TimeInterval(-98_304).nanoseconds(), TimeInterval(-98_304).fraction()), (-2, 32_768)); // -1.5 ns
/// ```
#[derive(Clone, Copy, Debug, Default, PartialEq, Eq, PartialOrd, Ord, Hash)]
#[repr(transparent)]
pub struct TimeInterval(pub i64);

impl TimeInterval {
    /// An interval of N nanoseconds. A number out of the range of a TimeInterval becomes the nearest
    /// limit.
    pub const fn from_nanoseconds(nanoseconds: i64) -> Self {
        Self(nanoseconds.saturating_mul(1 << 16))
    }

    /// The whole nanoseconds: the greatest number of them that is not above the interval.
    pub const fn nanoseconds(self) -> i64 {
        self.0 >> 16
    }

    /// What is above the whole nanoseconds, in nanoseconds times 2^16.
    pub const fn fraction(self) -> u16 {
        self.0 as u16
    }
}
