//! Which members of the data sets have changed.

use crate::clock::MOST_PORTS;
use crate::sys;
use core::ops::BitOr;

macro_rules! members {
    ($(#[$about:meta])* $name:ident($bits:ident)) => {
        $(#[$about])*
        #[derive(Clone, Copy, Debug, Default, PartialEq, Eq, Hash)]
        #[repr(transparent)]
        pub struct $name(pub(crate) $bits);

        impl $name {
            /// Whether none is among them.
            pub const fn is_empty(self) -> bool {
                self.0 == 0
            }

            /// Whether all of these are among them.
            pub const fn contains(self, members: Self) -> bool {
                self.0 & members.0 == members.0
            }

            /// Whether one of these is among them.
            pub const fn intersects(self, members: Self) -> bool {
                self.0 & members.0 != 0
            }

            /// The sum of the bits with which the library names them.
            pub const fn bits(self) -> $bits {
                self.0
            }
        }

        impl BitOr for $name {
            type Output = Self;

            fn bitor(self, others: Self) -> Self {
                Self(self.0 | others.0)
            }
        }
    };
}

members! {
    /// Members of a clock.
    ClockMembers(u32)
}

members! {
    /// Members of a port.
    PortMembers(u8)
}

/// Which members a datagram changed.
#[derive(Clone, Copy, Debug, PartialEq, Eq)]
pub struct Changed {
    /// Those of the clock.
    pub clock: ClockMembers,
    /// Those of port 1, port 2 and so on.
    pub ports: [PortMembers; MOST_PORTS],
}

impl Default for Changed {
    /// Nothing changed.
    fn default() -> Self {
        Self { clock: ClockMembers::default(), ports: [PortMembers::default(); MOST_PORTS] }
    }
}

impl Changed {
    /// Whether nothing changed.
    pub fn is_empty(&self) -> bool {
        *self == Self::default()
    }

    /// The ports at which one of these members changed, counted from 1.
    pub fn ports_with(&self, members: PortMembers) -> impl Iterator<Item = u16> + '_ {
        (1u16..).zip(&self.ports).filter(move |(_, changed)| changed.intersects(members)).map(|(port, _)| port)
    }
}

impl From<sys::ptpm_changed> for Changed {
    fn from(changed: sys::ptpm_changed) -> Self {
        Self { clock: ClockMembers(changed.clock), ports: changed.ports.map(PortMembers) }
    }
}
