//! Who a clock is, and which port of it (IEEE 1588-2019, 5.3.4 and 5.3.5).

use crate::sys;
use core::fmt;
use core::str::FromStr;

/// A clockIdentity. It is read in both spellings, in either case, and written in the first, or in the second by `{:#}`:
///
/// ```
/// let identity: ptpm::Identity = "AABBCC.FFFE.DDEE01".parse()?;
/// assert_eq!(identity, "aabbccfffeddee01".parse()?);
/// assert_eq!(format!("{identity} {identity:#}"), "aabbccfffeddee01 aabbcc.fffe.ddee01");
/// # Ok::<(), ptpm::NoIdentity>(())
/// ```
#[derive(Clone, Copy, Debug, Default, PartialEq, Eq, PartialOrd, Ord, Hash)]
#[repr(transparent)]
pub struct Identity(pub [u8; 8]);

/// A portIdentity: a clock and the number of its port. It is read with `/` or `-` between them, and written as its clock is:
///
/// ```
/// let port: ptpm::PortIdentity = "aabbcc.fffe.ddee01-2".parse()?;
/// assert_eq!(format!("{port} {port:#}"), "aabbccfffeddee01/2 aabbcc.fffe.ddee01-2");
/// # Ok::<(), ptpm::NoIdentity>(())
/// ```
#[derive(Clone, Copy, Debug, Default, PartialEq, Eq, PartialOrd, Ord, Hash)]
#[repr(C)]
pub struct PortIdentity {
    /// clockIdentity
    pub clock: Identity,
    /// portNumber
    pub port: u16,
}

/// A text is not an identity.
#[derive(Clone, Copy, Debug, PartialEq, Eq)]
#[non_exhaustive]
pub struct NoIdentity;

impl fmt::Display for NoIdentity {
    fn fmt(&self, to: &mut fmt::Formatter<'_>) -> fmt::Result {
        to.write_str("it is not an identity, such as aabbccfffeddee01 or aabbcc.fffe.ddee01, with its port aabbccfffeddee01/1")
    }
}

impl core::error::Error for NoIdentity {}

impl Identity {
    /// The identity that a MAC makes, with `fffe` in its middle.
    ///
    /// ```
    /// assert_eq!(ptpm::Identity::of_mac([2, 0, 0, 0, 0, 0x20]).to_string(), "020000fffe000020");
    /// ```
    pub const fn of_mac(mac: [u8; 6]) -> Self {
        let [a, b, c, d, e, f] = mac;
        Self([a, b, c, 0xff, 0xfe, d, e, f])
    }
}

impl FromStr for Identity {
    type Err = NoIdentity;

    fn from_str(text: &str) -> Result<Self, NoIdentity> {
        let mut octets = [0; 8];
        // SAFETY: the text and its size are those of a slice, which may be read. The octets may be written, and lie apart.
        let is_one = unsafe { sys::ptpm_identity_parse(text.as_ptr().cast(), text.len(), octets.as_mut_ptr()) };
        is_one.then_some(Self(octets)).ok_or(NoIdentity)
    }
}

impl fmt::Display for Identity {
    fn fmt(&self, to: &mut fmt::Formatter<'_>) -> fmt::Result {
        for (place, octet) in self.0.iter().enumerate() {
            let point = if to.alternate() && (place == 3 || place == 5) { "." } else { "" };
            write!(to, "{point}{octet:02x}")?;
        }
        Ok(())
    }
}

impl FromStr for PortIdentity {
    type Err = NoIdentity;

    fn from_str(text: &str) -> Result<Self, NoIdentity> {
        let (mut clock, mut port) = ([0; 8], 0);
        // SAFETY: as above; the port may be written too.
        let is_one = unsafe { sys::ptpm_port_identity_parse(text.as_ptr().cast(), text.len(), clock.as_mut_ptr(), &mut port) };
        is_one.then_some(Self { clock: Identity(clock), port }).ok_or(NoIdentity)
    }
}

impl fmt::Display for PortIdentity {
    fn fmt(&self, to: &mut fmt::Formatter<'_>) -> fmt::Result {
        if to.alternate() {
            write!(to, "{:#}-{}", self.clock, self.port)
        } else {
            write!(to, "{}/{}", self.clock, self.port)
        }
    }
}
