//! What a management message names by a number: a managementId and a managementErrorId.

use crate::names::Name;
use crate::sys;
use core::fmt;
use core::str::FromStr;

/// A managementId (15.5.2.3, table 59). It is read from its name in either case, or from four hexadecimal digits, also after `0x`:
///
/// ```
/// use ptpm::ManagementId;
///
/// assert_eq!("priority1".parse(), Ok(ManagementId::PRIORITY1));
/// assert_eq!("0x2005".parse(), Ok(ManagementId::PRIORITY1));
/// assert_eq!(ManagementId::PRIORITY1.to_string(), "PRIORITY1");
/// assert_eq!(ManagementId(0xc001).to_string(), "c001");
/// ```
#[derive(Clone, Copy, Debug, PartialEq, Eq, PartialOrd, Ord, Hash)]
#[repr(transparent)]
pub struct ManagementId(pub u16);

/// A text that is not a managementId.
#[derive(Clone, Copy, Debug, PartialEq, Eq)]
#[non_exhaustive]
pub struct UnknownId;

impl fmt::Display for UnknownId {
    fn fmt(&self, to: &mut fmt::Formatter<'_>) -> fmt::Result {
        to.write_str("it is neither a managementId of this profile nor four hexadecimal digits")
    }
}

impl core::error::Error for UnknownId {}

impl FromStr for ManagementId {
    type Err = UnknownId;

    fn from_str(text: &str) -> Result<Self, UnknownId> {
        // SAFETY: the text and its size are those of a slice, which may be read.
        let id = unsafe { sys::ptpm_id_parse(text.as_ptr().cast(), text.len()) };
        u16::try_from(id).map(Self).map_err(|_| UnknownId)
    }
}

impl fmt::Display for ManagementId {
    fn fmt(&self, to: &mut fmt::Formatter<'_>) -> fmt::Result {
        match Name::of_id(self.0) {
            Some(name) => to.pad(name.as_str()),
            None => write!(to, "{:04x}", self.0),
        }
    }
}

/// A managementErrorId (15.5.4.3, table 109): why a clock refused a request. It is written as the standard's name, or as its
/// number if it has none. It is an error of Rust too, so `clock.set(..)??` hands it on.
///
/// ```
/// assert_eq!(ptpm::ManagementErrorId(4).to_string(), "WRONG_VALUE");
/// assert_eq!(ptpm::ManagementErrorId(0xc001).to_string(), "0xc001");
/// ```
#[derive(Clone, Copy, Debug, PartialEq, Eq, PartialOrd, Ord, Hash)]
#[repr(transparent)]
pub struct ManagementErrorId(pub u16);

impl fmt::Display for ManagementErrorId {
    fn fmt(&self, to: &mut fmt::Formatter<'_>) -> fmt::Result {
        match Name::of_error(self.0) {
            Some(name) => to.pad(name.as_str()),
            None => write!(to, "{:#06x}", self.0),
        }
    }
}

impl core::error::Error for ManagementErrorId {}
