//! What a clock answered.

use crate::error::{judged, Error};
use crate::id::ManagementErrorId;
#[cfg(feature = "alloc")]
use crate::identity::PortIdentity;
use crate::sys;
#[cfg(feature = "alloc")]
use alloc::vec::Vec;

/// The most octets of a message.
pub const MOST_OCTETS: usize = sys::PTPM_MOST_OCTETS;

/// The most octets of a dataField that is answered.
pub const MOST_DATA: usize = 1418;

/// What an answer says (`enum ptpm_reported`).
#[derive(Clone, Copy, Debug, PartialEq, Eq)]
#[non_exhaustive]
pub enum Report<'a> {
    /// The clock answered a dataField.
    Value(&'a [u8]),
    /// It carried a COMMAND out.
    Done,
    /// It refused the request, for this reason.
    Refused(ManagementErrorId),
    /// A number that a newer library returns.
    Other(u32),
}

/// An answer of a survey, with octets of its own.
#[cfg(feature = "alloc")]
#[derive(Clone, Debug, PartialEq, Eq)]
pub struct Answer {
    /// The port that gave it.
    pub source: PortIdentity,
    /// The dataField, or why the request was refused.
    pub value: Result<Vec<u8>, ManagementErrorId>,
}

/// The report of a call that writes a dataField, its size and an error, and returns a number.
pub(crate) fn told<'a>(
    room: &'a mut [u8],
    call: impl FnOnce(*mut u8, usize, &mut usize, &mut u16) -> u32,
) -> Result<Report<'a>, Error> {
    let (mut size, mut error) = (0, 0);
    match judged(call(room.as_mut_ptr(), room.len(), &mut size, &mut error))? {
        sys::PTPM_VALUE => Ok(Report::Value(&room[..size])),
        sys::PTPM_DONE => Ok(Report::Done),
        sys::PTPM_REFUSED => Ok(Report::Refused(ManagementErrorId(error))),
        sys::PTPM_NO_REPORT => Err(Error::NoReport),
        number => Ok(Report::Other(number)),
    }
}
