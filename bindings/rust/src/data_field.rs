//! The dataField of a SET from words.

use crate::clock::MOST_READ;
use crate::error::{done, Error};
use crate::id::ManagementId;
use crate::members::Members;
use crate::sys;
use alloc::string::String;
use alloc::vec::Vec;
use core::fmt;

/// Words that are not a dataField of a SET.
#[derive(Clone, Debug, PartialEq, Eq)]
#[non_exhaustive]
pub struct NoField {
    /// What is wrong with them.
    pub error: Error,
    /// The standard's name of the member that is at fault, after [`Error::OtherName`] and [`Error::NoValue`].
    pub member: Option<String>,
    /// What a SET takes for this member, such as `a number from 0 to 255`, after [`Error::NoValue`].
    pub takes: Option<String>,
}

impl fmt::Display for NoField {
    fn fmt(&self, to: &mut fmt::Formatter<'_>) -> fmt::Result {
        match (&self.member, &self.takes) {
            (Some(member), Some(takes)) => write!(to, "{}: {member} takes {takes}", self.error),
            (Some(member), None) => write!(to, "{}: {member}", self.error),
            _ => self.error.fmt(to),
        }
    }
}

impl core::error::Error for NoField {}

impl ManagementId {
    /// The dataField of a SET of this id, from words: the name of each member in the standard, in either case, and its value.
    /// They are written as in [`Members`], and in the same order. The name of a sole member may be left out.
    ///
    /// ```
    /// use ptpm::{Error, ManagementId};
    ///
    /// let words = ["currentUtcOffset", "37", "leap61", "false", "leap59", "false", "currentUtcOffsetValid", "true"];
    /// assert_eq!(ManagementId::UTC_PROPERTIES.data_field(&words)?, [0, 37, 4, 0]);
    /// assert_eq!(ManagementId::PRIORITY1.data_field(&["100"])?, [100, 0]);
    /// let refused = ManagementId::PRIORITY1.data_field(&["300"]).unwrap_err();
    /// assert_eq!(refused.takes.as_deref(), Some("a number from 0 to 255, or 0x and two hexadecimal digits"));
    /// let refused = ManagementId::UTC_PROPERTIES.data_field(&[&words[..3], &["maybe"], &words[4..]].concat()).unwrap_err();
    /// assert_eq!((refused.error, refused.member.as_deref()), (Error::NoValue, Some("leap61")));
    /// # Ok::<(), ptpm::NoField>(())
    /// ```
    ///
    /// # Errors
    ///
    /// [`Error::NotWords`] also of a word with a zero octet; [`Error::UnknownId`], [`Error::WordCount`], [`Error::OtherName`] or
    /// [`Error::NoValue`].
    pub fn data_field(self, words: &[&str]) -> Result<Vec<u8>, NoField> {
        if words.iter().any(|word| word.contains('\0')) {
            return Err(NoField { error: Error::NotWords, member: None, takes: None });
        }
        let joined: String = words.iter().flat_map(|word| [*word, "\0"]).collect();
        let mut octets = [0; MOST_READ];
        let (mut count, mut place) = (0, 0);
        let (from, room) = (joined.as_ptr().cast(), octets.as_mut_ptr());
        // SAFETY: the words may be read; the octets, the count and the place may be written, and lie apart from these.
        let answer = unsafe { sys::ptpm_field_parse(self.0, from, joined.len(), room, MOST_READ, &mut count, &mut place) };
        match done(answer) {
            Ok(()) => Ok(octets[..count].to_vec()),
            Err(error) => Err(NoField { error, member: self.member_at_fault(error, place), takes: self.takes(error, place) }),
        }
    }

    /// What a SET takes for the member at a place, if the error is about its value.
    fn takes(self, error: Error, place: usize) -> Option<String> {
        if error != Error::NoValue {
            return None;
        }
        let mut text = [0; sys::PTPM_MOST_TAKES];
        // SAFETY: the text may be written.
        let size = unsafe { sys::ptpm_field_takes(self.0, place, text.as_mut_ptr().cast(), text.len()) };
        core::str::from_utf8(&text[..size]).ok().filter(|text| !text.is_empty()).map(String::from)
    }

    /// The name of the member at a place, if the error is about one.
    fn member_at_fault(self, error: Error, place: usize) -> Option<String> {
        if !matches!(error, Error::OtherName | Error::NoValue) {
            return None;
        }
        let mut all_zeros = (2..MOST_READ).step_by(2).map(|size| Members::of(self, &[0; MOST_READ][..size]));
        let members = all_zeros.find(|members| members.get("value").is_none())?;
        let (name, _) = members.iter().nth(place)?;
        Some(name.into())
    }
}
