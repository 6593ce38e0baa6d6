//! The members of a dataField by the standard's names, as text.

use crate::id::ManagementId;
use crate::sys;
use core::fmt;

/// The members of a dataField (15.5.3): for each its name in the standard and its value as `ptpm show --members` prints it.
///
/// ```
/// use ptpm::{ManagementId, Members};
///
/// let members = Members::of(ManagementId::UTC_PROPERTIES, &[0, 37, 4, 0]);
/// assert_eq!(members.get("currentUtcOffset"), Some("37"));
/// assert_eq!(members.iter().count(), 4);
/// let members = Members::of(ManagementId::PRIORITY1, &[128, 0]);
/// assert_eq!(members.to_string(), "priority1 128\n");
/// ```
#[derive(Clone)]
pub struct Members {
    text: [u8; sys::PTPM_MOST_FIELD_TEXT],
    size: usize,
}

impl Members {
    /// The members that the octets have. If they are not a dataField of the id, or it has no member, there is only `value`: the
    /// octets in hexadecimal, or `-`. More octets than [`MOST_DATA`](crate::MOST_DATA) have no members.
    pub fn of(id: ManagementId, octets: &[u8]) -> Self {
        let mut text = [0; sys::PTPM_MOST_FIELD_TEXT];
        // SAFETY: the octets may be read, the text may be written, and the two lie apart.
        let size = unsafe { sys::ptpm_field_text(id.0, octets.as_ptr(), octets.len(), text.as_mut_ptr().cast(), text.len()) };
        Self { text, size }
    }

    /// A line for each member, its name, a space and its value.
    pub fn as_str(&self) -> &str {
        core::str::from_utf8(&self.text[..self.size]).unwrap_or_default()
    }

    /// Each member's name and value.
    pub fn iter(&self) -> impl Iterator<Item = (&str, &str)> {
        self.as_str().lines().filter_map(|line| line.split_once(' '))
    }

    /// The value of the member of this name.
    pub fn get(&self, name: &str) -> Option<&str> {
        self.iter().find(|member| member.0 == name).map(|member| member.1)
    }
}

impl fmt::Display for Members {
    fn fmt(&self, to: &mut fmt::Formatter<'_>) -> fmt::Result {
        to.write_str(self.as_str())
    }
}

impl fmt::Debug for Members {
    fn fmt(&self, to: &mut fmt::Formatter<'_>) -> fmt::Result {
        to.debug_map().entries(self.iter()).finish()
    }
}
