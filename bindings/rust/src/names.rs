//! Names that the library has for numbers.

use crate::sys;
use core::ffi::c_char;
use core::fmt;

/// An enum of numbers that the standard names.
macro_rules! standard_numbers {
    ($(#[$about:meta])* $name:ident: $kind:ident { $($(#[$what:meta])* $variant:ident = $number:expr,)* }) => {
        $(#[$about])*
        #[derive(Clone, Copy, Debug, PartialEq, Eq, Hash)]
        #[repr($kind)]
        #[allow(missing_docs)] // the standard's names
        pub enum $name {
            $($(#[$what])* $variant = $number,)*
        }

        impl $name {
            /// The member with this number, if there is one.
            pub const fn of_number(number: $kind) -> Option<Self> {
                $(if number == $number {
                    return Some(Self::$variant);
                })*
                None
            }
        }
    };
}
pub(crate) use standard_numbers;

/// A name from the library, such as `NO_ROOM`.
pub(crate) struct Name {
    text: [u8; sys::PTPM_MOST_NAME],
    size: usize,
}

impl Name {
    /// The name that a call writes into the room that it is given; the call returns how many octets the name has.
    fn written(call: impl FnOnce(*mut c_char, usize) -> usize) -> Option<Self> {
        let mut text = [0; sys::PTPM_MOST_NAME];
        let size = call(text.as_mut_ptr().cast(), text.len());
        (size > 0).then_some(Self { text, size })
    }

    pub(crate) fn of_answer(number: u32) -> Option<Self> {
        // SAFETY: the room may be written, and lies apart from all else.
        Self::written(|text, room| unsafe { sys::ptpm_answer_name(number, text, room) })
    }

    pub(crate) fn of_id(id: u16) -> Option<Self> {
        // SAFETY: as above.
        Self::written(|text, room| unsafe { sys::ptpm_id_name(id, text, room) })
    }

    pub(crate) fn of_error(error: u16) -> Option<Self> {
        // SAFETY: as above.
        Self::written(|text, room| unsafe { sys::ptpm_error_name(error, text, room) })
    }

    pub(crate) fn as_str(&self) -> &str {
        core::str::from_utf8(&self.text[..self.size]).unwrap_or_default()
    }
}

/// Writes the name of the number that a call returned, or the number if it has none.
pub(crate) fn write_answer(number: u32, to: &mut fmt::Formatter<'_>) -> fmt::Result {
    match Name::of_answer(number) {
        Some(name) => to.pad(name.as_str()),
        None => fmt::Display::fmt(&number, to),
    }
}
