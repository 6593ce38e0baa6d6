//! What became of a datagram: what the three calls that take one return.

use crate::names;
use crate::sys;
use core::fmt;

/// An enum of numbers that the library returns.
macro_rules! numbered {
    ($(#[$about:meta])* $name:ident { $($(#[$what:meta])* $variant:ident = $number:ident,)* }) => {
        $(#[$about])*
        #[derive(Clone, Copy, Debug, PartialEq, Eq, Hash)]
        #[non_exhaustive]
        #[repr(u32)]
        pub enum $name {
            $($(#[$what])* $variant = sys::$number,)*
            /// A number that a newer library returns.
            Other(u32) = u32::MAX,
        }

        impl $name {
            /// What the library means by a number.
            #[inline]
            pub const fn of_number(number: u32) -> Self {
                match number {
                    $(sys::$number => Self::$variant,)*
                    _ => Self::Other(number),
                }
            }

            /// The library's number of it.
            #[inline]
            pub const fn number(self) -> u32 {
                match self {
                    $(Self::$variant => sys::$number,)*
                    Self::Other(number) => number,
                }
            }
        }

        impl fmt::Display for $name {
            /// The name in the header without its `PTPM_`, such as `ANSWERED_NEW`. 0 has none there, and is written as a number.
            fn fmt(&self, to: &mut fmt::Formatter<'_>) -> fmt::Result {
                names::write_answer(self.number(), to)
            }
        }
    };
}

/// The same, and then the reasons why a datagram holds no management message, which each of the three calls
/// returns.
macro_rules! answers {
    ($(#[$about:meta])* $name:ident { $($answers:tt)* }) => {
        numbered! {
            $(#[$about])*
            $name {
                $($answers)*
                /// It is shorter than a management message. This and all reasons below mean that it is not one.
                TooShort = PTPM_TOO_SHORT,
                /// It is of another messageType.
                NotManagement = PTPM_NOT_MANAGEMENT,
                /// It is of another versionPTP.
                BadVersion = PTPM_BAD_VERSION,
                /// Its messageLength is under 54, over the datagram's size, or over 1,472.
                BadLength = PTPM_BAD_LENGTH,
                /// Its actionField is reserved.
                BadAction = PTPM_BAD_ACTION,
                /// Its tlvType is neither MANAGEMENT nor `MANAGEMENT_ERROR_STATUS`, or the latter in a request.
                BadTlvType = PTPM_BAD_TLV_TYPE,
                /// Its lengthField is odd, too small, or does not fit messageLength.
                BadTlvLength = PTPM_BAD_TLV_LENGTH,
                /// The size of its displayData is not that of its text.
                BadText = PTPM_BAD_TEXT,
            }
        }
    };
}

answers! {
    /// What became of a datagram that a clock was given (`enum ptpm_handled`).
    Handled {
        /// It is of another domain.
        OtherDomain = PTPM_OTHER_DOMAIN,
        /// The clock sent it.
        OwnMessage = PTPM_OWN_MESSAGE,
        /// It is for other clocks.
        NotAddressed = PTPM_NOT_ADDRESSED,
        /// It is an answer.
        NotARequest = PTPM_NOT_A_REQUEST,
        /// A new request from a manager. Only this one may have changed the data sets.
        AnsweredNew = PTPM_ANSWERED_NEW,
        /// The latest request of a manager again.
        AnsweredRepeat = PTPM_ANSWERED_REPEAT,
        /// A manager's request before its latest.
        DroppedOld = PTPM_DROPPED_OLD,
        /// Another request with the number of a manager's latest.
        DroppedConflict = PTPM_DROPPED_CONFLICT,
        /// A request from anyone else, or to every clock.
        AnsweredUnnumbered = PTPM_ANSWERED_UNNUMBERED,
    }
}

answers! {
    /// What became of a datagram that a session was given (`enum ptpm_session_received`).
    Received {
        /// It answers the unanswered request.
        Answered = PTPM_ANSWERED,
        /// It is of another domain.
        OtherDomain = PTPM_OTHER_DOMAIN,
        /// It is not an answer.
        NotAReply = PTPM_NOT_A_REPLY,
        /// It is an answer to another manager.
        OtherTarget = PTPM_OTHER_TARGET,
        /// Another clock, or another port, answers.
        OtherSource = PTPM_OTHER_SOURCE,
        /// No request is unanswered.
        NothingAsked = PTPM_NOTHING_ASKED,
        /// It answers another request.
        OtherNumber = PTPM_OTHER_NUMBER,
        /// Its number is the request's, but it answers a different action or id.
        OtherContent = PTPM_OTHER_CONTENT,
    }
}

answers! {
    /// What became of a datagram that a survey was given (`enum ptpm_survey_received`).
    Surveyed {
        /// It is the first answer of its port, and is kept.
        Taken = PTPM_TAKEN,
        /// It is a further answer of its port.
        Again = PTPM_AGAIN,
        /// It is the first answer of one port too many.
        Full = PTPM_FULL,
        /// It is of another domain.
        OtherDomain = PTPM_OTHER_DOMAIN,
        /// It is not an answer.
        NotAReply = PTPM_NOT_A_REPLY,
        /// It is an answer to another manager.
        OtherTarget = PTPM_OTHER_TARGET,
        /// A different clock answers than the one that was asked.
        OtherSource = PTPM_OTHER_SOURCE,
        /// It answers another request.
        OtherNumber = PTPM_OTHER_NUMBER,
        /// Its number is the survey's, but it answers a different action or id.
        OtherContent = PTPM_OTHER_CONTENT,
    }
}
