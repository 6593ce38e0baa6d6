//! For each kind of call the reasons for which it is refused, as the header's types of answers have them.
//!
//! A call returns [`Error`], which has all reasons. A function that returns one of these types converts an [`Error`] by `?`. A
//! `match` over such a type needs no pattern for all else:
//!
//! ```
//! use ptpm::{Clock, Handled, HandleError, Outbox};
//!
//! fn come_in(clock: &mut Clock, port: u16, datagram: &[u8], outbox: &mut Outbox) -> Result<Handled, HandleError> {
//!     Ok(clock.handle(port, datagram, outbox)?.handled())
//! }
//! ```

use crate::error::Error;
use core::fmt;

macro_rules! refusals {
    ($($(#[$what:meta])* $kind:ident { $($variant:ident)* })*) => {$(
        $(#[$what])*
        #[derive(Clone, Copy, Debug, PartialEq, Eq, Hash)]
        #[allow(missing_docs)] // as those of `Error`
        pub enum $kind {
            $($variant,)*
            /// A reason that only a newer library has.
            Other(Error),
        }

        impl From<Error> for $kind {
            fn from(error: Error) -> Self {
                match error {
                    $(Error::$variant => Self::$variant,)*
                    other => Self::Other(other),
                }
            }
        }

        impl From<$kind> for Error {
            fn from(refusal: $kind) -> Self {
                match refusal {
                    $($kind::$variant => Self::$variant,)*
                    $kind::Other(error) => error,
                }
            }
        }

        impl fmt::Display for $kind {
            fn fmt(&self, to: &mut fmt::Formatter<'_>) -> fmt::Result {
                Error::from(*self).fmt(to)
            }
        }

        impl core::error::Error for $kind {}
    )*};
}

refusals! {
    /// Why a clock, a session, a survey or an asker does not start (`enum ptpm_started`).
    StartError {
        NoMemory OtherSizes NoPorts TooManyPorts GrandmasterDiffers TooManyManagers ManagerTwice ManagerIsEvery TargetIsEvery SameClock
        IdentityIsZero TargetIsZero BadIdentity BadUserDescription BadClockAccuracy BadLeap59 BadState BadLogAnnounce
        BadReceiptTimeout BadLogSync BadDelayMechanism BadLogMinPdelay
    }
    /// Why a datagram is not judged by a clock, or why a clock does not save (`enum ptpm_handled`).
    HandleError { NoClock NoPort NoRoom NoMemory Unsaved BadSay UnderWay NothingUnderWay }
    /// Why a device is not asked (`enum ptpm_asking`).
    QuestionError { NoClock NoPort Unsaved UnderWay }
    /// Why a clock's device gets no ids of its own (`enum ptpm_relaying`).
    RelayError { NoClock TooManyIds ClockHasId RelayedTwice BadScope BadActions BadSizes NoMemory }
    /// Why nothing is set at the device itself (`enum ptpm_set_here`).
    SetError { NoClock NoPort NotPermitted BadValue UnderWay }
    /// Why nothing is observed (`enum ptpm_observed`).
    ObserveError { NoClock NoPort GrandmasterDiffers BadClockAccuracy BadLeap59 BadState }
    /// Why nothing is read (`enum ptpm_read`).
    ReadError { NoClock NoPort NoRoom NotReadable }
    /// Why no request is begun (`enum ptpm_begun`).
    BeginError { NoMemory NoSession Busy NeedsPort NotPermitted BadValue CountAtMaximum }
    /// Why there is no message to send (`enum ptpm_sending`).
    SendError { NoRoom NoSession Idle GaveUp NoSurvey }
    /// Why a request gets no more attempts (`enum ptpm_resumed`).
    ResumeError { NoSession Idle }
    /// Why a request is not given up (`enum ptpm_given_up`).
    GiveUpError { NoSession Idle OutOfReach }
    /// Why a session stays in its domain (`enum ptpm_retuned`).
    RetuneError { NoSession }
    /// Why a datagram is not judged by a session (`enum ptpm_session_received`).
    ReceiveError { NoMemory NoSession }
    /// Why a datagram is not judged by a survey (`enum ptpm_survey_received`).
    SurveyError { NoMemory NoSurvey }
    /// Why nothing is reported (`enum ptpm_reported`).
    ReportError { NoRoom NoSession NoReport NoSurvey NoAsker }
    /// Why there is no image, or nothing is saved by one (`enum ptpm_saved`).
    SaveError { NoClock NoRoom NoMemory NoSession OtherImage }
    /// Why nothing is restored (`enum ptpm_restored`).
    RestoreError {
        NoMemory OtherSizes TooManyManagers ManagerTwice IdentityIsZero NotAnImage OtherVersion OtherKind Damaged OtherClock OtherPorts OtherSession
    }
    /// Why an asker does not go on from an image (`enum ptpm_asker_restored`).
    AskerRestoreError {
        NoMemory OtherSizes NoPorts TooManyPorts ManagerTwice ManagerIsEvery TargetIsEvery SameClock TargetIsZero NotAnImage OtherVersion OtherKind Damaged
        OtherSession
    }
    /// Why a call of an asker is refused (`enum ptpm_asked`).
    AskError { NoRoom NoMemory Busy NeedsPort NotPermitted BadValue CountAtMaximum Idle OutOfReach NoAsker }
    /// Why a call of a journal is refused (`enum ptpm_journaled`).
    JournalError { NoRoom NoMemory OtherVersion Damaged NoJournal NoRecord NotAllowed JournalWhole }
    /// Why a call of a rollout is refused (`enum ptpm_rolled`).
    RolloutError { NoRoom NoMemory BadValue OtherVersion Damaged NoRollout HasEnded OutOfTurn }
    /// Why words are not a dataField (`enum ptpm_parsed`).
    ParseError { NoRoom NotWords UnknownId WordCount OtherName NoValue }
}
