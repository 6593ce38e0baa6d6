//! The start values of a clock and of its ports, and who may change them.

use crate::identity::{Identity, PortIdentity};
use crate::names::standard_numbers;
use crate::sys;
use crate::time_interval::TimeInterval;
#[cfg(feature = "alloc")]
use alloc::string::String;
use core::mem::{align_of, offset_of, size_of, MaybeUninit};
use core::ops::BitOr;

standard_numbers! {
    /// A portState (table 20).
    PortState: u8 {
        Initializing = sys::PTPM_STATE_INITIALIZING,
        Faulty = sys::PTPM_STATE_FAULTY,
        Disabled = sys::PTPM_STATE_DISABLED,
        Listening = sys::PTPM_STATE_LISTENING,
        PreMaster = sys::PTPM_STATE_PRE_MASTER,
        Master = sys::PTPM_STATE_MASTER,
        Passive = sys::PTPM_STATE_PASSIVE,
        Uncalibrated = sys::PTPM_STATE_UNCALIBRATED,
        Slave = sys::PTPM_STATE_SLAVE,
    }
}

standard_numbers! {
    /// A delayMechanism (table 21). A clock of this library has neither [`CommonP2p`](Self::CommonP2p) nor
    /// [`Special`](Self::Special): a start with one is refused with
    /// [`Error::BadDelayMechanism`](crate::Error::BadDelayMechanism). Other clocks may answer with them.
    #[non_exhaustive]
    DelayMechanism: u8 {
        /// E2E: the delay request-response mechanism.
        EndToEnd = sys::PTPM_DELAY_E2E,
        /// P2P: the peer-to-peer delay mechanism.
        PeerToPeer = sys::PTPM_DELAY_P2P,
        /// COMMON_P2P: that of the Common Mean Link Delay Service.
        CommonP2p = 3,
        /// SPECIAL: that of a Special Port.
        Special = 4,
        /// NO_MECHANISM
        None = sys::PTPM_DELAY_NONE,
    }
}

/// The start values of a clock's own members. [`ClockSettings::new`] has the library's defaults, and `None` means the
/// clock's own value:
///
/// ```
/// use ptpm::ClockSettings;
///
/// let identity = "aabbccfffeddee01".parse()?;
/// let settings = ClockSettings { priority1: 100, user_description: "rack 4".into(), ..ClockSettings::new(identity) };
/// # Ok::<(), ptpm::NoIdentity>(())
/// ```
#[derive(Clone, Debug, PartialEq, Eq)]
#[allow(missing_docs)] // the members of the data sets (8.2), by the header's names
pub struct ClockSettings {
    pub identity: Identity,
    pub domain: u8,
    /// At most 128 octets. Without the feature `alloc` it is empty at the start.
    #[cfg(feature = "alloc")]
    pub user_description: String,
    pub two_step: bool,
    pub priority1: u8,
    pub clock_class: u8,
    /// 0x17 to 0x31, or 0xFE.
    pub clock_accuracy: u8,
    pub variance: u16,
    pub priority2: u8,
    pub steps_removed: u16,
    pub offset_from_master: TimeInterval,
    pub mean_path_delay: TimeInterval,
    /// `None` is port 0 of the clock itself.
    pub parent_port: Option<PortIdentity>,
    pub parent_stats: bool,
    pub observed_variance: u16,
    pub observed_rate: i32,
    pub grandmaster: Option<Identity>,
    pub grandmaster_priority1: Option<u8>,
    pub grandmaster_class: Option<u8>,
    pub grandmaster_accuracy: Option<u8>,
    pub grandmaster_variance: Option<u16>,
    pub grandmaster_priority2: Option<u8>,
    pub utc_offset: i16,
    pub leap61: bool,
    pub leap59: bool,
    pub utc_valid: bool,
    pub ptp_timescale: bool,
    pub time_traceable: bool,
    pub frequency_traceable: bool,
    pub time_source: u8,
}

/// What the library writes for settings with its own start values.
fn default_clock() -> sys::ptpm_clock_settings {
    let mut settings = MaybeUninit::uninit();
    // SAFETY: the settings may be written, and the call writes them all.
    unsafe {
        sys::ptpm_clock_defaults(settings.as_mut_ptr());
        settings.assume_init()
    }
}

impl ClockSettings {
    /// A clock in domain 0 that is its own grandmaster, with this profile's defaults.
    pub fn new(identity: Identity) -> Self {
        let s = default_clock();
        let given = |flag: u8, value: u8| (flag != 0).then_some(value);
        Self {
            identity,
            domain: s.domain,
            #[cfg(feature = "alloc")]
            user_description: String::new(),
            two_step: s.two_step != 0,
            priority1: s.priority1,
            clock_class: s.clock_class,
            clock_accuracy: s.clock_accuracy,
            variance: s.variance,
            priority2: s.priority2,
            steps_removed: s.steps_removed,
            offset_from_master: TimeInterval(s.offset_from_master),
            mean_path_delay: TimeInterval(s.mean_path_delay),
            parent_port: None,
            parent_stats: s.parent_stats != 0,
            observed_variance: s.observed_variance,
            observed_rate: s.observed_rate,
            grandmaster: None,
            grandmaster_priority1: given(s.has_grandmaster_priority1, s.grandmaster_priority1),
            grandmaster_class: given(s.has_grandmaster_class, s.grandmaster_class),
            grandmaster_accuracy: given(s.has_grandmaster_accuracy, s.grandmaster_accuracy),
            grandmaster_variance: (s.has_grandmaster_variance != 0).then_some(s.grandmaster_variance),
            grandmaster_priority2: given(s.has_grandmaster_priority2, s.grandmaster_priority2),
            utc_offset: s.utc_offset,
            leap61: s.leap61 != 0,
            leap59: s.leap59 != 0,
            utc_valid: s.utc_valid != 0,
            ptp_timescale: s.ptp_timescale != 0,
            time_traceable: s.time_traceable != 0,
            frequency_traceable: s.frequency_traceable != 0,
            time_source: s.time_source,
        }
    }

    /// As the library takes them.
    pub(crate) fn as_in_c(&self) -> sys::ptpm_clock_settings {
        let mut s = sys::ptpm_clock_settings {
            identity: self.identity.0,
            domain: self.domain,
            two_step: self.two_step.into(),
            priority1: self.priority1,
            clock_class: self.clock_class,
            clock_accuracy: self.clock_accuracy,
            variance: self.variance,
            priority2: self.priority2,
            steps_removed: self.steps_removed,
            offset_from_master: self.offset_from_master.0,
            mean_path_delay: self.mean_path_delay.0,
            parent_stats: self.parent_stats.into(),
            observed_variance: self.observed_variance,
            observed_rate: self.observed_rate,
            utc_offset: self.utc_offset,
            leap61: self.leap61.into(),
            leap59: self.leap59.into(),
            utc_valid: self.utc_valid.into(),
            ptp_timescale: self.ptp_timescale.into(),
            time_traceable: self.time_traceable.into(),
            frequency_traceable: self.frequency_traceable.into(),
            time_source: self.time_source,
            ..default_clock()
        };
        self.write_parent(&mut s);
        #[cfg(feature = "alloc")]
        self.write_user_description(&mut s);
        s
    }

    fn write_parent(&self, s: &mut sys::ptpm_clock_settings) {
        s.has_parent_port = self.parent_port.is_some().into();
        s.parent_port_clock = self.parent_port.unwrap_or_default().clock.0;
        s.parent_port_number = self.parent_port.unwrap_or_default().port;
        s.has_grandmaster = self.grandmaster.is_some().into();
        s.grandmaster = self.grandmaster.unwrap_or_default().0;
        s.has_grandmaster_priority1 = self.grandmaster_priority1.is_some().into();
        s.grandmaster_priority1 = self.grandmaster_priority1.unwrap_or_default();
        s.has_grandmaster_class = self.grandmaster_class.is_some().into();
        s.grandmaster_class = self.grandmaster_class.unwrap_or_default();
        s.has_grandmaster_accuracy = self.grandmaster_accuracy.is_some().into();
        s.grandmaster_accuracy = self.grandmaster_accuracy.unwrap_or_default();
        s.has_grandmaster_variance = self.grandmaster_variance.is_some().into();
        s.grandmaster_variance = self.grandmaster_variance.unwrap_or_default();
        s.has_grandmaster_priority2 = self.grandmaster_priority2.is_some().into();
        s.grandmaster_priority2 = self.grandmaster_priority2.unwrap_or_default();
    }

    /// A text that is too long for its place has a size that the library refuses.
    #[cfg(feature = "alloc")]
    fn write_user_description(&self, s: &mut sys::ptpm_clock_settings) {
        let text = self.user_description.as_bytes();
        let room = s.user_description.len();
        let kept = text.len().min(room);
        s.user_description[..kept].copy_from_slice(&text[..kept]);
        s.user_description_size = u8::try_from(text.len()).unwrap_or(u8::MAX);
    }
}

/// The start values of a port; laid out as `struct ptpm_port_settings`.
#[derive(Clone, Copy, Debug, PartialEq, Eq)]
#[repr(C)]
#[allow(missing_docs)] // the members of portDS (8.2.15), by the header's names
pub struct PortSettings {
    pub peer_delay: TimeInterval,
    pub state: PortState,
    pub log_min_delay_req: i8,
    /// -4 to 4.
    pub log_announce: i8,
    /// 2 to 10.
    pub receipt_timeout: u8,
    /// -8 to 1.
    pub log_sync: i8,
    pub delay_mechanism: DelayMechanism,
    /// -8 to 5.
    pub log_min_pdelay: i8,
}

impl PortSettings {
    /// A port that is MASTER, with this profile's defaults.
    pub fn new() -> Self {
        let mut settings = MaybeUninit::<sys::ptpm_port_settings>::uninit();
        // SAFETY: the settings may be written, and the call writes them all.
        let s = unsafe {
            sys::ptpm_port_defaults(settings.as_mut_ptr());
            settings.assume_init()
        };
        Self {
            peer_delay: TimeInterval(s.peer_delay),
            state: PortState::of_number(s.state).unwrap_or(PortState::Master),
            log_min_delay_req: s.log_min_delay_req,
            log_announce: s.log_announce,
            receipt_timeout: s.receipt_timeout,
            log_sync: s.log_sync,
            delay_mechanism: DelayMechanism::of_number(s.delay_mechanism).unwrap_or(DelayMechanism::None),
            log_min_pdelay: s.log_min_pdelay,
        }
    }
}

impl Default for PortSettings {
    fn default() -> Self {
        Self::new()
    }
}

/// What a manager may change.
#[derive(Clone, Copy, Debug, Default, PartialEq, Eq, Hash)]
#[repr(transparent)]
pub struct Rights(u8);

impl Rights {
    /// Nothing: its requests are numbered, and it reads.
    pub const NONE: Self = Self(0);
    /// Data sets of the clock, by SET.
    pub const CLOCK_SET: Self = Self(sys::PTPM_CLOCK_SET);
    /// Data sets of ports, by SET.
    pub const PORT_SET: Self = Self(sys::PTPM_PORT_SET);
    /// States of ports, by COMMAND.
    pub const PORT_COMMAND: Self = Self(sys::PTPM_PORT_COMMAND);
    /// All three.
    pub const ALL: Self = Self(sys::PTPM_CLOCK_SET | sys::PTPM_PORT_SET | sys::PTPM_PORT_COMMAND);

    /// The octet that the library has.
    pub(crate) const fn octet(self) -> u8 {
        self.0
    }
}

impl BitOr for Rights {
    type Output = Self;

    fn bitor(self, others: Self) -> Self {
        Self(self.0 | others.0)
    }
}

/// Who may change a clock, and what; laid out as `struct ptpm_manager_settings`.
#[derive(Clone, Copy, Debug, PartialEq, Eq)]
#[repr(C)]
pub struct Manager {
    clock: Identity,
    port: u16,
    rights: Rights,
}

impl Manager {
    /// A manager by its portIdentity, and what it may change.
    pub const fn new(identity: PortIdentity, rights: Rights) -> Self {
        Self { clock: identity.clock, port: identity.port, rights }
    }
}

// Ports and managers are handed to the library where they lie.
const _: () = {
    type Port = sys::ptpm_port_settings;
    assert!(size_of::<PortSettings>() == size_of::<Port>() && align_of::<PortSettings>() == align_of::<Port>());
    assert!(offset_of!(PortSettings, peer_delay) == offset_of!(Port, peer_delay));
    assert!(offset_of!(PortSettings, state) == offset_of!(Port, state));
    assert!(offset_of!(PortSettings, log_min_delay_req) == offset_of!(Port, log_min_delay_req));
    assert!(offset_of!(PortSettings, log_announce) == offset_of!(Port, log_announce));
    assert!(offset_of!(PortSettings, receipt_timeout) == offset_of!(Port, receipt_timeout));
    assert!(offset_of!(PortSettings, log_sync) == offset_of!(Port, log_sync));
    assert!(offset_of!(PortSettings, delay_mechanism) == offset_of!(Port, delay_mechanism));
    assert!(offset_of!(PortSettings, log_min_pdelay) == offset_of!(Port, log_min_pdelay));
    type OfC = sys::ptpm_manager_settings;
    assert!(size_of::<Manager>() == size_of::<OfC>() && align_of::<Manager>() == align_of::<OfC>());
    assert!(offset_of!(Manager, clock) == offset_of!(OfC, clock));
    assert!(offset_of!(Manager, port) == offset_of!(OfC, port));
    assert!(offset_of!(Manager, rights) == offset_of!(OfC, rights));
};
