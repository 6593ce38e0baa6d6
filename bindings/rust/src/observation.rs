//! What a host observes about its clock and its ports.

use crate::identity::{Identity, PortIdentity};
use crate::settings::PortState;
use crate::sys;
use crate::time_interval::TimeInterval;

/// The grandmaster of a clock, which is observed as a whole.
#[derive(Clone, Copy, Debug, PartialEq, Eq)]
#[allow(missing_docs)] // the members of parentDS (8.2.3), by the header's names
pub enum ObservedGrandmaster {
    /// The clock itself.
    Itself,
    /// Another clock, over this parent port.
    Other { identity: Identity, priority1: u8, class: u8, accuracy: u8, variance: u16, priority2: u8, parent_port: PortIdentity },
}

/// What a host observes about its clock: what its servo and its best master clock algorithm find. A member that is `None` stays
/// as it was.
///
/// ```
/// use ptpm::{ObservedClock, TimeInterval};
///
/// let observed = ObservedClock { offset_from_master: Some(TimeInterval::from_nanoseconds(-12)), ..ObservedClock::default() };
/// ```
#[derive(Clone, Copy, Debug, Default, PartialEq, Eq)]
#[allow(missing_docs)] // the members of the data sets (8.2), by the header's names
pub struct ObservedClock {
    pub clock_class: Option<u8>,
    /// 0x17 to 0x31, or 0xFE.
    pub clock_accuracy: Option<u8>,
    pub variance: Option<u16>,
    pub steps_removed: Option<u16>,
    pub offset_from_master: Option<TimeInterval>,
    pub mean_path_delay: Option<TimeInterval>,
    pub parent_stats: Option<bool>,
    pub observed_variance: Option<u16>,
    pub observed_rate: Option<i32>,
    pub grandmaster: Option<ObservedGrandmaster>,
    pub utc_offset: Option<i16>,
    pub leap61: Option<bool>,
    pub leap59: Option<bool>,
    pub utc_valid: Option<bool>,
    pub ptp_timescale: Option<bool>,
    pub time_traceable: Option<bool>,
    pub frequency_traceable: Option<bool>,
    pub time_source: Option<u8>,
}

/// What a host observes about a port. [`PortState::Disabled`] is entered and left only by commands of managers.
#[derive(Clone, Copy, Debug, Default, PartialEq, Eq)]
#[allow(missing_docs)] // the members of portDS (8.2.15), by the header's names
pub struct ObservedPort {
    pub state: Option<PortState>,
    pub peer_delay: Option<TimeInterval>,
}

/// A flag as the library has it: whether there is a value, and the value.
fn flag(value: Option<bool>) -> (u8, u8) {
    (value.is_some().into(), value.unwrap_or_default().into())
}

impl ObservedClock {
    /// As the library takes it.
    pub(crate) fn as_in_c(&self) -> sys::ptpm_observed_clock {
        let (has_parent_stats, parent_stats) = flag(self.parent_stats);
        let (has_leap61, leap61) = flag(self.leap61);
        let (has_leap59, leap59) = flag(self.leap59);
        let (has_utc_valid, utc_valid) = flag(self.utc_valid);
        let (has_ptp_timescale, ptp_timescale) = flag(self.ptp_timescale);
        let (has_time_traceable, time_traceable) = flag(self.time_traceable);
        let (has_frequency_traceable, frequency_traceable) = flag(self.frequency_traceable);
        let mut observed = sys::ptpm_observed_clock {
            has_parent_stats,
            parent_stats,
            has_leap61,
            leap61,
            has_leap59,
            leap59,
            has_utc_valid,
            utc_valid,
            has_ptp_timescale,
            ptp_timescale,
            has_time_traceable,
            time_traceable,
            has_frequency_traceable,
            frequency_traceable,
            ..NOTHING
        };
        self.write_numbers(&mut observed);
        self.write_grandmaster(&mut observed);
        observed
    }

    fn write_numbers(&self, observed: &mut sys::ptpm_observed_clock) {
        observed.has_clock_class = self.clock_class.is_some().into();
        observed.clock_class = self.clock_class.unwrap_or_default();
        observed.has_clock_accuracy = self.clock_accuracy.is_some().into();
        observed.clock_accuracy = self.clock_accuracy.unwrap_or_default();
        observed.has_variance = self.variance.is_some().into();
        observed.variance = self.variance.unwrap_or_default();
        observed.has_steps_removed = self.steps_removed.is_some().into();
        observed.steps_removed = self.steps_removed.unwrap_or_default();
        observed.has_offset_from_master = self.offset_from_master.is_some().into();
        observed.offset_from_master = self.offset_from_master.unwrap_or_default().0;
        observed.has_mean_path_delay = self.mean_path_delay.is_some().into();
        observed.mean_path_delay = self.mean_path_delay.unwrap_or_default().0;
        observed.has_observed_variance = self.observed_variance.is_some().into();
        observed.observed_variance = self.observed_variance.unwrap_or_default();
        observed.has_observed_rate = self.observed_rate.is_some().into();
        observed.observed_rate = self.observed_rate.unwrap_or_default();
        observed.has_utc_offset = self.utc_offset.is_some().into();
        observed.utc_offset = self.utc_offset.unwrap_or_default();
        observed.has_time_source = self.time_source.is_some().into();
        observed.time_source = self.time_source.unwrap_or_default();
    }

    fn write_grandmaster(&self, observed: &mut sys::ptpm_observed_clock) {
        match self.grandmaster {
            None => {}
            Some(ObservedGrandmaster::Itself) => observed.is_grandmaster = 1,
            Some(ObservedGrandmaster::Other { identity, priority1, class, accuracy, variance, priority2, parent_port }) => {
                observed.has_grandmaster = 1;
                observed.grandmaster = identity.0;
                observed.grandmaster_priority1 = priority1;
                observed.grandmaster_class = class;
                observed.grandmaster_accuracy = accuracy;
                observed.grandmaster_variance = variance;
                observed.grandmaster_priority2 = priority2;
                observed.parent_port_clock = parent_port.clock.0;
                observed.parent_port_number = parent_port.port;
            }
        }
    }
}

impl ObservedPort {
    /// As the library takes it.
    pub(crate) fn as_in_c(&self) -> sys::ptpm_observed_port {
        sys::ptpm_observed_port {
            peer_delay: self.peer_delay.unwrap_or_default().0,
            state: self.state.map_or(0, |state| state as u8),
            has_state: self.state.is_some().into(),
            has_peer_delay: self.peer_delay.is_some().into(),
        }
    }
}

/// All zeros: nothing is observed.
const NOTHING: sys::ptpm_observed_clock = sys::ptpm_observed_clock {
    offset_from_master: 0,
    mean_path_delay: 0,
    observed_rate: 0,
    variance: 0,
    steps_removed: 0,
    observed_variance: 0,
    grandmaster_variance: 0,
    parent_port_number: 0,
    utc_offset: 0,
    parent_port_clock: [0; 8],
    grandmaster: [0; 8],
    clock_class: 0,
    clock_accuracy: 0,
    parent_stats: 0,
    grandmaster_priority1: 0,
    grandmaster_class: 0,
    grandmaster_accuracy: 0,
    grandmaster_priority2: 0,
    leap61: 0,
    leap59: 0,
    utc_valid: 0,
    ptp_timescale: 0,
    time_traceable: 0,
    frequency_traceable: 0,
    time_source: 0,
    has_clock_class: 0,
    has_clock_accuracy: 0,
    has_variance: 0,
    has_steps_removed: 0,
    has_offset_from_master: 0,
    has_mean_path_delay: 0,
    has_parent_stats: 0,
    has_observed_variance: 0,
    has_observed_rate: 0,
    is_grandmaster: 0,
    has_grandmaster: 0,
    has_utc_offset: 0,
    has_leap61: 0,
    has_leap59: 0,
    has_utc_valid: 0,
    has_ptp_timescale: 0,
    has_time_traceable: 0,
    has_frequency_traceable: 0,
    has_time_source: 0,
};
