//! The data sets of a clock (IEEE 1588-2019, 8.2 and 15.5.3), out of the dataFields that have them.
//!
//! ```
//! use ptpm::{Clock, ClockSettings, CurrentDataSet, DefaultDataSet, PortSettings};
//!
//! let clock = Clock::start(&ClockSettings::new("aabbccfffeddee01".parse()?), &[PortSettings::new(); 2], &[])?;
//! let default: DefaultDataSet = clock.data_set(0)?;
//! assert_eq!((default.number_ports, default.priority1), (2, 128));
//! let current: CurrentDataSet = clock.data_set(0)?;
//! assert_eq!(current.offset_from_master.nanoseconds(), 0);
//! # Ok::<(), Box<dyn std::error::Error>>(())
//! ```

use crate::clock::{Clock, MOST_READ};
use crate::error::Error;
use crate::id::ManagementId;
use crate::identity::{Identity, PortIdentity};
#[cfg(feature = "alloc")]
use crate::report::Answer;
use crate::report::Report;
use crate::saving_clock::SavingClock;
use crate::settings::{DelayMechanism, PortState};
use crate::time_interval::TimeInterval;

/// A data set that is one whole dataField.
pub trait DataSet: Sized {
    /// The id that is asked for it.
    const ID: ManagementId;

    /// The data set in a dataField, if that has the right number of octets.
    fn of(field: &[u8]) -> Option<Self>;
}

impl Clock {
    /// Reads a data set of the clock itself. The port matters only for a data set of a port.
    ///
    /// # Errors
    ///
    /// [`Error::NoPort`]
    pub fn data_set<D: DataSet>(&self, port: u16) -> Result<D, Error> {
        let mut room = [0; MOST_READ];
        D::of(self.read(D::ID, port, &mut room)?).ok_or(Error::NotReadable)
    }
}

impl SavingClock {
    /// Does what [`Clock::data_set`] does.
    ///
    /// # Errors
    ///
    /// Those of [`Clock::data_set`].
    pub fn data_set<D: DataSet>(&self, port: u16) -> Result<D, Error> {
        self.clock().data_set(port)
    }
}

impl Report<'_> {
    /// The data set that was answered, if it was one.
    pub fn data_set<D: DataSet>(&self) -> Option<D> {
        match self {
            Self::Value(field) => D::of(field),
            _ => None,
        }
    }
}

#[cfg(feature = "alloc")]
impl Answer {
    /// The data set that was answered, if it was one.
    pub fn data_set<D: DataSet>(&self) -> Option<D> {
        self.value.as_ref().ok().and_then(|field| D::of(field))
    }
}

/// The octets of a dataField, one member after the other.
struct Members<'a>(&'a [u8]);

impl Members<'_> {
    fn next<const SIZE: usize>(&mut self) -> Option<[u8; SIZE]> {
        let (octets, rest) = self.0.split_first_chunk()?;
        self.0 = rest;
        Some(*octets)
    }

    fn u8(&mut self) -> Option<u8> {
        self.next().map(u8::from_be_bytes)
    }

    fn i8(&mut self) -> Option<i8> {
        self.next().map(i8::from_be_bytes)
    }

    fn u16(&mut self) -> Option<u16> {
        self.next().map(u16::from_be_bytes)
    }

    fn interval(&mut self) -> Option<TimeInterval> {
        self.next().map(i64::from_be_bytes).map(TimeInterval)
    }

    fn identity(&mut self) -> Option<Identity> {
        self.next().map(Identity)
    }

    fn port_identity(&mut self) -> Option<PortIdentity> {
        Some(PortIdentity { clock: self.identity()?, port: self.u16()? })
    }

    fn quality(&mut self) -> Option<ClockQuality> {
        Some(ClockQuality { clock_class: self.u8()?, clock_accuracy: self.u8()?, offset_scaled_log_variance: self.u16()? })
    }

    /// A data set, if no octet is left.
    fn whole<D>(&self, data_set: D) -> Option<D> {
        self.0.is_empty().then_some(data_set)
    }
}

/// Whether a bit of an octet is set.
const fn has(octet: u8, bit: u8) -> bool {
    octet >> bit & 1 == 1
}

macro_rules! data_sets {
    ($($(#[$what:meta])* $name:ident { $($(#[$of:meta])* $member:ident: $kind:ty,)* })*) => {$(
        $(#[$what])*
        #[derive(Clone, Copy, Debug, PartialEq, Eq, Hash)]
        #[non_exhaustive]
        #[allow(missing_docs)] // the standard's members
        pub struct $name { $($(#[$of])* pub $member: $kind,)* }
    )*};
}

data_sets! {
    /// A clockQuality (5.3.7).
    ClockQuality { clock_class: u8, clock_accuracy: u8, offset_scaled_log_variance: u16, }

    /// DEFAULT_DATA_SET (15.5.3.3.1).
    DefaultDataSet {
        two_step_flag: bool,
        slave_only: bool,
        number_ports: u16,
        priority1: u8,
        clock_quality: ClockQuality,
        priority2: u8,
        clock_identity: Identity,
        domain_number: u8,
    }

    /// CURRENT_DATA_SET (15.5.3.4.1).
    CurrentDataSet { steps_removed: u16, offset_from_master: TimeInterval, mean_delay: TimeInterval, }

    /// PARENT_DATA_SET (15.5.3.5.1).
    ParentDataSet {
        parent_port_identity: PortIdentity,
        parent_stats: bool,
        observed_parent_offset_scaled_log_variance: u16,
        observed_parent_clock_phase_change_rate: i32,
        grandmaster_priority1: u8,
        grandmaster_clock_quality: ClockQuality,
        grandmaster_priority2: u8,
        grandmaster_identity: Identity,
    }

    /// TIME_PROPERTIES_DATA_SET (15.5.3.6.1).
    TimePropertiesDataSet {
        current_utc_offset: i16,
        leap61: bool,
        leap59: bool,
        current_utc_offset_valid: bool,
        ptp_timescale: bool,
        time_traceable: bool,
        frequency_traceable: bool,
        time_source: u8,
    }

    /// PORT_DATA_SET (15.5.3.7.1).
    PortDataSet {
        port_identity: PortIdentity,
        /// `None` for a number that the standard reserves.
        port_state: Option<PortState>,
        /// The number of portState, even if it has no name.
        port_state_number: u8,
        log_min_delay_req_interval: i8,
        mean_link_delay: TimeInterval,
        log_announce_interval: i8,
        announce_receipt_timeout: u8,
        log_sync_interval: i8,
        /// `None` for a number that the standard does not name.
        delay_mechanism: Option<DelayMechanism>,
        /// The number of delayMechanism, even if it has no name.
        delay_mechanism_number: u8,
        log_min_pdelay_req_interval: i8,
        version_number: u8,
    }
}

impl DataSet for DefaultDataSet {
    const ID: ManagementId = ManagementId::DEFAULT_DATA_SET;

    fn of(field: &[u8]) -> Option<Self> {
        let mut members = Members(field);
        let [flags, _] = members.next()?;
        let number_ports = members.u16()?;
        let (priority1, clock_quality, priority2) = (members.u8()?, members.quality()?, members.u8()?);
        let clock_identity = members.identity()?;
        let [domain_number, _] = members.next()?;
        let (two_step_flag, slave_only) = (has(flags, 0), has(flags, 1));
        members.whole(Self {
            two_step_flag,
            slave_only,
            number_ports,
            priority1,
            clock_quality,
            priority2,
            clock_identity,
            domain_number,
        })
    }
}

impl DataSet for CurrentDataSet {
    const ID: ManagementId = ManagementId::CURRENT_DATA_SET;

    fn of(field: &[u8]) -> Option<Self> {
        let mut members = Members(field);
        let (steps_removed, offset_from_master, mean_delay) = (members.u16()?, members.interval()?, members.interval()?);
        members.whole(Self { steps_removed, offset_from_master, mean_delay })
    }
}

impl DataSet for ParentDataSet {
    const ID: ManagementId = ManagementId::PARENT_DATA_SET;

    fn of(field: &[u8]) -> Option<Self> {
        let mut members = Members(field);
        let parent_port_identity = members.port_identity()?;
        let [flags, _] = members.next()?;
        let data_set = Self {
            parent_port_identity,
            parent_stats: has(flags, 0),
            observed_parent_offset_scaled_log_variance: members.u16()?,
            observed_parent_clock_phase_change_rate: members.next().map(i32::from_be_bytes)?,
            grandmaster_priority1: members.u8()?,
            grandmaster_clock_quality: members.quality()?,
            grandmaster_priority2: members.u8()?,
            grandmaster_identity: members.identity()?,
        };
        members.whole(data_set)
    }
}

impl DataSet for TimePropertiesDataSet {
    const ID: ManagementId = ManagementId::TIME_PROPERTIES_DATA_SET;

    fn of(field: &[u8]) -> Option<Self> {
        let mut members = Members(field);
        let current_utc_offset = members.next().map(i16::from_be_bytes)?;
        let (flags, time_source) = (members.u8()?, members.u8()?);
        members.whole(Self {
            current_utc_offset,
            leap61: has(flags, 0),
            leap59: has(flags, 1),
            current_utc_offset_valid: has(flags, 2),
            ptp_timescale: has(flags, 3),
            time_traceable: has(flags, 4),
            frequency_traceable: has(flags, 5),
            time_source,
        })
    }
}

impl DataSet for PortDataSet {
    const ID: ManagementId = ManagementId::PORT_DATA_SET;

    fn of(field: &[u8]) -> Option<Self> {
        let mut members = Members(field);
        let (port_identity, port_state_number) = (members.port_identity()?, members.u8()?);
        let (log_min_delay_req_interval, mean_link_delay) = (members.i8()?, members.interval()?);
        let (log_announce_interval, announce_receipt_timeout) = (members.i8()?, members.u8()?);
        let (log_sync_interval, delay_mechanism_number) = (members.i8()?, members.u8()?);
        let (log_min_pdelay_req_interval, version) = (members.i8()?, members.u8()?);
        members.whole(Self {
            port_identity,
            port_state: PortState::of_number(port_state_number),
            port_state_number,
            log_min_delay_req_interval,
            mean_link_delay,
            log_announce_interval,
            announce_receipt_timeout,
            log_sync_interval,
            delay_mechanism: DelayMechanism::of_number(delay_mechanism_number),
            delay_mechanism_number,
            log_min_pdelay_req_interval,
            version_number: version & 0x0f,
        })
    }
}
