//! Data sets out of dataFields, and why calls are refused, each by its own type. Octets are laid out by IEEE 1588-2019, 15.5.3.

use ptpm::{
    Clock, ClockSettings, CurrentDataSet, DataSet, DefaultDataSet, DelayMechanism, Error, HandleError, Identity, Outbox,
    ParentDataSet, PortDataSet, PortIdentity, PortSettings, PortState, SavingClock, StartError, TimeInterval,
    TimePropertiesDataSet,
};

const CLOCK: Identity = Identity([0xaa, 0xbb, 0xcc, 0xff, 0xfe, 0xdd, 0xee, 0x01]);

fn octets(text: &str) -> Vec<u8> {
    (0..text.len() / 2).map(|at| u8::from_str_radix(&text[2 * at..2 * at + 2], 16).expect("it is hexadecimal")).collect()
}

/// The data set of these octets, which has no octet less or more.
fn only<D: DataSet>(text: &str) -> D {
    let field = octets(text);
    assert!(D::of(&field[1..]).is_none() && D::of(&[&*field, &[0]].concat()).is_none());
    D::of(&field).expect("it is a data set")
}

#[test]
fn a_saving_clock_has_data_sets() {
    let clock = Clock::start(&ClockSettings::new(CLOCK), &[PortSettings::new()], &[]).expect("it starts");
    let clock = SavingClock::new(clock, 1).expect("it saves");
    assert_eq!(clock.data_set(0).map(|default: DefaultDataSet| default.clock_identity), Ok(CLOCK));
}

#[test]
fn data_sets_have_their_members() {
    let default: DefaultDataSet = only("0300000541f821feff43aabbccfffeddee010700");
    assert!(default.two_step_flag && default.slave_only);
    assert_eq!((default.number_ports, default.priority1, default.priority2, default.domain_number), (5, 0x41, 0x43, 7));
    let quality = default.clock_quality;
    assert_eq!((quality.clock_class, quality.clock_accuracy, quality.offset_scaled_log_variance), (0xf8, 0x21, 0xfeff));
    assert_eq!(default.clock_identity, CLOCK);
    let current: CurrentDataSet = only("0003fffffffffffe80000000000001000000");
    assert_eq!((current.steps_removed, current.offset_from_master), (3, TimeInterval(-98_304)));
    assert_eq!(current.mean_delay, TimeInterval::from_nanoseconds(256));
    let parent: ParentDataSet = only("aabbccfffeddee0100050100fffe8000000144f822abcd450011223344556677");
    assert_eq!(parent.parent_port_identity, PortIdentity { clock: CLOCK, port: 5 });
    assert_eq!((parent.parent_stats, parent.observed_parent_offset_scaled_log_variance), (true, 0xfffe));
    assert_eq!(parent.observed_parent_clock_phase_change_rate, i32::from_be_bytes([0x80, 0, 0, 1]));
    assert_eq!((parent.grandmaster_priority1, parent.grandmaster_priority2), (0x44, 0x45));
    assert_eq!(parent.grandmaster_clock_quality.offset_scaled_log_variance, 0xabcd);
    assert_eq!(parent.grandmaster_identity, Identity([0, 0x11, 0x22, 0x33, 0x44, 0x55, 0x66, 0x77]));
}

#[test]
fn flags_have_their_bits() {
    let of = |flags| TimePropertiesDataSet::of(&[0xff, 0xdb, flags, 0xa0]).expect("it is a data set");
    let bits = |flags| {
        let found = of(flags);
        let last = [found.ptp_timescale, found.time_traceable, found.frequency_traceable];
        [[found.leap61, found.leap59, found.current_utc_offset_valid], last].concat()
    };
    for bit in 0..6 {
        assert_eq!(bits(1 << bit), (0..6).map(|place| place == bit).collect::<Vec<_>>());
    }
    assert_eq!((of(0).current_utc_offset, of(0).time_source), (-37, 0xa0));
}

#[test]
fn a_port_has_its_members() {
    let port: PortDataSet = only("aabbccfffeddee01000209fd00000000000300000205fb02fe02");
    assert_eq!((port.port_identity.port, port.port_state), (2, Some(PortState::Slave)));
    assert_eq!((port.log_min_delay_req_interval, port.log_announce_interval, port.log_sync_interval), (-3, 2, -5));
    assert_eq!((port.mean_link_delay.nanoseconds(), port.announce_receipt_timeout), (3, 5));
    assert_eq!(
        (port.delay_mechanism, port.log_min_pdelay_req_interval, port.version_number),
        (Some(DelayMechanism::PeerToPeer), -2, 2)
    );
}

#[test]
fn a_port_keeps_each_number() {
    for number in 0..=u8::MAX {
        let mut field = octets("aabbccfffeddee01000209fd00000000000300000205fb02fe02");
        (field[10], field[23]) = (number, number);
        let port = PortDataSet::of(&field).expect("it is a data set");
        assert_eq!((port.port_state_number, port.delay_mechanism_number), (number, number));
        assert_eq!(port.port_state.map(|state| state as u8), (1..=9).contains(&number).then_some(number));
        let mechanism = match number {
            1 => Some(DelayMechanism::EndToEnd),
            2 => Some(DelayMechanism::PeerToPeer),
            3 => Some(DelayMechanism::CommonP2p),
            4 => Some(DelayMechanism::Special),
            0xfe => Some(DelayMechanism::None),
            _ => None,
        };
        assert_eq!(port.delay_mechanism, mechanism);
        assert!(mechanism.is_none_or(|mechanism| mechanism as u8 == number));
    }
}

#[test]
fn a_clock_has_its_delay_mechanisms() {
    let starts = |delay_mechanism| {
        let port = PortSettings { delay_mechanism, ..PortSettings::new() };
        Clock::start(&ClockSettings::new(CLOCK), &[port], &[])?.data_set(1).map(|found: PortDataSet| found.delay_mechanism)
    };
    for mechanism in [DelayMechanism::EndToEnd, DelayMechanism::PeerToPeer, DelayMechanism::None] {
        assert_eq!(starts(mechanism), Ok(Some(mechanism)));
    }
    for mechanism in [DelayMechanism::CommonP2p, DelayMechanism::Special] {
        assert_eq!(starts(mechanism), Err(Error::BadDelayMechanism));
    }
}

#[test]
fn a_clock_reads_its_own() {
    let clock = Clock::start(&ClockSettings::new(CLOCK), &[PortSettings::new(); 2], &[]).expect("it starts");
    assert_eq!(clock.data_set::<DefaultDataSet>(0).map(|found| found.number_ports), Ok(2));
    assert_eq!(clock.data_set::<ParentDataSet>(0).map(|found| found.grandmaster_identity), Ok(CLOCK));
    assert_eq!(clock.data_set::<PortDataSet>(2).map(|found| found.port_state), Ok(Some(PortState::Master)));
    assert_eq!(clock.data_set::<PortDataSet>(3), Err(Error::NoPort));
}

#[test]
fn a_refusal_has_the_type_of_its_call() {
    fn come_in(clock: &mut Clock, port: u16) -> Result<(), HandleError> {
        let _ = clock.handle(port, &[], &mut Outbox::new())?;
        Ok(())
    }
    let mut clock = Clock::start(&ClockSettings::new(CLOCK), &[PortSettings::new()], &[]).expect("it starts");
    assert_eq!((come_in(&mut clock, 1), come_in(&mut clock, 2)), (Ok(()), Err(HandleError::NoPort)));
    let refused = Clock::start(&ClockSettings::new(CLOCK), &[], &[]).map(drop).map_err(StartError::from);
    assert_eq!(refused, Err(StartError::NoPorts));
    assert_eq!(
        (Error::from(StartError::NoPorts), StartError::from(Error::Idle)),
        (Error::NoPorts, StartError::Other(Error::Idle))
    );
    assert_eq!(HandleError::NoPort.to_string(), Error::NoPort.to_string());
}
