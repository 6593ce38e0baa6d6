//! What the binding does beyond the library: it lays settings and observations out, lends messages, and names answers. Expected octets
//! are those of IEEE 1588-2019, clauses 13.3, 15.4 and 15.5.

use ptpm::{
    clock_image_octets, Action, Clock, ClockMembers, ClockSettings, DelayMechanism, Error, Handled, Identity, Limit,
    ManagementErrorId, ManagementId, Manager, Objection, ObservedClock, ObservedGrandmaster, ObservedPort, Outbox, PassedOn,
    PortDataSet, PortIdentity, PortMembers, PortSettings, PortState, Rate, Received, Report, Rights, Saved, SavingClock, Say,
    Session, SessionSettings, Survey, SurveySettings, Surveyed, Taken, TimeInterval, CLOCK_IMAGE_OCTETS, MOST_DATA, MOST_OCTETS,
    MOST_READ,
};

const CLOCK: &str = "aabbccfffeddee01";
const MANAGER: &str = "00112233445566770001";

fn octets(text: &str) -> Vec<u8> {
    (0..text.len() / 2).map(|at| u8::from_str_radix(&text[2 * at..2 * at + 2], 16).expect("it is hexadecimal")).collect()
}

/// A request by `MANAGER`: its target, hops, actionField, and id with dataField.
fn request(number: u16, target: &str, hops: u8, action: u8, id: &str) -> Vec<u8> {
    let size = 52 + id.len() / 2;
    let length = id.len() / 2;
    octets(&format!(
        "0d12{size:04x}{:032}{MANAGER}{number:04x}047f{target}{hops:02x}{hops:02x}{action:02x}000001{length:04x}{id}",
        0
    ))
}

fn identity(text: &str) -> Identity {
    text.parse().expect("it is an identity")
}

fn port_identity(text: &str) -> PortIdentity {
    text.parse().expect("it is a port's identity")
}

fn manager() -> Manager {
    Manager::new(port_identity("0011223344556677/1"), Rights::ALL)
}

fn clock() -> Clock {
    Clock::start(&ClockSettings::new(identity(CLOCK)), &[PortSettings::new(); 2], &[manager()]).expect("it starts")
}

fn reads(clock: &mut Clock, id: ManagementId, port: u16, wanted: &str) {
    let mut room = [0; MOST_READ];
    assert_eq!(clock.read(id, port, &mut room), Ok(&*octets(wanted)), "{id}");
}

#[test]
fn a_set_is_carried_out_once() {
    let (mut clock, mut outbox) = (clock(), Outbox::boxed());
    let set = request(7, "aabbccfffeddee01ffff", 1, 1, "20056400");
    let Taken { turn, waiting, changed } = clock.take(1, &set, Say::Agrees, &mut outbox).expect("it is judged");
    assert_eq!((turn.handled(), turn.messages.len(), waiting), (Handled::AnsweredNew, 1, 0));
    assert_eq!(changed.clock, ClockMembers::PRIORITY1 | ClockMembers::GRANDMASTER_PRIORITY1);
    let Taken { turn, changed, .. } = clock.take(1, &set, Say::Agrees, &mut outbox).expect("it is judged");
    assert_eq!((turn.handled(), changed.is_empty()), (Handled::AnsweredRepeat, true));
    let (port, answer) = turn.messages.last().expect("it is answered");
    let (number, hops_and_tlv) = ("0007047f", "0000020000010004" /* RESPONSE, MANAGEMENT */);
    assert_eq!((port, &answer[30..]), (1, &*octets(&[number, MANAGER, hops_and_tlv, "20056400"].concat())));
    reads(&mut clock, ManagementId::PRIORITY1, 0, "6400");
}

#[test]
fn a_command_changes_the_ports_that_it_names() {
    let (mut clock, mut outbox) = (clock(), Outbox::boxed());
    let disable = request(1, "aabbccfffeddee010002", 0, 3, "200e");
    let Taken { changed, .. } = clock.take(1, &disable, Say::Agrees, &mut outbox).expect("it is judged");
    assert_eq!(changed.ports_with(PortMembers::STATE).collect::<Vec<_>>(), [2]);
    let observed = [ObservedPort { state: Some(PortState::Slave), peer_delay: Some(TimeInterval::from_nanoseconds(3)) }; 2];
    let left = clock.observe(&ObservedClock::default(), &observed).expect("it is observed");
    assert_eq!(left.iter().collect::<Vec<_>>(), [2]);
    reads(&mut clock, ManagementId::PORT_DATA_SET, 1, "aabbccfffeddee01000109000000000000030000010300010002");
}

#[test]
fn a_saving_clock_shows_what_is_saved() {
    assert_eq!(SavingClock::new(clock(), 2).map(|_| ()), Err(Error::NoRoom));
    let mut clock = SavingClock::new(clock(), 6).expect("it saves");
    let (mut outbox, mut room, mut value) = (Outbox::boxed(), Box::new([0; CLOCK_IMAGE_OCTETS]), [0; MOST_READ]);
    let set = request(7, "aabbccfffeddee010001", 0, 1, "20056400");
    let mut get = request(7, "aabbccfffeddee010001", 0, 0, "2005");
    get[20..28].fill(9); // of a stranger
    assert_eq!(clock.take(1, &get, Say::Agrees, &mut outbox).map(|_| ()), Err(Error::Unsaved));
    let (_, first) = clock.image(&mut room[..]).expect("it has an image");
    assert_eq!((clock.saved(first), clock.is_unsaved(), clock.free()), (Ok(Saved::Saved), false, 6));
    let asked = clock.ask(1, &set).expect("the clock has the port").expect("the device is asked");
    assert_eq!(asked.octets(), [100, 0]);
    let Taken { turn, waiting, changed } = clock.take(1, &set, Say::Agrees, &mut outbox).expect("it is judged");
    assert_eq!((turn.handled(), turn.messages.len(), waiting), (Handled::AnsweredNew, 0, 1));
    assert!(changed.clock.intersects(ClockMembers::PRIORITY1));
    let mut strangers = clock.take(1, &get, Say::Agrees, &mut outbox).expect("it is judged").turn.messages;
    assert_eq!(strangers.next().map(|(port, octets)| (port, &octets[52..])), Some((1, &[0x20, 5, 128, 0][..])));
    let owners = clock.take_of_owner(1, &get, Say::Agrees, &mut outbox).expect("it is judged");
    assert_eq!((owners.turn.messages.len(), owners.waiting), (0, 1));
    let (image, token) = clock.image(&mut room[..]).expect("it has an image");
    assert_eq!((clock.saved(first), clock.free(), clock.is_unsaved()), (Err(Error::OtherImage), 4, true));
    assert_eq!(clock.read(ManagementId::PRIORITY1, 0, &mut value), Ok(&[128, 0][..]));
    let changed = clock.set(Action::Set, ManagementId::PRIORITY2, 0xffff, &[101, 0]).expect("it is judged").expect("it is set");
    assert!(changed.clock.intersects(ClockMembers::PRIORITY2));
    assert_eq!(clock.saved(token), Ok(Saved::Saved));
    for _ in 0..2 {
        let message = clock.next_message(&mut outbox).map(|(port, octets)| (port, &octets[52..]));
        assert_eq!(message, Some((1, &[0x20, 5, 100, 0][..])));
    }
    assert!(clock.next_message(&mut outbox).is_none() && clock.is_unsaved());
    assert_eq!(clock.read(ManagementId::PRIORITY1, 0, &mut value), Ok(&[100, 0][..]));
    assert_eq!(clock.read(ManagementId::PRIORITY2, 0, &mut value), Ok(&[128, 0][..]));
    let (back, _) = Clock::restore(identity(CLOCK), 2, &[manager()], image).expect("it goes on");
    let mut back = SavingClock::new(back, 3).expect("it saves");
    let repeat = back.take(1, &set, Say::Agrees, &mut outbox).expect("a clock that was restored is saved");
    assert_eq!((repeat.turn.handled(), repeat.turn.messages.len()), (Handled::AnsweredRepeat, 1));
}

#[test]
fn an_outbox_has_the_places_that_a_clock_can_use() {
    let (mut clock, get) = (clock(), request(8, "aabbccfffeddee010001", 0, 0, "2005"));
    assert_eq!(clock.most_sent(), 3);
    assert_eq!(clock.handle(1, &get, &mut Outbox::<2>::with_places()).map(|_| ()), Err(Error::NoRoom));
    assert_eq!(clock.handle(1, &get, &mut Outbox::<3>::with_places()).map(|turn| turn.messages.len()), Ok(1));
}

#[test]
fn a_switch_has_64_ports() {
    let settings = ClockSettings::new(identity(CLOCK));
    let mut switch = Clock::start(&settings, &[PortSettings::new(); 64], &[manager()]).expect("it starts");
    let mut outbox = Box::new(Outbox::<127>::with_places());
    let set = request(7, "aabbccfffeddee01ffff", 1, 1, "200bff00");
    let Taken { turn, changed, .. } = switch.take(1, &set, Say::Agrees, &mut outbox).expect("it is judged");
    assert_eq!(turn.messages.map(|(_, octets)| octets[29]).collect::<Vec<_>>(), (1..=64).collect::<Vec<_>>());
    assert_eq!(changed.ports_with(PortMembers::LOG_SYNC).collect::<Vec<_>>(), (1..=64).collect::<Vec<_>>());
    let disable = request(8, "aabbccfffeddee010040", 0, 3, "200e");
    let _ = switch.take(1, &disable, Say::Agrees, &mut outbox).expect("it is judged");
    let observed = [ObservedPort { state: Some(PortState::Slave), peer_delay: None }; 64];
    let left = switch.observe(&ObservedClock::default(), &observed).expect("it is observed");
    assert_eq!(left.iter().collect::<Vec<_>>(), [64]);
    let mut room = vec![0; clock_image_octets(64, 1)];
    let image = switch.image(&mut room).expect("there is room");
    assert_eq!(
        Clock::restore(identity(CLOCK), 64, &[manager()], image).map(|(back, gone)| (back.most_sent(), gone)),
        Ok((127, 0))
    );
}

#[test]
fn a_change_is_under_way_until_the_device_says() {
    let mut clock = SavingClock::new(clock(), 6).expect("it saves");
    let (mut outbox, mut room) = (Outbox::boxed(), Box::new([0; CLOCK_IMAGE_OCTETS]));
    let set = request(7, "aabbccfffeddee010001", 0, 1, "20056400");
    assert_eq!(clock.undertake(1, &set).map(|_| ()), Err(Error::Unsaved));
    let (_, token) = clock.image(&mut room[..]).expect("it has an image");
    assert_eq!(clock.saved(token), Ok(Saved::Saved));
    assert!(clock.undertake(1, &request(7, "aabbccfffeddee010001", 0, 0, "2005")).expect("it is judged").is_none());
    assert!(clock.under_way().is_none() && !clock.is_unsaved());
    let asked = clock.undertake(1, &set).expect("it is judged").expect("the device is to be asked");
    assert_eq!((asked.number(), asked.action(), asked.octets()), (7, Action::Set, &[100, 0][..]));
    assert_eq!(clock.undertake(1, &set).map(|_| ()), Err(Error::UnderWay));
    assert_eq!(clock.take(1, &set, Say::Agrees, &mut outbox).map(|_| ()), Err(Error::UnderWay));
    let (image, token) = clock.image(&mut room[..]).expect("it has an image");
    let (back, _) = Clock::restore(identity(CLOCK), 2, &[manager()], image).expect("it goes on");
    assert_eq!(clock.saved(token), Ok(Saved::ActNow));
    for (mut clock, say, answer) in [
        (clock, Say::Agrees, &[0x20, 5, 100, 0][..]),
        (SavingClock::new(back, 3).expect("it saves"), Say::Objects(Objection::GeneralError), &[0xff, 0xfe, 0x20, 5, 0, 0, 0, 0]),
    ] {
        assert_eq!(clock.under_way().expect("it is under way").octets(), [100, 0]);
        let (_, token) = clock.image(&mut room[..]).expect("it has an image");
        assert_eq!(clock.saved(token), Ok(Saved::Saved));
        assert_eq!(clock.decide(Say::Gives(&[1]), &mut outbox).map(|_| ()), Err(Error::BadSay));
        let Taken { turn, waiting, .. } = clock.decide(say, &mut outbox).expect("it is decided");
        assert_eq!((turn.handled(), turn.messages.len(), waiting), (Handled::AnsweredNew, 0, 1));
        assert_eq!(clock.decide(say, &mut outbox).map(|_| ()), Err(Error::NothingUnderWay));
        let (_, token) = clock.image(&mut room[..]).expect("it has an image");
        assert_eq!(clock.saved(token), Ok(Saved::Saved));
        assert_eq!(clock.next_message(&mut outbox).map(|(port, octets)| (port, &octets[52..])), Some((1, answer)));
    }
}

#[test]
fn a_device_objects_to_a_value_that_it_lacks() {
    let (mut clock, mut outbox) = (clock(), Outbox::boxed());
    let limits = [Limit::of_range(ManagementId::LOG_SYNC_INTERVAL, 0xffff, -4..=1), Limit::none(ManagementId::DOMAIN, 1)];
    assert_eq!([0xfb, 0xfc, 0, 1, 2].map(|octet| limits[0].has(octet)), [false, true, true, true, false]);
    let set = request(7, "aabbccfffeddee010001", 1, 1, "200bf800");
    let asked = clock.ask(1, &set).expect("the clock has the port").expect("the device is asked");
    assert_eq!((asked.manager(), asked.number()), (port_identity("0011223344556677/1"), 7));
    assert_eq!((asked.action(), asked.id(), asked.port()), (Action::Set, ManagementId::LOG_SYNC_INTERVAL, 1));
    assert_eq!(asked.octets(), octets("f800"));
    let objection = Limit::objection(&limits, &asked);
    assert_eq!(objection, Some(Objection::WrongValue));
    let Taken { turn, changed, .. } = clock.take(1, &set, Say::from(objection), &mut outbox).expect("it is judged");
    assert_eq!((turn.handled(), changed.is_empty()), (Handled::AnsweredNew, true));
    let (_, answer) = turn.messages.last().expect("it is answered");
    assert_eq!(&answer[48..], octets("000200080004200b00000000" /* MANAGEMENT_ERROR_STATUS, WRONG_VALUE */));
    assert!(clock.ask(1, &set).expect("the clock has the port").is_none());
    assert_eq!(clock.ask(3, &set).map(|asked| asked.is_none()), Err(Error::NoPort));
}

#[test]
fn a_device_gives_a_value_that_the_clock_lacks() {
    let (mut clock, mut outbox) = (clock(), Outbox::boxed());
    let get = request(8, "aabbccfffeddee010001", 1, 0, "c000");
    let asked = clock.ask(1, &get).expect("the clock has the port").expect("the device is asked");
    assert_eq!((asked.action(), asked.id(), asked.octets().len()), (Action::Get, ManagementId(0xc000), 0));
    assert_eq!(clock.take(1, &get, Say::Gives(b"odd"), &mut outbox).map(|_| ()), Err(Error::BadSay));
    assert_eq!(clock.take(1, &get, Say::Gives(&[0; 1420]), &mut outbox).map(|_| ()), Err(Error::BadSay));
    let Taken { turn, .. } = clock.take(1, &get, Say::Gives(b"4711"), &mut outbox).expect("it is judged");
    assert_eq!(turn.handled(), Handled::AnsweredNew);
    let (_, answer) = turn.messages.last().expect("it is answered");
    assert_eq!(&answer[48..], octets("00010006c00034373131" /* MANAGEMENT, RESPONSE of c000 */));
    assert!(clock.ask(1, &get).expect("the clock has the port").is_none());
}

#[test]
fn messages_are_lent_from_the_outbox() {
    let (mut clock, mut outbox) = (clock(), Outbox::new());
    let other = request(7, "aabbccfffeddee02ffff", 1, 0, "2005");
    let turn = clock.handle(1, &other, &mut outbox).expect("it is judged");
    assert_eq!(turn.handled(), Handled::NotAddressed);
    let mut passed_on = other.clone();
    passed_on[45] = 0; // boundaryHops
    assert_eq!(turn.messages.collect::<Vec<_>>(), [(2, &*passed_on)]);
    assert_eq!(clock.handle(3, &other, &mut outbox).map(|turn| turn.handled()), Err(Error::NoPort));
    let nothing = clock.handle(1, &[], &mut outbox).expect("it is judged");
    assert_eq!((nothing.handled(), nothing.messages.len()), (Handled::TooShort, 0));
}

/// Settings of which each has a value of its own.
fn marked_settings() -> ClockSettings {
    ClockSettings {
        domain: 0x2a,
        user_description: "Rack 4".into(),
        two_step: true,
        priority1: 0x43,
        clock_class: 0x44,
        clock_accuracy: 0x22,
        variance: 0x3132,
        priority2: 0x46,
        steps_removed: 0x4142,
        offset_from_master: TimeInterval(0x0102_0304_0506_0708),
        mean_path_delay: TimeInterval(0x1112_1314_1516_1718),
        parent_port: Some(port_identity("b0b1b2b3b4b5b6b7/29042")),
        parent_stats: true,
        observed_variance: 0x5152,
        observed_rate: 0x2122_2324,
        grandmaster: Some(identity("c0c1c2c3c4c5c6c7")),
        grandmaster_priority1: Some(0x53),
        grandmaster_class: Some(0x54),
        grandmaster_accuracy: Some(0x23),
        grandmaster_variance: Some(0x6162),
        grandmaster_priority2: Some(0x56),
        utc_offset: 0x1920,
        leap61: true,
        utc_valid: true,
        frequency_traceable: true,
        time_source: 0x90,
        ..ClockSettings::new(identity(CLOCK))
    }
}

const MARKED_PORT: PortSettings = PortSettings {
    peer_delay: TimeInterval(0x0a0b_0c0d_0e0f_1a1b),
    state: PortState::PreMaster,
    log_min_delay_req: -11,
    log_announce: 3,
    receipt_timeout: 7,
    log_sync: -6,
    delay_mechanism: DelayMechanism::PeerToPeer,
    log_min_pdelay: 4,
};

#[test]
fn settings_have_their_places() {
    let mut clock = Clock::start(&marked_settings(), &[MARKED_PORT], &[]).expect("it starts");
    assert_eq!(clock.identity(), Ok(identity(CLOCK)));
    reads(&mut clock, ManagementId::USER_DESCRIPTION, 0, "065261636b203400");
    reads(&mut clock, ManagementId::DEFAULT_DATA_SET, 0, "01000001434422313246aabbccfffeddee012a00");
    reads(&mut clock, ManagementId::CURRENT_DATA_SET, 0, "414201020304050607081112131415161718");
    reads(&mut clock, ManagementId::PARENT_DATA_SET, 0, "b0b1b2b3b4b5b6b771720100515221222324535423616256c0c1c2c3c4c5c6c7");
    reads(&mut clock, ManagementId::TIME_PROPERTIES_DATA_SET, 0, "19202590");
    reads(&mut clock, ManagementId::PORT_DATA_SET, 1, "aabbccfffeddee01000105f50a0b0c0d0e0f1a1b0307fa020402");
}

#[test]
fn observations_have_their_places() {
    let mut clock = clock();
    let observed = ObservedClock {
        steps_removed: Some(2),
        offset_from_master: Some(TimeInterval(-2)),
        mean_path_delay: Some(TimeInterval::from_nanoseconds(1)),
        parent_stats: Some(true),
        observed_variance: Some(0x5152),
        observed_rate: Some(0x2122_2324),
        grandmaster: Some(ObservedGrandmaster::Other {
            identity: identity("c0c1c2c3c4c5c6c7"),
            priority1: 0x53,
            class: 6,
            accuracy: 0x21,
            variance: 0x6162,
            priority2: 0x56,
            parent_port: port_identity("b0b1b2b3b4b5b6b7/29042"),
        }),
        utc_offset: Some(37),
        leap59: Some(true),
        ptp_timescale: Some(true),
        time_traceable: Some(true),
        time_source: Some(0x20),
        ..ObservedClock::default()
    };
    assert_eq!(clock.observe(&observed, &[]).map(|left| left.is_empty()), Ok(true));
    reads(&mut clock, ManagementId::CURRENT_DATA_SET, 0, "0002fffffffffffffffe0000000000010000");
    reads(&mut clock, ManagementId::PARENT_DATA_SET, 0, "b0b1b2b3b4b5b6b771720100515221222324530621616256c0c1c2c3c4c5c6c7");
    reads(&mut clock, ManagementId::TIME_PROPERTIES_DATA_SET, 0, "00251a20");
    let more = [ObservedPort::default(); 3];
    assert_eq!(clock.observe(&observed, &more), Err(Error::NoPort));
    assert_eq!(clock.observe(&observed, &[ObservedPort::default(); 300]), Err(Error::NoPort));
    let both = ObservedClock { leap61: Some(true), leap59: Some(true), ..ObservedClock::default() };
    assert_eq!(clock.observe(&both, &[]), Err(Error::BadLeap59));
    let itself = ObservedClock { grandmaster: Some(ObservedGrandmaster::Itself), ..ObservedClock::default() };
    assert!(clock.observe(&itself, &more[..2]).is_ok());
}

#[test]
fn starts_are_refused_by_name() {
    let start = |settings: &ClockSettings, ports: usize, managers: &[Manager]| {
        Clock::start(settings, &vec![PortSettings::new(); ports], managers).map(|_| ())
    };
    let settings = ClockSettings::new(identity(CLOCK));
    assert_eq!(start(&settings, 0, &[]), Err(Error::NoPorts));
    assert_eq!(start(&settings, 65, &[]), Err(Error::TooManyPorts));
    assert_eq!(start(&settings, 1, &[manager(); 65]), Err(Error::TooManyManagers));
    assert_eq!(start(&settings, 1, &[manager(); 2]), Err(Error::ManagerTwice));
    for size in [129, 130, 255, 256, 300] {
        let long = ClockSettings { user_description: "a".repeat(size), ..settings.clone() };
        assert_eq!(start(&long, 1, &[]), Err(Error::BadUserDescription), "{size}");
    }
    assert_eq!(start(&ClockSettings::new(Identity([0xff; 8])), 1, &[]), Err(Error::BadIdentity));
    assert_eq!(Error::NoPorts.to_string(), "NO_PORTS: a clock has a port or more");
}

/// What goes from a session to a clock and back; what the session makes of the last datagram.
fn exchanged(session: &mut Session, clock: &mut Clock) -> Result<Received, Error> {
    let (mut room, mut outbox) = ([0; MOST_OCTETS], Outbox::boxed());
    let message = session.send(&mut room)?;
    let turn = clock.handle(2, message, &mut outbox)?;
    let mut became = Err(Error::NoReport);
    for (port, octets) in turn.messages {
        assert_eq!(port, 2);
        became = session.receive(octets);
    }
    became
}

#[test]
fn a_session_is_answered() {
    let mut clock = clock();
    let settings = SessionSettings::new(port_identity("0011223344556677/1"), identity(CLOCK), 0xffff);
    let mut session = Session::start(&SessionSettings { attempts: 1, ..settings }).expect("it starts");
    let mut room = [0; MOST_DATA];
    assert_eq!(session.report(&mut room), Err(Error::NoReport));
    assert_eq!(session.begin(Action::Get, ManagementId::PORT_DATA_SET, 0, &[]), Err(Error::NeedsPort));
    assert_eq!(session.begin(Action::Set, ManagementId::PRIORITY1, 0, &[1]), Err(Error::BadValue));
    assert_eq!(session.begin(Action::Set, ManagementId::PRIORITY1, 0, &[100, 0]), Ok(()));
    assert_eq!(session.begin(Action::Get, ManagementId::PRIORITY1, 0, &[]), Err(Error::Busy));
    assert_eq!(exchanged(&mut session, &mut clock), Ok(Received::Answered));
    assert_eq!(session.report(&mut room[..1]), Err(Error::NoRoom));
    assert_eq!(session.report(&mut room), Ok(Report::Value(&[100, 0])));
    assert_eq!(session.resume(3), Err(Error::Idle));
    assert_eq!(session.begin(Action::Set, ManagementId::LOG_SYNC_INTERVAL, 1, &[100, 0]), Ok(()));
    assert_eq!(session.issued(), 2);
    assert_eq!(session.retune(1), Ok(()));
    assert_eq!(exchanged(&mut session, &mut clock), Err(Error::NoReport)); // the clock is in domain 0
    assert_eq!(exchanged(&mut session, &mut clock), Err(Error::GaveUp));
    assert_eq!((session.resume(1), session.retune(0)), (Ok(()), Ok(())));
    assert_eq!(exchanged(&mut session, &mut clock), Ok(Received::Answered));
    assert_eq!(session.report(&mut room), Ok(Report::Refused(ManagementErrorId(4))));
    assert_eq!(session.begin(Action::Command, ManagementId::DISABLE_PORT, 1, &[]), Ok(()));
    assert_eq!(exchanged(&mut session, &mut clock), Ok(Received::Answered));
    assert_eq!(session.report(&mut room), Ok(Report::Done));
    assert_eq!(session.receive(b"\x0d\x12"), Ok(Received::TooShort));
}

#[test]
fn a_request_at_a_port_is_given_up() {
    let mut clock = clock();
    let settings = SessionSettings::new(port_identity("0011223344556677/1"), identity(CLOCK), 7);
    let mut session = Session::start(&settings).expect("it starts");
    let (mut room, mut outbox) = ([0; MOST_OCTETS], Outbox::boxed());
    assert_eq!(session.give_up(), Err(Error::Idle));
    assert_eq!(session.begin_at(Action::Set, ManagementId::PRIORITY1, 256, &[100, 0]), Err(Error::NeedsPort));
    assert_eq!(session.begin_at(Action::Set, ManagementId::PRIORITY1, 2, &[100, 0]), Ok(()));
    let message = session.send(&mut room).expect("it is made");
    assert_eq!(message, request(7, "aabbccfffeddee010002", 1, 1, "20056400"));
    let turn = clock.handle(1, message, &mut outbox).expect("it is judged");
    assert_eq!(session.give_up(), Ok(()));
    for (_, octets) in turn.messages {
        assert_eq!(session.receive(octets), Ok(Received::NothingAsked));
    }
    assert_eq!(session.begin(Action::Get, ManagementId::PRIORITY1, 0, &[]), Ok(()));
    assert_eq!(exchanged(&mut session, &mut clock), Ok(Received::Answered));
    assert_eq!(session.report(&mut room), Ok(Report::Value(&[100, 0])));
    assert_eq!(session.issued(), 2);
}

#[test]
fn a_survey_of_one_clock_hears_no_other() {
    let settings = SurveySettings::new(port_identity("0a0b0c0d0e0f1011/9"), 3, ManagementId::PRIORITY1);
    assert_eq!(Survey::start_at(&settings, Identity([0xff; 8])).map(|_| ()), Err(Error::TargetIsEvery));
    let mut survey = Survey::start_at(&settings, identity(CLOCK)).expect("it starts");
    let (mut clock, mut room, mut outbox) = (clock(), [0; MOST_OCTETS], Outbox::boxed());
    let turn = clock.handle(1, survey.send(&mut room).expect("it is made"), &mut outbox).expect("it is judged");
    for (_, octets) in turn.messages {
        let mut other = octets.to_vec();
        other[27] = 2; // of the sourcePortIdentity
        assert_eq!(survey.receive(&other), Ok(Surveyed::OtherSource));
        assert_eq!(survey.receive(octets), Ok(Surveyed::Taken));
    }
    assert_eq!(survey.count(), 1);
}

#[test]
fn a_survey_keeps_first_answers() {
    let mut clock = clock();
    let settings = SurveySettings::new(port_identity("0a0b0c0d0e0f1011/9"), 3, ManagementId::PORT_DATA_SET);
    let mut survey = Survey::start(&settings).expect("it starts");
    let (mut room, mut outbox) = ([0; MOST_OCTETS], Outbox::boxed());
    for became in [Surveyed::Taken, Surveyed::Again] {
        let message = survey.send(&mut room).expect("it is made");
        let turn = clock.handle(1, message, &mut outbox).expect("it is judged");
        assert_eq!(turn.handled(), Handled::AnsweredUnnumbered);
        for (_, octets) in turn.messages.filter(|(port, _)| *port == 1) {
            assert_eq!(survey.receive(octets), Ok(became));
        }
    }
    assert_eq!(survey.count(), 2);
    let answers: Vec<_> =
        survey.answers().map(|answer| (answer.source.to_string(), answer.value.map(|field| field[10]))).collect();
    assert_eq!(answers, [("aabbccfffeddee01/1".into(), Ok(6)), ("aabbccfffeddee01/2".into(), Ok(6))]);
    let states: Vec<_> = survey.answers().filter_map(|answer| answer.data_set::<PortDataSet>()?.port_state).collect();
    assert_eq!(states, [PortState::Master; 2]);
    assert_eq!(survey.answer(2, &mut room), Err(Error::NoReport));
}

#[test]
fn a_clock_is_moved_to_another_thread() {
    let mut clock = clock();
    let get = request(7, "aabbccfffeddee01ffff", 1, 0, "2005");
    let handled = std::thread::spawn(move || {
        let mut outbox = Outbox::boxed();
        clock.handle(1, &get, &mut outbox).map(|turn| turn.handled())
    });
    assert_eq!(handled.join().expect("it ends"), Ok(Handled::AnsweredNew));
}

#[test]
fn texts_that_are_no_identity_are_refused() {
    for text in [
        "",
        "aabbccfffeddee0",
        "aabbccfffeddee011",
        "aabbcc.fffeddee01",
        "aabb.ccfffe.ddee01",
        "aabbcc.fffe.ddee0x",
        "aabbccfffeddéé",
    ] {
        assert!(text.parse::<Identity>().is_err(), "{text}");
    }
    for text in [CLOCK, "aabbccfffeddee01/", "aabbccfffeddee01/+1", "aabbccfffeddee01/65536", "aabbccfffeddee01/1/1"] {
        assert!(text.parse::<PortIdentity>().is_err(), "{text}");
    }
}

#[test]
fn ids_are_read_from_names_and_numbers() {
    for text in ["PRIORITY1", "priority1", "2005", "0x2005", "0X2005"] {
        assert_eq!(text.parse(), Ok(ManagementId::PRIORITY1), "{text}");
    }
    assert_eq!("c001".parse(), Ok(ManagementId(0xc001)));
    for text in ["", "PRIORITY3", "205", "02005", "0x", "0xPRIORITY1", "200é"] {
        assert!(text.parse::<ManagementId>().is_err(), "{text}");
    }
}

#[test]
fn numbers_of_a_newer_library_are_kept() {
    assert_eq!(Handled::of_number(29), Handled::Other(29));
    assert_eq!(Handled::Other(29).number(), 29);
    assert_eq!(Error::of_number(200).to_string(), "200: the library is newer than this crate");
    assert_eq!(Handled::AnsweredNew.to_string(), "ANSWERED_NEW");
}

#[test]
fn the_library_has_the_version_of_the_declarations() {
    assert_eq!(ptpm::version(), ptpm::sys::PTPM_VERSION_NUMBER);
    assert_eq!(ptpm::sys::ptpm_header_agrees(), ptpm::sys::PTPM_STARTED);
}

#[test]
fn a_message_is_passed_on_once_in_its_time() {
    let get = request(7, "aabbccfffeddee01ffff", 1, 0, "2005");
    let mut table = PassedOn::new(7);
    assert!(table.is_first(&get, 0, 1000));
    assert!(!table.is_first(&get, 999, 1000));
    assert!(table.is_first(&get, 1000, 1000));
    assert!(table.is_first(&request(8, "aabbccfffeddee01ffff", 1, 0, "2005"), 1000, 1000));
    assert!(!table.is_first(&[], 1000, 1000));
}

#[test]
fn a_table_has_as_many_places_as_its_host_gives_it() {
    let mut table = PassedOn::of_size(16, 7).unwrap();
    let passed = (0..17).filter(|&number| table.is_first(&request(number, "aabbccfffeddee01ffff", 1, 0, "2005"), 0, 1000));
    assert_eq!(passed.count(), 16);
    assert!(PassedOn::of_size(15, 7).is_none() && PassedOn::of_size(1_048_577, 7).is_none());
}

#[test]
fn a_rate_gives_as_many_tokens_as_a_second_brings() {
    let mut rate = Rate::new(3, 0);
    assert_eq!((0..5).filter(|_| rate.take(0)).count(), 3);
    assert_eq!((0..5).filter(|_| rate.take(1000)).count(), 3);
}
