//! A session and a clock that go on from their images.

use ptpm::{
    Action, Error, Identity, ManagementId, PortIdentity, Report, Session, SessionSettings, MOST_DATA, MOST_OCTETS,
    SESSION_IMAGE_OCTETS,
};
use ptpm::{Clock, ClockSettings, Handled, Manager, Outbox, PortSettings, Received, Rights, CLOCK_IMAGE_OCTETS};

#[test]
fn a_request_goes_on_from_an_image() {
    let manager = PortIdentity { clock: Identity([1; 8]), port: 1 };
    let target = Identity([2; 8]);
    let settings = SessionSettings::new(manager, target, 7);
    let (mut room, mut image, mut field) = ([0; MOST_OCTETS], [0; SESSION_IMAGE_OCTETS], [0; MOST_DATA]);
    let mut session = Session::start(&settings).expect("it starts");
    session.begin(Action::Set, ManagementId::PRIORITY1, 0, &[100, 0]).expect("it begins");
    let image = session.image(&mut image).expect("it is made").to_vec();
    let first = session.send(&mut room).expect("it is sent").to_vec();
    drop(session);

    let mut session = Session::restore(&settings, &image).expect("it goes on");
    assert_eq!(session.send(&mut room), Ok(&*first));
    let ports = [PortSettings::new()];
    let mut clock = Clock::start(&ClockSettings::new(target), &ports, &[Manager::new(manager, Rights::ALL)]).expect("it starts");
    let mut outbox = Outbox::boxed();
    for (_, octets) in clock.handle(1, &first, &mut outbox).expect("it is judged").messages {
        assert_eq!(session.receive(octets), Ok(Received::Answered));
    }
    assert_eq!(session.report(&mut field), Ok(Report::Value(&[100, 0])));

    let restored = |settings: &SessionSettings, octets: &[u8]| Session::restore(settings, octets).map(|_| ());
    assert_eq!(restored(&settings, &image[..image.len() - 1]), Err(Error::Damaged));
    assert_eq!(restored(&settings, b"no image"), Err(Error::NotAnImage));
    assert_eq!(restored(&SessionSettings { first: 8, ..settings }, &image), Err(Error::OtherSession));
}

#[test]
fn a_clock_goes_on_from_its_image() {
    let manager = PortIdentity { clock: Identity([1; 8]), port: 1 };
    let managers = [Manager::new(manager, Rights::ALL)];
    let target = Identity([2; 8]);
    let mut clock = Clock::start(&ClockSettings::new(target), &[PortSettings::new()], &managers).expect("it starts");
    let mut session = Session::start(&SessionSettings::new(manager, target, 7)).expect("it starts");
    session.begin(Action::Set, ManagementId::PRIORITY1, 0, &[100, 0]).expect("it begins");
    let mut room = [0; MOST_OCTETS];
    let request = session.send(&mut room).expect("it is sent");
    let mut outbox = Outbox::boxed();
    assert_eq!(clock.handle(1, request, &mut outbox).expect("it is judged").handled(), Handled::AnsweredNew);
    let mut image = vec![0; CLOCK_IMAGE_OCTETS];
    let image = clock.image(&mut image).expect("it is made");

    let (mut clock, gone) = Clock::restore(target, 1, &managers, image).expect("it goes on");
    assert_eq!(gone, 0);
    assert_eq!(clock.handle(1, request, &mut outbox).expect("it is judged").handled(), Handled::AnsweredRepeat);
    assert_eq!(Clock::restore(target, 1, &[], image).map(|(_, gone)| gone).ok(), Some(1));
    let refused = |identity, ports, image| Clock::restore(identity, ports, &managers, image).map(|_| ()).err();
    assert_eq!(refused(target, 1, &image[1..]), Some(Error::NotAnImage));
    assert_eq!(refused(Identity([3; 8]), 2, image), Some(Error::OtherClock));
    assert_eq!(refused(target, 2, image), Some(Error::OtherPorts));
}
