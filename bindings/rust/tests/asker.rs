//! An asker at work: a host that does only what it hands out, and one that is cut off after each save and goes on.

use ptpm::{
    Action, AskError, Asker, AskerRestoreError, AskerSettings, Clock, ClockSettings, Earlier, Error, Handed, HandleError,
    Identity, ManagementId, Manager, Outbox, PortIdentity, PortSettings, QuestionError, Report, Request, Rights, Say,
    SessionSettings, SetError, DRAWN_OCTETS, MOST_DATA, MOST_OCTETS, SESSION_IMAGE_OCTETS,
};

const CLOCK: Identity = Identity([2; 8]);
const MANAGER: PortIdentity = PortIdentity { clock: Identity([1; 8]), port: 1 };
const DRAWN: [u8; DRAWN_OCTETS] = [7; DRAWN_OCTETS];

fn settings() -> AskerSettings {
    AskerSettings::new(SessionSettings::new(MANAGER, CLOCK, 7), 61440)
}

fn clock() -> Clock {
    Clock::start(&ClockSettings::new(CLOCK), &[PortSettings::new()], &[Manager::new(MANAGER, Rights::ALL)]).expect("it starts")
}

fn set(priority1: &[u8]) -> Request<'_> {
    Request { action: Action::Set, id: ManagementId::PRIORITY1, port: 0, octets: priority1, domain: 0 }
}

/// A host with its file, a link that loses the first of each two messages, and a clock.
struct Host {
    clock: Clock,
    file: Option<Vec<u8>>,
    now: u64,
    sent: u32,
    answers: Vec<(u64, Vec<u8>)>,
    carried_out: u32,
}

impl Host {
    fn new() -> Self {
        Self { clock: clock(), file: None, now: 0, sent: 0, answers: Vec::new(), carried_out: 0 }
    }

    fn asker(&self) -> Asker {
        match &self.file {
            Some(image) => Asker::restore(&settings(), &DRAWN, image).expect("it goes on"),
            None => Asker::start(&settings(), &DRAWN).expect("it starts"),
        }
    }

    /// Carries out what is handed out until the asker rests. It ends after as many steps as the power lasts.
    fn run(&mut self, asker: &mut Asker, mut next: Handed, steps: &mut u32) -> Result<(), Error> {
        let mut due = None;
        loop {
            *steps = match steps.checked_sub(1) {
                Some(rest) => rest,
                None => return Ok(()),
            };
            next = match next {
                Handed::NoteBegun { tag: 5, .. } => asker.noted()?,
                Handed::SaveIt => {
                    self.file = Some(asker.image(&mut [0; SESSION_IMAGE_OCTETS])?.to_vec());
                    asker.saved(self.now)?
                }
                Handed::SendIt { wake } | Handed::SendRead { wake } => {
                    due = Some(wake);
                    self.exchange(asker)?
                }
                Handed::Wait { wake } => {
                    due = Some(wake);
                    Handed::Nothing
                }
                Handed::NoteAnswer { tag, .. } => {
                    due = None;
                    self.note_answer(asker, tag)?
                }
                Handed::Nothing => match due {
                    Some(wake) => {
                        self.now = wake;
                        asker.wake(self.now)?
                    }
                    None => return Ok(()),
                },
                other => panic!("{other:?}"),
            };
        }
    }

    fn note_answer(&mut self, asker: &mut Asker, tag: u64) -> Result<Handed, Error> {
        if let Report::Value(field) = asker.report(&mut [0; MOST_DATA])? {
            self.answers.push((tag, field.to_vec()));
        }
        asker.noted()
    }

    fn exchange(&mut self, asker: &mut Asker) -> Result<Handed, Error> {
        let (mut room, mut outbox) = ([0; MOST_OCTETS], Outbox::boxed());
        let message = asker.message(&mut room)?;
        self.sent += 1;
        if self.sent % 2 == 1 {
            return Ok(Handed::Nothing);
        }
        let taken = self.clock.take(1, message, Say::Agrees, &mut outbox)?;
        self.carried_out += u32::from(!taken.changed.is_empty());
        let mut next = Handed::Nothing;
        for (_, octets) in taken.turn.messages {
            next = asker.hear(octets)?;
        }
        Ok(next)
    }
}

#[test]
fn a_set_is_asked_and_answered() {
    let mut host = Host::new();
    let mut asker = host.asker();
    assert_eq!(asker.earlier(0), Earlier::Nothing);
    assert_eq!(asker.settle(0, 5, 0), Err(Error::Idle));
    let next = asker.ask(host.now, 5, &set(&[100, 0])).expect("it asks");
    assert_eq!(asker.ask(host.now, 6, &set(&[101, 0])), Err(Error::Busy));
    host.run(&mut asker, next, &mut 1000).expect("it is carried out");
    assert_eq!((host.answers, host.carried_out), (vec![(5, vec![100, 0])], 1));
}

#[test]
fn a_run_that_is_cut_off_is_settled_by_the_next() {
    for last in 1..40 {
        let (mut host, mut steps) = (Host::new(), last);
        let mut asker = host.asker();
        let next = asker.ask(host.now, 5, &set(&[100, 0])).expect("it asks");
        host.run(&mut asker, next, &mut steps).expect("it is carried out");
        let mut asker = host.asker(); // the power was cut
        if host.answers.is_empty() {
            let next = match asker.earlier(0) {
                Earlier::Change(0) => asker.settle(host.now, 5, 0),
                Earlier::Nothing | Earlier::Question => asker.ask(host.now, 5, &set(&[100, 0])),
                other => panic!("{other:?}"),
            };
            host.run(&mut asker, next.expect("it goes on"), &mut 1000).expect("it is carried out");
        }
        assert_eq!((&*host.answers, host.carried_out), (&[(5, vec![100, 0])][..], 1), "after {last} steps");
    }
}

#[test]
fn a_message_without_a_way_is_taken_back() {
    let mut asker = Asker::start(&settings(), &DRAWN).expect("it starts");
    let mut next = asker.ask(0, 5, &set(&[100, 0])).expect("it asks");
    for now in (0..).step_by(1000) {
        next = match next {
            Handed::SendIt { .. } => asker.unsent().expect("it is taken back"),
            Handed::SaveIt => asker.saved(now).expect("it is saved"),
            Handed::NoteBegun { .. } => asker.noted().expect("it is noted"),
            Handed::Failed { was_sent, .. } => {
                assert!(!was_sent);
                return;
            }
            _ => asker.wake(now).expect("it is told the time"),
        };
    }
}

#[test]
fn refusals_are_told_by_kind() {
    let mut asker = Asker::start(&settings(), &DRAWN).expect("it starts");
    assert_eq!(asker.ask(0, 5, &set(&[1])).map_err(AskError::from), Err(AskError::BadValue));
    let restored = Asker::restore(&settings(), &DRAWN, b"no image").map(|_| ()).map_err(AskerRestoreError::from);
    assert_eq!(restored, Err(AskerRestoreError::NotAnImage));
    let (mut clock, mut outbox) = (clock(), Outbox::boxed());
    let odd = clock.take(1, &[], Say::Gives(b"odd"), &mut outbox).map(|_| ()).map_err(HandleError::from);
    assert_eq!(odd, Err(HandleError::BadSay));
    assert_eq!(HandleError::from(Error::Unsaved), HandleError::Unsaved);
    assert_eq!(clock.ask(2, &[]).map(|_| ()).map_err(QuestionError::from), Err(QuestionError::NoPort));
    let get = clock.set(Action::Get, ManagementId::PRIORITY1, 1, &[]).map(|_| ()).map_err(SetError::from);
    assert_eq!(get, Err(SetError::NotPermitted));
}
