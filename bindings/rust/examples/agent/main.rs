//! An agent of a clock with two UDP ports, which answers linuxptp's `pmc`:
//!
//!     sudo agent [-s FILE] IDENTITY INTERFACE INTERFACE [MANAGER]
//!     sudo pmc -4 -b 0 -i eth0 'TARGET aabbcc.fffe.ddee01-1' 'GET CURRENT_DATA_SET'
//!
//! A thread for each port hands in what it hears; the clock belongs to one thread, which observes what a servo finds in between. The
//! servo of this agent is made up: each time it halves its offset. A `pmc` has its interface's MAC with `fffe` in the middle as its
//! identity, at port 1: with that as MANAGER its SETs are carried out.
//!
//! With a FILE the clock outlasts its power, and the next run goes on from it: it shows no change before that is saved. A save that
//! fails ends the agent, as a loss of power would.

mod forwarding;
mod port;
mod store;

use forwarding::Forwarding;
use ptpm::{
    Clock, ClockMembers, ClockSettings, Handled, ManagementId, Manager, ObservedClock, ObservedPort, Outbox, PortMembers,
    PortSettings, PortState, Ports, Rights, SavingClock, Say, Taken, TimeInterval, CLOCK_IMAGE_OCTETS, MOST_READ,
};
use std::error::Error;
use std::net::UdpSocket;
use std::path::Path;
use std::sync::mpsc::{self, RecvTimeoutError};
use std::thread;
use std::time::{Duration, Instant};
use store::Store;

const TICK: Duration = Duration::from_millis(125);

/// A servo that is made up.
struct Servo {
    offset: TimeInterval,
}

impl Servo {
    fn steer(&mut self) -> ObservedClock {
        self.offset.0 /= 2;
        ObservedClock {
            offset_from_master: Some(self.offset),
            mean_path_delay: Some(TimeInterval::from_nanoseconds(420)),
            ..ObservedClock::default()
        }
    }
}

/// How many messages may wait for a save: those of one datagram, since each is saved before the next one is taken.
const MOST_WAITING: usize = 15;

/// A clock that forgets all when it ends, or one that is saved before it answers, with its file.
enum Kept {
    Forgetting(Clock),
    Saved(SavingClock, Store),
}

impl Kept {
    fn observe(&mut self, observed: &ObservedClock, ports: &[ObservedPort]) -> Result<Ports, ptpm::Error> {
        match self {
            Self::Forgetting(clock) => clock.observe(observed, ports),
            Self::Saved(clock, _) => clock.observe(observed, ports),
        }
    }

    fn read<'a>(&self, id: ManagementId, port: u16, room: &'a mut [u8; MOST_READ]) -> Result<&'a [u8], ptpm::Error> {
        match self {
            Self::Forgetting(clock) => clock.read(id, port, room),
            Self::Saved(clock, _) => clock.read(id, port, room),
        }
    }
}

/// The clock, its ports' sockets, and the servo.
struct Agent {
    clock: Kept,
    sockets: Vec<UdpSocket>,
    forwarding: Forwarding,
    servo: Servo,
    outbox: Box<Outbox>,
    room: Box<[u8; CLOCK_IMAGE_OCTETS]>,
}

/// The clock of the store, or a new one if none was ever saved there. What is refused there is no reason for a new one: that
/// would carry out requests again that were carried out before.
fn clock_of(
    store: Option<Store>,
    settings: &ClockSettings,
    ports: &[PortSettings],
    managers: &[Manager],
) -> Result<Kept, Box<dyn Error>> {
    let Some(mut store) = store else { return Ok(Kept::Forgetting(Clock::start(settings, ports, managers)?)) };
    let Some(image) = store.load()? else {
        let mut clock = SavingClock::new(Clock::start(settings, ports, managers)?, MOST_WAITING)?;
        let mut room = Box::new([0; CLOCK_IMAGE_OCTETS]);
        let (image, token) = clock.image(&mut room[..])?;
        store.save(image)?;
        clock.saved(token)?;
        return Ok(Kept::Saved(clock, store));
    };
    let (clock, gone) = Clock::restore(settings.identity, ports.len(), managers, &image)?;
    println!("it goes on where it was saved; requests of {gone} managers are forgotten");
    Ok(Kept::Saved(SavingClock::new(clock, MOST_WAITING)?, store))
}

/// Says of a request that it was dropped.
fn note(port: u16, handled: Handled) {
    if matches!(handled, Handled::DroppedOld | Handled::DroppedConflict) {
        eprintln!("port {port}: {handled}");
    }
}

impl Agent {
    fn start(
        store: Option<Store>,
        identity: &str,
        interfaces: &[String],
        manager: Option<&String>,
    ) -> Result<Self, Box<dyn Error>> {
        let managers = match manager {
            Some(manager) => vec![Manager::new(manager.parse()?, Rights::ALL)],
            None => Vec::new(),
        };
        let settings = ClockSettings { user_description: "an agent in Rust".into(), ..ClockSettings::new(identity.parse()?) };
        let ports = vec![PortSettings { state: PortState::Slave, ..PortSettings::new() }; interfaces.len()];
        let clock = clock_of(store, &settings, &ports, &managers)?;
        let mut sockets = Vec::new();
        for interface in interfaces {
            sockets.push(port::open(interface).map_err(|error| format!("{interface}: {error}"))?);
        }
        let servo = Servo { offset: TimeInterval::from_nanoseconds(1 << 20) };
        let forwarding = Forwarding::new(sockets.len())?;
        Ok(Self { clock, sockets, forwarding, servo, outbox: Outbox::boxed(), room: Box::new([0; CLOCK_IMAGE_OCTETS]) })
    }

    /// Tells the clock what was found since.
    fn observe(&mut self) -> Result<(), ptpm::Error> {
        let ports = [ObservedPort { peer_delay: Some(TimeInterval::from_nanoseconds(210)), ..ObservedPort::default() }; 2];
        self.clock.observe(&self.servo.steer(), &ports[..self.sockets.len()])?;
        Ok(())
    }

    /// Hands a datagram in, sends what is to be sent, also after a save if something is new, and acts on what changed.
    fn come_in(&mut self, port: u16, datagram: &[u8]) -> Result<(), Box<dyn Error>> {
        let Taken { turn, changed, .. } = match &mut self.clock {
            Kept::Forgetting(clock) => clock.take(port, datagram, Say::Agrees, &mut self.outbox)?,
            Kept::Saved(clock, _) => clock.take(port, datagram, Say::Agrees, &mut self.outbox)?,
        };
        note(port, turn.handled());
        let mut sending = self.forwarding.of(port, datagram);
        let mut send = |egress, octets: &[u8]| {
            if sending.admits(egress) {
                port::send(&self.sockets[usize::from(egress) - 1], octets);
            }
        };
        for (egress, octets) in turn.messages {
            send(egress, octets);
        }
        if let Kept::Saved(clock, store) = &mut self.clock {
            if clock.is_unsaved() {
                let (image, token) = clock.image(&mut self.room[..])?;
                store.save(image)?;
                clock.saved(token)?;
                while let Some((egress, octets)) = clock.next_message(&mut self.outbox) {
                    send(egress, octets);
                }
            }
        }
        if changed.clock.intersects(ClockMembers::PRIORITY1) {
            let mut room = [0; MOST_READ];
            println!("priority1 is {}", self.clock.read(ManagementId::PRIORITY1, 0, &mut room)?[0]);
        }
        for port in changed.ports_with(PortMembers::STATE) {
            println!("port {port} is {:?}", self.state(port)?);
        }
        Ok(())
    }

    /// The state of a port.
    fn state(&self, port: u16) -> Result<Option<PortState>, ptpm::Error> {
        let mut room = [0; MOST_READ];
        Ok(PortState::of_number(self.clock.read(ManagementId::PORT_DATA_SET, port, &mut room)?[10]))
    }

    /// Takes over what a clock that was saved has, before it observes anything: a port that a manager disabled stays so.
    fn take_over(&self) -> Result<(), ptpm::Error> {
        for (port, _) in (1..).zip(&self.sockets) {
            if self.state(port)? == Some(PortState::Disabled) {
                println!("port {port} stays disabled");
            }
        }
        Ok(())
    }

    /// Takes turns until a thread of a port ends.
    fn run(&mut self) -> Result<(), Box<dyn Error>> {
        let (sender, receiver) = mpsc::channel();
        for (port, socket) in (1..).zip(&self.sockets) {
            let (sender, socket) = (sender.clone(), socket.try_clone()?);
            thread::spawn(move || {
                let mut octets = [0; 2048];
                while let Ok(size) = socket.recv(&mut octets) {
                    if sender.send((port, octets[..size].to_vec())).is_err() {
                        break;
                    }
                }
            });
        }
        drop(sender);
        let mut next = Instant::now();
        loop {
            let left = next.saturating_duration_since(Instant::now());
            if left.is_zero() {
                self.observe()?;
                next += TICK;
                continue;
            }
            match receiver.recv_timeout(left) {
                Ok((port, datagram)) => self.come_in(port, &datagram)?,
                Err(RecvTimeoutError::Timeout) => {}
                Err(RecvTimeoutError::Disconnected) => return Err("no port is heard any more".into()),
            }
        }
    }
}

fn main() -> Result<(), Box<dyn Error>> {
    let words: Vec<_> = std::env::args().skip(1).collect();
    let (file, words) = match &*words {
        [option, file, words @ ..] if option == "-s" => (Some(Path::new(file)), words),
        words => (None, words),
    };
    let (identity, interfaces, manager) = match words {
        [identity, interfaces @ ..] if interfaces.len() == 2 => (identity, interfaces, None),
        [identity, interfaces @ .., manager] if interfaces.len() == 2 => (identity, interfaces, Some(manager)),
        _ => return Err("usage: agent [-s FILE] IDENTITY INTERFACE INTERFACE [MANAGER]".into()),
    };
    let store = file.map(Store::open).transpose()?;
    let mut agent = Agent::start(store, identity, interfaces, manager)?;
    agent.take_over()?;
    println!("{identity} hears {}", interfaces.join(" and "));
    agent.run()
}
