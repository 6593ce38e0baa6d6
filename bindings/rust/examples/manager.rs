//! A manager on a Unix socket of `ptp4l` or `ptpm-clock`. It asks one clock for an id, or sets it, and prints the answer. Its session is
//! in a file: a run that ends before its answer, however it ends, is finished by the next.
//!
//! ```sh
//! manager /var/run/ptp4l 020000fffe000020 session.state PRIORITY1 100
//! ```

#[path = "agent/store.rs"]
mod store;

use ptpm::{
    Action, Asker, AskerSettings, Earlier, Handed, Identity, ManagementId, Members, PortIdentity, Report, Request,
    SessionSettings, DRAWN_OCTETS, MOST_DATA, MOST_OCTETS, SESSION_IMAGE_OCTETS,
};
use std::error::Error;
use std::fs::{self, File};
use std::io::{self, Read};
use std::os::unix::net::UnixDatagram;
use std::path::{Path, PathBuf};
use std::time::{Duration, Instant};
use std::{env, process};
use store::Store;

/// Who asks: the portIdentity of this manager, which has no other session with the clock.
const MANAGER: PortIdentity = PortIdentity { clock: Identity([2, 0, 0, 0xff, 0xfe, 0, 0, 0x10]), port: 1 };
/// A port of its clock at which nobody manages.
const NOBODY: u16 = 61440;
/// How the request of an earlier run is named, and that of this one.
const EARLIER: u64 = 1;
const OWN: u64 = 2;

/// A socket, and where it sends to.
struct Way {
    socket: UnixDatagram,
    own: PathBuf,
    peer: PathBuf,
}

impl Way {
    fn open(peer: &Path) -> io::Result<Self> {
        let peer = fs::canonicalize(peer)?; // the clock answers to the path beside it, and may run in another folder
        let own = peer.with_extension(format!("manager.{}", process::id()));
        Ok(Self { socket: UnixDatagram::bind(&own)?, own, peer })
    }

    /// The next datagram, if one comes in time.
    fn receive<'a>(&self, room: &'a mut [u8], time: Duration) -> io::Result<Option<&'a [u8]>> {
        self.socket.set_read_timeout(Some(time.max(Duration::from_millis(1))))?;
        match self.socket.recv(room) {
            Ok(size) => Ok(Some(&room[..size])),
            Err(error) if matches!(error.kind(), io::ErrorKind::WouldBlock | io::ErrorKind::TimedOut) => Ok(None),
            Err(error) => Err(error),
        }
    }
}

impl Drop for Way {
    fn drop(&mut self) {
        let _ = fs::remove_file(&self.own);
    }
}

/// An asker with its socket and its file.
struct Run {
    asker: Asker,
    way: Way,
    file: Store,
    id: ManagementId,
    start: Instant,
}

impl Run {
    fn now(&self) -> u64 {
        u64::try_from(self.start.elapsed().as_millis()).unwrap_or(u64::MAX)
    }

    /// Does what is handed out until there is an answer.
    fn carry_out(&mut self, mut next: Handed) -> Result<(), Box<dyn Error>> {
        let mut wake = None;
        loop {
            next = match next {
                Handed::NoteBegun { .. } => self.asker.noted()?,
                Handed::NoteAnswer { tag, .. } => {
                    self.print(tag)?;
                    wake = None;
                    self.asker.noted()?
                }
                Handed::SaveIt => {
                    self.file.save(self.asker.image(&mut [0; SESSION_IMAGE_OCTETS])?)?;
                    self.asker.saved(self.now())?
                }
                Handed::SendIt { wake: time } | Handed::SendRead { wake: time } => {
                    wake = Some(time);
                    self.send(matches!(next, Handed::SendRead { .. }))?
                }
                Handed::Wait { wake: time } => {
                    wake = Some(time);
                    Handed::Nothing
                }
                Handed::Nothing => match wake {
                    Some(time) => self.hear(time)?,
                    None => return Ok(()),
                },
                Handed::Failed { was_sent: true, .. } => {
                    return Err("no answer: a SET may have been carried out, and the next run asks again".into())
                }
                _ => return Err("no answer, and nothing was sent".into()),
            };
        }
    }

    /// Sends a message. A read that did not leave is as good as lost.
    fn send(&mut self, is_read: bool) -> Result<Handed, Box<dyn Error>> {
        let is_out = self.way.socket.send_to(self.asker.message(&mut [0; MOST_OCTETS])?, &self.way.peer).is_ok();
        Ok(if is_out || is_read { Handed::Nothing } else { self.asker.unsent()? })
    }

    /// Waits for a datagram, until it is time for the asker to go on.
    fn hear(&mut self, time: u64) -> Result<Handed, Box<dyn Error>> {
        let time = Duration::from_millis(time.saturating_sub(self.now()));
        Ok(match self.way.receive(&mut [0; 65536], time)? {
            Some(datagram) => self.asker.hear(datagram)?,
            None => self.asker.wake(self.now())?,
        })
    }

    fn print(&self, tag: u64) -> Result<(), Box<dyn Error>> {
        let who = if tag == EARLIER { "an earlier run: " } else { "" };
        match self.asker.report(&mut [0; MOST_DATA])? {
            Report::Value(field) if tag == OWN => print!("{}", Members::of(self.id, field)),
            Report::Refused(error) => println!("{who}refused {error}"),
            _ => println!("{who}done"),
        }
        Ok(())
    }
}

fn drawn<const SIZE: usize>() -> io::Result<[u8; SIZE]> {
    let mut octets = [0; SIZE];
    File::open("/dev/urandom")?.read_exact(&mut octets)?;
    Ok(octets)
}

fn run(words: &[&str]) -> Result<(), Box<dyn Error>> {
    let [socket, target, file, id, values @ ..] = words else { return Err("manager SOCKET CLOCK FILE ID [VALUE..]".into()) };
    let id: ManagementId = id.parse()?;
    let octets = if values.is_empty() { Vec::new() } else { id.data_field(values)? };
    let action = if values.is_empty() { Action::Get } else { Action::Set };
    let mut file = Store::open(Path::new(file))?;
    let session = SessionSettings::new(MANAGER, target.parse()?, u16::from_be_bytes(drawn()?));
    let (settings, drawn) = (AskerSettings::new(session, NOBODY), drawn::<DRAWN_OCTETS>()?);
    let asker = match file.load()? {
        Some(image) => Asker::restore(&settings, &drawn, &image)?,
        None => Asker::start(&settings, &drawn)?,
    };
    let mut run = Run { asker, way: Way::open(Path::new(socket))?, file, id, start: Instant::now() };
    if let Earlier::Get(domain) | Earlier::Change(domain) = run.asker.earlier(0) {
        let next = run.asker.settle(run.now(), EARLIER, domain)?;
        run.carry_out(next)?;
    }
    let next = run.asker.ask(run.now(), OWN, &Request { action, id, port: 0, octets: &octets, domain: 0 })?;
    run.carry_out(next)
}

fn main() {
    let words: Vec<String> = env::args().skip(1).collect();
    if let Err(error) = run(&words.iter().map(String::as_str).collect::<Vec<_>>()) {
        eprintln!("manager: {error}");
        process::exit(1);
    }
}
