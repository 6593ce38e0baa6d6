//! What the agent sends of what its clock makes. It forwards a message once in a while, and not too many a second: where clocks are
//! joined by more than one way, a message would circulate until its hops are used up.

use ptpm::{PassedOn, Rate};
use std::fs::File;
use std::io::{self, Read};
use std::time::Instant;

/// For how many milliseconds a message is not forwarded again.
const NOTED: u64 = 1000;
/// How many messages a second each port forwards.
const RATE: u64 = 100;

/// What was forwarded last, and what each port still forwards.
pub struct Forwarding {
    passed_on: PassedOn,
    rates: Vec<Rate>,
    began: Instant,
}

/// A datagram that came in, and what is sent of it.
pub struct Sending<'a> {
    forwarding: &'a mut Forwarding,
    ingress: u16,
    datagram: &'a [u8],
    is_first: Option<bool>,
}

impl Forwarding {
    pub fn new(ports: usize) -> io::Result<Self> {
        let mut seed = [0; 8];
        File::open("/dev/urandom")?.read_exact(&mut seed)?;
        let passed_on = PassedOn::new(u64::from_ne_bytes(seed));
        Ok(Self { passed_on, rates: (0..ports).map(|_| Rate::new(RATE, 0)).collect(), began: Instant::now() })
    }

    pub fn of<'a>(&'a mut self, ingress: u16, datagram: &'a [u8]) -> Sending<'a> {
        Sending { forwarding: self, ingress, datagram, is_first: None }
    }
}

impl Sending<'_> {
    /// Whether a message goes out at a port. What is for the port that the datagram came in at answers it, and all else forwards it.
    /// The table is asked only then, and once, since it records what it is asked about.
    pub fn admits(&mut self, egress: u16) -> bool {
        let Forwarding { passed_on, rates, began } = &mut *self.forwarding;
        let now = began.elapsed().as_millis() as u64;
        egress == self.ingress
            || (*self.is_first.get_or_insert_with(|| passed_on.is_first(self.datagram, now, NOTED))
                && rates[usize::from(egress) - 1].take(now))
    }
}
