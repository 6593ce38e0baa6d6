//! What a datagram costs a host in Rust, for a counter of instructions, as `hosts/tests/measure.c` does it in C. `measure get COUNT` starts
//! a clock, lets it answer a GET of PRIORITY1 by its manager, and passes it that GET COUNT times more, each with the next number. By
//! the difference of two runs callgrind shows what one of them costs. Prints how many messages of how many octets it makes.

use ptpm::{Clock, ClockSettings, Manager, Outbox, PortSettings, Rights};
use std::error::Error;

/// A GET of PRIORITY1 by 0011223344556677/1 under sequenceId 7, with one hop (15.4.1 and table 58).
const GET: [u8; 54] = *b"\x0d\x12\0\x36\0\0\0\0\0\0\0\0\0\0\0\0\0\0\0\0\x00\x11\x22\x33\x44\x55\x66\x77\0\x01\0\x07\x04\x7f\
    \xaa\xbb\xcc\xff\xfe\xdd\xee\x01\xff\xff\x01\x01\0\0\0\x01\0\x02\x20\x05";

fn start() -> Result<Clock, Box<dyn Error>> {
    let settings = ClockSettings::new("aabbccfffeddee01".parse()?);
    let manager = Manager::new("0011223344556677/1".parse()?, Rights::ALL);
    Ok(Clock::start(&settings, &[PortSettings::new(); 2], &[manager])?)
}

/// The datagram again and again, in two places that take turns. How many messages of how many octets the last one makes.
fn repeat(clock: &mut Clock, outbox: &mut Outbox, count: usize) -> Result<(usize, usize), ptpm::Error> {
    let mut places = [GET; 2];
    let mut number: u16 = 7;
    let mut messages = clock.handle(1, &places[0], outbox)?.messages.len();
    for i in 0..count {
        let octets = &mut places[i % 2];
        number = number.wrapping_add(1);
        octets[30..32].copy_from_slice(&number.to_be_bytes());
        messages = clock.handle(1, octets, outbox)?.messages.len();
    }
    let last = clock.handle(1, &places[(count + 1) % 2], outbox)?; // which is kept, and answered again
    Ok((messages, last.messages.map(|(_, octets)| octets.len()).sum()))
}

fn main() -> Result<(), Box<dyn Error>> {
    let words: Vec<_> = std::env::args().skip(1).collect();
    let [list, count] = &*words else { return Err("usage: measure get COUNT".into()) };
    if list != "get" {
        return Err("usage: measure get COUNT".into());
    }
    let (messages, octets) = repeat(&mut start()?, &mut Outbox::boxed(), count.parse()?)?;
    println!("get {messages} {octets}");
    Ok(())
}
