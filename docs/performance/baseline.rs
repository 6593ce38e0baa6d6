//! The same work as plain Rust: a boundary clock's answers to GET and SET, and a manager's requests, with nothing proved.
//!
//!     rustc --edition 2024 -O baseline.rs && ./baseline DATAGRAM STEP COUNT [PORTS [MANAGERS [FIRST]]]
//!
//! handles the datagram, in hexadecimal, COUNT times, with its sequenceId raised by STEP each time, at a clock of so many
//! ports and managers (2 and 1) that has answered a GET by the last of its managers with sequenceId 7: FIRST, or one of
//! PRIORITY1. With STEP `nothing` it does not handle it; with `start` it makes such a clock and its outbox COUNT times. A
//! datagram that is shorter than its messageLength gets octets 0.
//!
//! With STEP `send` a manager sends one GET of PRIORITY1 COUNT times, with `receive` it begins COUNT of them and hears the
//! DATAGRAM as the answer to each, under the number of the request, and with `ignore` it hears it COUNT times under the
//! number before that of its one request.
//!
//! It judges a datagram in the same order, keeps one request and reply for each of sixteen managers, writes every message
//! once, in place, and forwards. Of the management ids it knows USER_DESCRIPTION, PRIORITY1, PRIORITY2, PORT_DATA_SET and
//! LOG_ANNOUNCE_INTERVAL alone, and no error is answered.

#![allow(dead_code)]

type Identity = ([u8; 8], u16);

#[derive(Default)]
struct Kept {
    number: u16,
    request: (u8, u16, u16),
    octets: Vec<u8>,
    replies: Vec<Vec<u8>>,
    of_port: bool,
}

#[derive(Clone)]
struct Port {
    forwarding: bool,
    state: u8,
    peer_delay: i64,
    log_min_delay_req: i8,
    log_announce: i8,
    receipt_timeout: u8,
    log_sync: i8,
    mechanism: u8,
    log_min_pdelay: i8,
}

struct Clock {
    me: [u8; 8],
    domain: u8,
    priority: [u8; 2],
    /// The userDescription as a PTPText, with its length and its pad.
    description: Vec<u8>,
    ports: Vec<Port>,
    managers: Vec<(Identity, Option<Kept>)>,
}

struct View<'a>(&'a [u8]);

#[derive(Clone, Copy, Debug)]
enum Verdict {
    Malformed, OtherDomain, OwnMessage, NotAddressed, NotARequest,
    AnsweredNew, AnsweredRepeat, DroppedOld, DroppedConflict, AnsweredUnnumbered,
}

fn u16_at(b: &[u8], place: usize) -> u16 {
    u16::from_be_bytes([b[place], b[place + 1]])
}

impl<'a> View<'a> {
    fn identity(&self, place: usize) -> Identity {
        (self.0[place..place + 8].try_into().unwrap(), u16_at(self.0, place + 8))
    }
    fn request(&self) -> (u8, u16, u16, &'a [u8]) {
        (self.0[46] % 16, u16_at(self.0, 52), u16_at(self.0, 42), &self.0[54..])
    }
}

#[inline(never)]
fn view(datagram: &[u8]) -> Option<View<'_>> {
    if datagram.len() < 54 || datagram[0] % 16 != 0xd || datagram[1] % 16 != 2 {
        return None;
    }
    let message = datagram.get(..u16_at(datagram, 2) as usize)?;
    let length = message.len();
    if !(54..=1472).contains(&length) {
        return None;
    }
    let (action, kind, size) = (message[46] % 16, u16_at(message, 48), u16_at(message, 50) as usize);
    let least = if kind == 1 { 2 } else { 8 };
    let known = kind == 1 || kind == 2 && (action == 2 || action == 4);
    if action > 4 || !known || size % 2 != 0 || size < least || 52 + size != length {
        return None;
    }
    if kind == 2 && length > 60 && !is_text(&message[60..]) {
        return None;
    }
    Some(View(message))
}

/// Whether the octets are one PTPText with its pad.
fn is_text(octets: &[u8]) -> bool {
    octets.first().is_some_and(|&length| octets.len() == (2 + length as usize) / 2 * 2)
}

#[inline(never)]
fn encode(me: &[u8; 8], port: u16, m: &View, action: u8, id: u16, data: &[u8], out: &mut Vec<u8>) {
    let (b, hops) = (m.0, m.0[44].saturating_sub(m.0[45]));
    let mut head = [0; 54];
    head[..2].copy_from_slice(&[0x0d, 0x12]);
    head[2..4].copy_from_slice(&(54 + data.len() as u16).to_be_bytes());
    head[4] = b[4];
    head[20..28].copy_from_slice(me);
    head[28..30].copy_from_slice(&port.to_be_bytes());
    head[30..32].copy_from_slice(&b[30..32]);
    head[32..34].copy_from_slice(&[0x04, 0x7f]);
    head[34..44].copy_from_slice(&b[20..30]);
    head[44..48].copy_from_slice(&[hops, hops, action, 0]);
    head[48..50].copy_from_slice(&[0, 1]);
    head[50..52].copy_from_slice(&(2 + data.len() as u16).to_be_bytes());
    head[52..54].copy_from_slice(&id.to_be_bytes());
    out.clear();
    out.extend_from_slice(&head);
    out.extend_from_slice(data);
}

impl Clock {
    fn judge(&self, m: &View) -> (Verdict, Option<usize>) {
        let (source, target) = (m.identity(20), m.identity(34));
        let (action, id, port, octets) = m.request();
        let manager = self.managers.iter().position(|x| x.0 == source && target.0 == self.me);
        let kept = manager.and_then(|at| self.managers[at].1.as_ref());
        let addressed = (target.0 == self.me || target.0 == [0xff; 8])
            && (target.1 == 0xffff || target.1 >= 1 && target.1 <= self.ports.len() as u16);
        let is_same = |k: &Kept| k.request == (action, id, port) && k.octets == octets;
        let asks = addressed && source.0 != self.me && action != 2 && action != 4;
        let repeat = || asks && kept.is_some_and(|k| k.number == u16_at(m.0, 30) && is_same(k));
        let verdict = if m.0[0] / 16 != 0 || m.0[5] != 0 || m.0[4] != self.domain && !repeat() {
            Verdict::OtherDomain
        } else if source.0 == self.me {
            Verdict::OwnMessage
        } else if !addressed {
            Verdict::NotAddressed
        } else if !asks {
            Verdict::NotARequest
        } else if manager.is_none() {
            Verdict::AnsweredUnnumbered
        } else if let Some(k) = kept {
            match u16_at(m.0, 30).wrapping_sub(k.number) {
                0 if is_same(k) => Verdict::AnsweredRepeat,
                0 => Verdict::DroppedConflict,
                1..=32767 => Verdict::AnsweredNew,
                _ => Verdict::DroppedOld,
            }
        } else {
            Verdict::AnsweredNew
        };
        (verdict, manager)
    }

    fn set(&mut self, id: u16, named: std::ops::RangeInclusive<u16>, octets: &[u8]) {
        match id {
            0x0002 => {
                if is_text(octets) && octets[0] <= 128 && std::str::from_utf8(&octets[1..=octets[0] as usize]).is_ok() {
                    self.description.clear();
                    self.description.extend_from_slice(octets);
                }
            }
            _ if octets.len() != 2 => {}
            0x2005 | 0x2006 => self.priority[(id - 0x2005) as usize] = octets[0],
            0x2009 => named.for_each(|port| self.ports[port as usize - 1].log_announce = octets[0] as i8),
            _ => {}
        }
    }

    /// Writes the dataField, and tells its size.
    fn put_data_field(&self, id: u16, number: u16, data: &mut [u8; 26]) -> usize {
        if id == 0x2005 || id == 0x2006 {
            data[..2].copy_from_slice(&[self.priority[(id - 0x2005) as usize], 0]);
            return 2;
        }
        let port = &self.ports[number as usize - 1];
        if id == 0x2009 {
            data[..2].copy_from_slice(&[port.log_announce as u8, 0]);
            return 2;
        }
        data[..8].copy_from_slice(&self.me);
        data[8..10].copy_from_slice(&number.to_be_bytes());
        data[10..12].copy_from_slice(&[port.state, port.log_min_delay_req as u8]);
        data[12..20].copy_from_slice(&port.peer_delay.to_be_bytes());
        data[20..26].copy_from_slice(&[
            port.log_announce as u8, port.receipt_timeout, port.log_sync as u8, port.mechanism, port.log_min_pdelay as u8, 2,
        ]);
        26
    }

    /// Writes the reply, and tells how many messages it has.
    fn reply(&self, ingress: u16, m: &View, named: std::ops::RangeInclusive<u16>, out: &mut [(u16, Vec<u8>)]) -> usize {
        let (id, mut data, mut count) = (u16_at(m.0, 52), [0; 26], 0);
        for number in named {
            let octets = match id {
                0x0002 => &self.description[..],
                _ => {
                    let size = self.put_data_field(id, number, &mut data);
                    &data[..size]
                }
            };
            let source = if is_of_port(id) { number } else { ingress };
            out[count].0 = ingress;
            encode(&self.me, source, m, 2, id, octets, &mut out[count].1);
            count += 1;
        }
        count
    }

    #[inline(never)]
    fn handle(&mut self, ingress: u16, datagram: &[u8], out: &mut [(u16, Vec<u8>)]) -> (Verdict, usize) {
        let Some(m) = view(datagram) else { return (Verdict::Malformed, 0) };
        let (verdict, manager) = self.judge(&m);
        let (action, id, port, octets) = m.request();
        let mut count = 0;
        if m.identity(34).0 != self.me && m.0[45] > 0 && self.ports[ingress as usize - 1].forwarding {
            for port in 1..=self.ports.len() as u16 {
                if port != ingress && self.ports[port as usize - 1].forwarding {
                    out[count].0 = port;
                    out[count].1.clear();
                    out[count].1.extend_from_slice(m.0);
                    out[count].1[45] -= 1;
                    count += 1;
                }
            }
        }
        let named = match port {
            _ if !is_of_port(id) => 1..=1,
            0xffff => 1..=self.ports.len() as u16,
            _ => port..=port,
        };
        match (verdict, manager) {
            (Verdict::AnsweredNew, Some(manager)) => {
                if action == 1 {
                    self.set(id, named.clone(), octets);
                }
                let replies = self.reply(ingress, &m, named, out);
                let kept = self.managers[manager].1.get_or_insert_with(Kept::default);
                (kept.number, kept.request) = (u16_at(m.0, 30), (action, id, port));
                kept.octets.clear();
                kept.octets.extend_from_slice(octets);
                kept.of_port = is_of_port(id);
                kept.replies.resize_with(replies, Vec::new);
                for (kept, (_, sent)) in kept.replies.iter_mut().zip(&*out) {
                    kept.clear();
                    kept.extend_from_slice(sent);
                }
                count += replies;
            }
            (Verdict::AnsweredRepeat, Some(manager)) => {
                let kept = self.managers[manager].1.as_ref().unwrap();
                for (reply, place) in kept.replies.iter().zip(&mut *out) {
                    place.0 = ingress;
                    place.1.clear();
                    place.1.extend_from_slice(reply);
                    place.1[4] = m.0[4];
                    if !kept.of_port {
                        place.1[28..30].copy_from_slice(&ingress.to_be_bytes());
                    }
                    place.1[44..46].fill(m.0[44].saturating_sub(m.0[45]));
                    count += 1;
                }
            }
            (Verdict::AnsweredUnnumbered, _) if action == 0 => count += self.reply(ingress, &m, named, &mut out[count..]),
            _ => {}
        }
        (verdict, count)
    }
}

fn is_of_port(id: u16) -> bool {
    id == 0x2004 || id == 0x2009
}

struct Ask {
    action: u8,
    id: u16,
    port: u16,
    octets: Vec<u8>,
}

/// One manager's requests to one clock, one at a time.
struct Session {
    me: Identity,
    target: [u8; 8],
    domain: u8,
    first: u16,
    hops: u8,
    attempts: u8,
    attempts_left: u8,
    issued: u64,
    asked: Option<Ask>,
}

#[derive(Debug)]
enum Outcome {
    Value(Vec<u8>),
    Done,
    Refused(u16),
}

impl Session {
    fn number(&self) -> u16 {
        (self.first as u64 + self.issued - 1) as u16
    }

    #[inline(never)]
    fn begin(&mut self, ask: &Ask) -> bool {
        let is_reply = ask.action == 2 || ask.action == 4;
        if self.asked.is_some() || is_reply || ask.octets.len() % 2 != 0 || ask.octets.len() > 1418 || self.issued >= 1_000_000 {
            return false;
        }
        self.issued += 1;
        self.asked = Some(Ask { octets: ask.octets.clone(), ..*ask });
        self.attempts_left = self.attempts;
        true
    }

    #[inline(never)]
    fn send(&mut self, out: &mut Vec<u8>) -> bool {
        let Some(ask) = &self.asked else { return false };
        if self.attempts_left == 0 {
            return false;
        }
        let mut head = [0; 54];
        head[..2].copy_from_slice(&[0x0d, 0x12]);
        head[2..4].copy_from_slice(&(54 + ask.octets.len() as u16).to_be_bytes());
        head[4] = self.domain;
        head[20..28].copy_from_slice(&self.me.0);
        head[28..30].copy_from_slice(&self.me.1.to_be_bytes());
        head[30..32].copy_from_slice(&self.number().to_be_bytes());
        head[32..34].copy_from_slice(&[0x04, 0x7f]);
        head[34..42].copy_from_slice(&self.target);
        head[42..44].copy_from_slice(&ask.port.to_be_bytes());
        head[44..48].copy_from_slice(&[self.hops, self.hops, ask.action, 0]);
        head[48..50].copy_from_slice(&[0, 1]);
        head[50..52].copy_from_slice(&(2 + ask.octets.len() as u16).to_be_bytes());
        head[52..54].copy_from_slice(&ask.id.to_be_bytes());
        out.clear();
        out.extend_from_slice(&head);
        out.extend_from_slice(&ask.octets);
        self.attempts_left -= 1;
        true
    }

    /// The answer to the request, with its index; `None` where the datagram is ignored.
    #[inline(never)]
    fn receive(&mut self, datagram: &[u8]) -> Option<(u64, Outcome)> {
        let m = view(datagram)?;
        let (b, action, source) = (m.0, m.0[46] % 16, m.identity(20));
        let is_asked = |port: u16| self.asked.as_ref().is_none_or(|ask| ask.port == 0xffff || ask.port == port);
        if b[0] / 16 != 0 || b[5] != 0 || b[4] != self.domain || action != 2 && action != 4 || m.identity(34) != self.me {
            return None;
        }
        if source.0 != self.target || !is_asked(source.1) {
            return None;
        }
        let ask = self.asked.as_ref()?;
        let refused = (u16_at(b, 48) == 2).then(|| u16_at(b, 52));
        let id = u16_at(b, if refused.is_some() { 54 } else { 52 });
        if u16_at(b, 30) != self.number() || action != (if ask.action == 3 { 4 } else { 2 }) || id != ask.id {
            return None;
        }
        let outcome = match refused {
            Some(error) => Outcome::Refused(error),
            None if action == 4 => Outcome::Done,
            None => Outcome::Value(b[54..].to_vec()),
        };
        self.asked = None;
        Some((self.issued, outcome))
    }
}

/// What a manager spends on a datagram, by the word.
fn manage(word: &str, mut datagram: Vec<u8>, count: u32) {
    let me = ([0x00, 0x11, 0x22, 0x33, 0x44, 0x55, 0x66, 0x77], 1);
    let target = [0xaa, 0xbb, 0xcc, 0xff, 0xfe, 0xdd, 0xee, 0x01];
    let ask = Ask { action: 0, id: 0x2005, port: 0xffff, octets: Vec::new() };
    let mut session =
        Session { me, target, domain: 0, first: 1, hops: 1, attempts: 1, attempts_left: 0, issued: 0, asked: None };
    let (mut out, mut last) = (Vec::with_capacity(1472), None);
    if word != "receive" {
        session.begin(&ask);
    }
    for _ in 0..count {
        match word {
            "send" => {
                std::hint::black_box(&mut session).attempts_left = 1;
                session.send(&mut out);
            }
            "receive" => {
                session.begin(&ask);
                datagram[30..32].copy_from_slice(&(session.issued as u16).to_be_bytes());
                last = session.receive(&datagram);
            }
            _ => last = session.receive(std::hint::black_box(&datagram)),
        }
    }
    println!("{} {:x?} {last:x?}", session.issued, out);
}

fn main() {
    let words: Vec<String> = std::env::args().collect();
    let octets = |text: &str| -> Vec<u8> {
        (0..text.len() / 2).map(|i| u8::from_str_radix(&text[2 * i..2 * i + 2], 16).unwrap()).collect()
    };
    let first = "0d12003600000000000000000000000000000000001122334455667700010007047faabbccfffeddee01ffff01010000000100022005";
    let number = |place: usize, otherwise: usize| words.get(place).map_or(otherwise, |word| word.parse().unwrap());
    let me = [0xaa, 0xbb, 0xcc, 0xff, 0xfe, 0xdd, 0xee, 0x01];
    let asks = [0x00, 0x11, 0x22, 0x33, 0x44, 0x55, 0x66, 0x77];
    let port = Port {
        forwarding: true, state: 6, peer_delay: 0, log_min_delay_req: 0, log_announce: 1, receipt_timeout: 3, log_sync: 0,
        mechanism: 1, log_min_pdelay: 0,
    };
    let start = || -> (Clock, Vec<(u16, Vec<u8>)>) {
        let managers = (1..=number(5, 1) as u16).rev().map(|port| ((asks, port), None)).collect();
        let ports = vec![port.clone(); number(4, 2)];
        let clock = Clock { me, domain: 0, priority: [128; 2], description: vec![0, 0], ports, managers };
        (clock, (0..15).map(|_| (0, Vec::with_capacity(1472))).collect())
    };
    let (mut clock, mut out) = start();
    match words[2].as_str() {
        "start" => return (0..number(3, 0)).for_each(|_| drop(std::hint::black_box(start()))),
        "send" | "receive" | "ignore" => return manage(&words[2], octets(&words[1]), number(3, 0) as u32),
        _ => {}
    }
    let mut last = clock.handle(1, &octets(words.get(6).map_or(first, |word| word)), &mut out);
    let (mut datagram, step) = (octets(&words[1]), words[2].parse().unwrap_or(0));
    datagram.resize(datagram.len().max(u16_at(&datagram, 2) as usize), 0);
    for _ in 0..words[3].parse::<u32>().unwrap() {
        let number = u16_at(&datagram, 30).wrapping_add(step);
        datagram[30..32].copy_from_slice(&number.to_be_bytes());
        match words[2].as_str() {
            "nothing" => {}
            _ => last = clock.handle(1, &datagram, &mut out),
        }
    }
    println!("{:?} {} {:x?}", last.0, last.1, &out[..last.1]);
}
