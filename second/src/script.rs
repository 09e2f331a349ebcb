//! Scripts: events as numbers and bytes, as docs/EVENTS.md lays them out; written and read.

use crate::bytes::{Reader, Writer};
use crate::event::Event;
use crate::state::{Mode, Record, State, World, RECEIVE, RECORDS, SEND};
use crate::stream::Part;
use crate::table::Remote;

pub const START_STATE: u16 = 65_535;
const MOST_BODY: usize = 4096;

/// Bytes of a record in a start state; before there were alive timers; of a whole start state.
pub const RECORD: usize = 46;
pub const OLDER_RECORD: usize = 43;
const START_BODY: usize = RECORDS * RECORD + 8 + RECEIVE + SEND;

/// What an entry asks for.
#[derive(Clone, Debug)]
pub enum Entry {
    Event(Event),
    Start(Box<Start>),
}

/// A state and both lent memories.
#[derive(Clone, Debug)]
pub struct Start {
    pub state: State,
    pub receive: Vec<u8>,
    pub send: Vec<u8>,
}

/// Why an entry is refused.
#[derive(Clone, Copy, PartialEq, Eq, Debug)]
pub enum Refused {
    Unknown,
    Zero,
    Body,
}

/// "An entry: event number (2), zero (2), body length (4), body."
pub fn entry(number: u16, zero: u16, body: &[u8]) -> Vec<u8> {
    Writer::default().number(number, 2).number(zero, 2).number(body.len() as u64, 4).bytes(body).0
}

/// "An address is family (1), which is 4; sixteen bytes (16), of which the first twelve are 0 and the last four the IPv4
/// address; port (2)."
pub fn address(body: Writer, remote: Remote) -> Writer {
    body.number(4u8, 1).bytes(&[0; 12]).number(remote.address, 4).number(remote.port, 2)
}

fn read_address(body: &mut Reader) -> Option<Remote> {
    let (family, zeros) = (body.number(1), body.bytes(12));
    let remote = Remote { address: body.number(4) as u32, port: body.number(2) as u16 };
    (family == 4 && zeros.iter().all(|&byte| byte == 0)).then_some(remote)
}

/// The number of an event.
pub fn number_of(event: &Event) -> u16 {
    crate::bytes::number(&write(event), 0, 2) as u16
}

/// The entry of an event.
pub fn write(event: &Event) -> Vec<u8> {
    let body = Writer::default().number(0u8, 1);
    let bytes = |body: Writer, bytes: &[u8]| body.number(bytes.len() as u64, 4).bytes(bytes);
    let (number, body) = match event {
        Event::Ticks(times) => (0, Writer::default().number(*times, 4)),
        Event::Open(connection) => (1, body.number(*connection, 1)),
        Event::Close(connection) => (2, body.number(*connection, 1)),
        Event::Connected(connection) => (3, body.number(*connection, 1)),
        Event::Lost(connection) => (4, body.number(*connection, 1)),
        Event::SetRemote(connection, remote) => (5, address(body.number(*connection, 1), *remote)),
        Event::Switch(connection, number, on) => (6, body.number(*connection, 1).number(*number, 1).number(*on, 1)),
        Event::Segment(connection, segment) => (7, bytes(body.number(*connection, 1), segment)),
        Event::Walk(connection, place, datagram) => (8, bytes(body.number(*connection, 1).number(*place, 4), datagram)),
        Event::TakeWaiting(connection, room) => (9, body.number(*connection, 1).number(*room, 4)),
        Event::Datagram(group, source) => (10, address(body.number(*group, 1), *source)),
        Event::Accept(group, source) => (11, address(body.number(*group, 1), *source)),
        Event::Transmit(pdu, payload) => (12, bytes(body.number(*pdu, 2), payload)),
        Event::SwitchAll(number, on) => (13, body.number(*number, 1).number(*on, 1)),
        Event::ReadCount(protocol) => (14, body.number(*protocol, 1)),
        Event::ReadAndClear(protocol) => (15, body.number(*protocol, 1)),
        Event::Cancel(connection) => (16, body.number(*connection, 1)),
    };
    entry(number, 0, &body.0)
}

/// A body that is read to its end, or does not fit.
pub struct Body<'a> {
    reader: Reader<'a>,
    left: usize,
    fits: bool,
}

impl<'a> Body<'a> {
    pub fn new(body: &'a [u8]) -> Self {
        Body { reader: Reader::new(body, 0), left: body.len(), fits: true }
    }

    fn takes(&mut self, width: usize) -> bool {
        self.fits &= self.left >= width;
        self.left = self.left.saturating_sub(width);
        self.fits
    }

    pub fn number(&mut self, width: usize) -> u64 {
        match self.takes(width) {
            true => self.reader.number(width),
            false => 0,
        }
    }

    fn byte(&mut self) -> u8 {
        self.number(1) as u8
    }

    /// A number that must be at most this.
    pub fn at_most(&mut self, width: usize, most: u64) -> u64 {
        let value = self.number(width);
        self.fits &= value <= most;
        value
    }

    fn flag(&mut self) -> bool {
        self.at_most(1, 1) == 1
    }

    fn address(&mut self) -> Remote {
        let remote = if self.takes(19) { read_address(&mut self.reader) } else { None };
        self.fits &= remote.is_some();
        remote.unwrap_or_default()
    }

    /// Bytes that are not looked at.
    pub fn skip(&mut self, width: usize) {
        if self.takes(width) {
            self.reader.bytes(width);
        }
    }

    fn bytes(&mut self, length: usize) -> Vec<u8> {
        match self.takes(length) {
            true => self.reader.bytes(length).to_vec(),
            false => vec![],
        }
    }

    /// "A length (4) is that of the bytes that follow it, which end the body."
    fn counted(&mut self) -> Vec<u8> {
        let length = self.number(4) as usize;
        self.bytes(length)
    }

    pub fn end<T>(self, value: T) -> Result<T, Refused> {
        (self.fits && self.left == 0).then_some(value).ok_or(Refused::Body)
    }
}

/// What is refused before the body is read: an unknown number, a zero field that is not 0, a body longer than any.
pub fn read_head(number: u16, zero: u16, length: usize) -> Result<(), Refused> {
    let most = match number {
        0..=16 => MOST_BODY,
        START_STATE => START_BODY,
        _ => return Err(Refused::Unknown),
    };
    if zero != 0 {
        return Err(Refused::Zero);
    }
    (length <= most).then_some(()).ok_or(Refused::Body)
}

/// What an entry's body asks for. "start state (scripts only; the first entry or none)".
pub fn read_body(number: u16, body: &[u8], first: bool) -> Result<Entry, Refused> {
    match number {
        START_STATE if !first => Err(Refused::Body),
        START_STATE => read_start(body).map(|start| Entry::Start(Box::new(start))),
        _ => read_event(number, Body::new(body)).map(Entry::Event),
    }
}

fn read_event(number: u16, mut body: Body) -> Result<Event, Refused> {
    if number > 0 {
        body.at_most(1, 0); // the party
    }
    let event = match number {
        0 => Event::Ticks(body.number(4) as u32),
        1 => Event::Open(body.byte()),
        2 => Event::Close(body.byte()),
        3 => Event::Connected(body.byte()),
        4 => Event::Lost(body.byte()),
        5 => Event::SetRemote(body.byte(), body.address()),
        6 => Event::Switch(body.byte(), body.byte(), body.flag()),
        7 => Event::Segment(body.byte(), body.counted()),
        8 => Event::Walk(body.byte(), body.number(4) as u32, body.counted()),
        9 => Event::TakeWaiting(body.byte(), body.number(4) as u32),
        10 => Event::Datagram(body.byte(), body.address()),
        11 => Event::Accept(body.byte(), body.address()),
        12 => Event::Transmit(body.number(2) as u16, body.counted()),
        13 => Event::SwitchAll(body.byte(), body.flag()),
        14 => Event::ReadCount(body.byte()),
        15 => Event::ReadAndClear(body.byte()),
        _ => Event::Cancel(body.byte()),
    };
    body.end(event)
}

/// The entry of a start state.
pub fn write_start(world: &World) -> Vec<u8> {
    let mut body = Writer::default();
    for record in &world.state.records {
        body = body.number(record.mode as u8, 1).number(record.open_wanted, 1).number(record.close_wanted, 1);
        body = address(body, record.remote).number(record.switches, 4);
        let (kind, route, held, number) = match record.part {
            Part::Header { held, value } => (0u8, 0, held.into(), value),
            Part::Payload { route, length, held } => (1, route, held, length.into()),
            Part::Skip(left) => (2, 0, 0, left.into()),
            Part::Transfer { route, left } => (3, route, 0, left.into()),
        };
        body = body.number(kind, 1).number(route, 1).number(held, 2).number(number, 8);
        body = body.number(record.used, 2).number(record.timer, 2).number(record.due, 1);
        body = body.number(record.alive, 2).number(record.remote_set, 1);
    }
    let body = body.number(world.state.udp_drops, 4).number(world.state.tcp_drops, 4);
    entry(START_STATE, 0, &body.bytes(&world.receive).bytes(&world.send).0)
}

fn read_start(body: &[u8]) -> Result<Start, Refused> {
    if body.len() != START_BODY {
        return Err(Refused::Body);
    }
    let mut body = Body::new(body);
    let records = (0..RECORDS).map(|_| read_record(&mut body)).collect();
    let state = State { records, udp_drops: body.number(4) as u32, tcp_drops: body.number(4) as u32 };
    let start = Start { state, receive: body.bytes(RECEIVE), send: body.bytes(SEND) };
    body.end(start)
}

fn read_record(body: &mut Body) -> Record {
    let mode = [Mode::Offline, Mode::Reconnect, Mode::Online][body.at_most(1, 2).min(2) as usize];
    let (open_wanted, close_wanted) = (body.flag(), body.flag());
    let (remote, switches) = (body.address(), body.number(4) as u32);
    let part = read_part(body);
    Record {
        mode,
        open_wanted,
        close_wanted,
        remote,
        switches,
        part,
        used: body.number(2) as u16,
        timer: body.number(2) as u16,
        due: body.flag(),
        alive: body.number(2) as u16,
        remote_set: body.flag(),
    }
}

/// "A value that its field cannot hold (.. a kind above 3, a payload's length above 65,535, bytes to skip or to come above 4,294,967,295,
/// a route or held bytes where the kind has none) does not fit."
fn read_part(body: &mut Body) -> Part {
    match body.at_most(1, 3) {
        0 => {
            let (_, held) = (body.at_most(1, 0), body.at_most(2, 255) as u8);
            Part::Header { held, value: body.number(8) }
        }
        1 => {
            let (route, held) = (body.byte(), body.number(2) as u16);
            Part::Payload { route, held, length: body.at_most(8, 65_535) as u16 }
        }
        2 => {
            let _ = (body.at_most(1, 0), body.at_most(2, 0));
            Part::Skip(body.at_most(8, u32::MAX.into()) as u32)
        }
        _ => {
            let (route, _) = (body.byte(), body.at_most(2, 0));
            Part::Transfer { route, left: body.at_most(8, u32::MAX.into()) as u32 }
        }
    }
}

/// Where the image at the front of an input ends: "where its own contents say", or with the input.
pub fn image_end(input: &[u8]) -> usize {
    let counts = [0, 1, 2, 3].map(|kind| crate::bytes::number(input, 6 + 8 * kind, 2) as usize);
    let (start, rows) = crate::table::layout(counts)[3];
    (start + rows * crate::table::ROW_BYTES[3]).min(input.len())
}

/// Where the entry that stands at a place ends; nothing where none is taken there.
pub fn entry_end(input: &[u8], at: usize, first: bool) -> Option<usize> {
    let mut head = Reader::new(&input[at..], 0);
    let (event, zero, length) = (head.number(2) as u16, head.number(2) as u16, head.number(4) as usize);
    let end = at + 8 + length;
    let whole = at + 8 <= input.len() && read_head(event, zero, length).is_ok() && end <= input.len();
    (whole && read_body(event, head.bytes(length), first).is_ok()).then_some(end)
}

#[cfg(test)]
mod tests {
    use super::*;

    #[test]
    fn events_go_out_and_come_back() {
        let remote = Remote { address: 0x0A00_0001, port: 30490 };
        let events = [
            Event::Ticks(3),
            Event::Lost(2),
            Event::SetRemote(1, remote),
            Event::Switch(1, 31, true),
            Event::Segment(3, vec![1, 2, 3]),
            Event::Walk(3, 7, vec![]),
            Event::TakeWaiting(0, 1472),
            Event::Accept(1, remote),
            Event::Transmit(0x201, vec![0, 0xB4]),
            Event::SwitchAll(0, false),
            Event::ReadAndClear(2),
            Event::Cancel(15),
        ];
        for event in events {
            let bytes = write(&event);
            let mut fields = Reader::new(&bytes, 0);
            let (number, zero, length) = (fields.number(2) as u16, fields.number(2) as u16, fields.number(4) as usize);
            let body = fields.rest();
            assert_eq!(length, body.len());
            assert_eq!(read_head(number, zero, length), Ok(()));
            assert!(matches!(read_body(number, body, false), Ok(Entry::Event(same)) if same == event));
            assert!(matches!(read_body(number, &[body, &[0]].concat(), false), Err(Refused::Body)));
            assert!(matches!(read_body(number, &body[..length - 1], false), Err(Refused::Body)));
        }
    }

    #[test]
    fn a_start_state_comes_back() {
        let mut world = World::new(&crate::table::whole_image());
        world.state.records[1].part = Part::Transfer { route: 63, left: u32::MAX };
        (world.state.records[1].alive, world.state.records[2].remote_set) = (0x1234, true);
        let bytes = write_start(&world);
        assert_eq!(bytes.len(), 8 + START_BODY);
        assert!(matches!(read_body(START_STATE, &bytes[8..], true), Ok(Entry::Start(start)) if start.state == world.state));
    }
}
