//! The program `test_takes`: a table and segments on one of its connections, take by take, and what it is to print.

use crate::bytes::{hex, Reader, Writer};
use crate::event::{run, Done, Event};
use crate::generate::datagram::{few_routes, frames, mixed_frames, mixed_transfers};
use crate::generate::table::{mark, switches, table};
use crate::random::Random;
use crate::state::{Mode, World};
use crate::stream::{Outcome, Stood, Take};
use crate::table::{Remote, Table, LONGEST, TCP};

/// The remote of the connection that a table record puts online.
const PEER: Remote = Remote { address: 1, port: 1 };

/// A record: kind 1, a table image, or 2, a segment; the connection, its switches, and the bytes.
#[derive(Clone)]
pub struct Item {
    pub segment: bool,
    pub connection: u8,
    pub switches: u32,
    pub bytes: Vec<u8>,
}

/// The case of one stream on connection 0 of a table, with all switches off.
pub fn stream(image: Vec<u8>, segments: &[Vec<u8>]) -> Case {
    let item = |segment, bytes| Item { segment, connection: 0, switches: 0, bytes };
    std::iter::once(item(false, image)).chain(segments.iter().map(|bytes| item(true, bytes.clone()))).collect()
}

/// A table and the segments under it.
pub type Case = Vec<Item>;

/// The input of the program.
pub fn input(case: &Case) -> Vec<u8> {
    let write = |item: &Item| {
        let head = Writer::default().number(1 + u8::from(item.segment), 1).number(item.connection, 1);
        head.number(item.bytes.len() as u64, 2).number(item.switches, 4).bytes(&item.bytes).0
    };
    case.iter().flat_map(write).collect()
}

/// The records of an input, as far as they are whole.
pub fn read(input: &[u8]) -> Case {
    let mut case = Case::new();
    let mut rest = input;
    while rest.len() >= 8 {
        let mut head = Reader::new(rest, 0);
        let (kind, connection) = (head.number(1), head.number(1) as u8);
        let (length, switches) = (head.number(2) as usize, head.number(4) as u32);
        if rest.len() - 8 < length || !(1..=2).contains(&kind) {
            break;
        }
        case.push(Item { segment: kind == 2, connection, switches, bytes: head.bytes(length).to_vec() });
        rest = head.rest();
    }
    case
}

/// What cases must meet: outcomes of takes.
pub const TO_MEET: &[&str] = &["more", "pdu", "drop", "start", "piece", "last"];

/// How many of some lines are of a kind of outcome.
pub fn met<'a>(lines: impl Iterator<Item = &'a String>, kind: &str) -> usize {
    lines.filter(|line| line.split(' ').nth(1) == Some(kind)).count()
}

/// The lines that the program is to print for a case.
pub fn lines(case: &Case) -> Vec<String> {
    let mut world = World::new(&[]);
    let mut lines = Vec::new();
    for item in case {
        if item.segment {
            world.state.records[usize::from(item.connection)].switches = item.switches;
            match run(&mut world, &Event::Segment(item.connection, item.bytes.clone())) {
                Ok(Done::Takes(takes)) => lines.extend(take_lines(&takes)),
                Err((number, _)) => lines.push(format!("refused {}", number)),
                Ok(_) => unreachable!("a segment event answers takes"),
            }
        } else {
            world = World::new(&item.bytes);
            lines.push(world.table.as_ref().map_or_else(|place| format!("table 1 {}", place), |_| "table 0".into()));
            if world.table.is_ok() {
                let record = &mut world.state.records[usize::from(item.connection)];
                (record.mode, record.remote, record.switches) = (Mode::Online, PEER, item.switches);
            }
        }
    }
    lines
}

/// A line for each take; places count from the take's first byte.
fn take_lines(takes: &[Take]) -> Vec<String> {
    let mut before = 0;
    let line = |take: &Take| {
        let words = match &take.outcome {
            Outcome::More => "more".into(),
            Outcome::Drop { reason, header } => format!("drop {} {} {}", reason, header.id, header.length),
            Outcome::Pdu { route, header, stood, payload } => {
                let stood = match stood {
                    Stood::Segment(at) => format!("segment {}", at - before),
                    Stood::Memory => "memory 0".into(),
                };
                let bytes = if payload.is_empty() { "-".into() } else { hex(payload) };
                format!("pdu {} {} {} {} x{}", route, header.id, header.length, stood, bytes)
            }
            Outcome::Start { route, header } => format!("start {} {} {}", route, header.id, header.length),
            Outcome::Piece { route, id, at, bytes, last } => {
                let kind = if *last { "last" } else { "piece" };
                format!("{} {} {} {} segment {} x{}", kind, route, id, bytes.len(), at - before, hex(bytes))
            }
        };
        before += take.read;
        format!("{} {}", take.read, words)
    };
    takes.iter().map(line).collect()
}

/// A table with TCP groups and marked routes, and a connection of it.
fn tcp_table(random: &mut Random) -> (Table, u8) {
    let counts = [random.between(1, 2), random.between(1, 3), random.between(1, 12), 0];
    let mut table = table(random, counts);
    table.groups.iter_mut().for_each(|group| group.protocol = TCP);
    mark(random, &mut table);
    (table, random.below(counts[1]) as u8)
}

/// A stream of frames, cut into segments anywhere; the switches change now and then. A line of the program has room for the longest payload, so
/// where pieces may come no segment is longer.
pub fn random_case(random: &mut Random) -> Case {
    let (table, connection) = tcp_table(random);
    let pieces = table.routes.iter().any(|route| route.connection == connection && route.transfer);
    let most = if pieces { usize::from(LONGEST) } else { usize::MAX };
    let mut bits = switches(random);
    let mut case = vec![Item { segment: false, connection, switches: bits, bytes: table.image() }];
    let mut stream = frames(random, &table, connection.into(), 12);
    while !stream.is_empty() {
        let length = if random.one_in(2) { random.below(20) } else { random.edge(0, stream.len()) };
        if random.one_in(8) {
            bits = switches(random);
        }
        let bytes = stream.drain(..length.min(stream.len()).min(most)).collect();
        case.push(Item { segment: true, connection, switches: bits, bytes });
    }
    case
}

/// Frames of every kind, and transfers among them, each cut in two places: each pair of places once.
pub fn cut_cases() -> Vec<Case> {
    [mixed_frames(), mixed_transfers()].iter().flat_map(|bytes| cut_twice(bytes)).collect()
}

fn cut_twice(bytes: &[u8]) -> Vec<Case> {
    let image = few_routes(TCP).image();
    let item = |segment, bytes: &[u8]| Item { segment, connection: 0, switches: 1, bytes: bytes.to_vec() };
    let cuts = (0..=bytes.len()).flat_map(|one| (one..=bytes.len()).map(move |two| (one, two)));
    let case = |(one, two)| {
        let parts = [&bytes[..one], &bytes[one..two], &bytes[two..]];
        std::iter::once(item(false, &image)).chain(parts.iter().map(|part| item(true, part))).collect()
    };
    cuts.map(case).collect()
}

#[cfg(test)]
mod tests {
    use super::*;

    #[test]
    fn a_cut_payload_comes_from_memory() {
        let mut image = crate::table::whole_image();
        image[36] = TCP;
        let item = |segment, bytes: &[u8]| Item { segment, connection: 0, switches: 1, bytes: bytes.to_vec() };
        let bytes = [0, 0, 1, 1, 0, 0, 0, 2, 0, 0xB4];
        assert_eq!(read(&input(&vec![item(true, &bytes)]))[0].bytes, bytes);
        let told = |cut: usize| lines(&vec![item(false, &image), item(true, &bytes[..cut]), item(true, &bytes[cut..])]);
        assert_eq!(told(8), ["table 0", "8 more", "2 pdu 0 257 2 segment 0 x00b4"]);
        assert_eq!(told(9), ["table 0", "9 more", "1 pdu 0 257 2 memory 0 x00b4"]);
        let mut marked = image.clone();
        marked[55] = 1;
        let segments =
            [item(false, &marked), item(true, &bytes[..9]), item(true, &bytes[9..]), item(true, &[0, 0, 1, 1, 0, 0, 0, 0])];
        let all =
            ["table 0", "8 start 0 257 2", "1 piece 0 257 1 segment 0 x00", "1 last 0 257 1 segment 0 xb4", "8 start 0 257 0"];
        assert_eq!(lines(&segments.to_vec()), all);
    }
}
