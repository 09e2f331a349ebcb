//! Requests to the C driver and its answers, as bytes (tests/driver.c lays them out), and the answer this program expects.

use crate::bytes::{Reader, Writer};
use crate::fault::{or, seeded, Fault};
use crate::frame;
use crate::table;
use crate::walk::{walk as walk_step, Found, Step};

/// What an out value holds before a call.
const UNSET: u64 = 0x5A5A_5A5A_5A5A_5A5A;

/// The functions, by their number in a request.
pub const TABLE_CHECK: u8 = 1;
pub const FRAMING: u8 = 2;
pub const WALK: u8 = 3;

/// A request for the table check of an image.
pub fn table_check(image: &[u8]) -> Vec<u8> {
    Writer::default().number(TABLE_CHECK, 1).bytes(image).0
}

/// A request for framing; `room` bytes of out buffer, filled with `fill`.
pub fn framing(id: u32, room: usize, fill: u8, payload: &[u8]) -> Vec<u8> {
    Writer::default().number(FRAMING, 1).number(id, 4).number(room as u64, 4).number(fill, 1).bytes(payload).0
}

/// A request for one step of a walk.
pub fn walk(image: &[u8], connection: u64, switches: u32, datagram: &[u8], place: u64) -> Vec<u8> {
    let numbers = Writer::default().number(WALK, 1).number(connection, 8).number(switches, 4).number(place, 8);
    numbers.number(image.len() as u64, 4).bytes(image).bytes(datagram).0
}

/// The answer that the rules give to a request.
pub fn expected(request: &[u8]) -> Vec<u8> {
    let (function, arguments) = request.split_first().expect("a request names a function");
    match *function {
        TABLE_CHECK => expected_table_check(arguments),
        FRAMING => expected_framing(Reader::new(arguments, 0)),
        WALK => expected_walk(Reader::new(arguments, 0)),
        _ => panic!("no such function"),
    }
}

fn expected_table_check(image: &[u8]) -> Vec<u8> {
    let (number, place) = match table::check(image) {
        Ok(_) => (0u8, UNSET),
        Err(place) => (1, place as u64),
    };
    Writer::default().number(number, 4).number(place, 8).0
}

fn expected_framing(mut arguments: Reader) -> Vec<u8> {
    let (id, room, fill) = (arguments.number(4) as u32, arguments.number(4) as usize, arguments.number(1) as u8);
    let mut out = vec![fill; room];
    let number = frame::frame(id, arguments.rest(), &mut out);
    Writer::default().number(number, 4).bytes(&out).0
}

/// "that walk takes image, connection and switches, gets 1 first for a bad image, has no 4 and changes no state"; then 2, 3.
fn expected_walk(mut arguments: Reader) -> Vec<u8> {
    let (connection, switches, place) = (arguments.number(8), arguments.number(4) as u32, arguments.number(8));
    let image_length = arguments.number(4) as usize;
    let (image, datagram) = (arguments.bytes(image_length), arguments.rest());
    match c_walk(image, connection, switches, datagram, place) {
        Ok(step) => walk_answer(&step),
        Err(number) => {
            let unset = |writer: Writer, &width: &usize| writer.number(UNSET >> (64 - 8 * width), width);
            [8, 4, 4, 4, 4, 8].iter().fold(Writer::default().number(number, 4), unset).0
        }
    }
}

fn c_walk(image: &[u8], connection: u64, switches: u32, datagram: &[u8], place: u64) -> Result<Step, u8> {
    let table = table::check(image).map_err(|_| 1)?;
    let connection = or(Fault::ConnectionAsByte, connection, connection & 255);
    if seeded(Fault::PlaceBeforeConnection) && place > datagram.len() as u64 {
        return Err(3);
    }
    if connection >= table.connections.len() as u64 {
        return Err(or(Fault::ConnectionPastIsTcp, 2, 3));
    }
    walk_step(&table, connection as usize, switches, datagram, place as usize)
}

fn walk_answer(step: &Step) -> Vec<u8> {
    let (kind, number, header, at) = match step.found {
        Found::End => (0u8, 0, Default::default(), 0),
        Found::Pdu { route, header, at } => (1, route as u64, header, at),
        Found::Drop { reason, header } => (2, u64::from(reason), header, 0),
    };
    let answer = Writer::default().number(0u8, 4).number(step.next as u64, 8).number(kind, 4).number(number, 4);
    answer.number(header.id, 4).number(header.length, 4).number(at as u64, 8).0
}

/// An answer in words.
pub fn words(request: &[u8], answer: &[u8]) -> String {
    if answer.is_empty() {
        return "no answer".into();
    }
    let mut values = Reader::new(answer, 0);
    let number = values.number(4);
    let mut told = |name: &str, width: usize| {
        let value = values.number(width);
        let stayed = value == UNSET >> (64 - 8 * width);
        format!(", {} {}", name, if stayed { "as it was".into() } else { value.to_string() })
    };
    let rest: String = match request[0] {
        TABLE_CHECK => told("place", 8),
        WALK => {
            let names = [("next", 8), ("kind", 4), ("number", 4), ("id", 4), ("length", 4), ("at", 8)];
            names.iter().map(|&(name, width)| told(name, width)).collect()
        }
        _ => format!(", out {}", crate::bytes::hex(values.rest())),
    };
    format!("answer {}{}", number, rest)
}

/// What kind of answer it is: each kind is to be met in a run.
pub fn kind(request: &[u8], answer: &[u8]) -> String {
    let mut values = Reader::new(answer, 0);
    let number = values.number(4);
    match (request[0], number) {
        (TABLE_CHECK, 1) => refused_table(&request[1..], values.number(8) as usize),
        (WALK, 0) => match (values.number(8), values.number(4), values.number(4)) {
            (_, 0, _) => "end".into(),
            (_, 1, _) => "PDU".into(),
            (_, _, reason) => format!("drop {}", reason),
        },
        _ => format!("answer {}", number),
    }
}

fn refused_table(image: &[u8], place: usize) -> String {
    let bodies = [0, 1, 2, 3].map(|kind| crate::bytes::number(image, 8 + 8 * kind, 4) as usize);
    match place {
        0 => "front".into(),
        4 | 12 | 20 | 28 => format!("contents entry {}", place / 8 + 1),
        2 => "length".into(),
        _ if place < bodies[1] => "group row".into(),
        _ if place < bodies[2] => "connection row".into(),
        _ if place < bodies[3] => "route row".into(),
        _ => "destination row".into(),
    }
}

/// The kinds of answer of each part; a comparison that misses one does not count.
pub fn kinds_to_meet(part: &str) -> &'static [&'static str] {
    match part {
        "table" => &[
            "answer 0",
            "front",
            "contents entry 1",
            "contents entry 2",
            "contents entry 3",
            "contents entry 4",
            "length",
            "group row",
            "connection row",
            "route row",
            "destination row",
        ],
        "walk" => &["answer 1", "answer 2", "answer 3", "end", "PDU", "drop 20", "drop 21", "drop 22", "drop 23"],
        "frame" => &["answer 0", "answer 7", "answer 9"],
        _ => &[],
    }
}
