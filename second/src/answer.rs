//! Answers as bytes: docs/EVENTS.md, "The answer"; written, judged as a recording does, and read back as words.

use crate::bytes::{hex, Reader, Writer};
use crate::event::{Answer, Done, Event};
use crate::fault::{or, Fault};
use crate::header::Header;
use crate::script::{address, Body};
use crate::stream::{Outcome, Stood, Take};
use crate::table::Remote;
use crate::walk::{Found, Step};

/// "Answer number (2). Then, when it is not 0: the destination's row number (4) with a transmit's 4, 7 and 8; else 0 (4). When it is 0, by
/// event".
pub fn spell(answer: &Answer) -> Vec<u8> {
    let done = match answer {
        Err((number, destination)) => {
            return Writer::default().number(*number, 2).number(destination.unwrap_or(0) as u64, 4).0;
        }
        Ok(done) => done,
    };
    let front = Writer::default().number(0u8, 2);
    let whole = match done {
        Done::Nothing => front,
        Done::Ticked(failed) => front.number(*failed, 2),
        Done::Lost(failed) => front.number(*failed, 1),
        Done::Takes(takes) => takes.iter().fold(front.number(takes.len() as u64, 2), spell_take),
        Done::Walked(step) => spell_step(front, step),
        Done::Waiting(to, bytes) => address(front.number(bytes.len() as u64, 4), *to).bytes(bytes),
        Done::Chosen(connection) => front.number(*connection as u64, 1),
        Done::Count(value) => front.number(*value, 4),
    };
    whole.0
}

fn spell_found(to: Writer, kind: u8, number: u64, header: Header) -> Writer {
    to.number(kind, 1).number(number, 1).number(header.id, 4).number(header.length, 4)
}

/// "bytes read (4), kind (1: 0 more wanted, 1 PDU, 2 drop, 3 start, 4 piece, 5 last piece), route or reason (1), id (4), length (4)", and
/// where a payload or a piece stood.
fn spell_take(to: Writer, take: &Take) -> Writer {
    let to = to.number(take.read as u64, 4);
    match &take.outcome {
        Outcome::More => spell_found(to, 0, 0, Header::default()),
        Outcome::Drop { reason, header } => spell_found(to, 2, u64::from(*reason), *header),
        Outcome::Pdu { route, header, stood, payload } => {
            let to = spell_found(to, 1, *route as u64, *header);
            match stood {
                Stood::Segment(at) => to.number(0u8, 1).number(*at as u64, 4),
                Stood::Memory => to.number(1u8, 1).bytes(payload),
            }
        }
        Outcome::Start { route, header } => spell_found(to, 3, *route as u64, *header),
        Outcome::Piece { route, id, at, bytes, last } => {
            let header = Header { id: *id, length: bytes.len() as u32 };
            spell_found(to, if *last { 5 } else { 4 }, *route as u64, header).number(*at as u64, 4)
        }
    }
}

fn spell_step(to: Writer, step: &Step) -> Writer {
    let to = to.number(step.next as u64, 4);
    match step.found {
        Found::End => spell_found(to, 0, 0, Header::default()),
        Found::Drop { reason, header } => spell_found(to, 2, u64::from(reason), header),
        Found::Pdu { route, header, at } => spell_found(to, 1, route as u64, header).number(at as u64, 4),
    }
}

/// "Of the answer only what decides its length is judged".
pub fn fits(event: u16, answer: &[u8]) -> bool {
    let mut body = Body::new(answer);
    match (body.number(2), event) {
        (0, 4 | 10 | 11) => body.skip(1),
        (0, 14 | 15) => body.skip(4),
        (0, 7) => {
            let takes = body.number(2);
            (0..takes).for_each(|_| fit_take(&mut body));
        }
        (0, 8) => {
            let kind = fit_found(&mut body, 2).0;
            body.skip(if kind == 1 { 4 } else { 0 });
        }
        (0, 9) => {
            let count = body.number(4) as usize;
            body.skip(19 + count);
        }
        (0, _) => {}
        _ => body.skip(4),
    }
    body.end(()).is_ok()
}

/// Kind, which is at most this, and length.
fn fit_found(body: &mut Body, most: u64) -> (u64, usize) {
    body.skip(4);
    let kind = body.at_most(1, most);
    body.skip(5);
    (kind, body.number(4) as usize)
}

/// "Of kind 1 then a mark (1): 0 and a place (4), or 1 and as many bytes as the length says"; of kinds 4 and 5 a place (4).
fn fit_take(body: &mut Body) {
    let (kind, length) = fit_found(body, or(Fault::StartsUnfit, 5, 2));
    match kind {
        1 => {
            let mark = body.at_most(1, 1);
            body.skip(if mark == 0 { 4 } else { length });
        }
        4 | 5 => body.skip(or(Fault::PieceHoldsBytes, 4, 4 + length)),
        _ => {}
    }
}

/// "bytes are lower-case hex without spaces, and `-` where there are none".
pub fn bytes_words(bytes: &[u8]) -> String {
    if bytes.is_empty() {
        "-".into()
    } else {
        hex(bytes)
    }
}

/// "An address prints as `192.168.10.11 port 30501`, and a wildcard (0) as `any`".
pub fn remote_words(remote: Remote) -> String {
    let address = match remote.address.to_be_bytes() {
        [0, 0, 0, 0] => "any".into(),
        [a, b, c, d] => format!("{}.{}.{}.{}", a, b, c, d),
    };
    let port = if remote.port == 0 { "any".into() } else { remote.port.to_string() };
    format!("{} port {}", address, port)
}

/// "A unit behind the number 1 is singular".
pub fn count_words(number: u64, unit: &str) -> String {
    format!("{} {}{}", number, unit, if number == 1 { "" } else { "s" })
}

fn meaning(number: u64) -> &'static str {
    match number {
        0 => "done",
        1 => "table refused",
        2 => "not there",
        3 => "not allowed",
        4 => "not online",
        5 => "no destination",
        6 => "switched off",
        7 => "too long",
        8 => "flush first",
        9 => "out buffer too short",
        10 => "no connection matches",
        11 => "lent memory has another length",
        12 => "state or table not sound",
        _ => "unknown",
    }
}

fn reason_words(reason: u64) -> &'static str {
    match reason {
        20 => "no route for this id",
        21 => "switched off",
        22 => "longer than its route allows",
        23 => "cut off: no whole header, or a length beyond the end",
        _ => "unknown",
    }
}

/// What a take or a walk found, as it stands in an answer.
struct Seen {
    front: u64,
    kind: u64,
    number: u64,
    header: Header,
}

fn read_found(answer: &mut Reader) -> Seen {
    let (front, kind, number) = (answer.number(4), answer.number(1), answer.number(1));
    Seen { front, kind, number, header: Header { id: answer.number(4) as u32, length: answer.number(4) as u32 } }
}

impl Seen {
    fn header_words(&self) -> String {
        format!("id 0x{:08x}, length {}", self.header.id, count_words(u64::from(self.header.length), "byte"))
    }

    fn start_words(&self) -> String {
        let end = if self.header.length == 0 { ", the end" } else { "" };
        format!("start of a transfer on route {}, {}{}", self.number, self.header_words(), end)
    }

    fn piece_words(&self, at: u64, segment: &[u8]) -> String {
        let (front, size) =
            (if self.kind == 5 { "last piece" } else { "piece" }, count_words(self.header.length.into(), "byte"));
        let bytes = payload(segment, at, self.header);
        format!(
            "{} of route {}, id 0x{:08x}, {}, from the segment at byte {}: {}",
            front, self.number, self.header.id, size, at, bytes
        )
    }

    fn drop_words(&self) -> String {
        format!("drop {}, {}, {}", self.number, reason_words(self.number), self.header_words())
    }
}

/// The payload at a place of a segment or datagram; where place and length reach beyond its end, nothing.
fn payload(bytes: &[u8], at: u64, header: Header) -> String {
    let at = at as usize;
    bytes_words(bytes.get(at..at + header.length as usize).unwrap_or_default())
}

fn take_words(answer: &mut Reader, number: u64, segment: &[u8]) -> String {
    let seen = read_found(answer);
    let found = match seen.kind {
        0 => "more wanted".into(),
        1 => {
            let from = match answer.number(1) {
                0 => {
                    let at = answer.number(4);
                    format!("the segment at byte {}: {}", at, payload(segment, at, seen.header))
                }
                _ => format!("receive memory: {}", bytes_words(answer.bytes(seen.header.length as usize))),
            };
            format!("PDU of route {}, {}, from {}", seen.number, seen.header_words(), from)
        }
        3 => seen.start_words(),
        4 | 5 => seen.piece_words(answer.number(4), segment),
        _ => seen.drop_words(),
    };
    format!("; take {} read {}: {}", number, count_words(seen.front, "byte"), found)
}

fn walk_words(answer: &mut Reader, datagram: &[u8]) -> String {
    let seen = read_found(answer);
    let found = match seen.kind {
        0 => "the end".into(),
        1 => {
            let at = answer.number(4);
            let bytes = payload(datagram, at, seen.header);
            format!("PDU of route {}, {}, at byte {}: {}", seen.number, seen.header_words(), at, bytes)
        }
        _ => seen.drop_words(),
    };
    format!("; {}, next byte {}", found, seen.front)
}

/// The connections whose transfers failed at a tick.
fn ended_words(mask: u64) -> String {
    let named: Vec<String> = (0..16).filter(|k| mask >> k & 1 == 1).map(|k: u32| k.to_string()).collect();
    match named.len() {
        0 => String::new(),
        1 => format!("; a transfer failed on connection {}", named[0]),
        _ => format!("; transfers failed on connections {}", named.join(", ")),
    }
}

/// An answer that fits its event, in the words of docs/EVENTS.md, "ANSWER is the number and its meaning", and of docs/RECORDING.md, "A recorded
/// answer in words".
pub fn words(event: &Event, answer: &[u8]) -> String {
    let mut answer = Reader::new(answer, 0);
    let number = answer.number(2);
    let front = format!("{} {}", number, meaning(number));
    let values = match (number, event) {
        (4 | 7 | 8, Event::Transmit(..)) => format!(", destination {}", answer.number(4)),
        (0, Event::Segment(_, segment)) => {
            let takes = answer.number(2);
            (1..=takes).map(|number| take_words(&mut answer, number, segment)).collect()
        }
        (0, Event::Walk(_, _, datagram)) => walk_words(&mut answer, datagram),
        (0, Event::TakeWaiting(..)) => {
            let count = answer.number(4);
            let _ = answer.bytes(13); // family and first twelve bytes
            let to = Remote { address: answer.number(4) as u32, port: answer.number(2) as u16 };
            format!("; {} for {}: {}", count_words(count, "byte"), remote_words(to), bytes_words(answer.bytes(count as usize)))
        }
        (0, Event::Ticks(_)) => ended_words(answer.number(2)),
        (0, Event::Lost(_)) if answer.number(1) != 0 => "; a transfer failed".into(),
        (0, Event::Datagram(..) | Event::Accept(..)) => format!("; connection {}", answer.number(1)),
        (0, Event::ReadCount(_) | Event::ReadAndClear(_)) => format!("; {}", count_words(answer.number(4), "drop")),
        _ => String::new(),
    };
    front + &values
}

#[cfg(test)]
mod tests {
    use super::*;
    use crate::bytes::unhex;
    use crate::generate::script::script;
    use crate::lines::lines;
    use crate::random::Random;
    use crate::script::number_of;

    #[test]
    fn every_answer_fits_and_no_other_length_does() {
        let random = &mut Random::new(7);
        let mut met = 0;
        for _ in 0..40 {
            lines(&script(random, 60), |seen| {
                let (number, bytes) = (number_of(seen.event), spell(seen.answer));
                if number > 0 {
                    assert!(fits(number, &bytes), "{:?}", seen.event);
                    assert!(!fits(number, &[&bytes[..], &[0]].concat()) && !fits(number, &bytes[..bytes.len() - 1]));
                    met += 1;
                }
            });
        }
        assert!(met > 1000);
    }

    const FAILED: &str = "0 done; a transfer failed";

    #[test]
    fn values_that_the_core_never_answers_have_words() {
        let words = |event, hex: &str| words(&event, &unhex(hex).unwrap());
        assert_eq!(words(Event::Open(0), "004d00000007"), "77 unknown");
        assert_eq!(words(Event::Open(0), "000100000000"), "1 table refused");
        assert_eq!(words(Event::Transmit(9, vec![]), "0008ffffffff"), "8 flush first, destination 4294967295");
        let segment = || Event::Segment(0, vec![1, 2, 3]);
        let take = "; take 1 read 9 bytes: ";
        let answer = |kind: &str, rest: &str| words(segment(), &format!("0000000100000009{}03000001010000000{}", kind, rest));
        assert_eq!(answer("02", "2"), format!("0 done{}drop 3, unknown, id 0x00000101, length 2 bytes", take));
        let pdu = format!("0 done{}PDU of route 3, id 0x00000101, length 2 bytes, from ", take);
        assert_eq!(answer("01", "20000000001"), format!("{}the segment at byte 1: 0203", pdu));
        assert_eq!(answer("01", "20000000002"), format!("{}the segment at byte 2: -", pdu));
        assert_eq!(answer("01", "200ffffffff"), format!("{}the segment at byte 4294967295: -", pdu));
        assert_eq!(answer("01", "201aabb"), format!("{}receive memory: aabb", pdu));
        let start = format!("0 done{}start of a transfer on route 3, id 0x00000101, length ", take);
        assert_eq!(answer("03", "2"), format!("{}2 bytes", start));
        assert_eq!(answer("03", "0"), format!("{}0 bytes, the end", start));
        let piece = |front: &str, rest: &str| format!("0 done{}{} of route 3, id 0x00000101, {}", take, front, rest);
        assert_eq!(answer("04", "100000002"), piece("piece", "1 byte, from the segment at byte 2: 03"));
        assert_eq!(answer("05", "200000001"), piece("last piece", "2 bytes, from the segment at byte 1: 0203"));
        assert_eq!(answer("05", "200000002"), piece("last piece", "2 bytes, from the segment at byte 2: -"));
        assert_eq!(answer("04", "000000001"), piece("piece", "0 bytes, from the segment at byte 1: -"));
        assert_eq!([0, 1, 77].map(|byte| words(Event::Lost(0), &format!("0000{:02x}", byte))), ["0 done", FAILED, FAILED]);
        let ticks = |mask: &str| words(Event::Ticks(1), &format!("0000{}", mask));
        assert_eq!(ticks("0000"), "0 done");
        assert_eq!(ticks("8000"), "0 done; a transfer failed on connection 15");
        assert_eq!(ticks("0013"), "0 done; transfers failed on connections 0, 1, 4");
        let waiting = format!("00000000000109{}0a0000010050ff", "ee".repeat(12));
        assert_eq!(words(Event::TakeWaiting(0, 9), &waiting), "0 done; 1 byte for 10.0.0.1 port 80: ff");
    }
}
