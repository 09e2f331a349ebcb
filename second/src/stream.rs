//! R5.8 to R5.14: the take, a byte at a time; and R19.2 to R19.5: the start and the pieces of a transfer.

use crate::fault::{or, seeded, Fault};
use crate::header::{lookup, Header};
use crate::table::Table;

/// "receive part (0..7 header bytes, or an unfinished payload with its route and length, or at least one byte still to skip)".
/// Header bytes are held as the number that they stand for. "The receive part gains this kind": a running transfer, with its route and
/// the bytes to come.
#[derive(Clone, Copy, PartialEq, Eq, Debug)]
pub enum Part {
    Header { held: u8, value: u64 },
    Payload { route: u8, length: u16, held: u16 },
    Skip(u32),
    Transfer { route: u8, left: u32 },
}

impl Part {
    pub fn is_transfer(self) -> bool {
        matches!(self, Part::Transfer { .. })
    }
}

/// Nothing received that is not handed out: the next byte is a header's first.
pub const READY: Part = Part::Header { held: 0, value: 0 };

/// "tells the bytes read and the outcome: more wanted, a PDU (route and payload), or a drop (reason, id, length)"; "a take ends after the
/// start (id and length) and after each piece, the last one carrying the end mark".
#[derive(Clone, PartialEq, Eq, Debug)]
pub struct Take {
    pub read: usize,
    pub outcome: Outcome,
}

#[derive(Clone, PartialEq, Eq, Debug)]
pub enum Outcome {
    More,
    Pdu {
        route: usize,
        header: Header,
        stood: Stood,
        payload: Vec<u8>,
    },
    Drop {
        reason: u8,
        header: Header,
    },
    /// Its mark is length 0: "At length 0 the start carries it."
    Start {
        route: usize,
        header: Header,
    },
    /// Bytes of the segment, from a place on; the id is the route row's.
    Piece {
        route: usize,
        id: u32,
        at: usize,
        bytes: Vec<u8>,
        last: bool,
    },
}

/// Where a payload stood: "handed out from the segment itself when all of it stands there, otherwise from receive memory".
#[derive(Clone, Copy, PartialEq, Eq, Debug)]
pub enum Stood {
    Segment(usize),
    Memory,
}

/// One connection's side of a stream: what decides about a header.
#[derive(Clone, Copy)]
pub struct Line<'a> {
    pub table: &'a Table,
    pub connection: usize,
    pub switches: u32,
}

/// "A take reads a segment up to the end of its first complete PDU or dropped header". `stretch` is the connection's receive
/// memory: "A call writes only the payload bytes it adds to an unfinished payload".
pub fn take(line: Line, part: &mut Part, stretch: &mut [u8], segment: &[u8]) -> Take {
    if seeded(Fault::FreshHeaderEachTime) && matches!(part, Part::Header { .. }) {
        *part = READY;
    }
    if let Part::Transfer { route, left } = *part {
        return piece(line, part, (route, left), segment);
    }
    let mut read = 0;
    loop {
        if let Some(whole) = whole_payload(line, *part, &segment[read..], read) {
            *part = READY;
            return whole;
        }
        let byte = match segment.get(read) {
            Some(&byte) => byte,
            None => return Take { read, outcome: Outcome::More },
        };
        read += 1;
        if let Some(outcome) = feed(line, part, stretch, byte, read) {
            return Take { read, outcome };
        }
    }
}

/// "Pieces follow the segments, each being all the transfer's bytes that the take finds in its segment, at least one"; of none, more is
/// wanted.
fn piece(line: Line, part: &mut Part, (route, left): (u8, u32), segment: &[u8]) -> Take {
    let left = or(Fault::MarkEarly, left, left.max(2) - 1);
    let read = segment.len().min(left as usize);
    if read == 0 {
        return Take { read, outcome: Outcome::More };
    }
    let last = read == left as usize;
    *part = if last { READY } else { Part::Transfer { route, left: left - read as u32 } };
    if !last && seeded(Fault::PieceWaits) {
        return Take { read, outcome: Outcome::More };
    }
    let bytes = segment[..read].to_vec();
    let row = &line.table.routes[usize::from(route)];
    if seeded(Fault::PieceAsPdu) {
        return Take { read, outcome: pdu(line, route, &bytes, Stood::Segment(0)) };
    }
    if seeded(Fault::SwitchDuringTransfer) && !crate::header::is_on(row.groups, line.switches) {
        let header = Header { id: row.id, length: left };
        return Take { read, outcome: Outcome::Drop { reason: crate::header::SWITCHED_OFF, header } };
    }
    Take { read, outcome: Outcome::Piece { route: route.into(), id: row.id, at: 0, bytes, last } }
}

/// A payload of which no byte is held yet, and all of which stands in the rest of the segment.
fn whole_payload(line: Line, part: Part, rest: &[u8], read: usize) -> Option<Take> {
    match part {
        Part::Payload { route, length, held: 0 } if rest.len() >= usize::from(length) && !seeded(Fault::AlwaysFromMemory) => {
            let payload = &rest[..usize::from(length)];
            Some(Take { read: read + payload.len(), outcome: pdu(line, route, payload, Stood::Segment(read)) })
        }
        _ => None,
    }
}

/// One byte more.
fn feed(line: Line, part: &mut Part, stretch: &mut [u8], byte: u8, read: usize) -> Option<Outcome> {
    match *part {
        Part::Header { held, value } if held < 7 => {
            *part = Part::Header { held: held + 1, value: value << 8 | u64::from(byte) };
            None
        }
        Part::Header { value, .. } => {
            let (next, outcome) = decide(line, Header::read(&(value << 8 | u64::from(byte)).to_be_bytes()), read);
            *part = next;
            outcome
        }
        Part::Payload { route, length, held } => {
            stretch[usize::from(held)] = byte;
            if held + 1 < length {
                *part = Part::Payload { route, length, held: held + 1 };
                return None;
            }
            *part = READY;
            let outcome = pdu(line, route, &stretch[..usize::from(length)], Stood::Memory);
            Some(or(Fault::SwitchAtTheEnd, outcome.clone(), switched_late(line, route, outcome)))
        }
        Part::Skip(left) => {
            *part = if left > or(Fault::SkipEndsEarly, 1, 2) { Part::Skip(left - 1) } else { READY };
            None
        }
        Part::Transfer { .. } => unreachable!("a take ends where a transfer starts"),
    }
}

/// A whole header: "A drop adds 1 to its protocol's count and its payload is skipped"; "Length 0 is a PDU with empty payload."
fn decide(line: Line, header: Header, read: usize) -> (Part, Option<Outcome>) {
    let length = header.length;
    match lookup(line.table, line.connection, line.switches, header) {
        Err(reason) => {
            let skip = length > 0 && !seeded(Fault::NothingSkipped);
            let skipped = or(Fault::SkipBelow65536, length, length & 0xFFFF);
            (if skip && skipped > 0 { Part::Skip(skipped) } else { READY }, Some(Outcome::Drop { reason, header }))
        }
        Ok(route) if line.table.routes[route].transfer && !held(length) => start(route, header),
        Ok(route) if length == 0 => (READY, Some(pdu(line, route as u8, &[], Stood::Segment(read)))),
        Ok(route) => (Part::Payload { route: route as u8, length: length as u16, held: 0 }, None),
    }
}

/// "a take ends after the start"; nothing is to come of a transfer of length 0.
fn start(route: usize, header: Header) -> (Part, Option<Outcome>) {
    let left = header.length;
    let next = if left > 0 { Part::Transfer { route: route as u8, left } } else { READY };
    (next, Some(Outcome::Start { route, header }))
}

/// A fault: a transfer that fits receive memory is held there.
fn held(length: u32) -> bool {
    (1..=u32::from(crate::table::LONGEST)).contains(&length) && seeded(Fault::TransferHeld)
}

fn pdu(line: Line, route: u8, payload: &[u8], stood: Stood) -> Outcome {
    let route = or(Fault::FirstRouteAlways, usize::from(route), 0);
    let header = Header { id: line.table.routes[route].id, length: payload.len() as u32 };
    Outcome::Pdu { route, header, stood, payload: payload.to_vec() }
}

/// A fault: the switch is tested again when the payload ends.
fn switched_late(line: Line, route: u8, outcome: Outcome) -> Outcome {
    let header = match outcome {
        Outcome::Pdu { header, .. } => header,
        _ => return outcome,
    };
    let on = crate::header::is_on(line.table.routes[usize::from(route)].groups, line.switches);
    if on {
        outcome
    } else {
        Outcome::Drop { reason: crate::header::SWITCHED_OFF, header }
    }
}

/// "A segment event is the caller's takes over one segment until all is read, one take at least".
pub fn takes(line: Line, part: &mut Part, stretch: &mut [u8], segment: &[u8]) -> Vec<Take> {
    let mut takes = Vec::new();
    let mut read = 0;
    while takes.is_empty() || read < segment.len() {
        let mut next = take(line, part, stretch, &segment[read..]);
        if let Outcome::Pdu { stood: Stood::Segment(at), .. } | Outcome::Piece { at, .. } = &mut next.outcome {
            *at += read; // the place in the whole segment
        }
        read += next.read;
        takes.push(next);
    }
    takes
}

#[cfg(test)]
mod tests {
    use super::*;
    use crate::bytes::hex;
    use crate::generate::datagram::{few_routes, mixed_frames, mixed_transfers};
    use crate::table::{LONGEST, TCP};

    /// The outcomes of a stream that is cut at these places, and what is left of it.
    fn heard(bytes: &[u8], cuts: &[usize]) -> (Vec<Outcome>, Part) {
        let table = few_routes(TCP);
        let line = Line { table: &table, connection: 0, switches: 1 };
        let (mut part, mut stretch, mut from) = (READY, vec![0; usize::from(LONGEST)], 0);
        let mut outcomes = Vec::new();
        for &to in cuts.iter().chain([&bytes.len()]) {
            outcomes.extend(takes(line, &mut part, &mut stretch, &bytes[from..to]).into_iter().map(|take| take.outcome));
            from = to;
        }
        outcomes.retain(|outcome| *outcome != Outcome::More);
        (outcomes, part)
    }

    /// The same outcomes wherever a payload stood; of a transfer "start, joined bytes and end mark, and not the pieces".
    fn told((outcomes, part): (Vec<Outcome>, Part)) -> (Vec<String>, Part) {
        let mut told: Vec<String> = Vec::new();
        for outcome in outcomes {
            match outcome {
                Outcome::Pdu { route, payload, .. } => told.push(format!("PDU {} {}", route, hex(&payload))),
                Outcome::Start { route, header } => {
                    let end = if header.length == 0 { "end" } else { "" };
                    told.push(format!("transfer {} {:x} {} {}", route, header.id, header.length, end));
                }
                Outcome::Piece { bytes, last, .. } => {
                    let joined = told.last_mut().expect("a piece comes after its start");
                    assert!(joined.starts_with("transfer") && !joined.ends_with("end") && !bytes.is_empty());
                    *joined += &hex(&bytes);
                    *joined += if last { " end" } else { "" };
                }
                other => told.push(format!("{:?}", other)),
            }
        }
        (told, part)
    }

    fn cut_anywhere(bytes: &[u8]) -> (Vec<String>, Part) {
        let whole = told(heard(bytes, &[]));
        for one in 0..=bytes.len() {
            for two in one..=bytes.len() {
                assert_eq!(told(heard(bytes, &[one, two])), whole);
            }
        }
        whole
    }

    #[test]
    fn cut_anywhere_the_stream_is_the_same() {
        assert_eq!(cut_anywhere(&mixed_frames()).0.len(), 8);
    }

    #[test]
    fn cut_anywhere_transfers_are_the_same() {
        let (told, part) = cut_anywhere(&mixed_transfers());
        let transfers: Vec<&str> = told.iter().map(String::as_str).filter(|told| told.starts_with("transfer")).collect();
        let expected = [
            "transfer 4 105 0 end",
            "transfer 4 105 1 00 end",
            "transfer 4 105 3 00b446 end",
            "transfer 4 105 4294967295 010203",
        ];
        assert_eq!((transfers, told.len()), (expected.to_vec(), 7));
        assert_eq!(part, Part::Transfer { route: 4, left: u32::MAX - 3 });
    }

    /// A start and the first piece are two takes; a piece stands at its place; no byte wants more.
    #[test]
    fn pieces_follow_the_segments() {
        let table = few_routes(TCP);
        let line = Line { table: &table, connection: 0, switches: 1 };
        let (mut part, mut stretch) = (READY, vec![0; usize::from(LONGEST)]);
        let mut heard = |segment: &[u8]| takes(line, &mut part, &mut stretch, segment);
        let header = Header { id: 0x105, length: 4 };
        let piece = |at, bytes: &[u8], last| Outcome::Piece { route: 4, id: 0x105, at, bytes: bytes.to_vec(), last };
        let (start, first) = (Outcome::Start { route: 4, header }, piece(8, &[7], false));
        let all = [Take { read: 8, outcome: start }, Take { read: 1, outcome: first }];
        assert_eq!(heard(&[0, 0, 1, 5, 0, 0, 0, 4, 7]), all);
        assert_eq!(heard(&[]), [Take { read: 0, outcome: Outcome::More }]);
        let last = heard(&[8, 9, 10, 0, 0]);
        assert_eq!(last, [Take { read: 3, outcome: piece(0, &[8, 9, 10], true) }, Take { read: 2, outcome: Outcome::More }]);
        assert!(stretch.iter().all(|&byte| byte == 0));
    }

    #[test]
    fn a_payload_is_copied_only_when_it_is_cut() {
        let bytes = &mixed_frames()[..10];
        let stood = |cut: usize| match heard(bytes, &[cut]).0[0] {
            Outcome::Pdu { stood, .. } => stood,
            _ => panic!("a PDU is heard"),
        };
        assert_eq!(stood(10), Stood::Segment(8));
        assert_eq!(stood(3), Stood::Segment(5));
        assert_eq!(stood(8), Stood::Segment(0));
        assert_eq!(stood(9), Stood::Memory);
    }
}
