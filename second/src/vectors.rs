//! Streams and datagrams on which outside dissectors agree (tests/vectors): this program's reading is held to theirs.

use crate::bytes::unhex;
use crate::event::Event;
use crate::exchange;
use crate::script::write;
use crate::stream::{takes, Line, Outcome, READY};
use crate::table::{Connection, Group, Remote, Route, Table, LONGEST, MOST_SEND_SIZE, TCP, UDP};
use crate::takes;
use crate::walk::{walk, Found};

/// One line: a stream in its segments, or a datagram as the only one, and what was read from it.
pub struct Vector {
    pub protocol: u8,
    pub segments: Vec<Vec<u8>>,
    pdus: Vec<(u32, Vec<u8>)>,
    cut: bool,
}

/// "T seg|seg|.. = id:length:payload ..", "U bytes = id:length:payload .. [23]".
pub fn parse(line: &str) -> Option<Vector> {
    let (left, right) = line.split_once(" =")?;
    let (letter, hex) = left.split_once(' ')?;
    let protocol = match letter {
        "T" => TCP,
        "U" => UDP,
        _ => return None,
    };
    let segments = hex.split('|').map(unhex).collect::<Option<_>>()?;
    let words: Vec<&str> = right.split_whitespace().collect();
    let pdus = words.iter().filter(|&&word| word != "23").map(|word| pdu(word)).collect::<Option<_>>()?;
    Some(Vector { protocol, segments, pdus, cut: words.last() == Some(&"23") })
}

fn pdu(word: &str) -> Option<(u32, Vec<u8>)> {
    let mut fields = word.split(':');
    let id = u32::from_str_radix(fields.next()?, 16).ok()?;
    let length: usize = fields.next()?.parse().ok()?;
    let payload = unhex(fields.next()?)?;
    (payload.len() == length).then_some((id, payload))
}

impl Vector {
    /// A table that routes the line's ids, all switched on, with longest 1,464.
    pub fn table(&self) -> Table {
        let mut ids: Vec<u32> = self.pdus.iter().map(|&(id, _)| id).collect();
        ids.sort_unstable();
        ids.dedup();
        let remote = Remote { address: 0x0A00_0001, port: 30490 };
        Table {
            groups: vec![Group { protocol: self.protocol }],
            connections: vec![Connection {
                group: 0,
                automatic: true,
                remote,
                send_size: MOST_SEND_SIZE,
                alive: 0,
                switches: 0,
            }],
            routes: ids
                .into_iter()
                .map(|id| Route { connection: 0, transfer: false, longest: LONGEST, id, pdu: 0, groups: 0 })
                .collect(),
            destinations: vec![],
        }
    }

    /// True when this program reads the same PDUs from the line, and the same end.
    pub fn agrees(&self) -> bool {
        if self.protocol == TCP {
            self.stream() == self.pdus
        } else {
            (self.datagram(), self.cut_found()) == (self.pdus.clone(), self.cut)
        }
    }

    fn stream(&self) -> Vec<(u32, Vec<u8>)> {
        let table = self.table();
        let line = Line { table: &table, connection: 0, switches: 0 };
        let (mut part, mut stretch) = (READY, vec![0; usize::from(LONGEST)]);
        let all = self.segments.iter().flat_map(|segment| takes(line, &mut part, &mut stretch, segment));
        let pdus = all.filter_map(|take| match take.outcome {
            Outcome::Pdu { header, payload, .. } => Some((header.id, payload)),
            _ => None,
        });
        pdus.collect()
    }

    /// What a walk through the datagram finds, each with the place it was found from.
    fn walked(&self) -> Vec<(usize, Found)> {
        let table = self.table();
        let mut found = vec![];
        let mut place = 0;
        while found.last().map_or(true, |(_, last)| *last != Found::End) {
            let step = walk(&table, 0, 0, &self.segments[0], place).expect("the place is in the datagram");
            found.push((place, step.found));
            place = step.next;
        }
        found
    }

    fn datagram(&self) -> Vec<(u32, Vec<u8>)> {
        let pdus = self.walked().into_iter().filter_map(|(_, found)| match found {
            Found::Pdu { header, at, .. } => Some((header.id, self.segments[0][at..at + header.length as usize].to_vec())),
            _ => None,
        });
        pdus.collect()
    }

    fn cut_found(&self) -> bool {
        self.walked().iter().any(|(_, found)| matches!(found, Found::Drop { reason: 23, .. }))
    }

    /// The requests for the C function that walk through the datagram; none for a stream.
    pub fn requests(&self) -> Vec<Vec<u8>> {
        let image = self.table().image();
        let walked = if self.protocol == UDP { self.walked() } else { vec![] };
        walked.iter().map(|&(place, _)| exchange::walk(&image, 0, 0, &self.segments[0], place as u64)).collect()
    }

    /// The case for the program test_takes; nothing for a datagram.
    pub fn case(&self) -> Option<takes::Case> {
        (self.protocol == TCP).then(|| takes::stream(self.table().image(), &self.segments))
    }

    /// The script for the program run: a tick and a connection, then the stream's segments; nothing for a datagram.
    pub fn script(&self) -> Option<Vec<u8>> {
        let mut input = self.table().image();
        let begin = [Event::Ticks(1), Event::Connected(0)];
        let segments = self.segments.iter().map(|segment| Event::Segment(0, segment.clone()));
        for event in begin.into_iter().chain(segments) {
            input.extend(write(&event));
        }
        (self.protocol == TCP).then_some(input)
    }
}
