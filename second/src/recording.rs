//! Recordings: docs/RECORDING.md, "The file"; written and taken apart.

use crate::answer;
use crate::bytes::{number, Writer};
use crate::event::{Answer, Event};
use crate::fault::{or, seeded, Fault};
use crate::script::{self, number_of};

pub const EDITION: u16 = 1;
pub const FRONT: usize = 4;
pub const ROW: usize = 12;
pub const MOST_ENTRIES: usize = 4000;
pub const MOST_BODY: usize = 4096;
pub const MOST_DISTANCE: u32 = 65_535;

/// An entry with its body, as it is written; the length in its contents row may say something else.
#[derive(Clone, Debug)]
pub struct Entry {
    pub stamp: u32,
    pub number: u16,
    pub zero: u16,
    pub length: u32,
    pub body: Vec<u8>,
}

impl Entry {
    pub fn new(stamp: u32, event: &Event, answer: &Answer) -> Self {
        let body = [&script::write(event)[8..], &answer::spell(answer)].concat();
        Entry { stamp, number: number_of(event), zero: 0, length: body.len() as u32, body }
    }
}

/// "edition 1 (2 bytes) and the number of entries (2), then a contents row of 12 bytes for each entry: tick stamp 4, event number 2, zero 2,
/// body length 4. The bodies follow in the same order without gaps".
pub fn write(edition: u16, count: u16, entries: &[Entry]) -> Vec<u8> {
    let front = Writer::default().number(edition, 2).number(count, 2);
    let row = |to: Writer, entry: &Entry| {
        to.number(entry.stamp, 4).number(entry.number, 2).number(entry.zero, 2).number(entry.length, 4)
    };
    let contents = entries.iter().fold(front, row);
    entries.iter().fold(contents, |to, entry| to.bytes(&entry.body)).0
}

/// A contents row.
#[derive(Clone, Copy)]
pub struct Row {
    pub stamp: u32,
    pub number: u16,
    pub zero: u16,
    pub length: usize,
}

pub fn row(recording: &[u8], entry: usize) -> Row {
    let at = FRONT + ROW * entry;
    Row {
        stamp: number(recording, at, 4) as u32,
        number: number(recording, at + 4, 2) as u16,
        zero: number(recording, at + 6, 2) as u16,
        length: number(recording, at + 8, 4) as usize,
    }
}

/// Where the arguments of an event end.
fn arguments_end(event: u16, body: &[u8]) -> usize {
    let length = |at| number(body, at, 4) as usize;
    match event {
        1..=4 | 14..=16 => 2,
        5 | 10 | 11 => 21,
        6 => 4,
        7 => 6 + length(2),
        8 => 10 + length(6),
        9 => 6,
        12 => 7 + length(3),
        _ => 3,
    }
}

/// The event that a body spells and the answer behind it. "A body fits when its arguments fit as those of a script do and its answer fills the
/// rest exactly."
pub fn read_body(event: u16, body: &[u8]) -> Option<(Event, &[u8])> {
    let (arguments, answer) = body.split_at(Some(arguments_end(event, body)).filter(|&end| end <= body.len())?);
    match script::read_body(event, arguments, false) {
        Ok(script::Entry::Event(spelt)) if answer::fits(event, answer) => Some((spelt, answer)),
        _ => None,
    }
}

/// "The distance of an entry is its stamp minus the stamp of the entry before, modulo 4,294,967,296 .. The first entry's distance is 0".
pub fn distance(before: Option<u32>, stamp: u32) -> u32 {
    match before {
        None => or(Fault::FirstStampCounted, 0, stamp),
        Some(before) if seeded(Fault::WrapLosesATick) && stamp < before => stamp.wrapping_sub(before).wrapping_sub(1),
        Some(before) => stamp.wrapping_sub(before),
    }
}

/// "A distance above 65,535" is refused.
pub fn too_far(distance: u32) -> bool {
    let most = or(Fault::LongestRefused, or(Fault::OneTickMore, MOST_DISTANCE, MOST_DISTANCE + 1), MOST_DISTANCE - 1);
    or(Fault::SignedDistance, distance > most, distance as i32 > most as i32)
}

#[cfg(test)]
mod tests {
    use super::*;

    #[test]
    fn distances_of_the_page() {
        for (before, stamp, ticks) in [
            (7, 7, 0),
            (100, 103, 3),
            (4_294_967_294, 1, 3),
            (4_294_967_295, 65_534, 65_535),
            (4_294_967_295, 65_535, 65_536),
            (103, 100, 4_294_967_293),
        ] {
            assert_eq!(distance(Some(before), stamp), ticks);
            assert_eq!(too_far(ticks), ticks > 65_535);
            assert_eq!(distance(None, stamp), 0);
        }
    }
}
