//! Recordings made smaller: entries and table rows left out, bytes of bodies set to 0, bytes behind the last body left out, numbers towards 0.

use super::image::{Image, CONNECTIONS, GROUPS, ROUTES};
use super::{Case, Kind};
use crate::bytes::number;
use crate::recording::{row, write, Entry, FRONT, ROW};
use crate::script::image_end;
use std::ops::Range;

#[derive(Clone)]
pub struct Recording {
    pub image: Image,
    edition: u16,
    pub entries: Vec<Entry>,
    behind: Vec<u8>,
    /// A recording whose contents are cut: all of it.
    front: Option<Vec<u8>>,
}

impl Recording {
    pub fn read(input: &[u8]) -> Self {
        let (image, recording) = input.split_at(image_end(input));
        let (edition, entries) = (number(recording, 0, 2) as u16, number(recording, 2, 2) as usize);
        let image = Image::read(image);
        let contents = FRONT + ROW * entries;
        if recording.len() < contents {
            return Recording { image, edition, entries: vec![], behind: vec![], front: Some(recording.to_vec()) };
        }
        let mut rest = &recording[contents..];
        let mut entry = |number| {
            let row = row(recording, number);
            let (body, after) = rest.split_at(row.length.min(rest.len()));
            rest = after;
            Entry { stamp: row.stamp, number: row.number, zero: row.zero, length: row.length as u32, body: body.to_vec() }
        };
        let entries = (0..entries).map(&mut entry).collect();
        Recording { image, edition, entries, behind: rest.to_vec(), front: None }
    }

    pub fn bytes(&self) -> Vec<u8> {
        let whole = || [write(self.edition, self.entries.len() as u16, &self.entries), self.behind.clone()].concat();
        [self.image.bytes(), self.front.clone().unwrap_or_else(whole)].concat()
    }

    fn leave_out_row(&mut self, kind: usize, number: usize) {
        if kind == GROUPS {
            self.image.members(number).into_iter().for_each(|connection| self.leave_out_row(CONNECTIONS, connection));
        }
        self.image.leave_out(kind, number);
        self.entries.retain_mut(|entry| named(entry, kind).map_or(true, |named| usize::from(*named) != number));
        for named in self.entries.iter_mut().filter_map(|entry| named(entry, kind)) {
            *named -= u8::from(usize::from(*named) > number);
        }
    }
}

/// The number of a connection, or of a group, that an entry's event names: the byte behind the party.
fn named(entry: &mut Entry, kind: usize) -> Option<&mut u8> {
    let names = match kind {
        CONNECTIONS => matches!(entry.number, 1..=9 | 16),
        _ => kind == GROUPS && matches!(entry.number, 10 | 11),
    };
    entry.body.get_mut(1).filter(|_| names)
}

/// Kinds of parts: entries, then connections with all that names them, routes, destinations, groups.
const ROW_KINDS: [usize; 4] = [CONNECTIONS, ROUTES, 3, GROUPS];

impl Case for Recording {
    fn parts(&self) -> Vec<usize> {
        let rows = ROW_KINDS.map(|kind| self.image.counts()[kind]);
        [&[self.entries.len()][..], &rows].concat()
    }

    fn without(&self, kind: usize, parts: Range<usize>) -> Option<Self> {
        let mut less = self.clone();
        match kind {
            0 => drop(less.entries.drain(parts)),
            _ => parts.rev().for_each(|row| less.leave_out_row(ROW_KINDS[kind - 1], row)),
        }
        Some(less)
    }

    fn stretches(&mut self, each: &mut dyn FnMut(&mut Vec<u8>, Kind)) {
        self.image.stretches(each);
        self.entries.iter_mut().for_each(|entry| each(&mut entry.body, Kind::Fixed));
        each(&mut self.behind, Kind::Free);
        self.front.iter_mut().for_each(|front| each(front, Kind::Free));
    }

    fn numbers(&mut self, each: &mut dyn FnMut(u64) -> u64) {
        for entry in &mut self.entries {
            entry.stamp = each(entry.stamp.into()) as u32;
            entry.zero = each(entry.zero.into()) as u16;
        }
        self.image.numbers(each);
    }
}

#[cfg(test)]
mod tests {
    use super::super::{shrink, Bound};
    use super::*;
    use crate::fault::{self, Fault};
    use crate::generate::recording::{limits, recording};
    use crate::random::Random;
    use crate::replay::lines;

    #[test]
    fn every_recording_comes_back() {
        let random = &mut Random::new(1);
        let all = (0..100).map(|_| recording(random, 12)).chain(limits());
        all.for_each(|input| assert_eq!(Recording::read(&input).bytes(), input));
    }

    fn differs(fault: Fault, input: &[u8]) -> bool {
        fault::with(fault, || lines(input)) != lines(input)
    }

    #[test]
    fn recordings_become_small() {
        for &(fault, _) in fault::of("recordings").unwrap()[..7].iter() {
            let random = &mut Random::new(2);
            let first = std::iter::repeat_with(|| recording(random, 12)).find(|input| differs(fault, input)).unwrap();
            let bound = Bound { calls: 2000, cases: 1 };
            let mut ask = |all: &[Recording]| all.iter().position(|small| differs(fault, &small.bytes()));
            let (least, calls) = shrink(Recording::read(&first), bound, &mut ask);
            assert!(calls < 2000 && differs(fault, &least.bytes()));
            let (entries, rows) = (least.entries.len(), least.image.counts().iter().sum::<usize>());
            assert!(entries <= 2 && rows <= 4, "{:?}: {} entries, {} table rows", fault, entries, rows);
        }
    }
}
