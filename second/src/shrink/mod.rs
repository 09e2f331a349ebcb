//! Makes a case on which two programs differ smaller, for as long as they differ on it: parts are left out, halves first and single
//! ones last; bytes are left out and set to 0; numbers go towards 0. The calls of the other program are counted and bounded.

pub mod image;
pub mod recording;
pub mod request;
pub mod script;
pub mod takes;
pub mod tally;

use crate::bytes::{number, spell};
use crate::header::HEADER;
use std::collections::BTreeMap;
use std::ops::Range;

/// What a stretch of bytes is.
#[derive(Clone, Copy, PartialEq, Eq)]
pub enum Kind {
    /// Keeps its length.
    Fixed,
    Free,
    /// The next piece of the stream with this number.
    Stream(u8),
}

/// What is made smaller.
pub trait Case: Clone {
    /// How many parts there are of each kind.
    fn parts(&self) -> Vec<usize>;
    /// The same without some parts of a kind; nothing where they cannot go, or are empty already.
    fn without(&self, kind: usize, parts: Range<usize>) -> Option<Self>;
    /// Gives `each` every stretch of bytes, in order.
    fn stretches(&mut self, each: &mut dyn FnMut(&mut Vec<u8>, Kind));
    /// Sets every number to what `each` makes of it, in order.
    fn numbers(&mut self, each: &mut dyn FnMut(u64) -> u64);
    /// False where the other program promises nothing.
    fn may_be_asked(&self) -> bool {
        true
    }
}

/// The most calls of the other program, and the most cases that one call answers.
#[derive(Clone, Copy)]
pub struct Bound {
    pub calls: usize,
    pub cases: usize,
}

/// The first of some cases on which the two programs differ.
pub type Ask<'a, C> = &'a mut dyn FnMut(&[C]) -> Option<usize>;

/// A way of making a case smaller; each has many tries.
#[derive(Clone, Copy)]
enum Way {
    /// Leaves out so many neighbouring parts of a kind.
    Parts(usize, usize),
    /// Leaves out a frame of a stream, or shortens its payload, and the length in its header with it.
    Frames,
    /// Leaves out so many neighbouring bytes.
    Cut(usize),
    /// Sets so many neighbouring bytes to 0.
    Zero(usize),
    Numbers,
}

/// Pieces of bytes have lengths from this down to 1, each half of the one before.
const LONGEST_PIECE: usize = 1 << 16;

/// The most pieces into which a stretch is divided for a cut. Zeros need no such bound: pieces of zeros are passed over.
const MOST_CUTS: usize = 32;

/// Smaller numbers, in the order of their tries: 0, the half, and the number without each of its bits.
fn lower(value: u64) -> Vec<u64> {
    let bits = (0..64).rev().filter(|bit| value >> bit & 1 == 1).map(|bit| value & !(1 << bit));
    let mut all: Vec<u64> = [0, value / 2].into_iter().chain(bits).filter(|&other| other < value).collect();
    all.dedup();
    all
}

/// One change of a case.
#[derive(Clone)]
enum Try {
    LeaveOut(usize, Range<usize>),
    /// In these stretches, one after the other: bytes left out, and a length in a header.
    Frame(Vec<usize>, Range<usize>, Option<(usize, usize)>),
    Cut(usize, Range<usize>),
    Zero(usize, Range<usize>),
    Number(usize, u64),
}

type Stretches = Vec<(Vec<u8>, Kind)>;

fn stretches<C: Case>(case: &C) -> Stretches {
    let mut all = Vec::new();
    case.clone().stretches(&mut |bytes, kind| all.push((bytes.clone(), kind)));
    all
}

/// A stretch in pieces of a size, the last one perhaps shorter; none where half the size would be enough for all of it.
fn pieces(bytes: &[u8], size: usize) -> impl Iterator<Item = Range<usize>> {
    let end = bytes.len();
    (0..end).step_by(size).filter(move |_| end > size / 2).map(move |from| from..(from + size).min(end))
}

fn cuts(all: &Stretches, size: usize) -> Vec<Try> {
    let free = all.iter().enumerate().filter(|(_, (bytes, kind))| *kind != Kind::Fixed && bytes.len() <= size * MOST_CUTS);
    free.flat_map(|(which, (bytes, _))| pieces(bytes, size).map(move |piece| Try::Cut(which, piece))).collect()
}

fn zeros(all: &Stretches, size: usize) -> Vec<Try> {
    let of = |(which, (bytes, _)): (usize, &(Vec<u8>, Kind))| {
        let filled = pieces(bytes, size).filter(|piece| bytes[piece.clone()].iter().any(|&byte| byte != 0));
        filled.map(|piece| Try::Zero(which, piece)).collect::<Vec<_>>()
    };
    all.iter().enumerate().flat_map(of).collect()
}

/// Where the headers of whole frames stand, from the front on, with their lengths.
fn frames(bytes: &[u8]) -> Vec<(usize, usize)> {
    let mut all = Vec::new();
    let mut at = 0;
    while at + HEADER <= bytes.len() {
        let length = number(bytes, at + 4, 4) as usize;
        if at + HEADER + length > bytes.len() {
            break;
        }
        all.push((at, length));
        at += HEADER + length;
    }
    all
}

/// The stretches that belong together: those of one stream, and each other one by itself.
fn streams(all: &Stretches) -> Vec<Vec<usize>> {
    let mut streams: BTreeMap<(usize, u8), Vec<usize>> = BTreeMap::new();
    for (which, (_, kind)) in all.iter().enumerate() {
        match *kind {
            Kind::Fixed => {}
            Kind::Free => streams.entry((which + 1, 0)).or_default().push(which),
            Kind::Stream(number) => streams.entry((0, number)).or_default().push(which),
        }
    }
    streams.into_values().collect()
}

fn shorter_frames(all: &Stretches) -> Vec<Try> {
    let of = |stream: Vec<usize>| {
        let bytes: Vec<u8> = stream.iter().flat_map(|&which| all[which].0.clone()).collect();
        let mut tries = Vec::new();
        for (at, length) in frames(&bytes) {
            let payload = at + HEADER;
            tries.push(Try::Frame(stream.clone(), at..payload + length, None));
            for to in lower(length as u64).into_iter().map(|to| to as usize) {
                tries.push(Try::Frame(stream.clone(), payload + to..payload + length, Some((at + 4, to))));
                tries.push(Try::Frame(stream.clone(), payload..payload + length - to, Some((at + 4, to))));
            }
        }
        tries
    };
    streams(all).into_iter().flat_map(of).collect()
}

fn lower_numbers<C: Case>(case: &C) -> Vec<Try> {
    let (mut all, mut at) = (Vec::new(), 0);
    case.clone().numbers(&mut |value| {
        all.extend(lower(value).into_iter().map(|less| Try::Number(at, less)));
        at += 1;
        value
    });
    all
}

/// All changes that one way has for a case.
fn tries<C: Case>(case: &C, way: Way) -> Vec<Try> {
    match way {
        Way::Parts(kind, size) => {
            let end = case.parts()[kind];
            (0..end).step_by(size).map(|from| Try::LeaveOut(kind, from..(from + size).min(end))).collect()
        }
        Way::Frames => shorter_frames(&stretches(case)),
        Way::Cut(size) => cuts(&stretches(case), size),
        Way::Zero(size) => zeros(&stretches(case), size),
        Way::Numbers => lower_numbers(case),
    }
}

/// Changes a stretch whose first byte is number `start` of a stream.
fn change_frame(bytes: &mut Vec<u8>, start: usize, cut: &Range<usize>, length: Option<(usize, usize)>) {
    if let Some((at, value)) = length {
        for (at, byte) in (at..).zip(spell(value as u64, 4)) {
            at.checked_sub(start).and_then(|at| bytes.get_mut(at)).into_iter().for_each(|old| *old = byte);
        }
    }
    let inside = |at: usize| at.saturating_sub(start).min(bytes.len());
    bytes.drain(inside(cut.start)..inside(cut.end));
}

/// The case with one change.
fn changed<C: Case>(case: &C, by: &Try) -> Option<C> {
    let mut new = case.clone();
    let mut at = 0..;
    let mut start = 0;
    match by {
        Try::LeaveOut(kind, parts) => return case.without(*kind, parts.clone()),
        Try::Frame(stream, cut, length) => new.stretches(&mut |bytes, _| {
            if at.next().map_or(false, |which| stream.contains(&which)) {
                let end = start + bytes.len();
                change_frame(bytes, start, cut, *length);
                start = end;
            }
        }),
        Try::Cut(which, piece) => new.stretches(&mut |bytes, _| {
            (at.next() == Some(*which)).then(|| bytes.drain(piece.clone()));
        }),
        Try::Zero(which, piece) => new.stretches(&mut |bytes, _| {
            (at.next() == Some(*which)).then(|| bytes[piece.clone()].fill(0));
        }),
        Try::Number(which, less) => new.numbers(&mut |value| if at.next() == Some(*which) { *less } else { value }),
    }
    Some(new)
}

struct Shrinker<'a, C> {
    case: C,
    bound: Bound,
    calls: usize,
    ask: Ask<'a, C>,
}

impl<C: Case> Shrinker<'_, C> {
    /// Some tries, as many as one call answers: the cases, each with the number of its try, from a number on.
    fn some(&self, tries: &[Try], from: usize) -> (Vec<usize>, Vec<C>) {
        let cases = (from..tries.len()).filter_map(|number| Some((number, changed(&self.case, &tries[number])?)));
        cases.filter(|(_, case)| case.may_be_asked()).take(self.bound.cases).unzip()
    }

    /// All tries of one way. After one that still differs the next has the same number: what followed has moved there.
    fn go(&mut self, way: Way) -> bool {
        let (mut from, mut smaller) = (0, false);
        let mut all = tries(&self.case, way);
        while self.calls < self.bound.calls {
            let (numbers, mut cases) = self.some(&all, from);
            if cases.is_empty() {
                break;
            }
            self.calls += 1;
            if let Some(which) = (self.ask)(&cases) {
                self.case = cases.swap_remove(which);
                (from, smaller) = (numbers[which], true);
                all = tries(&self.case, way);
            } else {
                from = numbers[numbers.len() - 1] + 1;
            }
        }
        smaller
    }

    fn leave_out_parts(&mut self) -> bool {
        let mut smaller = false;
        for kind in 0..self.case.parts().len() {
            let mut size = self.case.parts()[kind];
            while size > 0 {
                smaller |= self.go(Way::Parts(kind, size));
                size /= 2;
            }
        }
        smaller
    }

    /// Every way once.
    fn round(&mut self) -> bool {
        let sizes = || std::iter::successors(Some(LONGEST_PIECE), |size| Some(size / 2)).take_while(|&size| size > 0);
        let bytes = std::iter::once(Way::Frames).chain(sizes().map(Way::Cut)).chain(sizes().map(Way::Zero));
        let parts = self.leave_out_parts();
        bytes.chain([Way::Numbers]).fold(parts, |smaller, way| self.go(way) || smaller)
    }
}

/// The smallest case that was found, and how many calls that took. The two programs differ on it as on the one given.
pub fn shrink<C: Case>(case: C, bound: Bound, ask: Ask<C>) -> (C, usize) {
    let mut shrinker = Shrinker { case, bound, calls: 0, ask };
    while shrinker.round() {}
    (shrinker.case, shrinker.calls)
}

#[cfg(test)]
mod tests {
    use super::*;

    /// Bytes and two numbers; its parts are the bytes, one by one.
    #[derive(Clone, PartialEq, Debug)]
    struct Plain(Vec<u8>, [u64; 2]);

    impl Case for Plain {
        fn parts(&self) -> Vec<usize> {
            vec![self.0.len()]
        }
        fn without(&self, _: usize, parts: Range<usize>) -> Option<Self> {
            let mut less = self.clone();
            less.0.drain(parts);
            Some(less)
        }
        fn stretches(&mut self, each: &mut dyn FnMut(&mut Vec<u8>, Kind)) {
            each(&mut self.0, Kind::Free);
        }
        fn numbers(&mut self, each: &mut dyn FnMut(u64) -> u64) {
            self.1 = self.1.map(each);
        }
    }

    fn plain(length: usize) -> Plain {
        Plain((0..length).map(|at| at as u8 | 1).collect(), [u64::MAX, 1000])
    }

    #[test]
    fn the_smallest_is_found() {
        let differs =
            |case: &Plain| case.0.iter().filter(|&&byte| byte == 77).count() > 0 && case.0.len() >= 3 && case.1[1] > 500;
        for cases in [1, 7, 1000] {
            let (least, _) = shrink(plain(300), Bound { calls: 2000, cases }, &mut |all| all.iter().position(differs));
            assert_eq!((least.0.len(), least.1), (3, [0, 512]));
            assert_eq!(least.0.iter().filter(|&&byte| byte != 0).collect::<Vec<_>>(), [&77]);
        }
    }

    #[test]
    fn calls_are_bounded() {
        for bound in [0, 1, 17] {
            let mut calls = 0;
            let (_, told) = shrink(plain(300), Bound { calls: bound, cases: 3 }, &mut |all| {
                calls += 1;
                assert!(all.len() <= 3);
                None
            });
            assert_eq!((calls, told), (bound, bound));
        }
    }

    #[test]
    fn a_frame_is_shortened_with_its_length() {
        let frame = |length: usize| [&[0, 0, 1, 1, 0, 0, 0, length as u8][..], &vec![9; length]].concat();
        let bytes = [frame(0), frame(40), frame(3)].concat();
        assert_eq!(frames(&bytes), [(0, 0), (8, 40), (56, 3)]);
        let mut halves = [bytes[..20].to_vec(), bytes[20..].to_vec()];
        change_frame(&mut halves[0], 0, &(18..56), Some((12, 2)));
        change_frame(&mut halves[1], 20, &(18..56), Some((12, 2)));
        assert_eq!(halves.concat(), [frame(0), frame(2), frame(3)].concat());
    }
}
