//! Inputs of `tally` made smaller: parts and the entries of recordings left out, bytes set to 0, stamps towards 0.

use super::recording::Recording;
use super::{Case, Kind};
use crate::generate::tally::recording_part;
use crate::script::image_end;
use crate::tally::{parts, Part};
use std::ops::Range;

#[derive(Clone)]
enum Piece {
    Recording(Recording),
    /// A given report, or what is cut, with its length.
    Other(Vec<u8>),
}

#[derive(Clone)]
pub struct Tally {
    image: Vec<u8>,
    pieces: Vec<Piece>,
}

impl Tally {
    pub fn read(input: &[u8]) -> Self {
        let (image, rest) = input.split_at(image_end(input));
        let mut at = 0;
        let piece = |part: Part| {
            let bytes = 4 + match part {
                Part::Recording(_, bytes) | Part::Given(bytes) => bytes.len(),
            };
            at += bytes;
            match part {
                Part::Recording(length, bytes) if length == bytes.len() as u64 => {
                    Piece::Recording(Recording::read(&[image, bytes].concat()))
                }
                _ => Piece::Other(rest[at - bytes..at].to_vec()),
            }
        };
        let mut pieces: Vec<Piece> = parts(rest).into_iter().map(piece).collect();
        if at < rest.len() {
            pieces.push(Piece::Other(rest[at..].to_vec()));
        }
        Tally { image: image.to_vec(), pieces }
    }

    pub fn bytes(&self) -> Vec<u8> {
        let piece = |piece: &Piece| match piece {
            Piece::Recording(recording) => recording_part(&recording.bytes()[self.image.len()..]),
            Piece::Other(bytes) => bytes.clone(),
        };
        self.pieces.iter().fold(self.image.clone(), |all, one| [all, piece(one)].concat())
    }

    fn recordings(&mut self) -> impl Iterator<Item = &mut Recording> {
        self.pieces.iter_mut().filter_map(|piece| match piece {
            Piece::Recording(recording) => Some(recording),
            Piece::Other(_) => None,
        })
    }

    /// How many parts, and how many entries in all.
    pub fn size(&self) -> (usize, usize) {
        let mut whole = self.clone();
        (self.pieces.len(), whole.recordings().map(|recording| recording.entries.len()).sum())
    }
}

impl Case for Tally {
    fn parts(&self) -> Vec<usize> {
        vec![self.size().0, self.size().1]
    }

    fn without(&self, kind: usize, parts: Range<usize>) -> Option<Self> {
        let mut less = self.clone();
        if kind == 0 {
            less.pieces.drain(parts);
            return Some(less);
        }
        let mut number = 0;
        for recording in less.recordings() {
            recording.entries.retain(|_| {
                number += 1;
                !parts.contains(&(number - 1))
            });
        }
        Some(less)
    }

    fn stretches(&mut self, each: &mut dyn FnMut(&mut Vec<u8>, Kind)) {
        for piece in &mut self.pieces {
            match piece {
                Piece::Recording(recording) => {
                    recording.entries.iter_mut().for_each(|entry| each(&mut entry.body, Kind::Fixed))
                }
                Piece::Other(bytes) => {
                    let mut figures = bytes.split_off(bytes.len().min(4));
                    each(&mut figures, Kind::Fixed);
                    bytes.extend(figures);
                }
            }
        }
    }

    fn numbers(&mut self, each: &mut dyn FnMut(u64) -> u64) {
        for entry in self.recordings().flat_map(|recording| recording.entries.iter_mut()) {
            entry.stamp = each(entry.stamp.into()) as u32;
        }
    }
}

#[cfg(test)]
mod tests {
    use super::super::{shrink, Bound};
    use super::*;
    use crate::fault::{self, Fault};
    use crate::generate::tally::{edges, tally};
    use crate::random::Random;
    use crate::tally::lines;

    #[test]
    fn every_input_comes_back() {
        let random = &mut Random::new(1);
        let all = (0..60).map(|_| tally(random).input()).chain(edges().into_iter().step_by(17));
        all.for_each(|input| assert_eq!(Tally::read(&input).bytes(), input));
    }

    #[test]
    fn inputs_become_small() {
        let differs = |fault: Fault, input: &[u8]| fault::with(fault, || lines(input)) != lines(input);
        for fault in [Fault::SmallestFromZero, Fault::SumWraps, Fault::RefusedHalfAdded] {
            let random = &mut Random::new(2);
            let first = std::iter::repeat_with(|| tally(random).input()).find(|input| differs(fault, input)).unwrap();
            let bound = Bound { calls: 2000, cases: 1 };
            let mut ask = |all: &[Tally]| all.iter().position(|small| differs(fault, &small.bytes()));
            let (least, _) = shrink(Tally::read(&first), bound, &mut ask);
            assert!(
                differs(fault, &least.bytes()) && least.size().0 <= 3 && least.size().1 <= 20,
                "{:?}: {:?}",
                fault,
                least.size()
            );
        }
    }
}
