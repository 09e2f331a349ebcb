//! Cases of the program `test_takes` made smaller: segments and table rows left out, segments shortened, numbers towards 0.

use super::image::{Image, CONNECTIONS};
use super::Kind;
use crate::table::check;
use crate::takes::{Case, Item};
use std::ops::Range;

/// The image of a case that has one table.
fn image(case: &Case) -> Option<Image> {
    let tables = case.iter().filter(|item| !item.segment).count();
    (tables == 1).then(|| Image::read(&case[0].bytes))
}

/// A case without a row; nothing where its segments are on the connection that goes.
fn leave_out_row(case: &mut Case, mut image: Image, kind: usize, row: usize) -> Option<()> {
    let used = |item: &Item| usize::from(item.connection) == row;
    let later = |item: &Item| usize::from(item.connection) > row;
    if kind == CONNECTIONS {
        case.iter().all(|item| !used(item)).then_some(())?;
        case.iter_mut().filter(|item| later(item)).for_each(|item| item.connection -= 1);
    }
    image.leave_out(kind, row);
    case[0].bytes = image.bytes();
    Some(())
}

/// The case with a segment and the one before it as one; nothing where a table stands there.
fn join(case: &mut Case, number: usize) -> Option<()> {
    let both = case[number - 1].segment && case[number].segment;
    both.then(|| {
        let front = case.remove(number - 1).bytes;
        case[number - 1].bytes.splice(..0, front);
    })
}

/// The kinds of parts: what follows the first table; rows of it, groups aside; the seams between two segments.
impl super::Case for Case {
    fn parts(&self) -> Vec<usize> {
        let [_, connections, routes, destinations] = image(self).map_or([0; 4], |image| image.counts());
        vec![self.len() - 1, connections, routes, destinations, self.len().saturating_sub(2)]
    }

    fn without(&self, kind: usize, parts: Range<usize>) -> Option<Self> {
        let mut less = self.clone();
        if kind == 0 {
            less.drain(parts.start + 1..parts.end + 1);
            return Some(less);
        }
        if kind == 4 {
            parts.rev().try_for_each(|seam| join(&mut less, seam + 2).ok_or(())).ok()?;
            return Some(less);
        }
        for row in parts.rev() {
            let image = image(&less)?;
            leave_out_row(&mut less, image, kind, row)?;
        }
        Some(less)
    }

    fn stretches(&mut self, each: &mut dyn FnMut(&mut Vec<u8>, Kind)) {
        self.iter_mut().filter(|item| item.segment).for_each(|item| each(&mut item.bytes, Kind::Stream(0)));
    }

    fn numbers(&mut self, each: &mut dyn FnMut(u64) -> u64) {
        for item in self.iter_mut() {
            item.switches = each(item.switches.into()) as u32;
            if !item.segment {
                let mut image = Image::read(&item.bytes);
                image.numbers(each);
                item.bytes = image.bytes();
            }
        }
    }

    /// The program is asked for segments on a connection that an accepted table has.
    fn may_be_asked(&self) -> bool {
        let mut rows = 0;
        self.iter().all(|item| {
            if !item.segment {
                rows = check(&item.bytes).map_or(0, |table| table.connections.len());
            }
            usize::from(item.connection) < rows
        })
    }
}

#[cfg(test)]
mod tests {
    use super::super::{shrink, Bound, Case as _};
    use super::*;
    use crate::fault::{self, Fault};
    use crate::random::Random;
    use crate::takes::{lines, random_case};

    fn differs(fault: Fault, case: &Case) -> bool {
        fault::with(fault, || lines(case)) != lines(case)
    }

    #[test]
    fn cases_become_small() {
        for &(fault, _) in fault::of("segment").unwrap() {
            let random = &mut Random::new(1);
            let case = std::iter::repeat_with(|| random_case(random)).find(|case| differs(fault, case)).unwrap();
            let bound = Bound { calls: 300, cases: 200 };
            let (least, calls) = shrink(case, bound, &mut |all| all.iter().position(|case| differs(fault, case)));
            assert!(calls <= 300 && least.may_be_asked() && differs(fault, &least));
            let bytes: usize = least[1..].iter().map(|item| item.bytes.len()).sum();
            assert!(least.len() <= 4 && bytes <= 26, "{:?}: {} items, {} bytes of segments", fault, least.len(), bytes);
        }
    }
}
