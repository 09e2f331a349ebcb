//! Inputs of `tally`: random tables with random sets of recordings and given reports, sums near 2 to the 64, parts that are cut; and fixed ones.

use super::image::image;
use super::recording::{examples, limits, under};
use super::script::{table_for_events, table_of_transfers};
use crate::random::Random;
use crate::report::{OfRoute, Report, REASONS, ROUTES};
use crate::script::image_end;
use crate::state::RECORDS;
use crate::table::Table;
use crate::tally::{lines_and, Met};

/// A recording behind its length.
pub fn recording_part(recording: &[u8]) -> Vec<u8> {
    [&(recording.len() as u32).to_be_bytes()[..], recording].concat()
}

/// A given report behind its mark.
pub fn given_part(report: &Report) -> Vec<u8> {
    [vec![255; 4], report.spell()].concat()
}

/// A table image and the parts behind it.
#[derive(Clone)]
pub struct Case {
    pub image: Vec<u8>,
    pub parts: Vec<Vec<u8>>,
}

impl Case {
    pub fn input(&self) -> Vec<u8> {
        [self.image.clone(), self.parts.concat()].concat()
    }
}

/// The total that a tally of this input comes to.
pub fn total(input: &[u8]) -> Report {
    let mut all = Report::default();
    lines_and(input, &mut |met| {
        if let Met::Total(total) = met {
            all = total.clone();
        }
    });
    all
}

/// One of the figures that are added up: PDUs or bytes of a route, or drops of a connection; also beyond the rows that a table has.
fn figure<'a>(random: &mut Random, report: &'a mut Report, rows: [usize; 2]) -> &'a mut u64 {
    let [routes, connections] = if random.one_in(8) { [ROUTES, RECORDS] } else { rows.map(|rows| rows.max(1)) };
    let of = &mut report.routes[random.below(routes)];
    match random.below(5) {
        0 | 1 => &mut of.pdus,
        2 | 3 => &mut of.bytes,
        _ => &mut report.drops[random.below(connections)][random.below(REASONS)],
    }
}

/// A report that runs may leave, or any other.
fn report(random: &mut Random, rows: [usize; 2]) -> Report {
    let mut report = Report::default();
    for _ in 0..random.below(6) {
        let of = &mut report.routes[random.below(rows[0].max(1))];
        let (smallest, more) = (random.below(9) as u32, random.below(9) as u32);
        let pdus = random.below(1000) as u64;
        *of = OfRoute { pdus, bytes: pdus * u64::from(smallest + more), smallest, largest: smallest + more };
        report.drops[random.below(rows[1].max(1))][random.below(REASONS)] = random.below(1000) as u64;
    }
    if random.one_in(4) {
        let any = random.bytes(24);
        let of = [0, 8, 16, 20].map(|at| crate::bytes::number(&any, at, if at < 16 { 8 } else { 4 }));
        let of = OfRoute { pdus: of[0] % 3, bytes: of[1] >> random.below(64), smallest: of[2] as u32, largest: of[3] as u32 };
        report.routes[random.below(ROUTES)] = of;
    }
    report
}

/// A report that brings a figure of this total to the most that fits, or one beyond it.
fn near(random: &mut Random, total: &Report, rows: [usize; 2]) -> Report {
    // a figure that is not 0, where one is soon found: the sum is then one of both sides
    for _ in 0..40 {
        let mut sums = total.clone();
        let seed = random.word();
        let sum = *figure(&mut Random::new(seed), &mut sums, rows);
        if sum > 0 || random.one_in(20) {
            let mut report = Report::default();
            let most = (u64::MAX - sum).saturating_add(random.below(2) as u64);
            *figure(&mut Random::new(seed), &mut report, rows) = most;
            // and another figure, so that a refused run that is half added shows
            report.routes[random.below(rows[0].max(1))].largest = 7;
            return report;
        }
    }
    Report::default()
}

fn shuffled<T>(random: &mut Random, mut all: Vec<T>) -> Vec<T> {
    (1..all.len()).rev().for_each(|last| all.swap(last, random.below(last + 1)));
    all
}

fn recordings(random: &mut Random, table: &Table, transfers: bool) -> Vec<Vec<u8>> {
    let count = *random.pick(&[0, 1, 1, 2, 2, 3, 4, 6]);
    let one = |random: &mut Random| {
        let events = *random.pick(&[1, 12, 40, 120, 240]);
        recording_part(&under(random, table, if transfers { events.max(20) } else { events }, transfers))
    };
    (0..count).map(|_| one(random)).collect()
}

/// Damages the parts as a whole: the last one is cut, a length says another number, or a few bytes stand behind.
fn damage(random: &mut Random, case: &mut Case) {
    if random.one_in(2) {
        case.parts.push(given_part(&Report::default()));
    }
    let last = match case.parts.last_mut() {
        Some(last) => last,
        None => return case.parts.push(vec![0; 3]),
    };
    match random.below(4) {
        0 => last.truncate(random.below(last.len())),
        1 => drop(last.pop()),
        2 => last.extend([0, 0, 1]),
        _ => {
            let which = random.below(case.parts.len());
            let length = &mut case.parts[which][3];
            *length = random.pick(&[length.wrapping_add(1), length.wrapping_sub(1), 0, 255]).to_owned();
        }
    }
}

/// A random table with recordings and given reports, in random order; in some cases any image, or something cut.
pub fn tally(random: &mut Random) -> Case {
    let transfers = random.one_in(2);
    let table = if transfers { table_of_transfers(random) } else { table_for_events(random) };
    let parts = recordings(random, &table, transfers);
    if random.one_in(15) {
        return Case { image: image(random), parts };
    }
    let mut case = Case { image: table.image(), parts };
    let rows = [table.routes.len(), table.connections.len()];
    for _ in 0..*random.pick(&[0, 0, 1, 2]) {
        case.parts.push(given_part(&report(random, rows)));
    }
    case.parts = shuffled(random, case.parts);
    for _ in 0..*random.pick(&[0, 0, 1, 1, 2]) {
        // first of all, so that it is a recording that passes; or anywhere
        let near = near(random, &total(&case.input()), rows);
        let at = if random.one_in(2) { 0 } else { random.below(case.parts.len() + 1) };
        case.parts.insert(at, given_part(&near));
    }
    if random.one_in(6) {
        damage(random, &mut case);
    }
    case
}

/// A case in random groups: each group's parts, in a random order of groups.
pub fn groups(random: &mut Random, parts: &[Vec<u8>]) -> Vec<Vec<Vec<u8>>> {
    let count = random.between(1, parts.len().max(1));
    let mut groups = vec![vec![]; count];
    for part in shuffled(random, parts.to_vec()) {
        groups[random.below(count)].push(part);
    }
    groups
}

/// Each figure brought to the most that fits and one beyond it, by a report before a recording and behind it; for the first row and the last of all.
fn edges_of_sums(image: &[u8], recording: &[u8]) -> Vec<Case> {
    let counted = total(&Case { image: image.to_vec(), parts: vec![recording_part(recording)] }.input());
    let figures: Vec<fn(&mut Report) -> &mut u64> = vec![
        |of| &mut of.routes[4].pdus,
        |of| &mut of.routes[4].bytes,
        |of| &mut of.routes[63].pdus,
        |of| &mut of.routes[63].bytes,
        |of| &mut of.drops[0][0],
        |of| &mut of.drops[0][1],
        |of| &mut of.drops[0][2],
        |of| &mut of.drops[15][3],
        |of| &mut of.drops[15][4],
    ];
    let mut all = Vec::new();
    for figure in figures {
        let sum = *figure(&mut counted.clone());
        for beyond in [0, 1] {
            let mut near = Report::default();
            *figure(&mut near) = (u64::MAX - sum).saturating_add(beyond);
            let (given, counted) = (given_part(&near), recording_part(recording));
            let mut one = Report::default();
            (*figure(&mut one), one.routes[0].pdus) = (1, 1);
            for parts in [
                vec![given.clone(), counted.clone()],
                vec![counted.clone(), given.clone()],
                vec![given, given_part(&one), counted],
            ] {
                all.push(Case { image: image.to_vec(), parts });
            }
        }
    }
    all
}

/// The limits of recordings, each behind its length, with a small one behind them; and 4,001 entries in an input that ends inside them.
fn edges_of_recordings() -> Vec<Vec<u8>> {
    let mut all = Vec::new();
    for input in limits() {
        let (image, recording) = input.split_at(image_end(&input));
        let behind = recording_part(&[0, 1, 0, 0, 9]);
        all.push([image, &recording_part(recording), &behind].concat());
        if recording.starts_with(&[0, 1, 0x0F, 0xA1]) {
            let whole = [image, &recording_part(recording)].concat();
            let ends = [1, 2, 3, 4, 5, 47_999, 48_003, 48_004, 48_005, 48_015, 48_016, 48_017];
            all.extend(ends.iter().map(|&end| whole[..whole.len().min(image.len() + 4 + end)].to_vec()));
        }
    }
    all
}

/// Two recordings and a given report between them, cut at every byte but those inside the report's figures; the edges of recordings, and of sums.
pub fn edges() -> Vec<Vec<u8>> {
    let mut all = edges_of_recordings();
    for (image, recording) in examples() {
        let mut report = Report::default();
        report.routes[0] = OfRoute { pdus: 3, bytes: 9, smallest: 1, largest: 7 };
        let (given, counted) = (given_part(&report), recording_part(&recording));
        let whole = Case { image: image.clone(), parts: vec![counted.clone(), given.clone(), counted.clone()] }.input();
        let inside = image.len() + counted.len() + 24..image.len() + counted.len() + given.len() - 8;
        all.extend((image.len()..=whole.len()).filter(|at| !inside.contains(at)).map(|at| whole[..at].to_vec()));
        all.extend(edges_of_sums(&image, &recording).iter().map(Case::input));
    }
    all
}

#[cfg(test)]
mod tests {
    use super::*;
    use crate::tally::lines;

    #[test]
    fn sums_are_met_from_both_sides() {
        let (image, recording) = &examples()[1];
        let words: Vec<bool> =
            edges_of_sums(image, recording).iter().map(|case| lines(&case.input()).ends_with(&["OK".to_string()])).collect();
        // of each figure: what fits exactly, then one beyond it
        for six in words.chunks(6) {
            assert_eq!(six[..3], [true, true, false]);
        }
        let total = total(&Case { image: image.clone(), parts: vec![recording_part(recording)] }.input());
        assert_eq!(
            (total.routes[4].pdus, total.routes[4].bytes, total.routes[4].smallest, total.routes[4].largest),
            (2, 4, 0, 4)
        );
    }
}
