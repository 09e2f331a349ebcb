//! Section 21 of the rules: the foreman's report. Counted from what the core answers today, joined, and spelt as a given report (docs/RECORDING.md).

use crate::bytes::{number, Writer};
use crate::event::{Answer, Done, Event};
use crate::fault::{or, seeded, Fault};
use crate::state::{World, RECORDS};
use crate::stream::{Outcome, Take};
use crate::table::Table;
use crate::walk::Found;
use std::convert::TryInto;

pub const ROUTES: usize = 64;
/// Reasons 20 to 24; none is 24 today.
pub const REASONS: usize = 5;
/// The bytes of a given report.
pub const GIVEN: usize = ROUTES * 24 + RECORDS * 8 * REASONS;

/// "per route: PDUs handed out (a TP transfer at its end), payload bytes, smallest and largest length".
#[derive(Clone, Copy, Default, PartialEq, Eq, Debug)]
pub struct OfRoute {
    pub pdus: u64,
    pub bytes: u64,
    pub smallest: u32,
    pub largest: u32,
}

/// "per connection: drops of each reason". The empty report is the default.
#[derive(Clone, PartialEq, Eq, Debug)]
pub struct Report {
    pub routes: [OfRoute; ROUTES],
    pub drops: [[u64; REASONS]; RECORDS],
}

impl Default for Report {
    fn default() -> Self {
        Report { routes: [OfRoute::default(); ROUTES], drops: [[0; REASONS]; RECORDS] }
    }
}

/// "A sum that would pass 64 bits refuses the run that caused it": nothing where it would.
fn sum(a: u64, b: u64) -> Option<u64> {
    or(Fault::SumWraps, a.checked_add(b), Some(a.wrapping_add(b)))
}

impl OfRoute {
    fn count(&mut self, length: u32) {
        let first = self.pdus == 0;
        self.smallest = if first { or(Fault::SmallestFromZero, length, 0) } else { self.smallest.min(length) };
        self.largest = self.largest.max(length);
        self.pdus += 1;
        self.bytes += u64::from(length);
    }

    /// "smallest: the smaller where both have PDUs; where one has none, the other's; where neither has any, the larger".
    fn smallest_of(&self, other: &OfRoute) -> u32 {
        let (smaller, larger) = (self.smallest.min(other.smallest), self.smallest.max(other.smallest));
        match (self.pdus, other.pdus) {
            (0, 0) => larger,
            _ if seeded(Fault::SmallestOfNone) => smaller,
            (0, _) => other.smallest,
            (_, 0) => self.smallest,
            _ => smaller,
        }
    }

    fn join(&self, other: &OfRoute) -> Option<OfRoute> {
        Some(OfRoute {
            pdus: sum(self.pdus, other.pdus)?,
            bytes: sum(self.bytes, other.bytes)?,
            smallest: self.smallest_of(other),
            largest: or(Fault::LargestOfTheLast, self.largest.max(other.largest), other.largest),
        })
    }
}

impl Report {
    /// "a join that would is refused and gives the first report": nothing where it is refused.
    fn joined(&self, other: &Report) -> Option<Report> {
        let mut all = self.clone();
        for (to, from) in all.routes.iter_mut().zip(&other.routes) {
            *to = to.join(from)?;
        }
        for (to, from) in all.drops.iter_mut().flatten().zip(other.drops.iter().flatten()) {
            *to = sum(*to, *from)?;
        }
        Some(all)
    }

    /// Joins a report to this one, all or nothing; whether it did.
    pub fn add(&mut self, other: &Report) -> bool {
        match self.joined(other) {
            Some(all) => *self = all,
            None => {
                if seeded(Fault::RefusedHalfAdded) {
                    self.add_what_fits(other);
                }
                return false;
            }
        }
        true
    }

    /// A wrong reading: each sum by itself.
    fn add_what_fits(&mut self, other: &Report) {
        for (to, from) in self.routes.iter_mut().zip(&other.routes) {
            *to = to.join(from).unwrap_or(*to);
        }
        for (to, from) in self.drops.iter_mut().flatten().zip(other.drops.iter().flatten()) {
            *to = to.checked_add(*from).unwrap_or(*to);
        }
    }

    /// A given report, as docs/RECORDING.md lays it out.
    pub fn spell(&self) -> Vec<u8> {
        let route =
            |to: Writer, of: &OfRoute| to.number(of.pdus, 8).number(of.bytes, 8).number(of.smallest, 4).number(of.largest, 4);
        let routes = self.routes.iter().fold(Writer::default(), route);
        self.drops.iter().flatten().fold(routes, |to, drops| to.number(*drops, 8)).0
    }

    pub fn read(bytes: &[u8]) -> Option<Report> {
        let mut report = Report::default();
        let of = |at: usize| OfRoute {
            pdus: number(bytes, at, 8),
            bytes: number(bytes, at + 8, 8),
            smallest: number(bytes, at + 16, 4) as u32,
            largest: number(bytes, at + 20, 4) as u32,
        };
        report.routes = (0..ROUTES).map(|route| of(24 * route)).collect::<Vec<_>>().try_into().ok()?;
        for (place, drops) in report.drops.iter_mut().flatten().enumerate() {
            *drops = number(bytes, 24 * ROUTES + 8 * place, 8);
        }
        (bytes.len() == GIVEN).then_some(report)
    }
}

/// What is counted of one recording: its report, and the length of the transfer that each connection is in. Beside it, what was met.
#[derive(Default)]
pub struct Counter {
    pub report: Report,
    started: [u32; RECORDS],
    pub met: Vec<&'static str>,
}

/// What a drop is called among what was met.
const DROPS: [&str; REASONS] = ["drop 20", "drop 21", "drop 22", "drop 23", "drop 24"];

impl Counter {
    fn pdu(&mut self, route: usize, length: u32, what: &'static str) {
        self.met.push(what);
        if length == 0 {
            self.met.push("PDU of no bytes");
        }
        self.report.routes[route].count(length);
    }

    /// "The figures come from the replayed events": the takes of segments, and what walks find.
    pub fn see(&mut self, event: &Event, answer: &Answer, table: &Table) {
        match (event, answer) {
            (Event::Segment(connection, _), Ok(Done::Takes(takes))) => {
                takes.iter().for_each(|take| self.take(usize::from(*connection), take));
            }
            (Event::Walk(connection, _, _), Ok(Done::Walked(step))) => match step.found {
                Found::Pdu { route, ref header, .. } => self.pdu(route, header.length, "PDU of a walk"),
                Found::Drop { reason, .. } => self.drop(usize::from(*connection), reason),
                Found::End => {}
            },
            (Event::ReadAndClear(protocol), Ok(_)) => self.clear(*protocol, table),
            _ => {}
        }
    }

    /// A transfer counts "once, at its end, with its whole length"; an unfinished one adds nothing.
    fn take(&mut self, connection: usize, take: &Take) {
        match take.outcome {
            Outcome::Pdu { route, ref header, .. } => self.pdu(route, header.length, "PDU of a segment"),
            Outcome::Drop { reason, .. } => self.drop(connection, reason),
            Outcome::Start { route, ref header } => {
                self.started[connection] = header.length;
                self.met.push("transfer at its start");
                let at_once = or(Fault::EmptyTransferForgotten, header.length == 0, false);
                if or(Fault::TransferAtStart, at_once, true) {
                    self.pdu(route, header.length, "transfer of no bytes");
                }
            }
            Outcome::Piece { route, ref bytes, last: true, .. } if !seeded(Fault::TransferAtStart) => {
                let length = or(Fault::LastPieceAlone, self.started[connection], bytes.len() as u32);
                self.pdu(
                    route,
                    length,
                    if length as usize > bytes.len() { "transfer of several pieces" } else { "transfer of one piece" },
                );
            }
            Outcome::Piece { route, ref bytes, last: false, .. } if seeded(Fault::UnfinishedAdded) => {
                self.report.routes[route].bytes += bytes.len() as u64;
            }
            Outcome::Piece { .. } | Outcome::More => {}
        }
    }

    fn drop(&mut self, connection: usize, reason: u8) {
        self.met.push(DROPS[usize::from(reason - 20)]);
        if reason != 23 || !seeded(Fault::CutUncounted) {
            self.report.drops[connection][usize::from(reason - 20)] += 1;
        }
    }

    /// The module's count is cleared: "not from the module's stopping counts".
    fn clear(&mut self, protocol: u8, table: &Table) {
        for (connection, drops) in self.report.drops.iter_mut().enumerate().take(table.connections.len()) {
            if table.protocol(connection) == protocol && *drops != [0; REASONS] {
                self.met.push("drops whose count is cleared");
                *drops = or(Fault::DropsFromCounts, *drops, [0; REASONS]);
            }
        }
    }
}

/// The table of a world that has an accepted one.
pub fn table_of(world: &World) -> &Table {
    world.table.as_ref().expect("the table is accepted")
}

#[cfg(test)]
mod tests {
    use super::*;
    use crate::random::Random;

    fn random_report(random: &mut Random) -> Report {
        let mut report = Report::default();
        for _ in 0..random.below(40) {
            let length = random.below(5) as u32;
            report.routes[random.below(4)].count(length);
            report.drops[random.below(3)][random.below(5)] += 1;
        }
        report
    }

    fn joined(a: &Report, b: &Report) -> Report {
        let mut all = a.clone();
        assert!(all.add(b));
        all
    }

    #[test]
    fn joining_is_associative_and_commutative_and_the_empty_report_does_nothing() {
        let random = &mut Random::new(1);
        for _ in 0..50 {
            let (a, b, c) = (random_report(random), random_report(random), random_report(random));
            assert_eq!(joined(&joined(&a, &b), &c), joined(&a, &joined(&b, &c)));
            assert_eq!(joined(&a, &b), joined(&b, &a));
            assert_eq!(joined(&a, &Report::default()), a);
            assert_eq!(Report::read(&a.spell()), Some(a));
        }
    }

    #[test]
    fn a_sum_that_would_pass_changes_nothing() {
        let mut near = Report::default();
        near.drops[15][4] = u64::MAX - 2;
        let mut one = Report::default();
        one.drops[15][4] = 1;
        one.routes[0].count(7);
        assert!(near.add(&one) && near.add(&one));
        let before = near.clone();
        assert!(!near.add(&one) && near == before);
        assert_eq!((near.routes[0].pdus, near.routes[0].bytes, near.drops[15][4]), (2, 14, u64::MAX));
    }

    #[test]
    fn a_pdu_of_no_bytes_counts() {
        let mut of = OfRoute::default();
        of.count(0);
        assert_eq!(of, OfRoute { pdus: 1, ..OfRoute::default() });
        of.count(9);
        assert_eq!((of.smallest, of.largest, of.bytes), (0, 9, 9));
        let joined = of.join(&OfRoute::default()).unwrap();
        assert_eq!(joined, of);
    }
}
