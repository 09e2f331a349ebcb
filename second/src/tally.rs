//! What `tally` prints: docs/RECORDING.md, "Several recordings", and docs/REPORT.md.

use crate::answer::count_words as count;
use crate::bytes::number;
use crate::fault::{or, seeded, Fault};
use crate::lines::refused_table;
use crate::replay::{told, Told};
use crate::report::{table_of, Counter, OfRoute, Report, GIVEN, REASONS};
use crate::script::image_end;
use crate::state::World;

/// The length that says that a given report follows.
pub const IS_GIVEN: u64 = 0xFFFF_FFFF;
const PASSES: &str = "left out: a sum would pass 18446744073709551615";
const UNREAD: &str = "left out: nothing of it can be read";
/// The reasons of drops that are printed; 24 is none of today's.
const WORDS: [&str; REASONS - 1] = ["20 no route", "21 switched off", "22 too long", "23 cut off"];

/// A part of the input: a recording with the length that was given for it, or a given report.
pub enum Part<'a> {
    Recording(u64, &'a [u8]),
    Given(&'a [u8]),
}

/// The parts behind the image. "fewer than four bytes of a length: the input ends there".
pub fn parts(mut rest: &[u8]) -> Vec<Part<'_>> {
    let mut parts = Vec::new();
    while rest.len() >= 4 {
        let length = number(rest, 0, 4);
        let bytes = if length == IS_GIVEN { GIVEN } else { length as usize };
        let (part, behind) = rest[4..].split_at(bytes.min(rest.len() - 4));
        parts.push(if length == IS_GIVEN { Part::Given(part) } else { Part::Recording(length, part) });
        rest = behind;
    }
    parts
}

/// What was met in a tally: each recording and each given report.
pub enum Met<'a> {
    Recording {
        told: &'a Told,
        counted: &'a Counter,
        joined: bool,
    },
    Given {
        joined: bool,
        whole: bool,
    },
    /// The report of all that was joined.
    Total(&'a Report),
}

/// What a tally has come to.
#[derive(Default)]
struct Tally {
    total: Report,
    lines: Vec<String>,
    /// Same, different, refused and cut.
    words: [usize; 4],
    left_out: usize,
}

impl Tally {
    fn recording(&mut self, number: usize, world: World, length: u64, recording: &[u8], met: &mut dyn FnMut(Met)) {
        let table = table_of(&world).clone();
        let mut counter = Counter::default();
        let mut see = |seen: &crate::replay::Seen| {
            let same = crate::answer::spell(seen.today) == seen.recorded;
            if same || !seeded(Fault::DifferingUncounted) {
                counter.see(seen.event, seen.today, &table);
            }
        };
        let told = told(world, recording, &mut see);
        if seeded(Fault::EndedEarlyLeftOut) && (told.word == "REFUSED" || told.word == "CUT") {
            counter.report = Report::default();
        }
        let joined = !told.unread && self.total.add(&counter.report);
        met(Met::Recording { told: &told, counted: &counter, joined });
        let why = match (told.unread, joined) {
            (true, _) => format!(", {}", UNREAD),
            (_, false) => format!(", {}", PASSES),
            _ => String::new(),
        };
        self.lines.push(format!("recording {}: {}", number, count(length, "byte")));
        self.lines.extend(told.between);
        self.lines.push(format!("recording {}: {}{}", number, told.word, why));
        let word = ["SAME", "DIFFERS", "REFUSED", "CUT"].iter().position(|word| *word == told.word);
        self.words[word.expect("it is one of four words")] += 1;
        self.left_out += usize::from(!joined);
    }

    fn given(&mut self, number: usize, bytes: &[u8], met: &mut dyn FnMut(Met)) {
        let report = Report::read(bytes);
        let joined = report.as_ref().map_or(false, |report| self.total.add(report));
        met(Met::Given { joined, whole: report.is_some() });
        let said = match (&report, joined) {
            (None, _) => UNREAD,
            (_, false) => PASSES,
            _ => "joined",
        };
        self.lines.push(format!("given report {}: {}", number, said));
        self.left_out += usize::from(!joined);
    }

    fn recordings_line(&self) -> String {
        let [same, different, refused, cut] = self.words;
        let given = same + different + refused + cut;
        format!(
            "recordings: {} given, {} same, {} different, {} refused, {} cut, {} left out",
            given, same, different, refused, cut, self.left_out
        )
    }
}

fn route_line(route: usize, of: &OfRoute) -> String {
    let (smallest, largest) = (count(of.smallest.into(), "byte"), count(of.largest.into(), "byte"));
    format!(
        "route {}: {}, {}, smallest {}, largest {}",
        route,
        count(of.pdus, "PDU"),
        count(of.bytes, "byte"),
        smallest,
        largest
    )
}

fn connection_line(connection: usize, drops: &[u64; REASONS]) -> String {
    let said: Vec<String> =
        drops.iter().zip(WORDS).map(|(&drops, words)| format!("{} {}", count(drops, "drop"), words)).collect();
    format!("connection {}: {}", connection, said.join(", "))
}

/// The lines for an input: an image, then recordings and given reports, each behind its length. `met` is told of each.
pub fn lines_and(input: &[u8], met: &mut dyn FnMut(Met)) -> Vec<String> {
    let (image, rest) = input.split_at(image_end(input));
    let world = World::new(image);
    if let Err(place) = world.table {
        return refused_table(place);
    }
    let mut tally = Tally::default();
    for (number, part) in (1..).zip(parts(rest)) {
        match part {
            Part::Recording(length, recording) => tally.recording(number, world.clone(), length, recording, met),
            Part::Given(bytes) => tally.given(number, bytes, met),
        }
    }
    let table = table_of(&world);
    let mut lines = std::mem::take(&mut tally.lines);
    lines.push(tally.recordings_line());
    lines.extend((0..table.routes.len()).map(|route| route_line(route, &tally.total.routes[route])));
    lines.extend((0..table.connections.len()).map(|connection| connection_line(connection, &tally.total.drops[connection])));
    met(Met::Total(&tally.total));
    let refused = tally.left_out > 0;
    lines.push(if or(Fault::LeftOutIsFine, refused, false) { "REFUSED" } else { "OK" }.into());
    lines
}

pub fn lines(input: &[u8]) -> Vec<String> {
    lines_and(input, &mut |_| ())
}

/// The report that a tally's lines tell.
pub fn printed_report(lines: &[String]) -> Option<Report> {
    let numbers = |line: &str| -> Vec<u64> {
        let said = line.split(&[' ', ':', ','][..]).filter_map(|word| word.parse().ok());
        said.collect()
    };
    let mut report = Report::default();
    for line in lines {
        match (line.split(' ').next(), &numbers(line)[..]) {
            (Some("route"), &[route, pdus, bytes, smallest, largest]) => {
                let of = OfRoute { pdus, bytes, smallest: smallest as u32, largest: largest as u32 };
                *report.routes.get_mut(route as usize)? = of;
            }
            (Some("connection"), &[connection, none, _, off, _, long, _, cut, _]) => {
                *report.drops.get_mut(connection as usize)? = [none, off, long, cut, 0];
            }
            _ => {}
        }
    }
    Some(report)
}

#[cfg(test)]
mod tests {
    use super::*;
    use crate::bytes::unhex;

    /// The recording of docs/RECORDING.md.
    fn page() -> Vec<u8> {
        let text = include_str!("../../docs/RECORDING.md");
        let shown = text.lines().filter_map(|line| line.strip_prefix("    "));
        let digits: String = shown.filter(|line| line.as_bytes().get(2) == Some(&b':')).map(|line| &line[3..]).collect();
        unhex(&digits).unwrap()
    }

    fn with_length(part: &[u8]) -> Vec<u8> {
        [&(part.len() as u32).to_be_bytes()[..], part].concat()
    }

    #[test]
    fn a_recording_and_no_recording() {
        let table = include_bytes!("../../examples/debarker.table");
        let said = lines(&[&table[..], &with_length(&page())].concat());
        let front = [
            "recording 1: 67 bytes",
            "entries run: 3 of 3",
            "ticks run: 3 ticks",
            "recording 1: SAME",
            "recordings: 1 given, 1 same, 0 different, 0 refused, 0 cut, 0 left out",
            "route 0: 0 PDUs, 0 bytes, smallest 0 bytes, largest 0 bytes",
        ];
        assert_eq!(said[..6], front);
        assert_eq!(said.last().map(String::as_str), Some("OK"));
        let none = lines(table);
        assert_eq!(none[0], "recordings: 0 given, 0 same, 0 different, 0 refused, 0 cut, 0 left out");
        assert_eq!(none[1..], said[5..]);
        assert_eq!(lines(&[&table[..], &[0, 0, 0]].concat()), none);
    }

    #[test]
    fn a_part_that_is_cut() {
        let table = include_bytes!("../../examples/debarker.table");
        let recording = with_length(&page());
        let said = lines(&[&table[..], &recording[..recording.len() - 1]].concat());
        assert_eq!(said[..2], ["recording 1: 67 bytes", "cut: entry 3: body of 15 bytes, 14 bytes are there"]);
        assert_eq!(said.last().map(String::as_str), Some("OK"));
        let given = [&[255; 4][..], &Report::default().spell()].concat();
        let said = lines(&[&table[..], &given, &given[..given.len() - 1]].concat());
        assert_eq!(said[..2], ["given report 1: joined", "given report 2: left out: nothing of it can be read"]);
        assert_eq!(said.last().map(String::as_str), Some("REFUSED"));
    }

    #[test]
    fn printed_figures_come_back() {
        let table = include_bytes!("../../examples/debarker.table");
        let mut report = Report::default();
        report.routes[1] = OfRoute { pdus: 1, bytes: 1, smallest: 1, largest: 1 };
        report.drops[3] = [1, 2, 0, u64::MAX, 0];
        let said = lines(&[&table[..], &[255; 4], &report.spell()].concat());
        assert!(said.contains(&"route 1: 1 PDU, 1 byte, smallest 1 byte, largest 1 byte".to_string()));
        let line = "connection 3: 1 drop 20 no route, 2 drops 21 switched off, 0 drops 22 too long, 18446744073709551615 drops 23 cut off";
        assert!(said.contains(&line.to_string()), "{:?}", said);
        assert_eq!(printed_report(&said), Some(report));
    }
}
