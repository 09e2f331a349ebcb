//! What `replay` prints: docs/RECORDING.md, "Reading: the order of tests" and "What a replay prints".

use crate::answer::{self, count_words};
use crate::bytes::number;
use crate::event::{run, Answer, Event};
use crate::fault::{or, seeded, Fault};
use crate::lines::{end_lines, event_words, refused_table};
use crate::recording::{distance, read_body, row, too_far, Row, EDITION, FRONT, MOST_BODY, MOST_DISTANCE, MOST_ENTRIES, ROW};
use crate::script::image_end;
use crate::state::World;

/// Where a replay ends before its end: the line that says so, and the last word.
struct Stop {
    line: String,
    word: &'static str,
}

fn refused(line: String) -> Stop {
    Stop { line: format!("refused: {}", line), word: "REFUSED" }
}

fn over(line: String) -> Stop {
    Stop { line: format!("over the limit: {}", line), word: "REFUSED" }
}

fn cut(line: String) -> Stop {
    Stop { line: format!("cut: {}", line), word: "CUT" }
}

/// "1 entry needs 16 bytes".
fn entries_need(entries: usize) -> String {
    let need = count_words((FRONT + ROW * entries) as u64, "byte");
    match entries {
        1 => format!("1 entry needs {}", need),
        _ => format!("{} entries need {}", entries, need),
    }
}

fn bad_edition(recording: &[u8]) -> Option<Stop> {
    let edition = number(recording, 0, 2) as u16;
    (recording.len() >= 2 && edition != EDITION).then(|| refused(format!("edition {} is not {}", edition, EDITION)))
}

fn cut_contents(recording: &[u8]) -> Option<Stop> {
    let there = count_words(recording.len() as u64, "byte");
    let entries = number(recording, 2, 2) as usize;
    if recording.len() < FRONT {
        return Some(cut(format!("the contents end after {}, the front needs {} bytes", there, FRONT)));
    }
    let need = FRONT + ROW * entries;
    (recording.len() < need).then(|| cut(format!("the contents end after {}, {}", there, entries_need(entries))))
}

fn too_many(recording: &[u8]) -> Option<Stop> {
    let entries = number(recording, 2, 2) as usize;
    let most = or(Fault::MostEntriesRefused, or(Fault::OneEntryMore, MOST_ENTRIES, MOST_ENTRIES + 1), MOST_ENTRIES - 1);
    (entries > most).then(|| over(format!("{} entries, {} entries are the most", entries, MOST_ENTRIES)))
}

fn too_long(recording: &[u8]) -> Option<Stop> {
    let most = or(Fault::MostBodyRefused, or(Fault::OneByteMore, MOST_BODY, MOST_BODY + 1), MOST_BODY - 1);
    let entries = number(recording, 2, 2) as usize;
    let (entry, length) = (0..entries).map(|entry| (entry, row(recording, entry).length)).find(|&(_, length)| length > most)?;
    Some(over(format!("entry {}: body of {} bytes, {} bytes are the most", entry + 1, length, MOST_BODY)))
}

/// "One of these, and nothing is replayed."
fn before_all(recording: &[u8]) -> Option<Stop> {
    let order = [bad_edition, cut_contents, too_many, too_long];
    let order = or(Fault::EditionAfterContents, order, [cut_contents, bad_edition, too_many, too_long]);
    let order = or(Fault::LimitBeforeContents, order, [bad_edition, too_many, cut_contents, too_long]);
    order.iter().find_map(|test| test(recording))
}

/// The entries that a recording names; "0 where it names none (fewer than 4 bytes, or another edition)".
fn named(recording: &[u8]) -> usize {
    match recording.len() < FRONT || bad_edition(recording).is_some() {
        true => 0,
        false => number(recording, 2, 2) as usize,
    }
}

/// "A body that reaches beyond the end of the file is cut, even if none of it is there."
fn cut_body(entry: usize, length: usize, left: usize, last: bool) -> Option<Stop> {
    let short = last && length == left && length > 0 && seeded(Fault::LastBodyShort);
    let beyond = length > left + or(Fault::OneByteLacks, 0, 1);
    let there = if left == 1 { "1 byte is".into() } else { format!("{} bytes are", left) };
    (beyond || short).then(|| cut(format!("entry {}: body of {}, {} there", entry, count_words(length as u64, "byte"), there)))
}

fn far(entry: usize, row: Row, ticks: u32) -> Option<Stop> {
    let line = || format!("{} is {} ticks after the one before, {} ticks are the most", row.stamp, ticks, MOST_DISTANCE);
    too_far(ticks).then(|| refused(format!("entry {}: stamp {}", entry, line())))
}

fn unknown(entry: usize, row: Row) -> Option<Stop> {
    let most = or(Fault::CancelUnknown, or(Fault::OneNumberMore, 16, 17), 15);
    let known = (1..=most).contains(&row.number) || (row.number == 0 && seeded(Fault::TicksKnown));
    (!known).then(|| refused(format!("entry {}: unknown event number {}", entry, row.number)))
}

fn not_zero(entry: usize, row: Row) -> Option<Stop> {
    (row.zero != 0).then(|| refused(format!("entry {}: zero field is not 0", entry)))
}

fn unfit(entry: usize, row: Row, body: &[u8]) -> Option<Stop> {
    read_body(row.number, body).is_none().then(|| refused(format!("entry {}: body does not fit", entry)))
}

/// What an entry that is run asks for.
struct Asked<'a> {
    ticks: u32,
    event: Event,
    recorded: &'a [u8],
}

/// The tests of an entry in their order.
fn judge<'a>(entry: usize, row: Row, before: Option<u32>, rest: &'a [u8], last: bool) -> Result<Asked<'a>, Stop> {
    let ticks = distance(before, row.stamp);
    let body = &rest[..row.length.min(rest.len())];
    let cut = || cut_body(entry, row.length, rest.len(), last);
    let (far, unknown, zero) = (|| far(entry, row, ticks), || unknown(entry, row), || not_zero(entry, row));
    let unfit = || unfit(entry, row, body);
    let mut order: [&dyn Fn() -> Option<Stop>; 5] = [&cut, &far, &unknown, &zero, &unfit];
    let swaps = [(Fault::NumberBeforeDistance, 1), (Fault::ZeroBeforeNumber, 2), (Fault::FitBeforeZero, 3)];
    swaps.iter().filter(|(fault, _)| seeded(*fault)).for_each(|&(_, at)| order.swap(at, at + 1));
    if seeded(Fault::CutBodyLast) {
        order.rotate_left(1);
    }
    match order.iter().find_map(|test| test()) {
        Some(stop) => Err(stop),
        None => {
            let (event, recorded) = read_body(row.number, body).expect("a body that fits is read");
            Ok(Asked { ticks: or(Fault::SignedDistance, ticks, (ticks as i32).max(0) as u32), event, recorded })
        }
    }
}

/// An event that was run, what it answers today, and what was recorded.
pub struct Seen<'a> {
    pub event: &'a Event,
    pub today: &'a Answer,
    pub recorded: &'a [u8],
}

/// What a replay has come to; `seen` is told of each event.
struct Replay<'a> {
    world: World,
    lines: Vec<String>,
    difference: Option<Vec<String>>,
    run: usize,
    ticks: u64,
    seen: &'a mut dyn FnMut(&Seen),
}

impl Replay<'_> {
    fn tick(&mut self, ticks: u32) {
        // what a tick answers is in no recording
        let _ = run(&mut self.world, &Event::Ticks(ticks));
        self.ticks += u64::from(ticks);
    }

    /// "else the distance's ticks are run, then the event, and the recorded answer is held against today's: all bytes".
    fn step(&mut self, entry: usize, stamp: u32, asked: &Asked) {
        let Asked { ticks, event, recorded } = asked;
        self.tick(*ticks);
        let answer = run(&mut self.world, event);
        (self.seen)(&Seen { event, today: &answer, recorded });
        let today = answer::spell(&answer);
        let (what, now) = (event_words(event), answer::words(event, &today));
        self.lines.push(format!(
            "entry {}, stamp {}, after {}: {}: {}",
            entry,
            stamp,
            count_words(u64::from(*ticks), "tick"),
            what,
            now
        ));
        self.run += 1;
        let same = or(Fault::NumberOnly, today == *recorded, today[..2] == recorded[..2]);
        if !same && (self.difference.is_none() || seeded(Fault::LastDifference)) {
            self.difference = Some(vec![
                format!("first difference: entry {}, stamp {}: {}", entry, stamp, what),
                format!("  recorded: {}", answer::words(event, recorded)),
                format!("  today: {}", now),
            ]);
        }
    }

    /// Entry by entry, to the end or to where it is refused or cut.
    fn entries(&mut self, recording: &[u8], entries: usize) -> Option<Stop> {
        let mut rest = &recording[FRONT + ROW * entries..];
        let mut before = None;
        for entry in 0..entries {
            let row = row(recording, entry);
            match judge(entry + 1, row, before, rest, entry + 1 == entries) {
                Err(stop) => {
                    if seeded(Fault::TicksBeforeRefusal) && !too_far(distance(before, row.stamp)) {
                        self.tick(distance(before, row.stamp));
                    }
                    return Some(stop);
                }
                Ok(asked) => self.step(entry + 1, row.stamp, &asked),
            }
            if self.difference.is_some() && seeded(Fault::DifferenceEnds) {
                return None;
            }
            before = Some(row.stamp);
            rest = &rest[row.length.min(rest.len())..];
        }
        (!rest.is_empty() && seeded(Fault::RestRefused)).then(|| refused("bytes are left".into()))
    }
}

/// A replay that has ended.
pub struct Told {
    /// A line for each entry.
    pub entries: Vec<String>,
    /// The lines between those and the records.
    pub between: Vec<String>,
    pub world: World,
    pub word: &'static str,
    /// One of the tests before anything is run has ended it.
    pub unread: bool,
}

/// What a recording comes to in a fresh world; `seen` is told of each event that is run.
pub fn told(world: World, recording: &[u8], seen: &mut dyn FnMut(&Seen)) -> Told {
    let mut replay = Replay { world, lines: vec![], difference: None, run: 0, ticks: 0, seen };
    let (named, unread) = (named(recording), before_all(recording));
    let none = unread.is_some();
    let stop = unread.or_else(|| replay.entries(recording, named));
    let word = match (&replay.difference, &stop) {
        (Some(_), _) => "DIFFERS",
        (None, Some(stop)) => stop.word,
        (None, None) => "SAME",
    };
    let mut between: Vec<String> = replay.difference.into_iter().flatten().collect();
    between.extend(stop.map(|stop| stop.line));
    between.push(format!("entries run: {} of {}", replay.run, named));
    between.push(format!("ticks run: {}", count_words(replay.ticks, "tick")));
    Told { entries: replay.lines, between, world: replay.world, word, unread: none }
}

/// The lines for an input: an image, then a recording.
pub fn lines(input: &[u8]) -> Vec<String> {
    let (image, recording) = input.split_at(image_end(input));
    let world = World::new(image);
    if let Err(place) = world.table {
        return refused_table(place);
    }
    let told = told(world, recording, &mut |_| ());
    let mut lines = [told.entries, told.between, end_lines(&told.world)].concat();
    lines.push(told.word.into());
    lines
}
