//! Runs the program `run` on scripts and holds what it prints to what this program expects.

use crate::event::{Done, Event};
use crate::fault::{self, Fault};
use crate::header::{is_on, Header};
use crate::lines::{lines, Seen};
use crate::select::between_halves;
use crate::shrink::script::Script;
use crate::shrink::{shrink, Bound};
use crate::state::Mode;
use crate::stream::{Outcome, Part};
use crate::walk::Found;
use crate::{silences, tell};
use std::collections::BTreeMap;
use std::io::Write;
use std::panic::RefUnwindSafe;
use std::path::Path;
use std::process::{Command, Stdio};
use std::sync::atomic::{AtomicUsize, Ordering};

/// How often each answer number, drop reason, mode change and kind of receive part was met, and how many takes there were.
pub type Met = BTreeMap<String, usize>;

/// What a run must meet.
pub const TO_MEET: &[&str] = &[
    "answer 0",
    "answer 2",
    "answer 3",
    "answer 4",
    "answer 5",
    "answer 6",
    "answer 7",
    "answer 8",
    "answer 9",
    "answer 10",
    "answer 12",
    "drop 20",
    "drop 21",
    "drop 22",
    "drop 23",
    "offline to reconnect",
    "offline to online",
    "reconnect to online",
    "online to reconnect",
    "reconnect to offline",
    "online to offline",
    "part header",
    "part payload",
    "part skip",
    "part ready",
    "part transfer",
    "start",
    "piece",
    "last piece",
    "cancel 3",
    "unsound part of a transfer",
];

/// What a run must meet, though less often.
pub const ALSO_TO_MEET: &[&str] = &["start of no bytes", "cancel 0", "failed at a tick", "failed at a loss"];

/// What a comparison of transfers must meet this often.
pub const TRANSFERS_TO_MEET: &[(&str, usize)] = &[
    ("start", 1000),
    ("start of no bytes", 100),
    ("start of 1 byte", 100),
    ("start beyond 65535 bytes", 100),
    ("piece", 1000),
    ("piece of 1 byte", 100),
    ("piece of a route that is off", 5),
    ("last piece", 1000),
    ("cancel 0", 300),
    ("cancel 0 with close wanted", 100),
    ("cancel 0, automatic", 100),
    ("cancel 3", 300),
    ("cancel 3 online", 100),
    ("failed at a tick", 150),
    ("failed at the first of several ticks", 100),
    ("several failed at a tick", 5),
    ("failed at a loss", 80),
    ("drop 20", 100),
    ("drop 21", 100),
    ("drop 22", 30),
];

fn mode(mode: Mode) -> &'static str {
    match mode {
        Mode::Offline => "offline",
        Mode::Reconnect => "reconnect",
        Mode::Online => "online",
    }
}

fn part(part: Part) -> &'static str {
    match part {
        Part::Header { held: 0, .. } => "ready",
        Part::Header { .. } => "header",
        Part::Payload { .. } => "payload",
        Part::Skip(_) => "skip",
        Part::Transfer { .. } => "transfer",
    }
}

/// What a take of a transfer is, and the edges among such takes; `on` says whether a route is switched on.
fn transfer_kinds(outcome: &Outcome, on: impl Fn(usize) -> bool) -> Vec<&'static str> {
    let told = |all: &[(bool, &'static str)]| all.iter().filter(|(met, _)| *met).map(|&(_, kind)| kind).collect();
    match outcome {
        Outcome::Start { header: Header { length, .. }, .. } => told(&[
            (true, "start"),
            (*length == 0, "start of no bytes"),
            (*length == 1, "start of 1 byte"),
            (*length > 65_535, "start beyond 65535 bytes"),
        ]),
        Outcome::Piece { route, bytes, last, .. } => told(&[
            (!last, "piece"),
            (*last, "last piece"),
            (bytes.len() == 1, "piece of 1 byte"),
            (!on(*route), "piece of a route that is off"),
        ]),
        _ => vec![],
    }
}

/// Cancels, and transfers that fail.
fn note_transfers(met: &mut Met, seen: &Seen) {
    let mut add = |what: &str, times: bool| *met.entry(what.into()).or_insert(0) += usize::from(times);
    let record = |connection: u8| seen.before.records.get(usize::from(connection));
    let automatic = |connection: u8| {
        let row = seen.after.table.as_ref().ok().and_then(|table| table.connections.get(usize::from(connection)));
        row.map_or(false, |row| row.automatic)
    };
    match (seen.event, seen.answer) {
        (Event::Cancel(connection), Ok(_)) => {
            add("cancel 0", true);
            add("cancel 0 with close wanted", record(*connection).map_or(false, |record| record.close_wanted));
            add("cancel 0, automatic", automatic(*connection));
        }
        (Event::Cancel(connection), Err((3, _))) => {
            add("cancel 3", true);
            add("cancel 3 online", record(*connection).map_or(false, |record| record.mode == Mode::Online));
        }
        (Event::Ticks(times), Ok(Done::Ticked(failed))) => {
            add("failed at a tick", *failed != 0);
            add("failed at the first of several ticks", *failed != 0 && *times > 1);
            add("several failed at a tick", failed.count_ones() > 1);
        }
        (Event::Lost(_), Ok(Done::Lost(failed))) => add("failed at a loss", *failed),
        (_, Err((12, _))) => add("unsound part of a transfer", has_marked_part(seen)),
        _ => {}
    }
}

/// True where a record has a transfer, or a payload of a marked route.
fn has_marked_part(seen: &Seen) -> bool {
    let marked = |route: u8| {
        let row = seen.after.table.as_ref().ok().and_then(|table| table.routes.get(usize::from(route)));
        row.map_or(false, |row| row.transfer)
    };
    seen.before.records.iter().any(|record| match record.part {
        Part::Transfer { .. } => true,
        Part::Payload { route, .. } => marked(route),
        _ => false,
    })
}

/// What a comparison of selections must meet this often: choices between two different half matches, and those among them where the
/// port's stands before the address's, so that the old tie shows.
pub const HALVES_TO_MEET: &[(&str, usize)] = &[("two half matches", 1000), ("two half matches, the port's first", 300)];

fn note_selection(met: &mut Met, seen: &Seen) {
    if let (Event::Datagram(group, source) | Event::Accept(group, source), Ok(Done::Chosen(_)), Ok(table)) =
        (seen.event, seen.answer, &seen.after.table)
    {
        let (both, port_first) = between_halves(table, seen.before, *group, *source);
        for ((what, _), times) in HALVES_TO_MEET.iter().zip([both, port_first]) {
            *met.entry(what.to_string()).or_insert(0) += usize::from(times);
        }
    }
}

fn note(met: &mut Met, seen: &Seen) {
    note_selection(met, seen);
    note_transfers(met, seen);
    silences::kinds(seen).into_iter().for_each(|kind| *met.entry(kind.into()).or_insert(0) += 1);
    let (before, after, answer) = (seen.before, &seen.after.state, seen.answer);
    let on = |route: usize| {
        let row = seen.after.table.as_ref().ok().and_then(|table| table.routes.get(route));
        row.map_or(false, |row| is_on(row.groups, before.records[usize::from(row.connection)].switches))
    };
    let mut add = |what: String, times: usize| *met.entry(what).or_insert(0) += times;
    add("events".into(), 1);
    add(format!("answer {}", answer.as_ref().map_or_else(|(number, _)| *number, |_| 0)), 1);
    for (old, new) in before.records.iter().zip(&after.records).filter(|(old, new)| old.mode != new.mode) {
        add(format!("{} to {}", mode(old.mode), mode(new.mode)), 1);
    }
    match answer {
        Ok(Done::Takes(takes)) => {
            add("takes".into(), takes.len());
            for (old, new) in before.records.iter().zip(&after.records).filter(|(old, new)| old.part != new.part) {
                add(format!("part {}", part(old.part)), 1);
                add(format!("part {}", part(new.part)), 1);
            }
            for take in takes {
                if let Outcome::Drop { reason, .. } = take.outcome {
                    add(format!("drop {}", reason), 1);
                }
                transfer_kinds(&take.outcome, on).into_iter().for_each(|kind| add(kind.into(), 1));
            }
        }
        Ok(Done::Walked(step)) => {
            if let Found::Drop { reason, .. } = step.found {
                add(format!("drop {}", reason), 1);
            }
        }
        _ => {}
    }
}

/// A line of the program: of a refused image the byte is compared, and not the words behind it.
fn compared(line: &str) -> String {
    let byte = line.strip_prefix("refused 1 at byte ").and_then(|rest| rest.split_once(": "));
    byte.map_or_else(|| line.to_string(), |(place, _)| format!("refused 1 at byte {}", place))
}

/// What the program prints for an input.
pub fn printed(program: &[String], input: &[u8]) -> Result<Vec<String>, String> {
    let (name, words) = program.split_first().ok_or("no program was named")?;
    let start = Command::new(name).args(words).stdin(Stdio::piped()).stdout(Stdio::piped()).spawn();
    let mut child = start.map_err(|e| format!("the program did not start: {}", e))?;
    let mut to = child.stdin.take().expect("standard input is a pipe");
    let input = input.to_vec();
    // the program may stop reading at a refused entry, so a pipe that breaks is no error
    let writer = std::thread::spawn(move || to.write_all(&input).is_ok());
    let output = child.wait_with_output().map_err(|e| e.to_string())?;
    writer.join().map_err(|_| "the writer did not end")?;
    Ok(String::from_utf8_lossy(&output.stdout).lines().map(compared).collect())
}

/// How many programs run at a time.
pub fn workers() -> usize {
    std::thread::available_parallelism().map_or(1, usize::from)
}

/// What `work` makes of each number below `count`, in order, on all processors, and what `beside` makes meanwhile.
pub fn spread<T: Send, U>(count: usize, work: impl Fn(usize) -> T + Sync, beside: impl FnOnce() -> U) -> (Vec<T>, U) {
    let next = AtomicUsize::new(0);
    let numbers = || std::iter::repeat_with(|| next.fetch_add(1, Ordering::Relaxed)).take_while(|&number| number < count);
    let some = || numbers().map(|number| (number, work(number))).collect::<Vec<_>>();
    std::thread::scope(|scope| {
        let started: Vec<_> = (0..workers()).map(|_| scope.spawn(some)).collect();
        let other = beside();
        let mut all: Vec<(usize, T)> = started.into_iter().flat_map(|worker| worker.join().expect("a worker ends")).collect();
        all.sort_by_key(|(number, _)| *number);
        (all.into_iter().map(|(_, made)| made).collect(), other)
    })
}

/// Inputs, each with a name.
pub type Inputs = [(String, Vec<u8>)];

/// How many inputs are given to programs before what they print is looked at.
const BATCH: usize = 256;

/// How many inputs differ. The first one is given to `tell`; of a few others the name is printed.
pub fn compare_all(
    program: &[String],
    inputs: &Inputs,
    mut expect: impl FnMut(&[u8]) -> Vec<String>,
    mut tell: impl FnMut(&str, &[u8]),
) -> Result<usize, String> {
    let mut different = 0;
    for batch in inputs.chunks(BATCH) {
        let expected = || batch.iter().map(|(_, input)| expect(input)).collect::<Vec<_>>();
        let (got, want) = spread(batch.len(), |number| printed(program, &batch[number].1), expected);
        for ((name, input), (got, want)) in batch.iter().zip(got.into_iter().zip(want)) {
            if got? == want {
                continue;
            }
            different += 1;
            match different {
                1 => tell(name, input),
                2..=4 => println!("different, too: {}", name),
                _ => {}
            }
        }
    }
    Ok(different)
}

/// Compares what is printed for each script. The first one that differs is made smaller, printed and stored.
pub fn compare(program: &[String], scripts: &Inputs, store: Option<&Path>) -> Result<(usize, Met), String> {
    let mut met = Met::new();
    let expect = |input: &[u8]| lines(input, |seen| note(&mut met, seen));
    let different = compare_all(program, scripts, expect, |name, input| tell(program, name, input, store))?;
    Ok((different, met))
}

/// The most calls of the program for making a script smaller; each answers one.
const BOUND: Bound = Bound { calls: 2000, cases: 1 };

fn tell(program: &[String], name: &str, input: &[u8], store: Option<&Path>) {
    let told = |input: &[u8]| (lines(input, |_| ()), printed(program, input).unwrap_or_default());
    let differs = |script: &Script| {
        let (want, got) = told(&script.bytes());
        want != got
    };
    let (least, calls) = shrink(Script::read(input), BOUND, &mut |all| all.iter().position(differs));
    let (want, got) = told(&least.bytes());
    tell::script(name, &least.bytes(), want, got).print(calls, BOUND, store);
}

/// In how many inputs each fault changes what `lines` expects of the program.
pub fn try_faults(
    program: &[String],
    inputs: &Inputs,
    faults: &[(Fault, &str)],
    lines: impl Fn(&[u8]) -> Vec<String> + Copy + RefUnwindSafe + Sync,
) -> Result<Vec<usize>, String> {
    let (got, _) = spread(inputs.len(), |number| printed(program, &inputs[number].1), || ());
    let got: Vec<Vec<String>> = got.into_iter().collect::<Result<_, _>>()?;
    let noticed = |number: usize| {
        let pairs = inputs.iter().zip(&got);
        let differs = |input: &[u8], printed: &[String]| {
            faulty_lines(faults[number].0, input, lines).map_or(true, |lines| lines != printed)
        };
        pairs.filter(|((_, input), printed)| differs(input, printed)).count()
    };
    Ok(spread(faults.len(), noticed, || ()).0)
}

/// The lines with a fault on; nothing where the fault leads to a place that no sound state reaches.
fn faulty_lines(fault: Fault, input: &[u8], lines: impl Fn(&[u8]) -> Vec<String> + RefUnwindSafe) -> Option<Vec<String>> {
    fault::with(fault, || std::panic::catch_unwind(|| lines(input)).ok())
}
