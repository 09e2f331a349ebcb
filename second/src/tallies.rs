//! Runs the program `tally` on tables, recordings and given reports, and holds what it prints to what this program expects; and joins what it printed of
//! groups of them, in random groupings, which must give what it prints of all of them together.

use crate::fault;
use crate::generate::tally::{edges, given_part, groups, tally as case, Case};
use crate::random::Random;
use crate::report::GIVEN;
use crate::runs::{compare_all, printed, spread, try_faults, Inputs, Met as Times};
use crate::shrink::tally::Tally;
use crate::shrink::{shrink, Bound};
use crate::tally::{lines, lines_and, parts, printed_report, Met, Part};
use crate::verbs::{floors, none_different, tell_faults, Outcome};
use crate::{stored, tell, Words, USAGE};
use std::path::Path;

/// What 100 random cases must meet, and how often.
const TO_MEET: &[(&str, usize)] = &[
    ("SAME", 40),
    ("DIFFERS", 15),
    ("REFUSED", 15),
    ("CUT", 5),
    ("DIFFERS with figures", 8),
    ("REFUSED with figures", 3),
    ("CUT with figures", 1),
    ("recording left out: nothing of it can be read", 5),
    ("recording left out: a sum would pass", 2),
    ("given report joined", 40),
    ("given report left out: a sum would pass", 3),
    ("given report left out: nothing of it can be read", 1),
    ("a sum of 18446744073709551615", 15),
    ("refused table", 1),
    ("PDU of a segment", 50),
    ("PDU of a walk", 10),
    ("PDU of no bytes", 40),
    ("transfer of no bytes", 20),
    ("transfer of one piece", 80),
    ("transfer of several pieces", 15),
    ("transfer that does not end", 20),
    ("drop 20", 40),
    ("drop 21", 40),
    ("drop 22", 5),
    ("drop 23", 5),
    ("drops whose count is cleared", 10),
    ("joined in groups", 25),
    ("joined in two groups and more", 15),
    ("joined of joined groups", 8),
];

/// What a tally met.
fn note(times: &mut Times, met: Met) {
    let mut add = |what: &str, number: usize| *times.entry(what.into()).or_insert(0) += number;
    match met {
        Met::Recording { told, counted, joined } => {
            let figures = counted.report != Default::default();
            let all = |what: &str| counted.met.iter().filter(|met| **met == what).count();
            add(told.word, 1);
            add(&format!("{} with figures", told.word), usize::from(figures));
            add("recording left out: nothing of it can be read", usize::from(told.unread));
            add("recording left out: a sum would pass", usize::from(!told.unread && !joined));
            counted.met.iter().for_each(|what| add(what, 1));
            let ended = ["transfer of no bytes", "transfer of one piece", "transfer of several pieces"].map(all).iter().sum();
            add("transfer that does not end", all("transfer at its start").saturating_sub(ended));
        }
        Met::Given { joined: true, .. } => add("given report joined", 1),
        Met::Given { whole: true, .. } => add("given report left out: a sum would pass", 1),
        Met::Given { .. } => add("given report left out: nothing of it can be read", 1),
        Met::Total(total) => {
            let sums = total.routes.iter().flat_map(|of| [of.pdus, of.bytes]).chain(total.drops.iter().flatten().copied());
            add("a sum of 18446744073709551615", sums.filter(|&sum| sum == u64::MAX).count());
        }
    }
}

/// The lines that are expected, and what was met for them.
fn noted(times: &mut Times, input: &[u8]) -> Vec<String> {
    let mut parts = 0;
    let lines = lines_and(input, &mut |met| {
        parts += usize::from(!matches!(met, Met::Total(_)));
        note(times, met);
    });
    let refused = lines.iter().any(|line| line.starts_with("refused 1 at byte "));
    *times.entry("refused table".into()).or_insert(0) += usize::from(refused);
    *times.entry("no part at all".into()).or_insert(0) += usize::from(parts == 0 && !refused);
    lines
}

/// Random cases, and their inputs with names.
fn cases(words: &Words) -> (Vec<Case>, Vec<(String, Vec<u8>)>) {
    let random = &mut Random::new(words.seed);
    let cases: Vec<Case> = (0..words.count).map(|_| case(random)).collect();
    let names = (0..).map(|number: usize| format!("tallies-{}-{}", words.seed, number));
    let inputs = names.zip(cases.iter().map(Case::input)).collect();
    (cases, inputs)
}

fn tell_case(program: &[String], name: &str, input: &[u8], store: Option<&Path>) {
    let bound = Bound { calls: 2000, cases: 1 };
    let told = |input: &[u8]| (lines(input), printed(program, input).unwrap_or_default());
    let differs = |small: &Tally| {
        let (want, got) = told(&small.bytes());
        want != got
    };
    let (least, calls) = shrink(Tally::read(input), bound, &mut |all| all.iter().position(differs));
    let (want, got) = told(&least.bytes());
    tell::tally(name, &least, want, got).print(calls, bound, store);
}

fn compare_inputs(inputs: &Inputs, words: &Words) -> Result<Times, String> {
    let mut times = Times::new();
    let tell = |name: &str, input: &[u8]| tell_case(&words.program, name, input, words.store.as_deref());
    let different = compare_all(&words.program, inputs, |input| noted(&mut times, input), tell)?;
    println!("{} tallies, {} different", inputs.len(), different);
    none_different(different).map(|()| times)
}

/// The lines of figures, without those of single parts.
fn figures(lines: &[String]) -> Vec<String> {
    let figure = |line: &&String| line.starts_with("route ") || line.starts_with("connection ");
    lines.iter().filter(figure).cloned().collect()
}

/// What the program prints of some parts of a case, as a given report.
fn given_of(program: &[String], image: &[u8], parts: &[Vec<u8>]) -> Result<Vec<u8>, String> {
    let said = printed(program, &[image.to_vec(), parts.concat()].concat())?;
    printed_report(&said).map(|report| given_part(&report)).ok_or_else(|| "a report is not understood".into())
}

/// What a grouping came to: the groups that were joined, whether some of them were joined first, and whether the figures are the same.
struct Grouped {
    groups: usize,
    nested: bool,
    same: bool,
}

fn ends_with_its_length(part: &[u8]) -> bool {
    match parts(part)[..] {
        [Part::Recording(length, bytes)] => length == bytes.len() as u64 && part.len() == 4 + bytes.len(),
        [Part::Given(bytes)] => bytes.len() == GIVEN && part.len() == 4 + GIVEN,
        _ => false,
    }
}

/// "Joining the reports of two sets equals the report of both together whenever no joint sum passes 64 bits": for a case of which nothing was left out
/// by a sum.
fn grouped(program: &[String], case: &Case, seed: u64) -> Result<Option<Grouped>, String> {
    let want = lines(&case.input());
    let passes = want.iter().any(|line| line.contains("left out: a sum would pass"));
    // parts that do not end with their length cannot change places
    let whole = case.parts.iter().all(|part| ends_with_its_length(part));
    if passes || !whole || case.parts.is_empty() || want.len() < 3 {
        return Ok(None);
    }
    let random = &mut Random::new(seed);
    let groups = groups(random, &case.parts);
    let mut given = groups.iter().map(|parts| given_of(program, &case.image, parts)).collect::<Result<Vec<_>, _>>()?;
    let nested = given.len() > 2;
    if nested {
        let some = given.split_off(random.between(1, given.len() - 2));
        given.push(given_of(program, &case.image, &some)?);
    }
    let got = printed(program, &[case.image.clone(), given.concat()].concat())?;
    Ok(Some(Grouped { groups: groups.len(), nested, same: figures(&got) == figures(&want) }))
}

fn compare_groupings(cases: &[Case], words: &Words, times: &mut Times) -> Outcome {
    let (all, ()) = spread(cases.len(), |number| grouped(&words.program, &cases[number], words.seed ^ number as u64), || ());
    let mut different = 0;
    for (number, one) in all.into_iter().enumerate() {
        let Some(Grouped { groups, nested, same }) = one? else { continue };
        let mut add = |what: &str, met: bool| *times.entry(what.into()).or_insert(0) += usize::from(met);
        add("joined in groups", true);
        add("joined in two groups and more", groups > 1);
        add("joined of joined groups", nested);
        if !same {
            println!("tallies-{}-{}: joined in {} groups it has other figures", words.seed, number, groups);
            different += 1;
        }
    }
    println!("{} groupings, {} different", times.get("joined in groups").copied().unwrap_or(0), different);
    none_different(different)
}

pub fn compare(words: &Words) -> Outcome {
    let (cases, inputs) = cases(words);
    let mut times = compare_inputs(&inputs, words)?;
    compare_groupings(&cases, words, &mut times)?;
    let met: Vec<String> = times.iter().map(|(what, number)| format!("{} {}", what, number)).collect();
    println!("tallies-{}: {}", words.seed, met.join("; "));
    let least: Vec<_> = TO_MEET.iter().map(|&(what, least)| (what, least * words.count / 100)).collect();
    floors(&least, |what| times.get(what).copied().unwrap_or(0))
}

/// Cut parts, and sums from both sides.
pub fn compare_edges(words: &Words) -> Outcome {
    let inputs: Vec<_> =
        edges().into_iter().enumerate().map(|(number, input)| (format!("tally-edges-{}", number), input)).collect();
    let times = compare_inputs(&inputs, words)?;
    let sums = [
        ("a sum of 18446744073709551615", 50),
        ("recording left out: a sum would pass", 6),
        ("given report left out: a sum would pass", 20),
        ("given report left out: nothing of it can be read", 40),
        ("CUT", 400),
        ("no part at all", 2),
    ];
    floors(&sums, |what| times.get(what).copied().unwrap_or(0))
}

pub fn replay(folder: &Path, words: &Words) -> Outcome {
    compare_inputs(&stored::read(folder)?, words).map(|_| ())
}

pub fn faults(words: &Words) -> Outcome {
    let faults = fault::of("tallies").ok_or(USAGE)?;
    let (_, inputs) = cases(words);
    let noticed = try_faults(&words.program, &inputs, faults, lines)?;
    tell_faults(faults, &noticed, &format!("{} tallies", inputs.len()))
}
