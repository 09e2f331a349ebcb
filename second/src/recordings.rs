//! Runs the program `replay` on recordings and holds what it prints to what this program expects.

use crate::replay::lines;
use crate::runs::{compare_all, printed, Inputs, Met};
use crate::shrink::recording::Recording;
use crate::shrink::{shrink, Bound};
use crate::tell;
use std::path::Path;

/// The last words.
pub const WORDS: &[&str] = &["SAME", "DIFFERS", "REFUSED", "CUT"];

/// What the limits and the cuts must meet; a number stands as N.
pub const TO_MEET: &[&str] = &[
    "SAME",
    "DIFFERS",
    "REFUSED",
    "CUT",
    "first difference",
    "refused N at byte N",
    "refused: edition N is not N",
    "cut: the contents end after N byte, the front needs N bytes",
    "cut: the contents end after N bytes, the front needs N bytes",
    "cut: the contents end after N bytes, N entries need N bytes",
    "over the limit: N entries, N entries are the most",
    "over the limit: entry N: body of N bytes, N bytes are the most",
    "refused: entry N: stamp N is N ticks after the one before, N ticks are the most",
    "refused: entry N: unknown event number N",
    "refused: entry N: zero field is not N",
    "refused: entry N: body does not fit",
    "cut: entry N: body of N bytes, N bytes are there",
    "cut: entry N: body of N bytes, N byte is there",
    "stamp across the wrap",
    "N ticks at once",
];

/// What random recordings must meet of transfers, in the lines of entries, and how often; of damaged transfers it is at least 100.
pub const TRANSFERS_TO_MEET: &[(&str, usize)] = &[
    (": start of a transfer on route ", 20),
    (", length 0 bytes, the end", 2),
    (": piece of route ", 15),
    (": last piece of route ", 10),
    (": 0 done; a transfer failed", 1),
    (": cancel connection ", 20),
];

/// What random recordings must meet of silent peers, in the records at the end, and how often.
pub const SILENCES_TO_MEET: &[(&str, usize)] = &[("an alive timer runs at the end", 1), ("a remote is set at the end", 10)];

/// A line with each number as N.
fn form(line: &str) -> String {
    let mut form = String::new();
    for letter in line.chars() {
        match letter.is_ascii_digit() {
            true if form.ends_with('N') => {}
            true => form.push('N'),
            false => form.push(letter),
        }
    }
    form
}

/// What a replay met: its last word, why it ended, and what stamps do.
fn note(met: &mut Met, lines: &[String]) {
    let mut add = |what: String| *met.entry(what).or_insert(0) += 1;
    let mut before = 0;
    for line in lines {
        let number = |of: &str| {
            line.split(of).nth(1).and_then(|rest| rest.split(&[',', ' '][..]).next()).and_then(|n| n.parse::<u32>().ok())
        };
        if line.starts_with("entry ") {
            let met = TRANSFERS_TO_MEET.iter().filter(|(piece, _)| line.contains(piece));
            met.for_each(|(piece, _)| add(piece.to_string()));
            let (stamp, ticks) = (number("stamp ").unwrap_or(0), number("after ").unwrap_or(0));
            if stamp < before {
                add("stamp across the wrap".into());
            }
            if ticks > 60_000 {
                add("N ticks at once".into());
            }
            before = stamp;
        } else if line.starts_with("connection ") {
            let met =
                [line.contains(", alive timer ") && !line.contains(", alive timer stopped"), line.contains(", remote set yes")];
            let met = SILENCES_TO_MEET.iter().zip(met).filter(|(_, met)| *met);
            met.for_each(|((what, _), _)| add(what.to_string()));
        } else if line.starts_with("first difference") {
            add("first difference".into());
        } else if ["refused", "cut", "over"].iter().any(|front| line.starts_with(front)) {
            add(form(line));
        }
    }
    add(lines.last().cloned().unwrap_or_default());
}

/// Compares what is printed for each recording. The first one that differs is made smaller, printed and stored.
pub fn compare(program: &[String], recordings: &Inputs, store: Option<&Path>) -> Result<(usize, Met), String> {
    let mut met = Met::new();
    let expect = |input: &[u8]| {
        let lines = lines(input);
        note(&mut met, &lines);
        lines
    };
    let different = compare_all(program, recordings, expect, |name, input| tell(program, name, input, store))?;
    Ok((different, met))
}

/// The most calls of the program for making a recording smaller; each answers one.
const BOUND: Bound = Bound { calls: 2000, cases: 1 };

fn tell(program: &[String], name: &str, input: &[u8], store: Option<&Path>) {
    let told = |input: &[u8]| (lines(input), printed(program, input).unwrap_or_default());
    let differs = |recording: &Recording| {
        let (want, got) = told(&recording.bytes());
        want != got
    };
    let (least, calls) = shrink(Recording::read(input), BOUND, &mut |all| all.iter().position(differs));
    let (want, got) = told(&least.bytes());
    tell::recording(name, &least.bytes(), want, got).print(calls, BOUND, store);
}
