//! The second program: the rules (docs/RULES.md) written down once more, independently, and compared with the C functions of libsoad.a and
//! with the programs `run` and `replay`.

mod answer;
mod answers;
mod bytes;
mod compare;
mod connection;
mod event;
mod exchange;
mod fault;
mod frame;
mod generate;
mod header;
mod lines;
mod random;
mod recording;
mod recordings;
mod replay;
mod report;
mod runs;
mod script;
mod select;
mod sheet;
mod sheets;
mod shrink;
mod silences;
mod sound;
mod state;
mod stored;
mod stream;
mod table;
mod takes;
mod tallies;
mod tally;
mod tell;
mod text;
mod transmit;
mod vectors;
mod verbs;
mod walk;

use fault::Fault;
use std::path::{Path, PathBuf};
use std::process::ExitCode;

const USAGE: &str = "second compare PART [--seed N] [--count N] [--store FOLDER] -- PROGRAM ..
    random cases: the program answers as this one expects. PART is table, walk or frame (PROGRAM is the C driver), runs,
    streams, selections, transfers or silences (PROGRAM is run), takes (PROGRAM is takes), recordings (PROGRAM is replay), sheets (PROGRAM is shorten),
    tallies (PROGRAM is tally), answers (PROGRAM is the bench's twins by answers.c); or, for a fixed list, changes (of the 86-byte image), cuts (of a
    datagram), tally-edges (sums from both sides, cut parts) or recording-edges (limits of recordings, a small one cut at every byte, and one of
    transfers with each byte changed)
second replay PART FOLDER -- PROGRAM ..
    the same for the cases stored in a folder
second faults PART [--seed N] [--count N] -- PROGRAM ..
    each seeded fault in this program is noticed
second vectors FILE -- PROGRAM ..
    what a file lists is read as outside dissectors read it, its datagrams by the C function, too
second vector-streams FILE -- PROGRAM ..
second vector-takes FILE -- PROGRAM ..
    the same with its streams and the program run, or takes
second edges
    prints what tests/edges.c is to print
second files FOLDER OUT
    writes the images stored in a folder as files of bytes, and prints what tests/edges.c is to print of them
second simulate run|takes|replay|tally|sheets|driver
    gives what this program is to give for its input
With --fault NAME a seeded fault is on in any of these.";

/// The words of a command: verb and names, options, and the other program's command after `--`.
pub struct Words {
    plain: Vec<String>,
    seed: u64,
    count: usize,
    store: Option<PathBuf>,
    fault: Option<Fault>,
    program: Vec<String>,
}

fn parse(mut words: impl Iterator<Item = String>) -> Option<Words> {
    let mut parsed = Words { plain: Vec::new(), seed: 1, count: 1000, store: None, fault: None, program: Vec::new() };
    while let Some(word) = words.next() {
        match word.as_str() {
            "--seed" => parsed.seed = words.next()?.parse().ok()?,
            "--count" => parsed.count = words.next()?.parse().ok()?,
            "--store" => parsed.store = Some(words.next()?.into()),
            "--fault" => parsed.fault = Some(fault::named(&words.next()?)?),
            "--" => parsed.program = words.by_ref().collect(),
            _ => parsed.plain.push(word),
        }
    }
    Some(parsed)
}

fn obey(words: &Words) -> Result<(), String> {
    let plain: Vec<&str> = words.plain.iter().map(String::as_str).collect();
    match plain[..] {
        ["compare", "takes"] => verbs::compare_takes(words),
        ["compare", "recordings"] => verbs::compare_recordings(words),
        ["compare", "recording-edges"] => verbs::compare_recording_edges(words),
        ["replay", "recordings", folder] => verbs::replay_recordings(Path::new(folder), words),
        ["faults", "recordings"] => verbs::fault_recordings(words),
        ["compare", "tallies"] => tallies::compare(words),
        ["compare", "tally-edges"] => tallies::compare_edges(words),
        ["replay", "tallies", folder] => tallies::replay(Path::new(folder), words),
        ["faults", "tallies"] => tallies::faults(words),
        ["simulate", "tally"] => verbs::simulate(tally::lines),
        ["simulate", "replay"] => verbs::simulate(replay::lines),
        ["compare", "answers"] => verbs::compare_answers(words),
        ["faults", "takes"] => verbs::fault_takes(words),
        ["compare", "sheets"] => verbs::compare_sheets(words),
        ["faults", "sheets"] => verbs::fault_sheets(words),
        ["compare", part] if verbs::is_script(part) => verbs::compare_scripts(part, words),
        ["compare", part] => verbs::compare_requests(part, words),
        ["replay", "takes", folder] => verbs::replay_takes(Path::new(folder), words),
        ["replay", "runs", folder] => verbs::replay_scripts(Path::new(folder), words),
        ["replay", part, folder] => verbs::replay_requests(part, Path::new(folder), words),
        ["faults", part] if verbs::is_script(part) => verbs::fault_scripts(part, words),
        ["faults", part] => verbs::fault_requests(part, words),
        ["vectors", file] => verbs::vectors(file, words),
        ["vector-takes", file] => verbs::vector_takes(file, words),
        ["vector-streams", file] => verbs::vector_streams(file, words),
        ["edges"] => verbs::edges(),
        ["files", folder, out] => verbs::files(Path::new(folder), Path::new(out)),
        ["simulate", "run"] => verbs::simulate(|input| lines::lines(input, |_| ())),
        ["simulate", "driver"] => verbs::simulate_driver(),
        ["simulate", "sheets"] => verbs::simulate(sheet::lines),
        ["simulate", "takes"] => verbs::simulate(|input| takes::lines(&takes::read(input))),
        _ => Err(USAGE.into()),
    }
}

/// Does what the words say, with the fault on that they name.
fn begin(words: &Words) -> Result<(), String> {
    match words.fault {
        Some(fault) => fault::with(fault, || obey(words)),
        None => obey(words),
    }
}

fn main() -> ExitCode {
    match parse(std::env::args().skip(1)).ok_or_else(|| USAGE.to_string()).and_then(|words| begin(&words)) {
        Ok(()) => ExitCode::SUCCESS,
        Err(why) => {
            eprintln!("{}", why);
            ExitCode::FAILURE
        }
    }
}
