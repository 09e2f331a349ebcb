//! What each verb of the command line does.

use crate::compare::{self, Source};
use crate::fault::{self, Fault};
use crate::generate::datagram::{walk_cuts, walk_request};
use crate::generate::framing::framing;
use crate::generate::image::{changes, image, single_changes};
use crate::generate::recording::{cuts, limits, recording, transfers};
use crate::generate::script::{image_script, misfit_script, script, stream_script, transfer_script, unsound_script};
use crate::generate::selection::selection_script;
use crate::generate::silence::silence_script;
use crate::lines::lines;
use crate::random::Random;
use crate::shrink::{shrink, Bound};
use crate::vectors::Vector;
use crate::{answers, exchange, recordings, replay, runs, sheets, silences, stored};
use crate::{table, takes, tell, vectors as lists, Words, USAGE};
use std::io::Read;
use std::path::Path;

pub type Outcome = Result<(), String>;

pub fn none_different(different: usize) -> Outcome {
    (different == 0).then_some(()).ok_or_else(|| "the two programs differ".into())
}

/// Every kind of answer must be met this often.
fn often_enough(to_meet: &[&str], least: usize, met: impl Fn(&str) -> usize) -> Outcome {
    match to_meet.iter().find(|&kind| met(kind) < least) {
        Some(kind) => Err(format!("'{}' was met fewer than {} times", kind, least)),
        None => Ok(()),
    }
}

/// Every kind must be met as often as it says.
pub fn floors(to_meet: &[(&str, usize)], met: impl Fn(&str) -> usize) -> Outcome {
    to_meet.iter().try_for_each(|&(kind, least)| often_enough(&[kind], least, &met))
}

/// The random requests of a part, or a fixed list of them.
fn requests(part: &str, words: &Words) -> Result<Source, String> {
    let (seed, count) = (words.seed, words.count);
    let random = |request: fn(&mut Random) -> Vec<u8>| -> Source {
        Box::new(move || {
            let mut random = Random::new(seed);
            Box::new((0..count).map(move |_| request(&mut random)))
        })
    };
    Ok(match part {
        "table" => random(|random| exchange::table_check(&image(random))),
        "frame" => random(framing),
        "walk" => random(walk_request),
        "changes" => Box::new(|| Box::new(changes().map(|image| exchange::table_check(&image)))),
        "cuts" => Box::new(|| Box::new(walk_cuts())),
        _ => return Err(USAGE.into()),
    })
}

fn list(requests: Vec<Vec<u8>>) -> Source {
    Box::new(move || Box::new(requests.clone().into_iter()))
}

pub fn compare_requests(part: &str, words: &Words) -> Outcome {
    compare_source(part, &format!("{}-{}", part, words.seed), requests(part, words)?, words)
}

fn compare_source(part: &str, name: &str, source: Source, words: &Words) -> Outcome {
    let report = compare::compare(&words.program, source, name, words.store.as_deref())?;
    let kinds: Vec<String> = report.kinds.iter().map(|(kind, count)| format!("{} {}", kind, count)).collect();
    println!("{}: {} requests, {} different ({})", name, report.requests, report.different, kinds.join(", "));
    none_different(report.different)?;
    often_enough(exchange::kinds_to_meet(part), words.count / 1000, |kind| report.kinds.get(kind).copied().unwrap_or(0))
}

pub fn replay_requests(part: &str, folder: &Path, words: &Words) -> Outcome {
    let function = match part {
        "table" => exchange::TABLE_CHECK,
        "frame" => exchange::FRAMING,
        "walk" => exchange::WALK,
        _ => return Err(USAGE.into()),
    };
    let requests = stored::read(folder)?.into_iter().map(|(_, bytes)| [vec![function], bytes].concat()).collect();
    compare_source("stored", "stored", list(requests), words)
}

pub fn fault_requests(part: &str, words: &Words) -> Outcome {
    let faults = fault::of(part).ok_or(USAGE)?;
    let noticed = compare::try_faults(&words.program, requests(part, words)?, faults)?;
    tell_faults(faults, &noticed, &format!("{} requests", words.count))
}

pub fn tell_faults(faults: &[(Fault, &str)], noticed: &[usize], cases: &str) -> Outcome {
    for ((fault, what), times) in faults.iter().zip(noticed) {
        println!("fault {:?} ({}): noticed in {} of {}", fault, what, times, cases);
    }
    match noticed.iter().filter(|&&times| times == 0).count() {
        0 => Ok(()),
        unnoticed => Err(format!("{} of {} faults went unnoticed", unnoticed, faults.len())),
    }
}

fn read_vectors(path: &str) -> Result<Vec<Vector>, String> {
    let text = std::fs::read_to_string(path).map_err(|e| e.to_string())?;
    let vectors: Vec<Vector> = text.lines().filter_map(lists::parse).collect();
    let agreed = vectors.iter().filter(|vector| vector.agrees()).count();
    println!("vectors: {} of {} lines read as the dissectors read them", agreed, text.lines().count());
    match agreed > 0 && agreed == text.lines().count() {
        true => Ok(vectors),
        false => Err("the second program and the dissectors differ".into()),
    }
}

pub fn vectors(path: &str, words: &Words) -> Outcome {
    let requests = read_vectors(path)?.iter().flat_map(Vector::requests).collect();
    compare_source("vectors", "vectors", list(requests), words)
}

pub fn vector_takes(path: &str, words: &Words) -> Outcome {
    compare_cases(read_vectors(path)?.iter().filter_map(Vector::case).collect(), words)
}

pub fn vector_streams(path: &str, words: &Words) -> Outcome {
    let vectors = read_vectors(path)?;
    let named = |(number, script)| (format!("stream-{}", number), script);
    let scripts: Vec<_> = vectors.iter().filter_map(Vector::script).enumerate().map(named).collect();
    compare_all(&scripts, words).map(|_| ())
}

/// True for the parts that are compared by scripts.
pub fn is_script(part: &str) -> bool {
    SCRIPTS.contains(&part)
}

const SCRIPTS: &[&str] = &["runs", "streams", "selections", "transfers", "silences"];

/// Scripts of a part: `count` of different lengths, and of runs as many under any image, from a state that does not fit, and from
/// an unsound one. Timers and wishes show at a script's end alone, so short ones count.
fn scripts(part: &str, words: &Words) -> Vec<(String, Vec<u8>)> {
    let random = &mut Random::new(words.seed);
    let mut scripts = Vec::new();
    for number in 0..words.count {
        let name = format!("{}-{}-{}", part, words.seed, number);
        let events = *random.pick(&[10, 40, 200, 800]);
        if part == "selections" {
            scripts.push((name, selection_script(random, 200)));
        } else if part == "streams" {
            scripts.push((name, stream_script(random, events)));
        } else if part == "transfers" {
            scripts.push((name, transfer_script(random, 200)));
        } else if part == "silences" {
            let events = *random.pick(&[2, 6, 15, 40]);
            scripts.push((name, silence_script(random, events)));
        } else {
            scripts.push((format!("{}-image", name), image_script(random)));
            scripts.push((format!("{}-misfit", name), misfit_script(random)));
            scripts.push((format!("{}-unsound", name), unsound_script(random)));
            scripts.push((name, script(random, events)));
        }
    }
    scripts
}

fn compare_all(scripts: &[(String, Vec<u8>)], words: &Words) -> Result<runs::Met, String> {
    let (different, met) = runs::compare(&words.program, scripts, words.store.as_deref())?;
    let kinds: Vec<String> = met.iter().map(|(kind, count)| format!("{} {}", kind, count)).collect();
    println!("{} scripts, {} different ({})", scripts.len(), different, kinds.join(", "));
    none_different(different).map(|()| met)
}

pub fn compare_scripts(part: &str, words: &Words) -> Outcome {
    let met = compare_all(&scripts(part, words), words)?;
    let times = |kind: &str| met.get(kind).copied().unwrap_or(0);
    match part {
        "runs" => {
            often_enough(runs::TO_MEET, 100, times)?;
            often_enough(runs::ALSO_TO_MEET, 10, times)?;
            often_enough(silences::ALSO_TO_MEET, 10, times)
        }
        "selections" => floors(runs::HALVES_TO_MEET, times),
        "transfers" => floors(runs::TRANSFERS_TO_MEET, times),
        "silences" => floors(silences::TO_MEET, times),
        _ => Ok(()),
    }
}

/// The answers as bytes, and what is left, of scripts of each part; the name of each that differs.
pub fn compare_answers(words: &Words) -> Outcome {
    let scripts = SCRIPTS.iter().flat_map(|part| scripts(part, words));
    let taken: Vec<_> = scripts.map(|(name, input)| (name, answers::taken(&input))).collect();
    let (mut lines, mut different) = (0, 0);
    for (name, input) in taken {
        let want = answers::lines(&input);
        let got = if want.is_empty() { vec![] } else { runs::printed(&words.program, &input)? };
        if let Some(at) = (0..want.len().max(got.len())).find(|&at| want.get(at) != got.get(at)) {
            println!("{}: line {}\n< {:?}\n> {:?}", name, at + 1, got.get(at), want.get(at));
            different += 1;
        }
        lines += want.len();
    }
    println!("answers-{}: {} lines, {} scripts different", words.seed, lines, different);
    none_different(different)
}

pub fn replay_scripts(folder: &Path, words: &Words) -> Outcome {
    compare_all(&stored::read(folder)?, words).map(|_| ())
}

pub fn fault_scripts(part: &str, words: &Words) -> Outcome {
    let of = match part {
        "runs" => "events",
        "streams" => "segment",
        _ => part,
    };
    let faults = fault::of(of).ok_or(USAGE)?;
    let scripts = scripts(part, words);
    let noticed = runs::try_faults(&words.program, &scripts, faults, |input| lines(input, |_| ()))?;
    tell_faults(faults, &noticed, &format!("{} scripts", scripts.len()))
}

/// Random recordings of different lengths.
fn random_recordings(words: &Words) -> Vec<(String, Vec<u8>)> {
    let random = &mut Random::new(words.seed);
    let recording = |number| {
        let events = *random.pick(&[1, 4, 12, 40, 120]);
        (format!("recordings-{}-{}", words.seed, number), recording(random, events))
    };
    (0..words.count).map(recording).collect()
}

/// Fixed recordings, each by its number.
fn fixed(name: &str, recordings: Vec<Vec<u8>>) -> Vec<(String, Vec<u8>)> {
    (0..).map(|number: usize| format!("{}-{}", name, number)).zip(recordings).collect()
}

fn compare_replays(recordings: &[(String, Vec<u8>)], words: &Words) -> Result<runs::Met, String> {
    let (different, met) = recordings::compare(&words.program, recordings, words.store.as_deref())?;
    let kinds: Vec<String> = met.iter().map(|(kind, count)| format!("{} {}", kind, count)).collect();
    println!("{} recordings, {} different ({})", recordings.len(), different, kinds.join("; "));
    none_different(different).map(|()| met)
}

pub fn compare_recordings(words: &Words) -> Outcome {
    let met = compare_replays(&random_recordings(words), words)?;
    let times = |kind: &str| met.get(kind).copied().unwrap_or(0);
    often_enough(recordings::WORDS, 1 + words.count / 100, times)?;
    floors(recordings::TRANSFERS_TO_MEET, times)?;
    floors(recordings::SILENCES_TO_MEET, times)
}

/// The limits from both sides, a small recording cut at every byte, and one of transfers with each of its bytes changed.
pub fn compare_recording_edges(words: &Words) -> Outcome {
    let edges = [fixed("limits", limits()), fixed("cuts", cuts()), fixed("transfers", transfers())].concat();
    let met = compare_replays(&edges, words)?;
    let times = |kind: &str| met.get(kind).copied().unwrap_or(0);
    often_enough(recordings::TO_MEET, 1, times)?;
    recordings::TRANSFERS_TO_MEET.iter().try_for_each(|(kind, _)| often_enough(&[kind], 100, times))
}

pub fn replay_recordings(folder: &Path, words: &Words) -> Outcome {
    compare_replays(&stored::read(folder)?, words).map(|_| ())
}

pub fn fault_recordings(words: &Words) -> Outcome {
    let faults = fault::of("recordings").ok_or(USAGE)?;
    let recordings = [fixed("limits", limits()), random_recordings(words)].concat();
    let noticed = runs::try_faults(&words.program, &recordings, faults, replay::lines)?;
    tell_faults(faults, &noticed, &format!("{} recordings", recordings.len()))
}

/// Cases for the program test_takes: a fixed list of cuts, then `count` random ones.
fn take_cases(words: &Words) -> Vec<takes::Case> {
    let random = &mut Random::new(words.seed);
    let cuts = if words.count > 0 { takes::cut_cases() } else { vec![] };
    cuts.into_iter().chain((0..words.count).map(|_| takes::random_case(random))).collect()
}

/// A case, the lines that are expected of it and those printed.
type Told = (takes::Case, Vec<String>, Vec<String>);

/// Cases with the lines that are expected of each and those that the program prints; what it prints beyond goes with the last. The cases are
/// given to as many programs as there are processors.
fn printed_takes(cases: Vec<takes::Case>, words: &Words) -> Result<Vec<Told>, String> {
    let share = cases.len() / runs::workers() + 1;
    let inputs: Vec<Vec<u8>> = cases.chunks(share).map(|some| some.iter().flat_map(takes::input).collect()).collect();
    let expected = || cases.iter().map(takes::lines).collect::<Vec<_>>();
    let (printed, want) = runs::spread(inputs.len(), |number| runs::printed(&words.program, &inputs[number]), expected);
    let mut all: Vec<Told> = Vec::new();
    let mut wanted = cases.into_iter().zip(want);
    for lines in printed {
        let mut lines = lines?.into_iter();
        for (case, want) in wanted.by_ref().take(share) {
            let got = lines.by_ref().take(want.len()).collect();
            all.push((case, want, got));
        }
        if let Some((_, _, got)) = all.last_mut() {
            got.extend(lines);
        }
    }
    Ok(all)
}

pub fn compare_takes(words: &Words) -> Outcome {
    let cases = take_cases(words);
    let lines: Vec<String> = cases.iter().flat_map(takes::lines).collect();
    compare_cases(cases, words)?;
    let times = |kind: &str| takes::met(lines.iter(), kind);
    let kinds: Vec<String> = takes::TO_MEET.iter().map(|kind| format!("{} {}", kind, times(kind))).collect();
    println!("takes-{}: {}", words.seed, kinds.join(", "));
    often_enough(takes::TO_MEET, words.count / 4, times)
}

pub fn replay_takes(folder: &Path, words: &Words) -> Outcome {
    compare_cases(stored::read(folder)?.iter().map(|(_, input)| takes::read(input)).collect(), words)
}

fn compare_cases(cases: Vec<takes::Case>, words: &Words) -> Outcome {
    let all = printed_takes(cases, words)?;
    let different: Vec<usize> = (0..all.len()).filter(|&number| all[number].1 != all[number].2).collect();
    if let Some(&number) = different.first() {
        tell_takes(&format!("takes-{}-{}", words.seed, number), all[number].0.clone(), words);
    }
    let lines: usize = all.iter().map(|(_, want, _)| want.len()).sum();
    println!("takes-{}: {} cases, {} lines, {} cases different", words.seed, all.len(), lines, different.len());
    none_different(different.len())
}

/// The most calls of the program test_takes for making a case smaller, and the most cases in one.
const TAKES_BOUND: Bound = Bound { calls: 300, cases: 200 };

fn tell_takes(name: &str, case: takes::Case, words: &Words) {
    let told = |all: &[takes::Case]| printed_takes(all.to_vec(), words).unwrap_or_default();
    let (least, calls) = shrink(case, TAKES_BOUND, &mut |all| told(all).iter().position(|(_, want, got)| want != got));
    if let Some((case, want, got)) = told(&[least]).pop() {
        tell::takes(name, &case, want, got).print(calls, TAKES_BOUND, words.store.as_deref());
    }
}

pub fn fault_takes(words: &Words) -> Outcome {
    let faults = fault::of("segment").ok_or(USAGE)?;
    let all = printed_takes(take_cases(words), words)?;
    let cases = |fault| all.iter().filter(|(case, _, got)| fault::with(fault, || takes::lines(case)) != *got).count();
    let noticed: Vec<usize> = faults.iter().map(|&(fault, _)| cases(fault)).collect();
    tell_faults(faults, &noticed, &format!("{} cases", all.len()))
}

pub fn compare_sheets(words: &Words) -> Outcome {
    let (different, met) = sheets::compare(&words.program, words.seed, words.count)?;
    let kinds: Vec<String> = met.iter().map(|(kind, count)| format!("{} {}", kind, count)).collect();
    println!("sheets-{}: {} cases, {} different ({})", words.seed, words.count, different, kinds.join(", "));
    none_different(different)?;
    often_enough(sheets::TO_MEET, words.count / 200, |kind| met.get(kind).copied().unwrap_or(0))
}

pub fn fault_sheets(words: &Words) -> Outcome {
    let faults = fault::of("sheets").ok_or(USAGE)?;
    let noticed = sheets::try_faults(&words.program, words.seed, words.count, faults)?;
    tell_faults(faults, &noticed, &format!("{} sheets", words.count))
}

/// A line of tests/edges.c.
fn edge(what: &str, image: &[u8]) {
    match table::check(image) {
        Ok(_) => println!("{}: accepted", what),
        Err(place) => println!("{}: refused at {}", what, place),
    }
}

pub fn edges() -> Outcome {
    edge("whole", &table::whole_image());
    for (at, value) in single_changes() {
        let mut image = table::whole_image();
        image[at] = value;
        edge(&format!("byte {} is {}", at, value), &image);
    }
    Ok(())
}

pub fn files(folder: &Path, out: &Path) -> Outcome {
    for (name, image) in stored::read(folder)? {
        let path = out.join(name);
        std::fs::write(&path, &image).map_err(|e| e.to_string())?;
        edge(&path.display().to_string(), &image);
    }
    Ok(())
}

pub fn simulate(lines: impl Fn(&[u8]) -> Vec<String>) -> Outcome {
    let mut input = Vec::new();
    std::io::stdin().read_to_end(&mut input).map_err(|e| e.to_string())?;
    for line in lines(&input) {
        println!("{}", line);
    }
    Ok(())
}

pub fn simulate_driver() -> Outcome {
    compare::serve(std::io::stdin().lock(), std::io::stdout().lock()).map_err(|e| e.to_string())
}
