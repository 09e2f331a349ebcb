//! Runs the program `shorten` on sheets and holds what it prints to what this program expects; and holds three states to each other: what the switches
//! leave one by one, what the words leave, and what the shortened sheet that the program printed leaves.

use crate::fault::{self, Fault};
use crate::generate::image::image;
use crate::generate::sheet::sheet;
use crate::generate::state::sound;
use crate::generate::table::{sizes, table};
use crate::random::Random;
use crate::runs::printed;
use crate::sheet::{apply, lines, one_by_one, printed_sheet, read, shorten};
use crate::state::World;
use std::collections::BTreeMap;

/// A table image, a sheet, and a sound state under the table.
pub struct Case {
    image: Vec<u8>,
    sheet: Vec<u8>,
    start: Option<World>,
}

impl Case {
    pub fn input(&self) -> Vec<u8> {
        [&self.image[..], &self.sheet[..]].concat()
    }
}

pub fn cases(seed: u64, count: usize) -> Vec<Case> {
    let random = &mut Random::new(seed);
    let mut cases: Vec<Case> = (0..count).map(|_| case(random)).collect();
    if let Some(longest) = cases.iter_mut().find(|case| case.start.is_some()) {
        longest.sheet = vec![0; 12_289];
    }
    cases
}

fn case(random: &mut Random) -> Case {
    if random.one_in(20) {
        return Case { image: image(random), sheet: sheet(random, 4), start: None };
    }
    let counts = sizes(random);
    let table = table(random, counts);
    Case { image: table.image(), sheet: sheet(random, counts[1]), start: Some(sound(random, &table)) }
}

/// How often each end of a case was met.
pub type Met = BTreeMap<String, usize>;

pub const TO_MEET: &[&str] = &["overridden", "refused 2", "sheets applied", "sheet refused", "table refused"];

fn note(met: &mut Met, lines: &[String]) {
    let mut add = |what: &str, times: usize| *met.entry(what.into()).or_insert(0) += times;
    let have = |part: &str| lines.iter().filter(|line| line.contains(part)).count();
    add("overridden", have(": overridden by entry "));
    add("refused 2", have(": refused 2 "));
    add("sheets applied", have("short sheet of "));
    add("sheet refused", have("sheet refused"));
    add("table refused", have("refused 1 at byte "));
}

/// What the switches, the words and the printed short sheet leave, where there are such.
fn states_agree(case: &Case, got: &[String]) -> bool {
    let (Some(start), Ok(switches)) = (&case.start, read(&case.sheet)) else { return true };
    if case.sheet.len() > 12_288 {
        return true;
    }
    let long = one_by_one(start, &switches);
    let rows = start.table.as_ref().map_or(0, |table| table.connections.len());
    let mut applied = start.clone();
    let answer = apply(&mut applied, &shorten(rows, &switches));
    let short = printed_sheet(got).map(|kept| one_by_one(start, &kept));
    answer == 0 && applied.state == long && short == Some(long)
}

fn tell(name: &str, case: &Case, want: &[String], got: &[String]) {
    println!("different: {}: table image {}, sheet {}", name, crate::bytes::hex(&case.image), crate::bytes::hex(&case.sheet));
    match want.iter().zip(got).find(|(want, got)| want != got) {
        Some((want, got)) => println!("< {}\n> {}", got, want),
        None => println!("{} lines printed, {} expected, or another state is left", got.len(), want.len()),
    }
}

/// Compares each case; the first that differs is printed.
pub fn compare(program: &[String], seed: u64, count: usize) -> Result<(usize, Met), String> {
    let (mut different, mut met) = (0, Met::new());
    for (number, case) in cases(seed, count).iter().enumerate() {
        let (want, got) = (lines(&case.input()), printed(program, &case.input())?);
        note(&mut met, &want);
        if want != got || !states_agree(case, &got) {
            different += 1;
            if different == 1 {
                tell(&format!("sheets-{}-{}", seed, number), case, &want, &got);
            }
        }
    }
    Ok((different, met))
}

/// In how many cases each fault shows, in the lines and in a state that is left.
pub fn try_faults(program: &[String], seed: u64, count: usize, faults: &[(Fault, &str)]) -> Result<Vec<usize>, String> {
    let cases = cases(seed, count);
    let got: Vec<Vec<String>> = cases.iter().map(|case| printed(program, &case.input())).collect::<Result<_, _>>()?;
    let shows =
        |fault, case: &Case, got: &Vec<String>| fault::with(fault, || lines(&case.input()) != *got && !states_agree(case, got));
    let noticed = |&(fault, _): &(Fault, &str)| cases.iter().zip(&got).filter(|(case, got)| shows(fault, case, got)).count();
    Ok(faults.iter().map(noticed).collect())
}
