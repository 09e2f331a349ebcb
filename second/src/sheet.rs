//! Section 18 of the rules: commissioning sheets, the words that they come to, and what the program `shorten` prints of them.

use crate::event::{gate, run, Event};
use crate::fault::{or, seeded, Fault};
use crate::script::image_end;
use crate::state::{State, World, RECORDS};
use crate::table;

/// A switch of a sheet: connection, switch number, position.
#[derive(Clone, Copy, PartialEq, Eq, Debug)]
pub struct Switch {
    pub connection: u8,
    pub number: u8,
    pub on: bool,
}

/// The bits forced on, and the bits forced off.
#[derive(Clone, Copy, Default, PartialEq, Eq, Debug)]
pub struct Pair {
    pub on: u32,
    pub off: u32,
}

pub type Words = [Pair; RECORDS];

/// The most bytes of a sheet that the program reads.
const MOST: usize = 3 * 4096;

/// Three bytes a switch, the last 0 or 1; else the byte where the sheet does not fit.
pub fn read(sheet: &[u8]) -> Result<Vec<Switch>, usize> {
    let switch = |(k, bytes): (usize, &[u8])| match *bytes {
        [connection, number, position @ 0..=1] => Ok(Switch { connection, number, on: position == 1 }),
        [_, _, _] => Err(3 * k + 2),
        _ => Err(3 * k),
    };
    sheet.chunks(3).enumerate().map(switch).collect()
}

/// A switch of no connection of the table, or above 31, answers 2.
fn is_there(rows: usize, switch: &Switch) -> bool {
    usize::from(switch.connection) < rows && switch.number < 32
}

fn alike(a: &Switch, b: &Switch) -> bool {
    (a.connection, a.number) == (b.connection, b.number)
}

/// The words of a sheet: a bit is as the last switch leaves it, and those that are refused are left out.
pub fn shorten(rows: usize, switches: &[Switch]) -> Words {
    let mut words = Words::default();
    for switch in switches {
        if !is_there(rows, switch) && !seeded(Fault::RefusedToZero) {
            continue;
        }
        let to = if is_there(rows, switch) { usize::from(switch.connection) } else { 0 };
        force(&mut words[to], 1 << (switch.number % 32), switch.on);
    }
    words
}

fn force(pair: &mut Pair, bit: u32, on: bool) {
    if seeded(Fault::FirstSwitchWins) && (pair.on | pair.off) & bit != 0 {
        return;
    }
    let (to, from) = if on { (&mut pair.on, &mut pair.off) } else { (&mut pair.off, &mut pair.on) };
    *to |= bit;
    *from &= or(Fault::OnAndOff, !bit, u32::MAX);
}

/// Words applied to a state: 11, 12, then 3 for a bit in both; the answer's number.
pub fn apply(world: &mut World, words: &Words) -> u8 {
    let table = match gate(world) {
        Ok(table) => table,
        Err(number) => return number,
    };
    if words.iter().any(|pair| pair.on & pair.off != 0) {
        return 3;
    }
    for (record, pair) in world.state.records.iter_mut().zip(words).take(table.connections.len()) {
        record.switches = (record.switches | pair.on) & !pair.off;
    }
    0
}

/// The state that the switches leave, called one by one.
pub fn one_by_one(world: &World, switches: &[Switch]) -> State {
    let mut world = world.clone();
    for switch in switches {
        let _ = run(&mut world, &Event::Switch(switch.connection, switch.number, switch.on));
    }
    world.state
}

/// Of the switches that are there and alike the last counts.
fn kept(rows: usize, switches: &[Switch]) -> impl Iterator<Item = &Switch> + '_ {
    let counts = move |&(k, switch): &(usize, &Switch)| is_there(rows, switch) && last(switches, switch) == k;
    switches.iter().enumerate().filter(counts).map(|(_, switch)| switch)
}

fn last(switches: &[Switch], switch: &Switch) -> usize {
    switches.iter().rposition(|other| alike(other, switch)).expect("it is one of them")
}

fn position(on: bool) -> &'static str {
    ["off", "on"][usize::from(on)]
}

fn counted(what: &str, number: usize) -> String {
    format!("{} of {} switch{}", what, number, if number == 1 { "" } else { "es" })
}

/// The line of a switch that changes nothing.
fn fate(rows: usize, switches: &[Switch], k: usize) -> Option<String> {
    let switch = &switches[k];
    let why = match last(switches, switch) {
        _ if !is_there(rows, switch) => "refused 2 not there".to_string(),
        by if by == k => return None,
        by => format!("overridden by entry {}", by + 1),
    };
    let what = format!("switch {} of connection {} {}", switch.number, switch.connection, position(switch.on));
    Some(format!("entry {}: {}: changed nothing: {}", k + 1, what, why))
}

/// The line of a connection: its words, and what they make of its switches in a fresh state.
fn pair_line(i: usize, pair: &Pair, fresh: u32, after: u32) -> String {
    let words = format!("forced on 0x{:08x}, forced off 0x{:08x}", pair.on, pair.off);
    format!("connection {}: {}, fresh switches 0x{:08x} become 0x{:08x}", i, words, fresh, after)
}

fn told(image: &[u8], rows: usize, switches: &[Switch]) -> Vec<String> {
    let words = shorten(rows, switches);
    let fresh = World::new(image);
    let mut after = fresh.clone();
    apply(&mut after, &words);
    let line = |i: usize| pair_line(i, &words[i], fresh.state.records[i].switches, after.state.records[i].switches);
    let mut lines = vec![counted("sheet", switches.len())];
    lines.extend((0..rows).map(line));
    lines.extend((0..switches.len()).filter_map(|k| fate(rows, switches, k)));
    lines.push(counted("short sheet", kept(rows, switches).count()));
    lines.extend(kept(rows, switches).map(|s| format!("  switch {} {} {}", s.connection, s.number, position(s.on))));
    lines.push("OK".into());
    lines
}

fn refused(why: String) -> Vec<String> {
    vec![why, "REFUSED".into()]
}

/// What the program is to print for a table image and a sheet behind it.
pub fn lines(input: &[u8]) -> Vec<String> {
    let (image, sheet) = input.split_at(image_end(input));
    let rows = match table::check(image) {
        Ok(table) => table.connections.len(),
        Err(place) => return refused(format!("refused 1 at byte {}", place)),
    };
    match read(sheet) {
        _ if sheet.len() > MOST => refused("sheet refused: it is longer than 12288 bytes (4096 switches)".into()),
        Ok(switches) => told(image, rows, &switches),
        Err(at) if at % 3 == 2 => {
            refused(format!("sheet refused at byte {}: the position is {}, neither 0 (off) nor 1 (on)", at, sheet[at]))
        }
        Err(at) => refused(format!("sheet refused at byte {}: cut off inside a switch of 3 bytes", at)),
    }
}

/// The shortened sheet among printed lines.
pub fn printed_sheet(lines: &[String]) -> Option<Vec<Switch>> {
    let switch = |words: Vec<&str>| match words[..] {
        [connection, number, position] => {
            Some(Switch { connection: connection.parse().ok()?, number: number.parse().ok()?, on: position == "on" })
        }
        _ => None,
    };
    lines.iter().filter_map(|line| line.strip_prefix("  switch ")).map(|rest| switch(rest.split(' ').collect())).collect()
}

#[cfg(test)]
mod tests {
    use super::*;

    const SHEET: [u8; 12] = [0, 3, 0, 0, 3, 1, 1, 4, 0, 9, 0, 1];

    #[test]
    fn the_last_one_counts() {
        let words = shorten(2, &read(&SHEET).unwrap());
        assert_eq!(words[..3], [Pair { on: 8, off: 0 }, Pair { on: 0, off: 16 }, Pair::default()]);
    }

    #[test]
    fn what_does_not_fit_is_named() {
        assert_eq!(read(&[0, 0, 2]), Err(2));
        assert_eq!(read(&[0, 0, 1, 7]), Err(3));
        assert_eq!(read(&[]), Ok(vec![]));
    }

    #[test]
    fn words_with_a_bit_in_both_change_nothing() {
        let mut world = World::new(&table::whole_image());
        let before = world.state.clone();
        let mut words = Words::default();
        words[0] = Pair { on: 3, off: 2 };
        assert_eq!((apply(&mut world, &words), &world.state), (3, &before));
    }
}
