//! Section 3 of the rules, soundness: each rule by itself.

use crate::fault::{seeded, Fault};
use crate::state::{Mode, Record, State};
use crate::stream::{Part, READY};
use crate::table::Table;

type Rule = fn(&Table, usize, &Record) -> bool;

/// The rules for a record that the table has a row for.
pub const RULES: &[(&str, Rule)] = &[
    ("send used at most the send size", |table, i, record| record.used <= table.connections[i].send_size),
    ("an unfinished payload holds fewer bytes than its length", |_, _, record| match record.part {
        Part::Payload { length, held, .. } => held < length,
        _ => true,
    }),
    ("its route belongs to the connection", |table, i, record| match record.part {
        Part::Payload { route, .. } => {
            table.routes.get(usize::from(route)).map_or(false, |row| usize::from(row.connection) == i)
        }
        _ => true,
    }),
    ("and allows the length", |table, _, record| match record.part {
        Part::Payload { route, length, .. } => table.routes.get(usize::from(route)).map_or(true, |row| length <= row.longest),
        _ => true,
    }),
    ("an unfinished payload has an unmarked route", |table, _, record| match record.part {
        Part::Payload { route, .. } => table.routes.get(usize::from(route)).map_or(true, |row| !row.transfer),
        _ => true,
    }),
    ("a running transfer has a route of its connection", |table, i, record| match record.part {
        Part::Transfer { route, .. } => {
            table.routes.get(usize::from(route)).map_or(false, |row| usize::from(row.connection) == i)
        }
        _ => true,
    }),
    ("that is marked", |table, _, record| match record.part {
        Part::Transfer { route, .. } => table.routes.get(usize::from(route)).map_or(true, |row| row.transfer),
        _ => true,
    }),
    ("and at least one byte to come", |_, _, record| !matches!(record.part, Part::Transfer { left: 0, .. })),
    ("0..7 header bytes", |_, _, record| match record.part {
        Part::Header { held, value } => held <= 7 && value >> (8 * u32::from(held.min(7))) == 0,
        _ => true,
    }),
    ("at least one byte still to skip", |_, _, record| record.part != Part::Skip(0)),
    ("only an online TCP connection has a receive part", |table, i, record| {
        record.part == READY || (record.mode == Mode::Online && table.config(i).tcp)
    }),
    ("only an online one has send bytes", |_, _, record| record.used == 0 || record.mode == Mode::Online),
    ("timer only with send bytes", |_, _, record| record.timer == 0 || record.used > 0),
    ("due only with send bytes", |_, _, record| !record.due || record.used > 0),
    ("timer or due, never both", |_, _, record| record.timer == 0 || !record.due),
    ("an online remote has no wildcard", |_, _, record| record.mode != Mode::Online || !record.remote.has_wildcard()),
    ("an alive timer only on an online record", |_, _, record| {
        record.alive == 0 || record.mode == Mode::Online || seeded(Fault::AliveOffline)
    }),
    ("an alive timer at most the limit, which is 0 on TCP", |table, i, record| {
        record.alive <= table.connections[i].alive || seeded(Fault::AlivePastLimit)
    }),
    ("open wanted only on a non-automatic record", |table, i, record| !record.open_wanted || !table.config(i).row.automatic),
    ("open wanted only on an offline record", |_, _, record| !record.open_wanted || record.mode == Mode::Offline),
    ("open wanted never with close wanted", |_, _, record| !record.open_wanted || !record.close_wanted),
    ("close wanted never on an automatic UDP record", |table, i, record| {
        !record.close_wanted || !table.config(i).row.automatic || table.config(i).tcp
    }),
    ("close wanted never on an automatic offline one", |table, i, record| {
        !record.close_wanted || !table.config(i).row.automatic || record.mode != Mode::Offline
    }),
];

pub const PAST_ROWS: &str = "records past the row count are all zero";

/// The rules that a state breaks, with the record that does.
pub fn broken(table: &Table, state: &State) -> Vec<(usize, &'static str)> {
    let mut broken = Vec::new();
    for (i, record) in state.records.iter().enumerate() {
        if i < table.connections.len() {
            broken.extend(RULES.iter().filter(|(_, rule)| !rule(table, i, record)).map(|&(name, _)| (i, name)));
        } else if *record != Record::zero() {
            broken.push((i, PAST_ROWS));
        }
    }
    broken
}

pub fn is_sound(table: &Table, state: &State) -> bool {
    let good = |(i, record): (usize, &Record)| match i < table.connections.len() {
        true => RULES.iter().all(|(_, rule)| rule(table, i, record)),
        false => *record == Record::zero(),
    };
    state.records.iter().enumerate().all(good)
}
