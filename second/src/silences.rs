//! What a comparison meets of silent peers: alive timers that start, run again, end and stop, and marks that the upper layer set the remote.

use crate::event::{Done, Event};
use crate::lines::Seen;
use crate::state::{Config, Mode, Record};
use crate::table::Remote;

/// What a comparison of silent peers must meet this often.
pub const TO_MEET: &[(&str, usize)] = &[
    ("alive timer started", 120),
    ("alive timer started for a half wildcard", 50),
    ("alive timer started again", 70),
    ("datagram that starts none", 100),
    ("walk while an alive timer runs", 20),
    ("let go", 100),
    ("let go in the last tick", 50),
    ("one tick before it is let go", 25),
    ("let go with send bytes", 25),
    ("let go to a remote without wildcard", 4),
    ("let go after more than 60000 ticks", 1),
    ("alive timer only stopped", 25),
    ("alive timer only stopped while the other falls", 2),
    ("alive timer closed", 2),
    ("alive timer stopped by 00582", 2),
    ("mark set", 50),
    ("mark set to the configured remote", 12),
    ("mark not set: refused", 30),
    ("mark kept by a datagram", 120),
    ("mark kept by accept or connected", 2),
    ("mark cleared by a closing tick", 5),
    ("mark cleared by lost", 2),
    ("mark cleared by 00582", 2),
    ("unsound alive timer", 100),
];

/// What runs of any events must meet, though less often.
pub const ALSO_TO_MEET: &[&str] =
    &["alive timer started", "alive timer started again", "let go", "mark set", "unsound alive timer"];

/// What happens to a record at a datagram.
fn at_datagram(row: Config, before: &Record, after: &Record) -> Vec<&'static str> {
    let (wild, limit) = (before.remote.has_wildcard(), row.row.alive);
    let half = wild && before.remote != Remote::default();
    told(&[
        (wild && limit > 0, "alive timer started"),
        (half && limit > 0, "alive timer started for a half wildcard"),
        (before.alive > 0 && after.alive > before.alive, "alive timer started again"),
        (!wild && before.alive == 0 && limit > 0, "datagram that starts none"),
        (before.remote_set, "mark kept by a datagram"),
    ])
}

/// What happens to a record in so many ticks.
fn at_ticks(row: Config, before: &Record, times: u32) -> Vec<&'static str> {
    let alive = u32::from(before.alive);
    let (runs, closes) = (alive > 0 && times > 0, before.close_wanted && times > 0);
    let ends = runs && !closes && times >= alive;
    let (goes, stops) = (ends && !before.remote_set, ends && before.remote_set);
    let last = goes && times == alive;
    told(&[
        (goes, "let go"),
        (last, "let go in the last tick"),
        (runs && !closes && !before.remote_set && times + 1 == alive, "one tick before it is let go"),
        (goes && before.used > 0, "let go with send bytes"),
        (last && !row.row.remote.has_wildcard(), "let go to a remote without wildcard"),
        (goes && alive > 60_000, "let go after more than 60000 ticks"),
        (stops, "alive timer only stopped"),
        (stops && u32::from(before.timer) > times, "alive timer only stopped while the other falls"),
        (closes && alive > 0, "alive timer closed"),
        (closes && before.remote_set, "mark cleared by a closing tick"),
    ])
}

/// What else happens to a record.
fn at_other(event: &Event, row: Config, before: &Record, after: &Record) -> Vec<&'static str> {
    let cleared = before.remote_set && !after.remote_set;
    match event {
        Event::Walk(..) => told(&[(before.alive > 0 && before.alive < row.row.alive, "walk while an alive timer runs")]),
        Event::SetRemote(_, remote) => told(&[
            (!before.remote_set, "mark set"),
            (!before.remote_set && *remote == row.row.remote, "mark set to the configured remote"),
        ]),
        Event::Accept(..) | Event::Connected(_) => told(&[(before.remote_set, "mark kept by accept or connected")]),
        Event::Lost(_) => told(&[(cleared, "mark cleared by lost")]),
        Event::TakeWaiting(..) => {
            told(&[(cleared, "mark cleared by 00582"), (before.alive > 0 && after.alive == 0, "alive timer stopped by 00582")])
        }
        _ => vec![],
    }
}

fn told(all: &[(bool, &'static str)]) -> Vec<&'static str> {
    all.iter().filter(|(met, _)| *met).map(|&(_, kind)| kind).collect()
}

/// The connection that an event is about.
fn about(seen: &Seen) -> Option<usize> {
    match (seen.event, seen.answer) {
        (Event::Datagram(..) | Event::Accept(..), Ok(Done::Chosen(chosen))) => Some(*chosen),
        (Event::Walk(number, ..) | Event::SetRemote(number, _) | Event::Connected(number), _) => Some(usize::from(*number)),
        (Event::Lost(number) | Event::TakeWaiting(number, _), _) => Some(usize::from(*number)),
        _ => None,
    }
}

/// True where a record's alive timer is above its limit, or not on an online connection.
fn has_unsound_alive(seen: &Seen) -> bool {
    let limit = |i: usize| seen.after.table.as_ref().ok().and_then(|table| table.connections.get(i)).map_or(0, |row| row.alive);
    let bad = |(i, record): (usize, &Record)| record.alive > limit(i) || (record.alive > 0 && record.mode != Mode::Online);
    seen.before.records.iter().enumerate().any(bad)
}

/// What of silent peers an event meets.
pub fn kinds(seen: &Seen) -> Vec<&'static str> {
    let table = match &seen.after.table {
        Ok(table) => table,
        Err(_) => return vec![],
    };
    let about = about(seen).filter(|&i| i < table.connections.len());
    let records = |i: usize| (table.config(i), &seen.before.records[i], &seen.after.state.records[i]);
    match (seen.event, seen.answer) {
        (_, Err((12, _))) => told(&[(has_unsound_alive(seen), "unsound alive timer")]),
        (Event::Ticks(times), _) => {
            let each = |i| at_ticks(records(i).0, records(i).1, *times);
            (0..table.connections.len()).flat_map(each).collect()
        }
        (Event::SetRemote(..), Err((3, _))) => {
            about.map_or(vec![], |i| told(&[(!records(i).1.remote_set, "mark not set: refused")]))
        }
        (_, Err(_)) => vec![],
        (Event::Datagram(..), _) => about.map_or(vec![], |i| at_datagram(records(i).0, records(i).1, records(i).2)),
        (event, _) => about.map_or(vec![], |i| at_other(event, records(i).0, records(i).1, records(i).2)),
    }
}
