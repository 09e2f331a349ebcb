//! States: sound ones of every mode, wish and part, and states that break one rule of soundness.

use super::table::{remote, switches};
use crate::random::Random;
use crate::sound::{broken, PAST_ROWS, RULES};
use crate::state::{Config, Mode, Record, State, World, RECEIVE, RECORDS, SEND};
use crate::stream::{Part, READY};
use crate::table::{Remote, Table, MOST_SEND_SIZE};

/// A remote without wildcard.
pub fn exact(random: &mut Random) -> Remote {
    loop {
        let remote = remote(random);
        if !remote.has_wildcard() {
            return remote;
        }
    }
}

fn receive_part(random: &mut Random, table: &Table, connection: usize) -> Part {
    let own = |route: &usize| usize::from(table.routes[*route].connection) == connection;
    let (marked, others): (Vec<usize>, _) =
        (0..table.routes.len()).filter(own).partition(|&route| table.routes[route].transfer);
    let routes: Vec<usize> = others.into_iter().filter(|&route| table.routes[route].longest > 0).collect();
    match random.below(5) {
        0 => READY,
        1 => {
            let held = random.edge(1, 7) as u8;
            Part::Header { held, value: random.word() >> (64 - 8 * u32::from(held)) }
        }
        2 if !routes.is_empty() => {
            let route = *random.pick(&routes);
            let length = random.edge(1, usize::from(table.routes[route].longest));
            Part::Payload { route: route as u8, length: length as u16, held: random.edge(0, length - 1) as u16 }
        }
        3 if !marked.is_empty() => Part::Transfer { route: *random.pick(&marked) as u8, left: to_come(random) },
        _ => Part::Skip(to_come(random)),
    }
}

/// Bytes to skip, or to come: at least one.
fn to_come(random: &mut Random) -> u32 {
    match random.below(3) {
        0 => random.between(1, 9) as u32,
        _ => random.edge(1, u32::MAX as usize) as u32 >> (8 * random.below(4)) | 1,
    }
}

fn record(random: &mut Random, table: &Table, connection: usize) -> Record {
    let Config { row, tcp } = table.config(connection);
    let mode = *random.pick(&[Mode::Offline, Mode::Reconnect, Mode::Online, Mode::Online]);
    let (offline, online) = (mode == Mode::Offline, mode == Mode::Online);
    let mut record = Record { mode, switches: switches(random), ..Record::fresh(row) };
    record.close_wanted = random.one_in(4) && !(row.automatic && (!tcp || offline));
    record.open_wanted = random.one_in(2) && offline && !row.automatic && !record.close_wanted;
    if random.one_in(2) || (online && row.remote.has_wildcard()) {
        record.remote = if online { exact(random) } else { remote(random) };
    }
    if online && tcp {
        record.part = receive_part(random, table, connection);
    }
    if online {
        let full = random.edge(0, usize::from(row.send_size));
        record.used = if random.one_in(2) { full.min(20) } else { full } as u16;
    }
    if record.used > 0 {
        match random.below(3) {
            0 => record.timer = *random.pick(&[1, 2, 3, 9, 65_535]),
            1 => record.due = true,
            _ => {}
        }
    }
    if online && random.one_in(2) {
        record.alive = *random.pick(&[1, 2, row.alive / 2, row.alive.saturating_sub(1), row.alive]).min(&row.alive);
    }
    record.remote_set = random.one_in(3);
    record
}

fn sound_state(random: &mut Random, table: &Table) -> State {
    let mut state = State::empty();
    for connection in 0..table.connections.len() {
        state.records[connection] = record(random, table, connection);
    }
    let mut count = || *random.pick(&[0, 1, u32::MAX / 2, u32::MAX - 3, u32::MAX - 1, u32::MAX]);
    (state.udp_drops, state.tcp_drops) = (count(), count());
    state
}

/// A state with lent memory full of other bytes.
fn world(random: &mut Random, table: &Table, state: State) -> World {
    World { state, receive: random.bytes(RECEIVE), send: random.bytes(SEND), ..World::new(&table.image()) }
}

/// A sound state under a table.
pub fn sound(random: &mut Random, table: &Table) -> World {
    let state = sound_state(random, table);
    world(random, table, state)
}

/// Changes one value of one record, mostly to an edge of its range.
fn disturb(random: &mut Random, table: &Table, state: &mut State) {
    let connection = random.below(RECORDS);
    let room = table.connections.get(connection).map_or(0, |row| row.send_size);
    let limit = table.connections.get(connection).map_or(0, |row| row.alive);
    let record = &mut state.records[connection];
    match random.below(11) {
        0 => record.mode = *random.pick(&[Mode::Offline, Mode::Reconnect, Mode::Online]),
        1 => record.open_wanted = !record.open_wanted,
        2 => record.close_wanted = !record.close_wanted,
        3 => record.remote = *random.pick(&[Remote::default(), Remote { address: 1, port: 0 }, Remote { address: 0, port: 1 }]),
        4 => record.part = any_part(random, record.part),
        5 => record.used = *random.pick(&[0, 1, room, (room + 1).min(MOST_SEND_SIZE), MOST_SEND_SIZE]),
        6 => record.timer = *random.pick(&[0, 1, u16::MAX]),
        7 => record.due = !record.due,
        8 => record.alive = *random.pick(&[0, 1, limit, limit.saturating_add(1), u16::MAX]),
        9 => record.remote_set = !record.remote_set,
        _ => record.switches ^= 1,
    }
}

fn any_part(random: &mut Random, part: Part) -> Part {
    match (part, random.below(6)) {
        (Part::Payload { route, length, .. }, 0) => Part::Payload { route, length, held: length },
        (Part::Payload { route, held, .. }, 1) => Part::Payload { route, length: 1464, held },
        (Part::Payload { length, held, .. }, 2) => Part::Payload { route: random.below(70) as u8, length, held },
        (Part::Payload { route, length, .. }, 3) => Part::Transfer { route, left: length.into() },
        (Part::Transfer { route, .. }, 0) => Part::Transfer { route, left: 0 },
        (Part::Transfer { left, .. }, 1) => Part::Transfer { route: random.below(70) as u8, left },
        (Part::Transfer { route, .. }, 2) => Part::Payload { route, length: 1, held: 0 },
        (_, 4) => Part::Transfer { route: random.below(70) as u8, left: random.below(3) as u32 },
        (Part::Header { held, .. }, 0) => Part::Header { held, value: 1 << (8 * u32::from(held.min(7))) },
        (_, 1) => Part::Header { held: 8, value: 0 },
        (_, 2) => Part::Skip(random.below(2) as u32),
        _ => Part::Header { held: random.below(3) as u8, value: 0 },
    }
}

/// A state that breaks exactly one rule, once; which one, is drawn first, so that each is met. Nothing where no state was found.
pub fn unsound(random: &mut Random, table: &Table) -> Option<(World, &'static str)> {
    let rule = RULES.get(random.below(RULES.len() + 1)).map_or(PAST_ROWS, |&(name, _)| name);
    for _ in 0..50 {
        let mut state = sound_state(random, table);
        for _ in 0..100 {
            let before = state.clone();
            disturb(random, table, &mut state);
            match broken(table, &state)[..] {
                [] => {}
                [(_, which)] if which == rule => return Some((world(random, table, state), rule)),
                _ => state = before,
            }
        }
    }
    None
}

/// A state that is unsound for the part of one record: a transfer, or a payload, of a route that it cannot have, or a transfer of no byte.
pub fn unsound_part(random: &mut Random, table: &Table) -> Option<World> {
    for _ in 0..100 {
        let mut state = sound_state(random, table);
        let connection = random.below(table.connections.len());
        let record = &mut state.records[connection];
        if record.mode != Mode::Online {
            let open = Record { mode: Mode::Online, remote: exact(random), ..Record::zero() };
            *record = or_as_it_is(random, open, record);
        }
        let (route, left) = (random.below(table.routes.len() + 1) as u8, *random.pick(&[0, 1, 1, 1, 5, 2000, u32::MAX]));
        record.part = match random.below(4) {
            0 => Part::Payload { route, length: 1, held: 0 },
            _ => Part::Transfer { route, left },
        };
        if !broken(table, &state).is_empty() {
            return Some(world(random, table, state));
        }
    }
    None
}

/// A state that is unsound for the alive timer of one record: above the limit, on a connection that is not online, on TCP.
pub fn unsound_alive(random: &mut Random, table: &Table) -> Option<World> {
    for _ in 0..100 {
        let mut state = sound_state(random, table);
        let connection = random.below(table.connections.len());
        let limit = table.connections[connection].alive;
        let record = &mut state.records[connection];
        if random.one_in(2) {
            *record = Record { mode: Mode::Online, remote: exact(random), ..Record::zero() };
        }
        record.alive = *random.pick(&[1, limit, limit.saturating_add(1), u16::MAX]);
        if !broken(table, &state).is_empty() {
            return Some(world(random, table, state));
        }
    }
    None
}

/// Mostly the new record.
fn or_as_it_is(random: &mut Random, new: Record, old: &Record) -> Record {
    if random.one_in(4) {
        old.clone()
    } else {
        new
    }
}

#[cfg(test)]
mod tests {
    use super::*;
    use crate::generate::script::table_for_events;
    use crate::sound::is_sound;
    use std::collections::{BTreeMap, BTreeSet};

    /// Mode, wishes, kind of receive part, and whether bytes wait, a timer runs, the buffer is due.
    fn shape(record: &Record) -> String {
        let part = match record.part {
            Part::Header { held: 0, .. } => "ready",
            Part::Header { .. } => "header",
            Part::Payload { .. } => "payload",
            Part::Skip(_) => "skip",
            Part::Transfer { .. } => "transfer",
        };
        let wishes = (record.open_wanted, record.close_wanted);
        format!("{:?} {:?} {} {:?}", record.mode, wishes, part, (record.used > 0, record.timer > 0, record.due))
    }

    #[test]
    fn states_are_sound_and_of_every_mode_wish_and_part() {
        let random = &mut Random::new(1);
        let mut shapes = BTreeSet::new();
        for _ in 0..300 {
            let table = table_for_events(random);
            let world = sound(random, &table);
            assert_eq!(broken(&table, &world.state), []);
            assert!(is_sound(&table, &world.state));
            shapes.extend(world.state.records[..table.connections.len()].iter().map(shape));
        }
        // offline with a wish or none, reconnect and online with close wanted or not, online with 5 parts and 4 kinds of buffer
        assert_eq!(shapes.len(), 3 + 2 + 2 * 5 * 4, "{:?}", shapes);
    }

    #[test]
    fn transfers_are_put_where_they_cannot_be() {
        let random = &mut Random::new(1);
        let mut met = BTreeMap::new();
        for _ in 0..400 {
            let table = table_for_events(random);
            if let Some(world) = unsound_part(random, &table) {
                broken(&table, &world.state).into_iter().for_each(|(_, rule)| *met.entry(rule).or_insert(0) += 1);
            }
        }
        for rule in [
            "a running transfer has a route of its connection",
            "that is marked",
            "and at least one byte to come",
            "an unfinished payload has an unmarked route",
            "only an online TCP connection has a receive part",
        ] {
            assert!(met.get(rule).copied().unwrap_or(0) >= 10, "{}: {:?}", rule, met);
        }
    }

    #[test]
    fn each_single_rule_is_broken() {
        let random = &mut Random::new(1);
        let mut met = BTreeMap::new();
        for _ in 0..300 {
            let table = table_for_events(random);
            if let Some((world, rule)) = unsound(random, &table) {
                assert!(!is_sound(&table, &world.state));
                *met.entry(rule).or_insert(0) += 1;
            }
        }
        assert_eq!(met.len(), RULES.len() + 1, "{:?}", met);
    }
}
