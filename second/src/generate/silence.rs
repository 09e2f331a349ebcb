//! Scripts of silent peers: UDP connections with small alive limits that datagrams find, leave alone, and find again, among what else happens
//! to their remotes.

use super::script::{add_events, begin, Runner};
use super::state::{exact, sound, unsound_alive};
use super::table::{remote, table_with_few_pdus};
use crate::event::Event;
use crate::random::Random;
use crate::state::{Mode, Record, World};
use crate::table::{Remote, Table, TCP, UDP};

/// A remote with a wildcard in one field or both.
fn wild(random: &mut Random) -> Remote {
    let remote = exact(random);
    match random.below(4) {
        0 => Remote { address: 0, ..remote },
        1 => Remote { port: 0, ..remote },
        _ => Remote::default(),
    }
}

/// Few connections, most of them UDP, with a wildcard and a small limit; destinations whose timers end before or after it.
pub fn table_of_silences(random: &mut Random) -> Table {
    let connections = random.between(1, 5);
    let groups = random.between(1, 2);
    let mut table = table_with_few_pdus(random, [groups, connections, 2 * connections, 2 * connections]);
    for row in &mut table.groups {
        row.protocol = if random.one_in(5) { TCP } else { UDP };
    }
    table.routes.iter_mut().for_each(|row| (row.transfer, row.groups) = (false, 0));
    for row in &mut table.destinations {
        (row.timeout, row.groups) = (*random.pick(&[0, 2, 9, 30, 400]), 0);
    }
    for connection in 0..connections {
        let udp = table.protocol(connection) == UDP;
        let row = &mut table.connections[connection];
        row.automatic = !random.one_in(4);
        row.remote = if random.one_in(4) { exact(random) } else { wild(random) };
        row.alive = if udp { *random.pick(&[0, 1, 2, 3, 3, 4, 5, 5, 8, 30, u16::MAX]) } else { 0 };
    }
    table
}

impl Runner<'_> {
    /// So many ticks: mostly few; else up to the end of an alive timer that runs, one fewer or one more.
    fn ticks_of_silences(&mut self) -> Event {
        let running: Vec<u16> = self.world.state.records.iter().map(|record| record.alive).filter(|&alive| alive > 0).collect();
        let few = self.random.between(1, 3) as u32;
        if running.is_empty() || self.random.one_in(2) {
            return Event::Ticks(few);
        }
        let end = u32::from(*self.random.pick(&running));
        Event::Ticks(*self.random.pick(&[end, end, end - 1, end + 1]))
    }

    /// A source that a connection's remote lets in.
    fn source_for(&mut self, number: usize) -> Remote {
        let (known, other) = (self.world.state.records[number].remote, exact(self.random));
        let source = Remote {
            address: if known.address == 0 { other.address } else { known.address },
            port: if known.port == 0 { other.port } else { known.port },
        };
        if self.random.one_in(6) {
            self.source()
        } else {
            source
        }
    }

    /// An accept that mostly finds a connection.
    fn accept_of_silences(&mut self) -> Event {
        let number = usize::from(self.fitting(|config, record| config.tcp && record.mode == Mode::Reconnect));
        let number = number.min(self.table.connections.len() - 1);
        Event::Accept(self.table.connections[number].group, self.source_for(number))
    }

    /// A datagram: mostly one that finds a connection, often again.
    fn datagram_of_silences(&mut self) -> Event {
        let number = match self.random.below(4) {
            0 => self.fitting(|config, record| !config.tcp && record.mode != Mode::Offline),
            1 | 2 => self.fitting(|config, record| record.alive > 0 && record.alive < config.row.alive && !record.close_wanted),
            _ => self.fitting(|config, record| !config.tcp && record.mode == Mode::Reconnect && !record.close_wanted),
        };
        let number = usize::from(number).min(self.table.connections.len() - 1);
        let group = if self.random.one_in(10) { self.group() } else { self.table.connections[number].group };
        Event::Datagram(group, self.source_for(number))
    }

    /// A walk, mostly on a connection whose alive timer runs.
    fn walk_of_silences(&mut self) -> Event {
        let number = self.fitting(|_, record| record.alive > 0 && !record.close_wanted);
        match self.walk() {
            Event::Walk(_, place, bytes) if !self.random.one_in(4) => Event::Walk(number, place.min(bytes.len() as u32), bytes),
            event => event,
        }
    }

    /// Sets a remote: mostly one with a wildcard, or the configured one.
    fn set_remote_of_silences(&mut self) -> Event {
        let number = self.fitting(|_, record| record.mode != Mode::Online);
        let configured = self.table.connections.get(usize::from(number)).map(|row| row.remote);
        let any = match self.random.below(4) {
            0 => remote(self.random),
            1 => exact(self.random),
            _ => wild(self.random),
        };
        Event::SetRemote(number, configured.filter(|_| self.random.one_in(3)).unwrap_or(any))
    }

    /// A TCP connection that waits for its peer gets a remote, and then its peer; one that has its peer loses it.
    fn peer_of_tcp(&mut self) -> Event {
        if self.random.one_in(6) {
            return Event::Lost(self.fitting(|config, record| config.tcp && record.mode == Mode::Online && record.remote_set));
        }
        let number = self.fitting(|config, record| config.tcp && record.mode == Mode::Reconnect);
        let marked = self.world.state.records.get(usize::from(number)).map_or(false, |record| record.remote_set);
        match self.random.below(2) {
            _ if !marked => Event::SetRemote(number, exact(self.random)),
            0 => Event::Connected(number),
            _ => self.accept_of_silences(),
        }
    }

    /// One of the events by which peers come, stay and go.
    pub(super) fn event_of_silences(&mut self) -> Event {
        let alive = |record: &Record| record.alive > 0;
        let tcp = (0..self.table.connections.len()).any(|connection| self.table.protocol(connection) == TCP);
        let closed = self.world.state.records[..self.table.connections.len()].iter().any(|record| record.mode == Mode::Offline);
        match self.random.below(47) {
            0..=6 => self.ticks_of_silences(),
            7..=9 => self.set_remote_of_silences(),
            10..=15 => self.walk_of_silences(),
            16..=21 => self.transmit(),
            22 | 23 => self.take_waiting(),
            24 => Event::Close(self.fitting(|config, record| !config.row.automatic && (alive(record) || record.remote_set))),
            25 | 26 if closed => Event::Open(self.fitting(|_, record| record.mode == Mode::Offline)),
            27 | 28 if tcp => Event::Connected(self.fitting(|config, record| config.tcp && record.mode == Mode::Reconnect)),
            29 | 30 if tcp => self.accept_of_silences(),
            31 | 32 if tcp => {
                Event::Lost(self.fitting(|config, record| config.tcp && record.mode == Mode::Online && record.remote_set))
            }
            33 => Event::SetRemote(self.fitting(|_, record| alive(record)), exact(self.random)),
            _ => self.datagram_of_silences(),
        }
    }
}

/// A sound state in which the alive timer of every connection that has a limit runs, and few remotes are the upper layer's.
fn all_watched(random: &mut Random, table: &Table) -> World {
    let mut start = sound(random, table);
    for (record, row) in start.state.records.iter_mut().zip(&table.connections).filter(|(_, row)| row.alive > 0) {
        record.alive = row.alive.min(*random.pick(&[1, 2, 3, 4, 4, u16::MAX]));
        (record.mode, record.open_wanted, record.remote_set) = (Mode::Online, false, random.one_in(4));
        record.close_wanted &= random.one_in(2);
        record.remote = exact(random);
        if record.remote_set && record.used > 0 {
            (record.timer, record.due) = (9, false);
        }
    }
    start
}

/// An image and a script of so many such events, from a fresh or a sound state, or from one whose alive timers are not sound. Timers and marks
/// show at its end alone.
pub fn silence_script(random: &mut Random, events: usize) -> Vec<u8> {
    let table = table_of_silences(random);
    let start = match random.below(12) {
        0 => unsound_alive(random, &table),
        1..=3 => Some(sound(random, &table)),
        4..=7 => Some(all_watched(random, &table)),
        _ => None,
    };
    let (mut input, mut runner) = begin(random, table, start);
    if runner.random.one_in(2) {
        add_events(&mut input, &mut runner, 1, |_| Event::Ticks(1));
    }
    add_events(&mut input, &mut runner, events, |runner| runner.event_of_silences());
    let tcp = (0..runner.table.connections.len()).any(|connection| runner.table.protocol(connection) == TCP);
    add_events(&mut input, &mut runner, if tcp { 4 } else { 0 }, |runner| runner.peer_of_tcp());
    input
}
