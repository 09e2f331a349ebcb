//! Scripts: runs of events under one table, from a fresh, a sound or an unsound state, that end well, refused or cut.

use super::datagram::{datagram, frames, transfers};
use super::image::image;
use super::state::{exact, sound, unsound, unsound_alive, unsound_part};
use super::table::{limit, mark, remote, table_with_few_pdus};
use crate::event::{run, Answer, Event};
use crate::header::is_on;
use crate::random::Random;
use crate::recording::{self, MOST_BODY, MOST_DISTANCE};
use crate::script::{entry, image_end, write, write_start, OLDER_RECORD, RECORD, START_STATE};
use crate::state::{Config, Mode, Record, World, RECORDS};
use crate::stream::{Part, READY};
use crate::table::{check, Destination, Remote, Table, MOST_SEND_SIZE, TCP};
use crate::walk::walk;

/// The most bytes of a segment or datagram in an entry.
const MOST_BYTES: usize = 4000;

/// A table with several connections in few groups, and PDUs with several destinations.
pub fn table_for_events(random: &mut Random) -> Table {
    let connections = *random.pick(&[1, 2, 3, 5, 8, 16]);
    let counts = [random.between(1, 4), connections, random.edge(4, 64), random.edge(connections, (6 * connections).min(64))];
    let mut table = table_with_few_pdus(random, counts);
    for row in &mut table.connections {
        row.switches |= if random.one_in(2) { u32::MAX } else { 0 };
        if random.one_in(3) {
            row.remote = exact(random);
        }
    }
    for row in &mut table.destinations {
        row.timeout = *random.pick(&[0, 1, 2, 3, 7, 65_535]);
    }
    table
}

/// What the generator of one script knows: the world as the model sees it, and bytes still to be sent on each connection.
pub(super) struct Runner<'a> {
    pub(super) random: &'a mut Random,
    pub(super) table: Table,
    pub(super) world: World,
    streams: Vec<Vec<u8>>,
}

/// Which events a recording is made of.
#[derive(Clone, Copy, PartialEq, Eq, Debug)]
pub enum Events {
    Any,
    Transfers,
    Silences,
}

impl Runner<'_> {
    /// A connection, in some cases one that is not there.
    pub(super) fn connection(&mut self) -> u8 {
        match self.random.one_in(40) {
            true => *self.random.pick(&[self.table.connections.len() as u8, 16, 255]),
            false => self.random.below(self.table.connections.len()) as u8,
        }
    }

    /// A connection that fits an event, if one is soon found and in most cases; else any.
    pub(super) fn fitting(&mut self, fits: impl Fn(Config, &Record) -> bool) -> u8 {
        for _ in 0..16 {
            let connection = self.random.below(self.table.connections.len());
            if fits(self.table.config(connection), &self.world.state.records[connection]) && !self.random.one_in(10) {
                return connection as u8;
            }
        }
        self.connection()
    }

    /// An open connection of a protocol.
    pub(super) fn line(&mut self, tcp: bool) -> u8 {
        self.fitting(|config, record| config.tcp == tcp && record.is_open())
    }

    /// A source: mostly one that a record names, in some cases with a wildcard.
    pub(super) fn source(&mut self) -> Remote {
        let known = self.world.state.records[self.random.below(self.table.connections.len())].remote;
        match self.random.below(12) {
            0 => remote(self.random),
            1..=5 if !known.has_wildcard() => known,
            6 | 7 if known.port != 0 => Remote { port: known.port, ..exact(self.random) },
            8 | 9 if known.address != 0 => Remote { address: known.address, ..exact(self.random) },
            _ => exact(self.random),
        }
    }

    pub(super) fn group(&mut self) -> u8 {
        let past = usize::from(self.random.one_in(20));
        self.random.below(self.table.groups.len() + past) as u8
    }

    /// The next piece of a connection's stream.
    fn segment(&mut self) -> Event {
        let connection = self.line(true);
        let number = usize::from(connection);
        if number >= self.table.connections.len() {
            return Event::Segment(connection, self.random.bytes(4));
        }
        let part = self.world.state.records[number].part;
        if let Part::Skip(5000..) | Part::Transfer { left: 5000.., .. } = part {
            if self.random.one_in(3) {
                let end = *self.random.pick(&[Event::Lost as fn(u8) -> Event, Event::Cancel]);
                return end(connection);
            }
        }
        if part == READY && (self.streams[number].is_empty() || self.random.one_in(4)) {
            self.streams[number] = frames(self.random, &self.table, number, 10);
        } else if self.streams[number].is_empty() {
            self.streams[number] = self.rest_of(part);
        }
        let stream = &mut self.streams[number];
        let length = match self.random.below(3) {
            0 => stream.len(),
            1 => self.random.below(12).min(stream.len()),
            _ => self.random.below(stream.len() + 1),
        };
        Event::Segment(connection, stream.drain(..length.min(MOST_BYTES)).collect())
    }

    /// The next piece of a stream that has many transfers, mostly a short one.
    fn transfer_segment(&mut self) -> Event {
        let connection = self.line(true);
        let number = usize::from(connection);
        if self.streams.get(number).map_or(true, |stream| !stream.is_empty() && self.random.one_in(8)) {
            return self.segment();
        }
        let part = self.world.state.records[number].part;
        if matches!(part, Part::Skip(200..)) && !self.random.one_in(4) {
            return Event::Lost(connection);
        }
        if self.streams[number].is_empty() {
            let front = if part == READY { vec![] } else { self.rest_of(part) };
            self.streams[number] = [front, transfers(self.random, &self.table, number)].concat();
        }
        let stream = &mut self.streams[number];
        let length = match self.random.below(4) {
            0 => stream.len(),
            1 => self.random.below(3),
            _ => self.random.below(40),
        };
        Event::Segment(connection, stream.drain(..length.min(stream.len()).min(MOST_BYTES)).collect())
    }

    /// Connected, and a new stream.
    fn connected_again(&mut self) -> Event {
        let connection = self.fitting(|_, record| record.mode == Mode::Reconnect);
        self.streams.get_mut(usize::from(connection)).into_iter().for_each(Vec::clear);
        Event::Connected(connection)
    }

    /// Bytes that complete a receive part, or go some way.
    fn rest_of(&mut self, part: Part) -> Vec<u8> {
        let length = match part {
            Part::Header { held, .. } => 8 - usize::from(held),
            Part::Payload { length, held, .. } => usize::from(length - held),
            Part::Skip(left) | Part::Transfer { left, .. } => (left as usize).min(2000),
        };
        self.random.bytes(length)
    }

    pub(super) fn walk(&mut self) -> Event {
        let connection = self.line(false);
        let number = usize::from(connection).min(self.table.connections.len() - 1);
        let mut bytes = datagram(self.random, &self.table, number);
        bytes.truncate(MOST_BYTES);
        let switches = self.world.state.records[number].switches;
        let steps = self.random.below(3);
        let next = |place, _| walk(&self.table, number, switches, &bytes, place).map_or(place, |step| step.next);
        let reached = (0..steps).fold(0, next) as u32;
        let place = match self.random.below(12) {
            0 => bytes.len() as u32 + 1,
            1 => u32::MAX,
            2 => self.random.below(bytes.len() + 1) as u32,
            _ => reached,
        };
        Event::Walk(connection, place, bytes)
    }

    /// A destination, mostly of a PDU that is not refused with 4 or 6.
    fn destination(&mut self) -> Destination {
        let rows = &self.table.destinations;
        let record = |row: &Destination| &self.world.state.records[usize::from(row.connection)];
        let on = |row: &&Destination| is_on(row.groups, record(row).switches);
        let tries: Vec<&Destination> = (0..10).map(|_| self.random.pick(rows)).collect();
        let goes = |row: &&&Destination| {
            on(row) && rows.iter().filter(|other| other.pdu == row.pdu && on(other)).all(|other| record(other).is_open())
        };
        (*tries.iter().find(goes).unwrap_or(&tries[0])).clone()
    }

    pub(super) fn transmit(&mut self) -> Event {
        if self.table.destinations.is_empty() || self.random.one_in(20) {
            let length = self.random.below(4);
            return Event::Transmit(self.random.word() as u16, self.random.bytes(length));
        }
        let row = self.destination();
        let (pdu, longest) = (row.pdu, usize::from(row.longest));
        let used = usize::from(self.world.state.records[usize::from(row.connection)].used);
        let room = usize::from(self.table.connections[usize::from(row.connection)].send_size).saturating_sub(used + 8);
        let length = match self.random.below(8) {
            0 => longest + 1,
            1 => longest,
            2 => room,
            3 => room + 1,
            _ => self.random.below(longest.min(20) + 1),
        };
        Event::Transmit(pdu, self.random.bytes(length))
    }

    pub(super) fn take_waiting(&mut self) -> Event {
        let connection = self.fitting(|_, record| record.used > 0);
        let used = self.world.state.records.get(usize::from(connection)).map_or(0, |record| u32::from(record.used));
        let most = u32::from(MOST_SEND_SIZE);
        Event::TakeWaiting(
            connection,
            *self.random.pick(&[most, most, used, used, used.saturating_sub(1), 0, most + 1, u32::MAX]),
        )
    }

    /// A connection on which a transfer runs.
    fn transferring(&mut self) -> u8 {
        self.fitting(|_, record| record.part.is_transfer())
    }

    /// What ends a transfer, or would if one ran.
    fn transfer_event(&mut self) -> Event {
        match self.random.below(9) {
            0..=3 => Event::Cancel(self.transferring()),
            4 => Event::Cancel(self.line(true)),
            5 => Event::Cancel(self.connection()),
            6 | 7 => Event::Lost(self.transferring()),
            _ => Event::Close(self.fitting(|config, record| !config.row.automatic && record.part.is_transfer())),
        }
    }

    /// One of the events by which transfers come and go.
    fn event_of_transfers(&mut self) -> Event {
        let rows = &self.world.state.records[..self.table.connections.len()];
        let [closed, lost] = [Mode::Offline, Mode::Reconnect].map(|mode| rows.iter().any(|record| record.mode == mode));
        match self.random.below(32) {
            0..=3 => self.transfer_event(),
            4..=6 => Event::Ticks(self.random.between(1, 3) as u32),
            7..=10 if lost => self.connected_again(),
            11 | 12 if closed => Event::Open(self.fitting(|_, record| record.mode == Mode::Offline)),
            13 if lost => Event::SetRemote(self.fitting(|_, record| record.mode == Mode::Reconnect), exact(self.random)),
            14 => Event::Accept(self.group(), exact(self.random)),
            15 => Event::Switch(self.connection(), self.random.below(2) as u8, self.random.one_in(2)),
            16 => Event::SwitchAll(self.random.below(2) as u8, !self.random.one_in(3)),
            17 => self.transmit(),
            18 => self.take_waiting(),
            _ => self.transfer_segment(),
        }
    }

    fn event(&mut self) -> Event {
        let switch = if self.random.one_in(20) { self.random.between(32, 255) as u8 } else { self.random.below(32) as u8 };
        let protocol = if self.random.one_in(10) { self.random.word() as u8 } else { self.random.between(1, 2) as u8 };
        let on = self.random.one_in(2);
        match self.random.below(104) {
            0..=9 => Event::Ticks(self.random.between(1, 3) as u32),
            10 => Event::Ticks(self.random.edge(0, 300) as u32),
            11..=15 => Event::Open(self.fitting(|_, record| record.mode == Mode::Offline)),
            16..=18 => Event::Close(self.fitting(|config, record| !config.row.automatic && record.mode != Mode::Offline)),
            19..=24 => Event::Connected(self.fitting(|config, record| config.tcp && record.mode == Mode::Reconnect)),
            25..=27 => Event::Lost(self.fitting(|config, record| config.tcp && record.mode == Mode::Online)),
            28..=33 => Event::SetRemote(self.fitting(|_, record| record.mode != Mode::Online), remote(self.random)),
            34..=36 => Event::Switch(self.connection(), switch, on),
            37 => Event::SwitchAll(switch, on),
            38..=56 => self.segment(),
            57..=65 => self.walk(),
            66..=72 => self.take_waiting(),
            73..=79 => Event::Datagram(self.group(), self.source()),
            80..=84 => Event::Accept(self.group(), self.source()),
            85..=97 => self.transmit(),
            98 => Event::ReadCount(protocol),
            99 => Event::ReadAndClear(protocol),
            _ => self.transfer_event(),
        }
    }
}

/// A script in the making: its input so far, and what comes next.
pub(super) fn begin<'a>(random: &'a mut Random, table: Table, start: Option<World>) -> (Vec<u8>, Runner<'a>) {
    let mut input = table.image();
    input.extend(start.iter().flat_map(write_start));
    let world = start.unwrap_or_else(|| World::new(&table.image()));
    let streams = vec![vec![]; table.connections.len()];
    (input, Runner { random, table, world, streams })
}

/// Adds events, each drawn in the state that those before it leave.
pub(super) fn add_events(input: &mut Vec<u8>, runner: &mut Runner, count: usize, mut next: impl FnMut(&mut Runner) -> Event) {
    for _ in 0..count {
        let event = next(runner);
        input.extend(write(&event));
        // what is answered does not matter here
        let _ = run(&mut runner.world, &event);
    }
}

/// Events from a table's fresh state, each with its answer, that a recording can hold: no tick before the first, at most 65,535 between two,
/// no body that is too long. They are events of every kind, or by which transfers, or silent peers, come and go.
pub fn answered(random: &mut Random, table: &Table, count: usize, kind: Events) -> Vec<(Event, Answer)> {
    let (_, mut runner) = begin(random, table.clone(), None);
    let (mut all, mut left) = (Vec::new(), 0);
    while all.len() < count {
        let event = match runner.random.below(200) {
            0 => Event::Ticks(left),
            1..=50 => Event::Ticks(runner.random.between(1, 4) as u32),
            _ => match kind {
                Events::Any => runner.event(),
                Events::Transfers => runner.event_of_transfers(),
                Events::Silences => runner.event_of_silences(),
            },
        };
        left = match event {
            Event::Ticks(ticks) if ticks > left => continue,
            Event::Ticks(ticks) => left - ticks,
            _ => MOST_DISTANCE,
        };
        let before = runner.world.clone();
        let answer = run(&mut runner.world, &event);
        if recording::Entry::new(0, &event, &answer).body.len() > MOST_BODY {
            runner.world = before;
        } else {
            all.push((event, answer));
        }
    }
    // most transfers that run at the end are lost there
    let running = runner.world.state.records.iter().position(|record| record.part.is_transfer());
    if let Some(connection) = running.filter(|_| !runner.random.one_in(4)) {
        let event = Event::Lost(connection as u8);
        let answer = run(&mut runner.world, &event);
        all.push((event, answer));
    }
    all
}

/// An image and a script of so many events; in some cases an entry at the end that is refused, or cut off.
pub fn script(random: &mut Random, events: usize) -> Vec<u8> {
    let table = table_for_events(random);
    let start = if random.one_in(2) { Some(sound(random, &table)) } else { None };
    let (mut input, mut runner) = begin(random, table, start);
    add_events(&mut input, &mut runner, events, |runner| runner.event());
    // timers show at the end alone
    add_events(&mut input, &mut runner, 12, |runner| match runner.random.below(6) {
        0 => Event::Ticks(1),
        1 => runner.event(),
        _ => runner.transmit(),
    });
    match runner.random.below(4) {
        0 => input.extend(misfit(runner.random)),
        1 => {
            let last = write(&runner.event());
            input.extend(&last[..runner.random.between(1, last.len() - 1)]);
        }
        _ => {}
    }
    input
}

/// The same with TCP connections and hardly anything but segments.
pub fn stream_script(random: &mut Random, events: usize) -> Vec<u8> {
    let mut table = table_for_events(random);
    table.groups.iter_mut().for_each(|group| group.protocol = TCP);
    table.connections.iter_mut().for_each(|row| row.remote = exact(random));
    mark(random, &mut table);
    limit(random, &mut table);
    let start = all_online(random, &table);
    let (mut input, mut runner) = begin(random, table, Some(start));
    add_events(&mut input, &mut runner, events, |runner| match runner.random.below(40) {
        0 => Event::Accept(runner.group(), exact(runner.random)),
        1 => Event::Switch(runner.connection(), runner.random.below(32) as u8, runner.random.one_in(2)),
        2 => Event::SwitchAll(runner.random.below(32) as u8, runner.random.one_in(2)),
        3..=8 if runner.world.state.records.iter().any(|record| record.mode == Mode::Reconnect) => {
            Event::Connected(runner.fitting(|_, record| record.mode == Mode::Reconnect))
        }
        _ => runner.segment(),
    });
    input
}

/// A sound state in which every connection is online.
fn all_online(random: &mut Random, table: &Table) -> World {
    let mut start = sound(random, table);
    for record in &mut start.state.records[..table.connections.len()] {
        (record.mode, record.open_wanted, record.close_wanted, record.remote) = (Mode::Online, false, false, exact(random));
    }
    start
}

/// Few TCP connections; half of all routes are marked, and most hang on one of two switches.
pub fn table_of_transfers(random: &mut Random) -> Table {
    let connections = random.between(1, 4);
    let counts = [random.between(1, 2), connections, random.between(4, 8) * connections, random.between(1, 4)];
    let mut table = table_with_few_pdus(random, counts);
    table.groups.iter_mut().for_each(|group| group.protocol = TCP);
    for row in &mut table.connections {
        row.remote = if random.one_in(3) { remote(random) } else { exact(random) };
        row.switches |= 3;
    }
    for row in &mut table.routes {
        row.transfer = random.one_in(2);
        row.groups = *random.pick(&[0, 1, 2]);
    }
    limit(random, &mut table);
    table
}

/// Transfers of any length among other frames, in pieces; they end by all there is: their last byte, a cancel, a close, a loss, 00644.
pub fn transfer_script(random: &mut Random, events: usize) -> Vec<u8> {
    let table = table_of_transfers(random);
    let start = all_online(random, &table);
    let (mut input, mut runner) = begin(random, table, Some(start));
    add_events(&mut input, &mut runner, events, |runner| runner.event_of_transfers());
    input
}

/// A script that starts from an unsound state: each event is refused with 12.
pub fn unsound_script(random: &mut Random) -> Vec<u8> {
    let (table, world) = loop {
        let table = table_for_events(random);
        let world = match random.below(6) {
            0 => unsound_part(random, &table),
            1 => unsound_alive(random, &table),
            _ => unsound(random, &table).map(|(world, _)| world),
        };
        if let Some(world) = world {
            break (table, world);
        }
    };
    let (mut input, mut runner) = begin(random, table, Some(world));
    add_events(&mut input, &mut runner, 6, |runner| runner.event());
    input
}

/// Bytes of a record that do not fit, as docs/EVENTS.md lays it out: places in the record, and what stands there.
const MISFITS: &[(usize, &[u8])] = &[
    (0, &[3]),
    (1, &[2]),
    (2, &[2]),
    (3, &[6]),
    (4, &[1]),
    (15, &[1]),
    (26, &[4]),
    (26, &[0, 1]),
    (26, &[1, 0, 0, 0, 0, 0, 0, 0, 0, 1, 0, 0]),
    (26, &[2, 0, 0, 0, 0, 0, 0, 1, 0, 0, 0, 0]),
    (26, &[2, 1]),
    (26, &[2, 0, 0, 1]),
    (26, &[3, 0, 0, 1]),
    (26, &[3, 0, 1, 0]),
    (26, &[3, 0, 0, 0, 0, 0, 0, 1, 0, 0, 0, 0]),
    (42, &[2]),
    (45, &[2]),
];

/// A start state as it was before alive timers: of each record the first 43 bytes.
fn older_start(start: &[u8]) -> Vec<u8> {
    let (records, rest) = start[8..].split_at(RECORD * RECORDS);
    let records: Vec<u8> = records.chunks(RECORD).flat_map(|record| &record[..OLDER_RECORD]).copied().collect();
    entry(START_STATE, 0, &[&records, rest].concat())
}

/// A script whose start state does not fit.
pub fn misfit_script(random: &mut Random) -> Vec<u8> {
    let table = table_for_events(random);
    let mut start = write_start(&sound(random, &table));
    if random.one_in(8) {
        start = older_start(&start);
    } else {
        let &(place, bytes) = random.pick(MISFITS);
        let at = 8 + RECORD * random.below(RECORDS) + place;
        start[at..at + bytes.len()].copy_from_slice(bytes);
    }
    [table.image(), start, write(&Event::Ticks(1))].concat()
}

/// A few events under any image, good or damaged, of any size, that does not end with the input.
pub fn image_script(random: &mut Random) -> Vec<u8> {
    let source = exact(random);
    let events = [Event::Ticks(2), Event::Open(0), Event::Datagram(0, source), Event::Accept(1, source), Event::ReadCount(1)];
    loop {
        let input: Vec<u8> = image(random).into_iter().chain(events.iter().flat_map(write)).collect();
        if check(&input[..image_end(&input)]) != Err(2) {
            return input;
        }
    }
}

/// An entry that is refused.
fn misfit(random: &mut Random) -> Vec<u8> {
    let remote = |family: u8, zero: u8| [&[family, zero][..], &[0; 11], &[10, 0, 0, 1, 0, 80]].concat();
    match random.below(13) {
        0 => entry(*random.pick(&[17, 18, 255, 256, 272, 65_534]), 0, &[0, 0]),
        1 => entry(1, *random.pick(&[1, 256]), &[0, 0]),
        2 => entry(*random.pick(&[1, 16]), 0, &[1, 0]),
        3 => entry(random.between(1, 16) as u16, 0, &[]),
        4 => entry(0, 0, &[0, 0, 0, 0, 1]),
        5 => entry(6, 0, &[0, 0, 0, 2]),
        6 => entry(10, 0, &[&[0, 0][..], &remote(6, 0)].concat()),
        7 => entry(5, 0, &[&[0, 0][..], &remote(4, 1)].concat()),
        8 => entry(7, 0, &[0, 0, 0, 0, 0, 2, 9]),
        9 => entry(START_STATE, 0, &[0; 100]),
        10 => entry(17, 0, &[0, 0])[..9].to_vec(),
        11 => entry(3, 1, &[0, 0])[..9].to_vec(),
        _ => entry(12, 0, &vec![0; 4097]),
    }
}
