//! Scripts made smaller: entries and table rows left out, records of a start state emptied, bodies shortened, numbers towards 0.

use super::image::{Image, CONNECTIONS, GROUPS, ROUTES};
use super::{Case, Kind};
use crate::bytes::Reader;
use crate::event::Event;
use crate::script::{image_end, read_body, read_head, write, write_start, Entry, Start};
use crate::state::{Mode, Record, World, RECORDS};
use crate::stream::{Part, READY};
use crate::table::{Remote, LONGEST, MOST_SEND_SIZE};
use std::ops::Range;

#[derive(Clone)]
pub struct Script {
    pub image: Image,
    pub entries: Vec<Piece>,
}

/// An entry, or bytes that are none: a refused entry and all that follows it, or a cut one.
#[derive(Clone)]
pub enum Piece {
    Entry(Entry),
    Other(Vec<u8>),
}

fn piece_bytes(piece: &Piece) -> Vec<u8> {
    match piece {
        Piece::Entry(Entry::Event(event)) => write(event),
        Piece::Entry(Entry::Start(start)) => {
            let Start { state, receive, send } = (**start).clone();
            write_start(&World { table: Err(0), state, receive, send })
        }
        Piece::Other(bytes) => bytes.clone(),
    }
}

/// The entry at the front of some bytes, if it is whole and fits, and the bytes after it.
fn front(bytes: &[u8], first: bool) -> Option<(Entry, &[u8])> {
    let mut head = Reader::new(bytes, 0);
    let (number, zero, length) = (head.number(2) as u16, head.number(2) as u16, head.number(4) as usize);
    if bytes.len() < 8 || read_head(number, zero, length).is_err() || bytes.len() - 8 < length {
        return None;
    }
    let body = head.bytes(length);
    Some((read_body(number, body, first).ok()?, head.rest()))
}

impl Script {
    pub fn read(input: &[u8]) -> Self {
        let (image, mut rest) = input.split_at(image_end(input));
        let mut entries = Vec::new();
        while let Some((entry, after)) = front(rest, entries.is_empty()) {
            entries.push(Piece::Entry(entry));
            rest = after;
        }
        if !rest.is_empty() {
            entries.push(Piece::Other(rest.to_vec()));
        }
        Script { image: Image::read(image), entries }
    }

    /// The bytes of the entries.
    pub fn script(&self) -> Vec<u8> {
        self.entries.iter().flat_map(piece_bytes).collect()
    }

    pub fn bytes(&self) -> Vec<u8> {
        [self.image.bytes(), self.script()].concat()
    }

    fn events(&mut self) -> impl Iterator<Item = &mut Event> {
        self.entries.iter_mut().filter_map(|piece| match piece {
            Piece::Entry(Entry::Event(event)) => Some(event),
            _ => None,
        })
    }

    fn start(&mut self) -> Option<&mut Start> {
        match self.entries.first_mut() {
            Some(Piece::Entry(Entry::Start(start))) => Some(start),
            _ => None,
        }
    }

    fn leave_out_row(&mut self, kind: usize, number: usize) {
        if kind == GROUPS {
            self.image.members(number).into_iter().for_each(|connection| self.leave_out_row(CONNECTIONS, connection));
        }
        self.image.leave_out(kind, number);
        let names = |event: &mut Event| numbered(event, kind).map(|named| usize::from(*named));
        self.entries.retain_mut(|piece| match piece {
            Piece::Entry(Entry::Event(event)) => names(event) != Some(number),
            _ => true,
        });
        for named in self.events().filter_map(|event| numbered(event, kind)) {
            *named -= u8::from(usize::from(*named) > number);
        }
        match (kind, self.start()) {
            (CONNECTIONS, Some(start)) => leave_out_record(start, number),
            (ROUTES, Some(start)) => start.state.records.iter_mut().for_each(|record| rename_route(record, number)),
            _ => {}
        }
    }
}

/// The number of a connection, or of a group, that an event names.
fn numbered(event: &mut Event, kind: usize) -> Option<&mut u8> {
    use Event::*;
    match event {
        Open(number) | Close(number) | Connected(number) | Lost(number) | Cancel(number) if kind == CONNECTIONS => Some(number),
        SetRemote(number, _) | Switch(number, _, _) | Segment(number, _) if kind == CONNECTIONS => Some(number),
        Walk(number, _, _) | TakeWaiting(number, _) if kind == CONNECTIONS => Some(number),
        Datagram(number, _) | Accept(number, _) if kind == GROUPS => Some(number),
        _ => None,
    }
}

/// The record and both its stretches of memory; later ones move up.
fn leave_out_record(start: &mut Start, connection: usize) {
    start.state.records.remove(connection);
    start.state.records.push(Record::zero());
    for (memory, stretch) in [(&mut start.receive, LONGEST), (&mut start.send, MOST_SEND_SIZE)] {
        let stretch = usize::from(stretch);
        memory.drain(connection * stretch..(connection + 1) * stretch);
        memory.resize(RECORDS * stretch, 0);
    }
}

fn rename_route(record: &mut Record, left_out: usize) {
    match &mut record.part {
        Part::Payload { route, .. } | Part::Transfer { route, .. } => match usize::from(*route) == left_out {
            true => record.part = READY,
            false => *route -= u8::from(usize::from(*route) > left_out),
        },
        Part::Header { .. } | Part::Skip(_) => {}
    }
}

/// Kinds of parts: entries, then connections with all that names them, routes, destinations, groups; records; fronts of datagrams, each
/// with the place that counts from it.
const ROW_KINDS: [usize; 4] = [CONNECTIONS, ROUTES, 3, GROUPS];

impl Case for Script {
    fn parts(&self) -> Vec<usize> {
        let started = matches!(self.entries.first(), Some(Piece::Entry(Entry::Start(_))));
        let rows = ROW_KINDS.map(|kind| self.image.counts()[kind]);
        [&[self.entries.len()][..], &rows, &[if started { RECORDS } else { 0 }, self.entries.len()]].concat()
    }

    fn without(&self, kind: usize, parts: Range<usize>) -> Option<Self> {
        let mut less = self.clone();
        match kind {
            0 => drop(less.entries.drain(parts)),
            1..=4 => parts.rev().for_each(|row| less.leave_out_row(ROW_KINDS[kind - 1], row)),
            5 => {
                let records = &mut less.start()?.state.records[parts];
                records.iter().any(|record| *record != Record::zero()).then(|| records.fill(Record::zero()))?;
            }
            _ => less.entries[parts].iter_mut().map(leave_out_front).max()?.then_some(())?,
        }
        Some(less)
    }

    fn stretches(&mut self, each: &mut dyn FnMut(&mut Vec<u8>, Kind)) {
        self.image.stretches(each);
        for piece in &mut self.entries {
            match piece {
                Piece::Entry(Entry::Start(start)) => {
                    each(&mut start.receive, Kind::Fixed);
                    each(&mut start.send, Kind::Fixed);
                }
                Piece::Entry(Entry::Event(Event::Segment(connection, bytes))) => each(bytes, Kind::Stream(*connection)),
                Piece::Entry(Entry::Event(Event::Walk(_, _, bytes) | Event::Transmit(_, bytes))) => each(bytes, Kind::Free),
                Piece::Other(bytes) => each(bytes, Kind::Free),
                Piece::Entry(Entry::Event(_)) => {}
            }
        }
    }

    fn numbers(&mut self, each: &mut dyn FnMut(u64) -> u64) {
        for piece in &mut self.entries {
            match piece {
                Piece::Entry(Entry::Start(start)) => start_numbers(start, each),
                Piece::Entry(Entry::Event(event)) => event_numbers(event, each),
                Piece::Other(_) => {}
            }
        }
        self.image.numbers(each);
    }
}

/// The bytes of a datagram that a walk has passed; false where there are none.
fn leave_out_front(piece: &mut Piece) -> bool {
    match piece {
        Piece::Entry(Entry::Event(Event::Walk(_, place, bytes))) if *place > 0 && *place as usize <= bytes.len() => {
            bytes.drain(..*place as usize);
            *place = 0;
            true
        }
        _ => false,
    }
}

/// A number of any width.
fn field<T: Copy + Into<u64> + TryFrom<u64>>(field: &mut T, each: &mut dyn FnMut(u64) -> u64) {
    *field = T::try_from(each((*field).into())).unwrap_or(*field);
}

fn flag(flag: &mut bool, each: &mut dyn FnMut(u64) -> u64) {
    *flag = each((*flag).into()) > 0;
}

fn remote_numbers(remote: &mut Remote, each: &mut dyn FnMut(u64) -> u64) {
    field(&mut remote.address, each);
    field(&mut remote.port, each);
}

fn event_numbers(event: &mut Event, each: &mut dyn FnMut(u64) -> u64) {
    use Event::*;
    match event {
        Ticks(times) => field(times, each),
        Open(number) | Close(number) | Connected(number) | Lost(number) | Cancel(number) => field(number, each),
        Segment(number, _) => field(number, each),
        ReadCount(protocol) | ReadAndClear(protocol) => field(protocol, each),
        SetRemote(number, remote) | Datagram(number, remote) | Accept(number, remote) => {
            field(number, each);
            remote_numbers(remote, each);
        }
        Switch(connection, number, on) => {
            field(connection, each);
            field(number, each);
            flag(on, each);
        }
        Walk(connection, number, _) | TakeWaiting(connection, number) => {
            field(connection, each);
            field(number, each);
        }
        Transmit(pdu, _) => field(pdu, each),
        SwitchAll(number, on) => {
            field(number, each);
            flag(on, each);
        }
    }
}

fn start_numbers(start: &mut Start, each: &mut dyn FnMut(u64) -> u64) {
    for record in &mut start.state.records {
        record.mode = [Mode::Offline, Mode::Reconnect, Mode::Online][each(record.mode as u64) as usize];
        flag(&mut record.open_wanted, each);
        flag(&mut record.close_wanted, each);
        remote_numbers(&mut record.remote, each);
        field(&mut record.switches, each);
        if each((record.part != READY).into()) == 0 {
            record.part = READY;
        }
        part_numbers(&mut record.part, each);
        field(&mut record.used, each);
        field(&mut record.timer, each);
        flag(&mut record.due, each);
        field(&mut record.alive, each);
        flag(&mut record.remote_set, each);
    }
    field(&mut start.state.udp_drops, each);
    field(&mut start.state.tcp_drops, each);
}

fn part_numbers(part: &mut Part, each: &mut dyn FnMut(u64) -> u64) {
    match part {
        Part::Header { held, value } => {
            field(held, each);
            field(value, each);
        }
        Part::Payload { route, length, held } => {
            field(route, each);
            field(length, each);
            field(held, each);
        }
        Part::Skip(left) => field(left, each),
        Part::Transfer { route, left } => {
            field(route, each);
            field(left, each);
        }
    }
}

#[cfg(test)]
mod tests {
    use super::super::{shrink, Bound};
    use super::*;
    use crate::fault::{self, Fault};
    use crate::generate::script::{image_script, misfit_script, script, stream_script, transfer_script, unsound_script};
    use crate::generate::silence::silence_script;
    use crate::lines::lines;
    use crate::random::Random;

    #[test]
    fn every_script_comes_back() {
        let random = &mut Random::new(1);
        for _ in 0..30 {
            let all = [
                script(random, 40),
                stream_script(random, 40),
                transfer_script(random, 40),
                silence_script(random, 40),
                image_script(random),
                misfit_script(random),
                unsound_script(random),
            ];
            all.iter().for_each(|input| assert_eq!(Script::read(input).bytes(), *input));
        }
    }

    fn told(input: &[u8]) -> Vec<String> {
        lines(input, |_| ())
    }

    fn differs(fault: Fault, input: &[u8]) -> bool {
        std::panic::catch_unwind(|| fault::with(fault, || told(input))).map_or(true, |lines| lines != told(input))
    }

    fn first(part: &str, fault: Fault) -> Vec<u8> {
        let random = &mut Random::new(1);
        let make = || match part {
            "segment" => stream_script(random, 40),
            "transfers" => transfer_script(random, 40),
            "silences" => silence_script(random, 40),
            _ => script(random, 40),
        };
        std::iter::repeat_with(make).find(|input| differs(fault, input)).expect("each fault is noticed somewhere")
    }

    #[test]
    fn scripts_become_small() {
        for (part, step) in [("events", 6), ("segment", 3), ("transfers", 3), ("silences", 4)] {
            for &(fault, _) in fault::of(part).unwrap()[1..].iter().step_by(step) {
                let bound = Bound { calls: 2000, cases: 1 };
                let mut ask = |all: &[Script]| all.iter().position(|script| differs(fault, &script.bytes()));
                let (least, calls) = shrink(Script::read(&first(part, fault)), bound, &mut ask);
                assert!(calls < 2000 && differs(fault, &least.bytes()));
                let (entries, rows) = (least.entries.len(), least.image.counts().iter().sum::<usize>());
                assert!(entries <= 6 && rows <= 5, "{:?}: {} entries, {} table rows", fault, entries, rows);
            }
        }
    }
}
