//! Bytes as they come from the wire: frames with ids of the table and others, lengths of every kind, cut anywhere.

use super::image::image;
use super::table::{mark, sizes, switches, table};
use crate::exchange;
use crate::frame::spell;
use crate::random::Random;
use crate::table::{Connection, Group, Remote, Route, Table, MOST_SEND_SIZE, TCP, UDP};
use crate::walk::walk;

/// A header's id: of a route of the connection, of another one, or of none; the longest payload, and whether the route is marked.
fn id(random: &mut Random, table: &Table, connection: usize) -> (u32, u16, bool) {
    let own: Vec<&Route> = table.routes.iter().filter(|route| usize::from(route.connection) == connection).collect();
    let row = match random.below(8) {
        0 => return (random.word() as u32, 9, false),
        1 if !table.routes.is_empty() => random.pick(&table.routes),
        _ if own.is_empty() => return (random.below(3) as u32, 9, false),
        _ => random.pick(&own),
    };
    (row.id, row.longest, row.transfer)
}

/// One frame: mostly of a length that its route allows and its bytes have, else one too long, empty, lying or huge; of a transfer any.
fn frame(random: &mut Random, table: &Table, connection: usize) -> Vec<u8> {
    let (id, longest, marked) = id(random, table, connection);
    let longest = usize::from(longest);
    let length = match random.below(10) {
        0 => 0,
        1 if marked => 1,
        1 => 0,
        2 => longest + 1,
        3 => longest,
        4 => random.below(1600),
        5 | 6 if marked => random.below(60),
        _ => random.below(longest.min(40) + 1),
    };
    let payload = random.bytes(length);
    let mut bytes = spell(id, &payload);
    if random.one_in(if marked { 10 } else { 16 }) {
        let lie = *random.pick(&[0, 1, length as u32 + 1, (length as u32).wrapping_sub(1), 0x8000_0000, u32::MAX]);
        bytes[4..8].copy_from_slice(&lie.to_be_bytes());
    }
    bytes
}

/// Some frames, one after the other.
pub fn frames(random: &mut Random, table: &Table, connection: usize, most: usize) -> Vec<u8> {
    let count = if random.one_in(10) { 0 } else { random.between(1, most) };
    (0..count).flat_map(|_| frame(random, table, connection)).collect()
}

/// Transfers of a connection, of no byte to many, or claiming more than follows, and some other frames.
pub fn transfers(random: &mut Random, table: &Table, connection: usize) -> Vec<u8> {
    let own = |route: &&Route| usize::from(route.connection) == connection && route.transfer;
    let marked: Vec<&Route> = table.routes.iter().filter(own).collect();
    let mut bytes = Vec::new();
    for _ in 0..random.between(1, 5) {
        if marked.is_empty() || random.one_in(5) {
            bytes.extend(frame(random, table, connection));
            continue;
        }
        let length = match random.below(8) {
            0 => 0,
            1 => 1,
            2 => random.between(61, 3000),
            _ => random.below(60),
        };
        let id = random.pick(&marked).id;
        bytes.extend(spell(id, &random.bytes(length)));
        if random.one_in(12) {
            bytes.extend(id.to_be_bytes());
            bytes.extend(random.pick(&[u32::MAX, 1 << 31, 65_536, 1 << 24]).to_be_bytes());
        }
    }
    bytes
}

/// A datagram: frames, in one of three cases cut off somewhere.
pub fn datagram(random: &mut Random, table: &Table, connection: usize) -> Vec<u8> {
    let mut bytes = frames(random, table, connection, 5);
    if random.one_in(3) {
        bytes.truncate(random.below(bytes.len() + 1));
    }
    bytes
}

/// A place to walk from: mostly where a walk comes to, else anywhere, at the end, beyond it or far beyond it.
fn place(random: &mut Random, table: &Table, (connection, switches): (usize, u32), datagram: &[u8]) -> u64 {
    let end = datagram.len();
    match random.below(16) {
        0 => random.below(end + 1) as u64,
        1 => end as u64,
        2 => end as u64 + 1,
        3 => *random.pick(&[u64::MAX, u64::MAX - 7, 1 << 32, 1 << 63]),
        _ => {
            let steps = random.below(3);
            let next = |place, _| walk(table, connection, switches, datagram, place).map_or(place, |step| step.next);
            (0..steps).fold(0, next) as u64
        }
    }
}

/// A table with few connections, more routes and mostly UDP groups; in some cases of any size. Marks are drawn anew.
fn table_to_walk(random: &mut Random) -> Table {
    let counts =
        if random.one_in(16) { sizes(random) } else { [random.between(1, 3), random.between(1, 3), random.edge(0, 12), 0] };
    let mut table = table(random, counts);
    for group in &mut table.groups {
        group.protocol = if random.one_in(10) { TCP } else { UDP };
    }
    mark(random, &mut table);
    table
}

/// One request for a walk.
pub fn walk_request(random: &mut Random) -> Vec<u8> {
    let table = table_to_walk(random);
    let bytes = if random.one_in(20) { image(random) } else { table.image() };
    let last = table.connections.len().saturating_sub(1);
    let connection = random.edge(0, last);
    let switches = switches(random);
    let (datagram, place) = if table.connections.is_empty() {
        (random.bytes(20), random.below(22) as u64)
    } else {
        let datagram = datagram(random, &table, connection);
        let place = place(random, &table, (connection, switches), &datagram);
        (datagram, place)
    };
    let named = match random.below(16) {
        0 => *random.pick(&[last as u64 + 1, 16, 255, 256 + connection as u64, (1 << 32) + connection as u64, u64::MAX]),
        _ => connection as u64,
    };
    exchange::walk(&bytes, named, switches, &datagram, place)
}

/// A connection with four routes: on, with groups 0, switched off, and with a longest payload of 2; over TCP with a fifth that is marked.
pub fn few_routes(protocol: u8) -> Table {
    let route = |id, longest, groups| Route { connection: 0, transfer: id == MARKED, longest, id, pdu: 0, groups };
    let marked = (protocol == TCP).then(|| route(MARKED, 2, 1));
    let four = [route(0x101, 1464, 1), route(0x102, 1464, 0), route(0x103, 1464, 2), route(0x104, 2, 1)];
    let remote = Remote { address: 0x0A00_0001, port: 30490 };
    Table {
        groups: vec![Group { protocol }],
        connections: vec![Connection { group: 0, automatic: true, remote, send_size: MOST_SEND_SIZE, alive: 0, switches: 1 }],
        routes: four.into_iter().chain(marked).collect(),
        destinations: vec![],
    }
}

/// The id of the marked route.
pub const MARKED: u32 = 0x105;

/// Frames of these ids and lengths, and one that claims the most bytes there are.
fn frames_of(frames: &[(u32, usize)], last: u32) -> Vec<u8> {
    let mut bytes: Vec<u8> = frames.iter().flat_map(|&(id, length)| spell(id, &[0, 0xB4, 0x46][..length])).collect();
    bytes.extend(last.to_be_bytes().iter().chain(&[0xFF, 0xFF, 0xFF, 0xFF, 1, 2, 3]));
    bytes
}

/// Frames for the unmarked routes and for none, of lengths 0 to 3; the longest is dropped.
pub fn mixed_frames() -> Vec<u8> {
    frames_of(&[(0x101, 2), (0x103, 1), (0x102, 0), (0x104, 3), (0x999, 2), (0x104, 2), (0x101, 0)], 0x101)
}

/// Transfers of 0, 1 and 3 bytes among PDUs and a drop; the longest is a transfer.
pub fn mixed_transfers() -> Vec<u8> {
    frames_of(&[(0x101, 2), (MARKED, 0), (MARKED, 1), (MARKED, 3), (0x103, 1), (0x104, 2)], MARKED)
}

/// The mixed frames cut off at every byte, walked from every place.
pub fn walk_cuts() -> impl Iterator<Item = Vec<u8>> {
    let (image, bytes) = (few_routes(UDP).image(), mixed_frames());
    (0..=bytes.len())
        .flat_map(|length| (0..=length + 1).map(move |place| (length, place)))
        .map(move |(length, place)| exchange::walk(&image, 0, 1, &bytes[..length], place as u64))
}
