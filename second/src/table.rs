//! The table image (section 1 of the rules): rows, parse and check.

use crate::bytes::{number, Reader, Writer};
use crate::fault::{or, seeded, Fault};

/// The most rows and the row bytes of kinds 1, 2, 3, 4.
pub const MOST_ROWS: [usize; 4] = [8, 16, 64, 64];
pub const ROW_BYTES: [usize; 4] = [2, 16, 16, 16];

/// "Bodies start at 36".
pub const FRONT: usize = 36;

pub const UDP: u8 = 1;
pub const TCP: u8 = 2;
pub const LONGEST: u16 = 1464;
pub const LEAST_SEND_SIZE: u16 = 8;
pub const MOST_SEND_SIZE: u16 = 1472;

#[derive(Clone, Copy, PartialEq, Eq, Debug, Default)]
pub struct Remote {
    pub address: u32,
    pub port: u16,
}

impl Remote {
    pub fn has_wildcard(self) -> bool {
        self.address == 0 || self.port == 0
    }
}

#[derive(Clone, PartialEq, Eq, Debug)]
pub struct Group {
    pub protocol: u8,
}

#[derive(Clone, PartialEq, Eq, Debug)]
pub struct Connection {
    pub group: u8,
    pub automatic: bool,
    pub remote: Remote,
    pub send_size: u16,
    /// "The connection row's two zero bytes become a limit in ticks, 0 for none".
    pub alive: u16,
    pub switches: u32,
}

#[derive(Clone, PartialEq, Eq, Debug)]
pub struct Route {
    pub connection: u8,
    /// "A route is marked TP by 1 in its second byte".
    pub transfer: bool,
    pub longest: u16,
    pub id: u32,
    pub pdu: u16,
    pub groups: u32,
}

#[derive(Clone, PartialEq, Eq, Debug)]
pub struct Destination {
    pub connection: u8,
    pub trigger: bool,
    pub longest: u16,
    pub id: u32,
    pub pdu: u16,
    pub timeout: u16,
    pub groups: u32,
}

#[derive(Clone, PartialEq, Eq, Debug, Default)]
pub struct Table {
    pub groups: Vec<Group>,
    pub connections: Vec<Connection>,
    pub routes: Vec<Route>,
    pub destinations: Vec<Destination>,
}

impl Table {
    pub fn counts(&self) -> [usize; 4] {
        [self.groups.len(), self.connections.len(), self.routes.len(), self.destinations.len()]
    }

    pub fn protocol(&self, connection: usize) -> u8 {
        self.groups[usize::from(self.connections[connection].group)].protocol
    }

    /// The image of this table, whether it meets the rules or not.
    pub fn image(&self) -> Vec<u8> {
        let mut image = Writer::default().number(1u8, 2).number(4u8, 2);
        for (kind, &(start, rows)) in (1u16..).zip(layout(self.counts()).iter()) {
            image = image.number(kind, 2).number(rows as u64, 2).number(start as u64, 4);
        }
        for row in &self.groups {
            image = image.number(row.protocol, 1).number(0u8, 1);
        }
        for row in &self.connections {
            image = image.number(row.group, 1).number(row.automatic, 1).number(row.remote.address, 4);
            image = image.number(row.remote.port, 2).number(row.send_size, 2).number(row.alive, 2).number(row.switches, 4);
        }
        for row in &self.routes {
            image = image.number(row.connection, 1).number(row.transfer, 1).number(row.longest, 2).number(row.id, 4);
            image = image.number(row.pdu, 2).number(0u8, 2).number(row.groups, 4);
        }
        for row in &self.destinations {
            image = image.number(row.connection, 1).number(row.trigger, 1).number(row.longest, 2).number(row.id, 4);
            image = image.number(row.pdu, 2).number(row.timeout, 2).number(row.groups, 4);
        }
        image.0
    }
}

/// Where each body starts and how many rows it has: "in the same order without gaps".
pub fn layout(counts: [usize; 4]) -> [(usize, usize); 4] {
    let mut start = FRONT;
    let mut bodies = [(0, 0); 4];
    for kind in 0..4 {
        bodies[kind] = (start, counts[kind]);
        start += counts[kind] * ROW_BYTES[kind];
    }
    bodies
}

/// The table in an image, or the place that refusal 1 gives.
pub fn check(image: &[u8]) -> Result<Table, usize> {
    check_front(image)?;
    if seeded(Fault::LengthBeforeContents) {
        check_length(image)?;
    }
    check_contents(image)?;
    if seeded(Fault::RowsBeforeLength) {
        check_rows(image)?;
    }
    check_length(image)?;
    check_rows(image)
}

/// "0 when shorter than 36 or bytes 0..3 are wrong": "bytes 0..1 are edition 1, bytes 2..3 the number 4".
fn check_front(image: &[u8]) -> Result<(), usize> {
    let long_enough = image.len() >= or(Fault::FrontOf37, FRONT, FRONT + 1);
    let four = number(image, 2, 2) == 4 || seeded(Fault::NumberOverlooked);
    (long_enough && number(image, 0, 2) == 1 && four).then_some(()).ok_or(0)
}

/// "Four contents entries of 8 bytes follow: kind (2), row count (2), offset (4); kinds 1, 2, 3, 4 in that order."
/// "then the first bad contents entry's offset (wrong kind, too many rows, wrong offset)".
fn check_contents(image: &[u8]) -> Result<(), usize> {
    for (kind, (start, _)) in layout(counts_in(image)).into_iter().enumerate() {
        let place = 4 + 8 * kind;
        let mut entry = Reader::new(image, place);
        let right_kind = entry.number(2) == kind as u64 + 1 || seeded(Fault::KindOverlooked);
        let few_enough = entry.number(2) <= most_rows(kind) as u64;
        let right_offset = entry.number(4) == start as u64;
        if !(right_kind && few_enough && right_offset) {
            return Err(or(Fault::EntryPlaceFromZero, place, 8 * kind));
        }
    }
    Ok(())
}

fn counts_in(image: &[u8]) -> [usize; 4] {
    [0, 1, 2, 3].map(|kind| number(image, 4 + 8 * kind + 2, 2) as usize)
}

fn most_rows(kind: usize) -> usize {
    let one_more = (kind == 0 && seeded(Fault::OneGroupMore)) || (kind == 2 && seeded(Fault::OneRouteMore));
    MOST_ROWS[kind] + usize::from(one_more)
}

/// "then 2 for a wrong total length": "the image ends with the last".
fn check_length(image: &[u8]) -> Result<(), usize> {
    let (start, rows) = layout(counts_in(image))[3];
    let end = start + rows * ROW_BYTES[3];
    (image.len() == end || (image.len() > end && seeded(Fault::LongerIsFine))).then_some(()).ok_or(2)
}

/// "then the first bad row's offset".
fn check_rows(image: &[u8]) -> Result<Table, usize> {
    let mut table = Table::default();
    let bodies = layout(counts_in(image));
    for kind in or(Fault::DestinationsFirst, [0, 1, 2, 3], [0, 1, 3, 2]) {
        let (start, rows) = bodies[kind];
        let skipped = usize::from(kind == 3 && rows > 0 && seeded(Fault::LastRowSkipped));
        for row in 0..rows - skipped {
            let fields = Reader::new(image, start + row * ROW_BYTES[kind]);
            let added = match kind {
                0 => read_group(fields).map(|group| table.groups.push(group)).ok_or(row),
                1 => read_connection(fields, &table).map(|connection| table.connections.push(connection)).ok_or(row),
                2 => add_route(fields, &mut table),
                _ => read_destination(fields, &table).map(|destination| table.destinations.push(destination)).ok_or(row),
            };
            added.map_err(|bad| start + bad * ROW_BYTES[kind])?;
        }
    }
    Ok(table)
}

/// "protocol 1 (1 UDP, 2 TCP), zero 1".
fn read_group(mut row: Reader) -> Option<Group> {
    let protocol = row.number(1) as u8;
    let known = protocol == UDP || protocol == TCP || (protocol == 3 && seeded(Fault::ProtocolThree));
    (known && row.number(1) == 0).then_some(Group { protocol })
}

/// "group 1, automatic 1 (0 or 1), IPv4 4, port 2, send size 2 (8..1,472), zero 2, start switches 4". "The connection row's two zero bytes
/// become a limit in ticks, 0 for none and for every TCP connection, else a bad row."
fn read_connection(mut row: Reader, table: &Table) -> Option<Connection> {
    let (group, automatic) = (row.number(1) as u8, row.number(1));
    let remote = Remote { address: row.number(4) as u32, port: row.number(2) as u16 };
    let send_size = row.number(2) as u16;
    let alive = row.number(2) as u16;
    let switches = row.number(4) as u32;
    let group_there = usize::from(group) < table.groups.len() + usize::from(seeded(Fault::GroupJustPast));
    let least = or(Fault::SendSizeSeven, LEAST_SEND_SIZE, 7);
    let most = or(Fault::SendSizeOneMore, MOST_SEND_SIZE, 1473);
    let fits = limit_fits(table, group, alive);
    let good = group_there && automatic <= or(Fault::AutomaticTwo, 1, 2) && (least..=most).contains(&send_size) && fits;
    good.then_some(Connection { group, automatic: automatic == 1, remote, send_size, alive, switches })
}

/// The alive limit of a connection: 0 where its group is TCP.
fn limit_fits(table: &Table, group: u8, alive: u16) -> bool {
    let tcp = table.groups.get(usize::from(group)).map_or(false, |group| group.protocol == TCP);
    let most = or(Fault::LimitOneByte, u16::MAX, 255);
    let told = or(Fault::LimitAsByte, alive, alive & 0xFF);
    (told == 0 || !tcp || seeded(Fault::LimitOnTcp)) && alive <= most
}

/// Adds a receive route, or names the bad row. "No two receive routes share connection and id", "(the later row is the bad one)".
fn add_route(row: Reader, table: &mut Table) -> Result<(), usize> {
    let own = table.routes.len();
    let route = read_route(row, table).ok_or(own)?;
    let from = or(Fault::NeighbourOnly, 0, own.saturating_sub(1));
    let shares = |other: &Route| other.id == route.id && (other.connection == route.connection || seeded(Fault::IdAlone));
    if let Some(earlier) = table.routes[from..].iter().position(shares) {
        return Err(or(Fault::EarlierBlamed, own, from + earlier));
    }
    table.routes.push(route);
    Ok(())
}

/// "connection 1, zero 1, longest payload 2, header id 4, upper PDU 2, zero 2, groups 4"; "Longest payload is 0..1,464". "A route is
/// marked TP by 1 in its second byte, which on a UDP connection is a bad row".
fn read_route(mut row: Reader, table: &Table) -> Option<Route> {
    let (connection, mark) = (row.number(1) as u8, row.number(1));
    let (longest, id, pdu) = (row.number(2) as u16, row.number(4) as u32, row.number(2) as u16);
    let also_zero = row.number(2) == 0;
    let groups = row.number(4) as u32;
    let there = usize::from(connection) < table.connections.len();
    let most = or(Fault::LongestOneMore, LONGEST, 1465);
    let good = there && mark_fits(table, connection, mark) && (longest <= most || longest_freed(mark)) && also_zero;
    good.then_some(Route { connection, transfer: mark == 1, longest, id, pdu, groups })
}

/// The second byte of a route of a connection that is there: 0, or 1 on a TCP connection.
fn mark_fits(table: &Table, connection: u8, mark: u64) -> bool {
    let group = usize::from(table.connections[usize::from(connection)].group);
    let tcp = || table.groups.get(group).map_or(false, |group| group.protocol == TCP);
    mark == 0 || (mark == 1 && (tcp() || seeded(Fault::MarkOnUdp))) || (mark > 1 && seeded(Fault::AnyMark))
}

/// A fault: the longest payload of a marked route, which is not applied, may be any number.
fn longest_freed(mark: u64) -> bool {
    mark == 1 && seeded(Fault::MarkedLongestFree)
}

/// "connection 1, trigger 1 (0 or 1), longest payload 2, header id 4, PDU 2, timeout ticks 2, groups 4"; "for a destination, 8
/// more than it must fit the send size"; "no two destinations share PDU and connection".
fn read_destination(mut row: Reader, table: &Table) -> Option<Destination> {
    let (connection, trigger) = (row.number(1) as u8, row.number(1));
    let (longest, id, pdu) = (row.number(2) as u16, row.number(4) as u32, row.number(2) as u16);
    let (timeout, groups) = (row.number(2) as u16, row.number(4) as u32);
    let fits = match table.connections.get(usize::from(connection)) {
        Some(of) => u32::from(longest) + or(Fault::HeaderForgotten, 8, 0) <= u32::from(of.send_size),
        None => usize::from(connection) == table.connections.len() && seeded(Fault::ConnectionJustPast),
    };
    let shares = |other: &Destination| {
        let same = or(Fault::DestinationsById, other.pdu == pdu, other.id == id);
        same && other.connection == connection
    };
    let good = fits && trigger <= 1 && longest <= LONGEST && !table.destinations.iter().any(shares);
    good.then_some(Destination { connection, trigger: trigger == 1, longest, id, pdu, timeout, groups })
}

/// The 86-byte image of R1.12.
pub fn whole_image() -> Vec<u8> {
    crate::bytes::unhex(
        "00 01 00 04
         00 01 00 01 00 00 00 24   00 02 00 01 00 00 00 26
         00 03 00 01 00 00 00 36   00 04 00 01 00 00 00 46
         01 00
         00 01 00 00 00 00 00 00 05 C0 00 00 00 00 00 01
         00 00 00 02 00 00 01 01 00 07 00 00 00 00 00 01
         00 01 00 02 00 00 02 02 00 09 00 00 00 00 00 00",
    )
    .expect("the image is written in hex")
}

#[cfg(test)]
mod tests {
    use super::*;

    fn refusal(change: impl Fn(&mut Vec<u8>)) -> Option<usize> {
        let mut image = whole_image();
        change(&mut image);
        check(&image).err()
    }

    #[test]
    fn the_whole_image_is_accepted_and_written_back() {
        let image = whole_image();
        let table = check(&image).unwrap();
        assert_eq!(table.counts(), [1, 1, 1, 1]);
        assert_eq!(table.connections[0].send_size, 1472);
        assert_eq!((table.routes[0].id, table.routes[0].pdu), (0x101, 7));
        assert_eq!(table.image(), image);
    }

    #[test]
    fn places_come_in_order() {
        assert_eq!(refusal(|image| image.truncate(35)), Some(0));
        assert_eq!(refusal(|image| image[3] = 5), Some(0));
        assert_eq!(refusal(|image| image[5] = 2), Some(4));
        assert_eq!(refusal(|image| image[15] = 17), Some(12));
        assert_eq!(refusal(|image| image[35] += 1), Some(28));
        assert_eq!(refusal(|image| image.push(0)), Some(2));
        assert_eq!(refusal(|image| image[37] = 1), Some(36));
        assert_eq!(refusal(|image| image[38] = 1), Some(38));
        assert_eq!(refusal(|image| image[54] = 1), Some(54));
        assert_eq!(refusal(|image| image[71] = 2), Some(70));
        assert_eq!(refusal(|image| (image[37], image[71]) = (1, 2)), Some(36));
    }

    #[test]
    fn an_alive_limit_is_0_or_on_a_udp_connection_any_number() {
        for (protocol, limit, place) in [
            (UDP, [0, 1], None),
            (UDP, [255, 255], None),
            (TCP, [0, 0], None),
            (TCP, [0, 1], Some(38)),
            (TCP, [1, 0], Some(38)),
        ] {
            assert_eq!(refusal(|image| (image[36], image[48], image[49]) = (protocol, limit[0], limit[1])), place);
        }
    }

    #[test]
    fn a_mark_is_0_or_on_a_tcp_connection_1() {
        for (protocol, mark, place) in
            [(UDP, 0, None), (UDP, 1, Some(54)), (TCP, 0, None), (TCP, 1, None), (TCP, 2, Some(54)), (TCP, 255, Some(54))]
        {
            assert_eq!(refusal(|image| (image[36], image[55]) = (protocol, mark)), place);
        }
        let marked = |image: &mut Vec<u8>| (image[36], image[55]) = (TCP, 1);
        let longest = |high, low| {
            refusal(move |image| {
                marked(image);
                (image[56], image[57]) = (high, low);
            })
        };
        assert_eq!((longest(5, 0xB8), longest(5, 0xB9)), (None, Some(54)));
    }
}
