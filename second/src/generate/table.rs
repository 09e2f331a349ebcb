//! Tables that meet the rules: all sizes, each kind's 0 and most rows included, values at the edges of their ranges.

use crate::random::Random;
use crate::table::{Connection, Destination, Group, Remote, Route, Table};
use crate::table::{LEAST_SEND_SIZE, LONGEST, MOST_ROWS, MOST_SEND_SIZE, TCP};
use std::collections::HashSet;

/// Row counts that a table can have: without groups no connections, without connections no routes and destinations.
pub fn sizes(random: &mut Random) -> [usize; 4] {
    let mut counts = MOST_ROWS.map(|most| random.edge(0, most));
    if random.one_in(8) {
        counts = MOST_ROWS;
    }
    if counts[0] == 0 {
        counts[1] = 0;
    }
    if counts[1] == 0 {
        (counts[2], counts[3]) = (0, 0);
    }
    counts
}

/// A table of these sizes that meets every rule of a row (and every rule but "too many rows" where a size passes its most).
pub fn table(random: &mut Random, counts: [usize; 4]) -> Table {
    let pdus = Keys { width: 2, ..Keys::new(random) };
    table_with(random, counts, pdus)
}

/// The same with PDUs that have many destinations.
pub fn table_with_few_pdus(random: &mut Random, counts: [usize; 4]) -> Table {
    table_with(random, counts, Keys { style: FEW, base: 0, width: 2 })
}

fn table_with(random: &mut Random, counts: [usize; 4], pdus: Keys) -> Table {
    let groups: Vec<Group> = (0..counts[0]).map(|_| Group { protocol: random.between(1, 2) as u8 }).collect();
    let connections: Vec<Connection> = (0..counts[1]).map(|_| connection(random, counts[0])).collect();
    let ids = Keys::new(random);
    let routes = distinct(random, counts[1], counts[2], &ids).into_iter().map(|(connection, id)| Route {
        connection,
        transfer: false,
        longest: random.edge(0, usize::from(LONGEST)) as u16,
        id,
        pdu: random.word() as u16,
        groups: switches(random),
    });
    let routes = routes.collect();
    let destinations = distinct(random, counts[1], counts[3], &pdus).into_iter().map(|(connection, pdu)| {
        let room = connections[usize::from(connection)].send_size - 8;
        Destination {
            connection,
            trigger: random.one_in(2),
            longest: random.edge(0, usize::from(room.min(LONGEST))) as u16,
            id: ids.draw(random),
            pdu: pdu as u16,
            timeout: random.edge(0, 65_535) as u16,
            groups: switches(random),
        }
    });
    let destinations = destinations.collect();
    let mut table = Table { groups, connections, routes, destinations };
    mark(random, &mut table);
    limit(random, &mut table);
    table
}

/// Gives some UDP connections an alive limit, and no others.
pub fn limit(random: &mut Random, table: &mut Table) {
    for connection in 0..table.connections.len() {
        let any = random.edge(0, 65_535) as u16;
        let udp = table.protocol(connection) != TCP;
        table.connections[connection].alive = if udp { *random.pick(&[0, 0, 1, 2, 3, 9, any, u16::MAX]) } else { 0 };
    }
}

/// Marks some routes of TCP connections, and no others.
pub fn mark(random: &mut Random, table: &mut Table) {
    let tcp: Vec<bool> = (0..table.connections.len()).map(|connection| table.protocol(connection) == TCP).collect();
    for route in &mut table.routes {
        route.transfer = tcp[usize::from(route.connection)] && random.one_in(3);
    }
}

fn connection(random: &mut Random, groups: usize) -> Connection {
    Connection {
        group: random.edge(0, groups - 1) as u8,
        automatic: random.one_in(2),
        remote: remote(random),
        send_size: random.edge(usize::from(LEAST_SEND_SIZE), usize::from(MOST_SEND_SIZE)) as u16,
        alive: 0,
        switches: switches(random),
    }
}

/// A remote: few different ones, so that they meet, and wildcards.
pub fn remote(random: &mut Random) -> Remote {
    let address = *random.pick(&[0, 0, 0x0A00_0001, 0x0A00_0002, 0xC0A8_0101, u32::MAX]);
    let port = *random.pick(&[0, 0, 1, 2, 30490, u16::MAX]);
    Remote { address, port }
}

/// Thirty-two bits: none, one, all or any.
pub fn switches(random: &mut Random) -> u32 {
    match random.below(5) {
        0 => 0,
        1 | 2 => 1 << random.below(32),
        3 => u32::MAX,
        _ => random.word() as u32,
    }
}

const FEW: usize = 4;
const ANYWHERE: usize = 5;

/// How ids, or PDUs, are drawn: close together, one bit or byte apart, or anywhere. A filter for equal rows meets them all.
struct Keys {
    style: usize,
    base: u32,
    width: u32,
}

impl Keys {
    fn new(random: &mut Random) -> Self {
        Keys { style: random.below(6), base: random.word() as u32, width: 4 }
    }

    fn draw(&self, random: &mut Random) -> u32 {
        let bits = 8 * self.width;
        let key = match self.style {
            0 => self.base.wrapping_add(random.below(80) as u32),
            1 => self.base ^ 1u32.checked_shl(random.below(bits as usize + 1) as u32).unwrap_or(0),
            2 => self.base ^ (random.below(256) as u32) << (bits - 8),
            3 => (random.below(80) as u32) << (bits - 10),
            FEW => 0x100 + random.below(20) as u32,
            _ => random.word() as u32,
        };
        key & (u32::MAX >> (32 - bits))
    }
}

/// Pairs of connection and key, no two the same.
fn distinct(random: &mut Random, connections: usize, count: usize, keys: &Keys) -> Vec<(u8, u32)> {
    let anywhere = Keys { style: ANYWHERE, base: 0, width: keys.width };
    let mut met = HashSet::new();
    let mut pairs = Vec::new();
    for tries in 0.. {
        if pairs.len() == count {
            break;
        }
        let from = if tries < 4 * count { keys } else { &anywhere };
        let pair = (random.below(connections) as u8, from.draw(random));
        if met.insert(pair) {
            pairs.push(pair);
        }
    }
    pairs
}

#[cfg(test)]
mod tests {
    use super::*;
    use crate::table::check;

    #[test]
    fn every_generated_table_is_accepted() {
        let random = &mut Random::new(1);
        for _ in 0..2000 {
            let counts = sizes(random);
            let table = table(random, counts);
            assert_eq!(check(&table.image()), Ok(table));
        }
    }
}
