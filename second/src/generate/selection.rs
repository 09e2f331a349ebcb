//! Scripts of selections: groups whose members match a source by both fields, by one half, by the other, or by neither.

use crate::event::{run, Done, Event};
use crate::random::Random;
use crate::script::write;
use crate::state::World;
use crate::table::{Connection, Destination, Group, Remote, Table, LEAST_SEND_SIZE, MOST_SEND_SIZE, TCP, UDP};

/// Few addresses and ports, so that many are equal.
const ADDRESSES: [u32; 2] = [0x0A00_0001, 0x0A00_0002];
const PORTS: [u16; 2] = [30_490, 30_491];

fn source(random: &mut Random) -> Remote {
    Remote { address: *random.pick(&ADDRESSES), port: *random.pick(&PORTS) }
}

/// A remote, mostly one with a wildcard in one field.
fn half(random: &mut Random) -> Remote {
    let remote = source(random);
    match random.below(10) {
        0 => remote,
        1 => Remote::default(),
        2..=5 => Remote { port: 0, ..remote },
        _ => Remote { address: 0, ..remote },
    }
}

/// A UDP and a TCP group of automatic connections; each connection has a destination, PDU and connection with the same number.
fn table_of_halves(random: &mut Random) -> Table {
    let groups = vec![Group { protocol: UDP }, Group { protocol: TCP }];
    let row = |number: usize, remote| Connection {
        group: (number % 2) as u8,
        automatic: true,
        remote,
        send_size: LEAST_SEND_SIZE,
        alive: 0,
        switches: 0,
    };
    let count = random.between(8, 16);
    let connections = (0..count).map(|number| row(number, half(random))).collect();
    let destination = |connection: u8| {
        let (id, pdu) = (0, connection.into());
        Destination { connection, trigger: false, longest: 0, id, pdu, timeout: 0, groups: 0 }
    };
    Table { groups, connections, routes: vec![], destinations: (0..count as u8).map(destination).collect() }
}

/// What leads a chosen connection back to its configured remote: lost, or a take of waiting bytes (00582).
fn release(table: &Table, connection: usize) -> Vec<Event> {
    let number = connection as u8;
    match table.protocol(connection) {
        TCP => vec![Event::Lost(number)],
        _ => vec![Event::Transmit(number.into(), vec![]), Event::TakeWaiting(number, MOST_SEND_SIZE.into())],
    }
}

/// An image and a script of so many selections; most chosen connections are released at once, others later, and now and then a remote
/// is set.
pub fn selection_script(random: &mut Random, selections: usize) -> Vec<u8> {
    let table = table_of_halves(random);
    let mut world = World::new(&table.image());
    let mut input = table.image();
    let mut add = |event: Event| {
        input.extend(write(&event));
        run(&mut world, &event)
    };
    drop(add(Event::Ticks(1)));
    for _ in 0..selections {
        let any = random.below(table.connections.len());
        match random.below(8) {
            0 => drop(add(Event::SetRemote(any as u8, half(random)))),
            1 | 2 => release(&table, any).into_iter().for_each(|event| drop(add(event))),
            _ => {}
        }
        let source = source(random);
        let chosen = add(if random.one_in(2) { Event::Datagram(0, source) } else { Event::Accept(1, source) });
        if let (Ok(Done::Chosen(connection)), false) = (chosen, random.one_in(10)) {
            release(&table, connection).into_iter().for_each(|event| drop(add(event)));
        }
    }
    input
}

#[cfg(test)]
mod tests {
    use super::*;
    use crate::lines::lines;
    use crate::select::between_halves;

    #[test]
    fn many_choices_are_between_two_halves() {
        let random = &mut Random::new(1);
        let (mut both, mut port_first) = (0, 0);
        for _ in 0..5 {
            lines(&selection_script(random, 200), |seen| {
                if let (Event::Datagram(group, source) | Event::Accept(group, source), Ok(table)) =
                    (seen.event, &seen.after.table)
                {
                    let (met, first) = between_halves(table, seen.before, *group, *source);
                    both += usize::from(met);
                    port_first += usize::from(first);
                }
            });
        }
        assert!(both >= 250 && port_first >= 80, "{} and {} of 1000", both, port_first);
    }
}
