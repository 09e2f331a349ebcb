//! Transmit and take waiting: section 10 of the rules.

use crate::fault::{or, seeded, Fault};
use crate::frame::spell;
use crate::header::{is_on, HEADER};
use crate::state::{Mode, Record, World};
use crate::table::{Destination, Remote, Table, MOST_SEND_SIZE};

/// The number of a refusal, and the destination it names.
pub type Refusal = (u8, Option<usize>);

/// "5; 6 (00560; ..); then each switched-on destination in table order for 4, then 7, then 8, all three before the next, the
/// first refusal deciding with its destination named and nothing stored anywhere. Otherwise each appends header and payload."
pub fn transmit(table: &Table, world: &mut World, pdu: u16, payload: &[u8]) -> Result<(), Refusal> {
    let all: Vec<usize> = (0..table.destinations.len()).filter(|&row| table.destinations[row].pdu == pdu).collect();
    let on = |row: &usize| {
        let destination = &table.destinations[*row];
        is_on(destination.groups, world.state.records[usize::from(destination.connection)].switches)
    };
    let switched_on: Vec<usize> = all.iter().copied().filter(on).collect();
    if all.is_empty() {
        return Err((5, None));
    }
    if switched_on.is_empty() {
        return Err((6, None));
    }
    for &row in or(Fault::OffDestinationsChecked, &switched_on, &all) {
        if let Err(number) = check(table, world, &table.destinations[row], payload.len()) {
            return Err((number, Some(or(Fault::DestinationAmongOn, row, all.iter().filter(|&&other| other < row).count()))));
        }
        if seeded(Fault::StoredBeforeAllChecked) {
            store(world, &table.destinations[row], payload);
        }
    }
    if !seeded(Fault::StoredBeforeAllChecked) {
        let last = or(Fault::LastNotStored, switched_on.len(), switched_on.len().max(2) - 1).min(switched_on.len());
        switched_on[..last].iter().for_each(|&row| store(world, &table.destinations[row], payload));
    }
    Ok(())
}

/// 4 "on a connection not online or with close wanted", 7 "payload longer than a switched-on destination allows", 8 "used + 8 +
/// length exceeds the send size".
fn check(table: &Table, world: &World, destination: &Destination, length: usize) -> Result<(), u8> {
    let connection = usize::from(destination.connection);
    let record = &world.state.records[connection];
    let room = usize::from(table.connections[connection].send_size) + or(Fault::ExactFitIsFull, 1, 0);
    let closed = (!record.is_open(), 4);
    let long = (length > usize::from(destination.longest), 7);
    let full = (usize::from(record.used) + HEADER + length >= room, 8);
    let order = or(Fault::SevenBeforeFour, [closed, long, full], [long, closed, full]);
    let order = or(Fault::EightBeforeSeven, order, [closed, full, long]);
    order.iter().find(|(applies, _)| *applies).map_or(Ok(()), |&(_, number)| Err(number))
}

/// "Trigger 1 makes the buffer due and stops the timer; else, if not due and timeout above 0, the timer becomes the smaller of
/// itself and the timeout, or the timeout if it wasn't running."
fn store(world: &mut World, destination: &Destination, payload: &[u8]) {
    let connection = usize::from(destination.connection);
    let record = &mut world.state.records[connection];
    let bytes = spell(destination.id, payload);
    let at = connection * usize::from(MOST_SEND_SIZE) + usize::from(record.used);
    world.send[at..at + bytes.len()].copy_from_slice(&bytes);
    record.used += bytes.len() as u16;
    if destination.trigger {
        record.due = true;
        record.timer = or(Fault::DueTimerRunsOn, 0, record.timer);
    } else if (!record.due || seeded(Fault::DueStartsTimer)) && destination.timeout > 0 {
        let sooner = or(Fault::TimerGrows, record.timer.min(destination.timeout), record.timer.max(destination.timeout));
        record.timer = if record.timer == 0 { destination.timeout } else { sooner };
    }
}

/// "Take waiting bytes: checks 9; copies them to the front of the out buffer, gives count and remote before the call, clears
/// used, timer and due; .. Nothing waiting gives 0 bytes and changes nothing."
pub fn take_waiting(table: &Table, world: &mut World, connection: usize, room: usize) -> Result<(Remote, Vec<u8>), u8> {
    let bytes = world.waiting(connection).to_vec();
    if room < bytes.len() + or(Fault::OneByteToSpare, 0, 1) {
        return Err(9);
    }
    let record = world.state.records[connection].clone();
    let remote = record.remote;
    if !bytes.is_empty() || seeded(Fault::EmptyTakeCounts) {
        world.state.records[connection] = taken(table, connection, record);
    }
    let told = or(Fault::RemoteAfterTheTake, remote, world.state.records[connection].remote);
    Ok((told, bytes))
}

/// "After a non-empty take, an automatic connection whose configured remote has a wildcard: UDP becomes reconnect with
/// configured remote (00582); TCP gets close wanted (00644)."
fn taken(table: &Table, connection: usize, record: Record) -> Record {
    let config = table.config(connection);
    let timer = or(Fault::TakeKeepsTimer, 0, record.timer);
    let record = Record { used: 0, timer, due: false, ..record };
    let configured = config.row.remote;
    if !config.row.automatic || !or(Fault::TakeLooksAtTheRecord, configured, record.remote).has_wildcard() {
        return record;
    }
    match config.tcp {
        true => Record { close_wanted: !seeded(Fault::No00644), ..record },
        false if seeded(Fault::No00582) => record,
        false => {
            let remote_set = record.remote_set && seeded(Fault::TakeKeepsMark);
            let alive = or(Fault::TakeKeepsAlive, 0, record.alive);
            Record { mode: Mode::Reconnect, alive, remote_set, ..record.reset(config.row) }
        }
    }
}

#[cfg(test)]
mod tests {
    use super::*;
    use crate::table::{Connection, Group, UDP};

    /// Two automatic UDP connections, online, and a PDU with a destination on each: the first with a trigger.
    fn two() -> (Table, World) {
        let remote = Remote { address: 1, port: 1 };
        let connection = Connection { group: 0, automatic: true, remote, send_size: 20, alive: 0, switches: 0 };
        let destination =
            |connection, trigger| Destination { connection, trigger, longest: 12, id: 7, pdu: 9, timeout: 5, groups: 0 };
        let table = Table {
            groups: vec![Group { protocol: UDP }],
            connections: vec![connection.clone(), connection],
            destinations: vec![destination(0, true), destination(1, false)],
            ..Table::default()
        };
        let mut world = World::new(&table.image());
        world.state.records[..2].iter_mut().for_each(|record| record.mode = Mode::Online);
        (table, world)
    }

    #[test]
    fn all_destinations_or_none() {
        let (table, mut world) = two();
        world.state.records[1].used = 11;
        let before = world.state.clone();
        assert_eq!(transmit(&table, &mut world, 9, &[1, 2]), Err((8, Some(1))));
        assert_eq!(world.state, before);
        world.state.records[1].used = 10;
        assert_eq!(transmit(&table, &mut world, 9, &[1, 2]), Ok(()));
        let told = |record: &Record| (record.used, record.timer, record.due);
        assert_eq!((told(&world.state.records[0]), told(&world.state.records[1])), ((10, 0, true), (20, 5, false)));
        assert_eq!(transmit(&table, &mut world, 8, &[]), Err((5, None)));
    }

    #[test]
    fn a_take_empties_the_buffer() {
        let (table, mut world) = two();
        transmit(&table, &mut world, 9, &[0xB4]).unwrap();
        assert_eq!(take_waiting(&table, &mut world, 0, 8), Err(9));
        let frame = vec![0, 0, 0, 7, 0, 0, 0, 1, 0xB4];
        assert_eq!(take_waiting(&table, &mut world, 0, 9), Ok((Remote { address: 1, port: 1 }, frame)));
        assert!(!world.state.records[0].due);
        assert_eq!(take_waiting(&table, &mut world, 0, 0), Ok((Remote { address: 1, port: 1 }, vec![])));
    }
}
