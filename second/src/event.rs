//! The events, and what the core answers to each: sections 4 and 8 of the rules.

use crate::connection::{cancel, close, connected, failed, lost, open, set_remote, switch, tick};
use crate::fault::{or, seeded, Fault};
use crate::select::{select, ACCEPT, DATAGRAM};
use crate::sound::is_sound;
use crate::state::{Config, Record, World, RECEIVE, SEND};
use crate::stream::{takes, Line, Outcome, Take};
use crate::table::{Remote, Table, LONGEST, MOST_SEND_SIZE, TCP, UDP};
use crate::transmit::{take_waiting, transmit, Refusal};
use crate::walk::{walk, Found, Step};
use std::rc::Rc;

#[derive(Clone, PartialEq, Eq, Debug)]
pub enum Event {
    Ticks(u32),
    Open(u8),
    Close(u8),
    Connected(u8),
    Lost(u8),
    SetRemote(u8, Remote),
    Switch(u8, u8, bool),
    Segment(u8, Vec<u8>),
    Walk(u8, u32, Vec<u8>),
    TakeWaiting(u8, u32),
    Datagram(u8, Remote),
    Accept(u8, Remote),
    Transmit(u16, Vec<u8>),
    SwitchAll(u8, bool),
    ReadCount(u8),
    ReadAndClear(u8),
    Cancel(u8),
}

/// What comes with answer 0.
#[derive(Clone, PartialEq, Eq, Debug)]
pub enum Done {
    Nothing,
    /// Which connections' transfers the ticks ended: connection k is the bit worth 2 to the k.
    Ticked(u16),
    /// Whether the loss ended a transfer.
    Lost(bool),
    Takes(Vec<Take>),
    Walked(Step),
    Waiting(Remote, Vec<u8>),
    Chosen(usize),
    Count(u32),
}

pub type Answer = Result<Done, Refusal>;

fn plain(number: u8) -> Refusal {
    (number, None)
}

/// "Checks run 11, 12, 2, 3, then the event's own order." "in every other refusal the state stays. All lent memory stays in every
/// refusal."
pub fn run(world: &mut World, event: &Event) -> Answer {
    let table = gate(world).map_err(plain)?;
    match *event {
        Event::Ticks(times) => {
            let last = seeded(Fault::FailedOfTheLastTick);
            let all = (0..times).fold(0, |before, _| tick_all(&table, world) | if last { 0 } else { before });
            Ok(Done::Ticked(all))
        }
        Event::Open(connection) => of_connection(&table, world, connection, open),
        Event::Close(connection) => of_connection(&table, world, connection, close),
        Event::Connected(connection) => of_connection(&table, world, connection, connected),
        Event::Lost(connection) => {
            let before = world.state.records.get(usize::from(connection)).cloned();
            of_connection(&table, world, connection, lost)?;
            let ended = before.map_or(false, |before| failed(&before, &world.state.records[usize::from(connection)]));
            Ok(Done::Lost(ended && !seeded(Fault::LossTellsNothing)))
        }
        Event::Cancel(connection) => of_connection(&table, world, connection, cancel),
        Event::SetRemote(connection, remote) => {
            mark_refused(world, connection);
            of_connection(&table, world, connection, |config, record| set_remote(config, record, remote))
        }
        Event::Switch(connection, number, on) => {
            of_connection(&table, world, connection, |_, record| switch_there(number).map(|()| switch(record, number, on)))
        }
        Event::Segment(connection, ref bytes) => segment(&table, world, connection, bytes).map(Done::Takes).map_err(plain),
        Event::Walk(connection, place, ref bytes) => {
            walk_event(&table, world, connection, place, bytes).map(Done::Walked).map_err(plain)
        }
        Event::TakeWaiting(connection, room) => {
            let connection = there(&table, connection).map_err(plain)?;
            let (remote, bytes) =
                take_waiting(&table, world, connection, room.min(MOST_SEND_SIZE.into()) as usize).map_err(plain)?;
            Ok(Done::Waiting(remote, bytes))
        }
        Event::Datagram(group, source) => {
            select(&table, &mut world.state, group, DATAGRAM, source).map(Done::Chosen).map_err(plain)
        }
        Event::Accept(group, source) => {
            select(&table, &mut world.state, group, ACCEPT, source).map(Done::Chosen).map_err(plain)
        }
        Event::Transmit(pdu, ref payload) => transmit(&table, world, pdu, payload).map(|()| Done::Nothing),
        Event::SwitchAll(number, on) => {
            switch_there(number).map_err(plain)?;
            each_record(&table, world, |_, record| switch(record, number, on));
            Ok(Done::Nothing)
        }
        Event::ReadCount(protocol) => count(world, protocol, false).map(Done::Count).map_err(plain),
        Event::ReadAndClear(protocol) => count(world, protocol, true).map(Done::Count).map_err(plain),
    }
}

/// "11: lent receive or send memory has another length", "12: state or table not sound".
pub fn gate(world: &World) -> Result<Rc<Table>, u8> {
    if world.receive.len() != RECEIVE || world.send.len() != SEND {
        return Err(11);
    }
    let table = world.table.as_ref().map_err(|_| 12)?;
    (is_sound(table, &world.state) || seeded(Fault::SoundUnasked)).then(|| Rc::clone(table)).ok_or(12)
}

/// "2: connection, group or switch number not there".
fn there(table: &Table, connection: u8) -> Result<usize, u8> {
    let connection = usize::from(connection);
    (connection < table.connections.len()).then_some(connection).ok_or(2)
}

fn switch_there(number: u8) -> Result<(), u8> {
    (number < 32).then_some(()).ok_or(or(Fault::SwitchGetsThree, 2, 3))
}

/// A fault: the mark is set before it is known whether the remote may be.
fn mark_refused(world: &mut World, connection: u8) {
    if let (Some(record), true) = (world.state.records.get_mut(usize::from(connection)), seeded(Fault::RefusedRemoteMarks)) {
        record.remote_set = true;
    }
}

/// "one record replaced per connection event, all others the same".
fn of_connection(
    table: &Table,
    world: &mut World,
    connection: u8,
    event: impl Fn(Config, Record) -> Result<Record, u8>,
) -> Answer {
    let connection = there(table, connection).map_err(plain)?;
    let record = &mut world.state.records[connection];
    *record = event(table.config(connection), record.clone()).map_err(plain)?;
    Ok(Done::Nothing)
}

fn each_record(table: &Table, world: &mut World, event: impl Fn(Config, Record) -> Record) {
    for connection in 0..table.connections.len() {
        let record = &mut world.state.records[connection];
        *record = event(table.config(connection), record.clone());
    }
}

/// A tick, and the connections whose transfer it ends.
fn tick_all(table: &Table, world: &mut World) -> u16 {
    let before = world.state.records.clone();
    each_record(table, world, tick);
    let ended = (0..before.len()).filter(|&k| failed(&before[k], &world.state.records[k]));
    let told = ended.filter(|_| !seeded(Fault::TickTellsNothing));
    told.map(|k| 1 << or(Fault::FailedFromTheTop, k, before.len() - 1 - k)).sum()
}

/// "Segment: TCP, else 3." 4: "segment, walk or transmit on a connection not online or with close wanted".
fn segment(table: &Table, world: &mut World, connection: u8, bytes: &[u8]) -> Result<Vec<Take>, u8> {
    let connection = there(table, connection)?;
    let record = &mut world.state.records[connection];
    let (tcp, open) =
        (table.config(connection).tcp, record.is_open() || (record.close_wanted && seeded(Fault::CloseOverlooked)));
    refuse_in_order(!tcp, !open)?;
    let line = Line { table, connection, switches: record.switches };
    let stretch = &mut world.receive[connection * usize::from(LONGEST)..][..usize::from(LONGEST)];
    let all = takes(line, &mut record.part, stretch, bytes);
    let drops = all.iter().filter(|take| matches!(take.outcome, Outcome::Drop { .. })).count();
    world.state.add_drops(true, drops * or(Fault::DropsCountTwice, 1, 2));
    Ok(all)
}

/// "A walk takes connection, datagram and place (beyond the end: 3; a TCP connection: 3)"; then 4. "A drop adds 1 to its
/// protocol's count".
fn walk_event(table: &Table, world: &mut World, connection: u8, place: u32, datagram: &[u8]) -> Result<Step, u8> {
    let connection = there(table, connection)?;
    let record = &world.state.records[connection];
    let step = walk(table, connection, record.switches, datagram, place as usize);
    refuse_in_order(step.is_err(), !record.is_open())?;
    let step = step?;
    restart_at_walk(table, world, connection);
    let dropped = matches!(step.found, Found::Drop { reason, .. } if reason != 23 || !seeded(Fault::CutNotCounted));
    world.state.add_drops(false, usize::from(dropped));
    Ok(step)
}

/// A fault: a walk counts as a datagram.
fn restart_at_walk(table: &Table, world: &mut World, connection: usize) {
    let record = &mut world.state.records[connection];
    if record.alive > 0 && seeded(Fault::AliveByWalk) {
        record.alive = table.connections[connection].alive;
    }
}

/// 3 before 4.
fn refuse_in_order(three: bool, four: bool) -> Result<(), u8> {
    let order = or(Fault::FourBeforeThree, [(three, 3), (four, 4)], [(four, 4), (three, 3)]);
    order.iter().find(|(applies, _)| *applies).map_or(Ok(()), |&(_, number)| Err(number))
}

/// "reading or reading and clearing a count (the value read is the one before clearing; a protocol other than 1 or 2 gets 3)".
fn count(world: &mut World, protocol: u8, clear: bool) -> Result<u32, u8> {
    if protocol != UDP && protocol != TCP {
        return Err(3);
    }
    let count = world.state.drops(protocol == TCP);
    let value = *count;
    if clear {
        *count = 0;
    }
    Ok(or(Fault::ValueAfterClearing, value, if clear { 0 } else { value }))
}

#[cfg(test)]
mod tests {
    use super::*;
    use crate::generate::script::script;
    use crate::lines::lines;
    use crate::random::Random;
    use crate::script::image_end;
    use crate::sound::broken;
    use crate::table::check;

    #[test]
    fn events_leave_sound_states_sound_and_refusals_leave_them_alone() {
        let random = &mut Random::new(5);
        for _ in 0..100 {
            let input = script(random, 100);
            let table = check(&input[..image_end(&input)]).unwrap();
            lines(&input, |seen| {
                assert_eq!(broken(&table, &seen.after.state), []);
                assert!(seen.answer.is_ok() || *seen.before == seen.after.state);
            });
        }
    }

    fn world() -> World {
        let mut table = check(&crate::table::whole_image()).unwrap();
        table.connections[0].remote = Remote { address: 0x0A00_0001, port: 30490 };
        World::new(&table.image())
    }

    #[test]
    fn checks_run_in_order() {
        let mut world = world();
        assert_eq!(run(&mut world, &Event::Walk(1, 9, vec![])), Err(plain(2)));
        assert_eq!(run(&mut world, &Event::Walk(0, 9, vec![])), Err(plain(3)));
        assert_eq!(run(&mut world, &Event::Walk(0, 0, vec![])), Err(plain(4)));
        world.state.records[0].due = true;
        assert_eq!(run(&mut world, &Event::Walk(1, 9, vec![])), Err(plain(12)));
        world.send.pop();
        assert_eq!(run(&mut world, &Event::Walk(1, 9, vec![])), Err(plain(11)));
    }

    #[test]
    fn a_send_buffer_is_filled_to_its_last_byte() {
        let mut world = world();
        run(&mut world, &Event::Ticks(1)).unwrap();
        for (used, answer) in [(1463, Err((8, Some(0)))), (1462, Ok(Done::Nothing))] {
            world.state.records[0].used = used;
            assert_eq!(run(&mut world, &Event::Transmit(9, vec![0, 0xB4])), answer);
        }
        assert!(world.state.records[0].due);
        assert_eq!(world.waiting(0).len(), 1472);
        assert_eq!(world.waiting(0)[1462..], [0, 0, 2, 2, 0, 0, 0, 2, 0, 0xB4]);
    }
}
