//! What `run` prints: docs/EVENTS.md, "What `./soad run` prints".

use crate::answer::{self, bytes_words as bytes, count_words as count, remote_words as remote};
use crate::bytes::{hex, spell, Reader};
use crate::event::{run, Answer, Event};
use crate::script::{image_end, read_body, read_head, Entry, Refused};
use crate::state::{Mode, State, World};
use crate::stream::Part;

fn length(bytes: &[u8]) -> String {
    count(bytes.len() as u64, "byte")
}

fn position(on: bool) -> &'static str {
    if on {
        "on"
    } else {
        "off"
    }
}

fn yes(wanted: bool) -> &'static str {
    if wanted {
        "yes"
    } else {
        "no"
    }
}

pub fn event_words(event: &Event) -> String {
    match event {
        Event::Ticks(times) => format!("tick {}", count(u64::from(*times), "time")),
        Event::Open(connection) => format!("open connection {}", connection),
        Event::Close(connection) => format!("close connection {}", connection),
        Event::Connected(connection) => format!("connected connection {}", connection),
        Event::Lost(connection) => format!("lost connection {}", connection),
        Event::SetRemote(connection, to) => format!("set remote of connection {} to {}", connection, remote(*to)),
        Event::Switch(connection, number, on) => format!("switch {} of connection {} {}", number, connection, position(*on)),
        Event::Segment(connection, segment) => format!("segment on connection {}, {}", connection, length(segment)),
        Event::Walk(connection, place, datagram) => {
            format!("walk on connection {} from byte {} of {}", connection, place, length(datagram))
        }
        Event::TakeWaiting(connection, room) => {
            format!("take waiting of connection {} into {}", connection, count(u64::from(*room), "byte"))
        }
        Event::Datagram(group, source) => format!("datagram to group {} from {}", group, remote(*source)),
        Event::Accept(group, source) => format!("accept to group {} from {}", group, remote(*source)),
        Event::Transmit(pdu, payload) => format!("transmit PDU 0x{:04x}, {}: {}", pdu, length(payload), bytes(payload)),
        Event::SwitchAll(number, on) => format!("switch {} of all connections {}", number, position(*on)),
        Event::ReadCount(protocol) => format!("read count of protocol {}", protocol),
        Event::ReadAndClear(protocol) => format!("read and clear count of protocol {}", protocol),
        Event::Cancel(connection) => format!("cancel connection {}", connection),
    }
}

/// The end: "a line for each record that the table has a row for, then the counts".
pub fn end_lines(world: &World) -> Vec<String> {
    let rows = world.table.as_ref().map_or(0, |table| table.connections.len());
    let mut lines: Vec<String> = (0..rows).map(|connection| record_line(world, connection)).collect();
    lines.push(format!("drops: UDP {}, TCP {}", world.state.udp_drops, world.state.tcp_drops));
    lines
}

fn record_line(world: &World, connection: usize) -> String {
    let record = &world.state.records[connection];
    let mode = match record.mode {
        Mode::Offline => "offline",
        Mode::Reconnect => "reconnect",
        Mode::Online => "online",
    };
    let part = match record.part {
        Part::Header { held: 0, .. } => "ready".into(),
        Part::Header { held, value } => {
            format!("header {}: {}", count(u64::from(held), "byte"), hex(&spell(value, usize::from(held.min(8)))))
        }
        Part::Payload { route, length, held } => {
            format!(
                "payload of route {}, {} of {}: {}",
                route,
                held,
                count(u64::from(length), "byte"),
                bytes(world.received(connection, usize::from(held)))
            )
        }
        Part::Skip(left) => format!("skip {}", count(u64::from(left), "byte")),
        Part::Transfer { route, left } => format!("transfer of route {}, {} to come", route, count(u64::from(left), "byte")),
    };
    let send = format!("send {}: {}", count(u64::from(record.used), "byte"), bytes(world.waiting(connection)));
    let timer =
        if record.timer == 0 { "timer stopped".into() } else { format!("timer {}", count(u64::from(record.timer), "tick")) };
    let alive = if record.alive == 0 {
        "alive timer stopped".into()
    } else {
        format!("alive timer {}", count(u64::from(record.alive), "tick"))
    };
    let wishes = format!("open wanted {}, close wanted {}", yes(record.open_wanted), yes(record.close_wanted));
    let (to, due) = (remote(record.remote), yes(record.due));
    format!(
        "connection {}: {}, {}, remote {}, switches 0x{:08x}, receive part {}, {}, {}, due {}, {}, remote set {}",
        connection,
        mode,
        wishes,
        to,
        record.switches,
        part,
        send,
        timer,
        due,
        alive,
        yes(record.remote_set)
    )
}

/// An event, the state before it, all that it left, and its answer.
pub struct Seen<'a> {
    pub event: &'a Event,
    pub before: &'a State,
    pub after: &'a World,
    pub answer: &'a Answer,
}

/// The lines for an input: an image, then a script. `met` is told of each event.
pub fn lines(input: &[u8], mut met: impl FnMut(&Seen)) -> Vec<String> {
    let image = image_end(input);
    let mut world = World::new(&input[..image]);
    if let Err(place) = world.table {
        return refused_table(place);
    }
    let mut lines = Vec::new();
    let mut rest = &input[image..];
    let mut number = 0;
    let last = loop {
        if rest.is_empty() {
            break "OK";
        }
        number += 1;
        let refused = |why, event| format!("entry {}: refused: {}", number, refused_words(why, event));
        let mut head = Reader::new(rest, 0);
        let (event, zero, length) = (head.number(2) as u16, head.number(2) as u16, head.number(4) as usize);
        if rest.len() < 8 {
            break "CUT";
        }
        if let Err(why) = read_head(event, zero, length) {
            lines.push(refused(why, event));
            break "REFUSED";
        }
        if rest.len() - 8 < length {
            break "CUT";
        }
        let body = head.bytes(length);
        rest = head.rest();
        match read_body(event, body, number == 1) {
            Ok(Entry::Event(event)) => {
                let before = world.state.clone();
                let answer = run(&mut world, &event);
                met(&Seen { event: &event, before: &before, after: &world, answer: &answer });
                lines.push(format!(
                    "entry {}: {}: {}",
                    number,
                    event_words(&event),
                    answer::words(&event, &answer::spell(&answer))
                ));
            }
            Ok(Entry::Start(start)) => {
                world = World { state: start.state, receive: start.receive, send: start.send, ..world };
                lines.push(format!("entry {}: start state: taken", number));
            }
            Err(why) => {
                lines.push(refused(why, event));
                break "REFUSED";
            }
        }
    };
    lines.extend(end_lines(&world));
    lines.push(last.into());
    lines
}

/// A refused table: its place, without the words behind it.
pub fn refused_table(place: usize) -> Vec<String> {
    vec![format!("refused 1 at byte {}", place), "REFUSED".into()]
}

fn refused_words(why: Refused, event: u16) -> String {
    match why {
        Refused::Unknown => format!("unknown event number {}", event),
        Refused::Zero => "zero field is not 0".into(),
        Refused::Body => "body does not fit".into(),
    }
}

#[cfg(test)]
mod tests {
    use super::*;
    use crate::generate::script::misfit_script;
    use crate::random::Random;

    #[test]
    fn a_start_state_that_does_not_fit_is_refused() {
        let random = &mut Random::new(1);
        for _ in 0..60 {
            let lines = lines(&misfit_script(random), |_| ());
            assert_eq!(lines[0], "entry 1: refused: body does not fit");
            assert_eq!(lines.last().map(String::as_str), Some("REFUSED"));
        }
    }
}
