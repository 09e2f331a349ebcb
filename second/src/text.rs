//! Tables and scripts as texts: the lines that `./soad table to-text` and `./soad script to-text` print.

use crate::bytes::hex;
use crate::event::Event;
use crate::script::{Entry, Start};
use crate::state::{Mode, Record};
use crate::stream::Part;
use crate::table::{Remote, Table, LONGEST, MOST_SEND_SIZE, UDP};

fn or_any(value: String, known: bool) -> String {
    if known {
        value
    } else {
        "any".into()
    }
}

fn address(remote: Remote) -> String {
    let [a, b, c, d] = remote.address.to_be_bytes();
    let host = or_any(format!("{}.{}.{}.{}", a, b, c, d), remote.address > 0);
    format!("{} port {}", host, or_any(remote.port.to_string(), remote.port > 0))
}

/// Bytes in hex, or `-` for none.
pub fn bytes(bytes: &[u8]) -> String {
    if bytes.is_empty() {
        "-".into()
    } else {
        hex(bytes)
    }
}

fn word(flag: bool, [no, yes]: [&'static str; 2]) -> &'static str {
    if flag {
        yes
    } else {
        no
    }
}

fn wanted(flag: bool) -> &'static str {
    word(flag, ["no", "yes"])
}

/// The rows of a table.
pub fn table(table: &Table) -> Vec<String> {
    let groups = table.groups.iter().map(|row| word(row.protocol == UDP, ["TCP", "UDP"]).to_string());
    let connections = table.connections.iter().map(|row| {
        let (automatic, remote) = (word(row.automatic, ["manual", "automatic"]), address(row.remote));
        let alive = match row.alive {
            0 => String::new(),
            1 => " alive 1 tick".into(),
            ticks => format!(" alive {} ticks", ticks),
        };
        format!(
            "group {} {} remote {} send {} bytes{} switches 0x{:08x}",
            row.group, automatic, remote, row.send_size, alive, row.switches
        )
    });
    let common = |connection: u8, kept: &str, longest: u16, id: u32, pdu: u16| {
        format!("connection {}{} longest {} bytes id 0x{:08x} pdu 0x{:04x}", connection, kept, longest, id, pdu)
    };
    let routes = table.routes.iter().map(|row| {
        let front = common(row.connection, word(row.transfer, ["", " tp"]), row.longest, row.id, row.pdu);
        format!("{} groups 0x{:08x}", front, row.groups)
    });
    let destinations = table.destinations.iter().map(|row| {
        let front = common(row.connection, word(row.trigger, [" held", " trigger"]), row.longest, row.id, row.pdu);
        format!("{} timeout {} ticks groups 0x{:08x}", front, row.timeout, row.groups)
    });
    let mut lines = numbered("group", groups);
    lines.extend(numbered("connection", connections));
    lines.extend(numbered("route", routes));
    lines.extend(numbered("destination", destinations));
    lines
}

fn numbered(kind: &str, rows: impl Iterator<Item = String>) -> Vec<String> {
    rows.enumerate().map(|(number, row)| format!("{} {} {}", kind, number, row)).collect()
}

/// The lines of an entry.
pub fn entry(entry: &Entry) -> Vec<String> {
    match entry {
        Entry::Event(of) => vec![event(of)],
        Entry::Start(of) => start(of),
    }
}

fn event(event: &Event) -> String {
    let position = |on: bool| word(on, ["off", "on"]);
    match event {
        Event::Ticks(times) => format!("tick {}", times),
        Event::Open(connection) => format!("open {}", connection),
        Event::Close(connection) => format!("close {}", connection),
        Event::Connected(connection) => format!("connected {}", connection),
        Event::Lost(connection) => format!("lost {}", connection),
        Event::SetRemote(connection, remote) => format!("remote {} {}", connection, address(*remote)),
        Event::Switch(connection, number, on) => format!("switch {} {} {}", connection, number, position(*on)),
        Event::Segment(connection, segment) => format!("segment {} {}", connection, bytes(segment)),
        Event::Walk(connection, place, datagram) => format!("walk {} {} {}", connection, place, bytes(datagram)),
        Event::TakeWaiting(connection, room) => format!("take {} {}", connection, room),
        Event::Datagram(group, source) => format!("datagram {} {}", group, address(*source)),
        Event::Accept(group, source) => format!("accept {} {}", group, address(*source)),
        Event::Transmit(pdu, payload) => format!("transmit 0x{:04x} {}", pdu, bytes(payload)),
        Event::SwitchAll(number, on) => format!("switch-all {} {}", number, position(*on)),
        Event::ReadCount(protocol) => format!("count {}", protocol),
        Event::ReadAndClear(protocol) => format!("clear {}", protocol),
        Event::Cancel(connection) => format!("cancel {}", connection),
    }
}

/// "A start state is the lines from `state` to `end`; a record, a stretch of memory or a pair of counts that has no line there is
/// empty."
fn start(start: &Start) -> Vec<String> {
    let state = &start.state;
    let mut lines = vec!["state".to_string()];
    let records = state.records.iter().enumerate().filter(|(_, record)| **record != Record::zero());
    lines.extend(records.map(|(number, of)| format!("record {} {}", number, record(of))));
    if (state.udp_drops, state.tcp_drops) != (0, 0) {
        lines.push(format!("drops {} {}", state.udp_drops, state.tcp_drops));
    }
    for (name, memory, stretch) in [("rx", &start.receive, LONGEST), ("tx", &start.send, MOST_SEND_SIZE)] {
        for (number, bytes) in memory.chunks(stretch.into()).enumerate() {
            if let Some(last) = bytes.iter().rposition(|&byte| byte != 0) {
                lines.push(format!("{} {} {}", name, number, hex(&bytes[..=last])));
            }
        }
    }
    lines.push("end".into());
    lines
}

fn record(record: &Record) -> String {
    let mode = match record.mode {
        Mode::Offline => "offline",
        Mode::Reconnect => "reconnect",
        Mode::Online => "online",
    };
    let part = match record.part {
        Part::Header { held, value } => format!("header {} {}", held, value),
        Part::Payload { route, length, held } => format!("payload {} {} {}", route, held, length),
        Part::Skip(left) => format!("skip {}", left),
        Part::Transfer { route, left } => format!("transfer {} {}", route, left),
    };
    let (open, close, due) = (wanted(record.open_wanted), wanted(record.close_wanted), wanted(record.due));
    let (remote, switches) = (address(record.remote), record.switches);
    let front = format!("{} open {} close {} remote {} switches 0x{:08x}", mode, open, close, remote, switches);
    let alive = if record.alive > 0 { format!(" alive {}", record.alive) } else { String::new() };
    let set = word(record.remote_set, ["", " remote-set yes"]);
    format!("{} part {} used {} timer {} due {}{}{}", front, part, record.used, record.timer, due, alive, set)
}

#[cfg(test)]
mod tests {
    use super::*;
    use crate::table::{check, whole_image};

    #[test]
    fn the_whole_image_in_words() {
        let lines = [
            "group 0 UDP",
            "connection 0 group 0 automatic remote any port any send 1472 bytes switches 0x00000001",
            "route 0 connection 0 longest 2 bytes id 0x00000101 pdu 0x0007 groups 0x00000001",
            "destination 0 connection 0 trigger longest 2 bytes id 0x00000202 pdu 0x0009 timeout 0 ticks groups 0x00000000",
        ];
        assert_eq!(table(&check(&whole_image()).unwrap()), lines);
        let mut marked = whole_image();
        (marked[36], marked[55]) = (crate::table::TCP, 1);
        let route = "route 0 connection 0 tp longest 2 bytes id 0x00000101 pdu 0x0007 groups 0x00000001";
        assert_eq!(table(&check(&marked).unwrap())[2], route);
        for (limit, words) in [(1, "alive 1 tick "), (30, "alive 30 ticks ")] {
            let mut limited = whole_image();
            limited[49] = limit;
            assert_eq!(table(&check(&limited).unwrap())[1], lines[1].replace("switches", &format!("{}switches", words)));
        }
    }
}
