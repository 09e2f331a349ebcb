//! R7.7 to R7.12: the walk through one datagram. It meets no marked route: on a UDP connection that is a bad row.

use crate::fault::{or, seeded, Fault};
use crate::header::{lookup, Header, CUT, HEADER};
use crate::table::{Table, TCP};

/// "gives the next PDU, a drop, or the end, with the next place".
#[derive(Clone, PartialEq, Eq, Debug)]
pub struct Step {
    pub next: usize,
    pub found: Found,
}

#[derive(Clone, PartialEq, Eq, Debug)]
pub enum Found {
    End,
    Pdu { route: usize, header: Header, at: usize },
    Drop { reason: u8, header: Header },
}

/// A walk on a connection that is there. "(beyond the end: 3; a TCP connection: 3)".
pub fn walk(table: &Table, connection: usize, switches: u32, datagram: &[u8], place: usize) -> Result<Step, u8> {
    let end = datagram.len();
    let tcp = table.protocol(connection) == TCP && !seeded(Fault::TcpWalks);
    if tcp || place > end || (place == end && seeded(Fault::EndIsBeyond)) {
        return Err(3);
    }
    Ok(step(table, connection, switches, &datagram[place..], place))
}

/// "1..7 bytes left, or a length beyond the end, is drop 23 (reported id and length are 0 for the former) and the place becomes
/// the end; 23 is tested before 20, 21, 22." "Length 0 is a PDU with empty payload."
fn step(table: &Table, connection: usize, switches: u32, rest: &[u8], place: usize) -> Step {
    let end = place + rest.len();
    if rest.is_empty() {
        return Step { next: end, found: Found::End };
    }
    if rest.len() < HEADER {
        let header = or(Fault::CutHeaderTold, Header::default(), Header::read(rest));
        return Step { next: end, found: Found::Drop { reason: CUT, header } };
    }
    let header = Header::read(rest);
    let decided = lookup(table, connection, switches, header);
    let beyond = u64::from(header.length) > (rest.len() - HEADER) as u64 + or(Fault::OneByteBeyond, 0, 1);
    if beyond && (decided.is_ok() || !seeded(Fault::CutLast)) {
        let next = or(Fault::CutStaysInside, end, place + HEADER);
        return Step { next, found: Found::Drop { reason: CUT, header } };
    }
    let at = place + HEADER;
    let next = (at as u64 + u64::from(header.length)).min(usize::MAX as u64) as usize;
    match decided {
        Ok(route) => Step { next, found: Found::Pdu { route, header, at } },
        Err(reason) => Step { next: or(Fault::DropNotSkipped, next, at), found: Found::Drop { reason, header } },
    }
}

#[cfg(test)]
mod tests {
    use super::*;
    use crate::bytes::unhex;
    use crate::header::{NO_ROUTE, TOO_LONG};
    use crate::table::{check, whole_image};

    fn found(datagram: &str, place: usize) -> Result<(usize, Found), u8> {
        let table = check(&whole_image()).unwrap();
        walk(&table, 0, 1, &unhex(datagram).unwrap(), place).map(|step| (step.next, step.found))
    }

    #[test]
    fn both_sides_of_each_edge() {
        let header = Header { id: 0x101, length: 2 };
        let dropped = |reason, id, length| Found::Drop { reason, header: Header { id, length } };
        assert_eq!(found("00000101 00000002 00B4", 0), Ok((10, Found::Pdu { route: 0, header, at: 8 })));
        assert_eq!(
            found("00000101 00000000", 0),
            Ok((8, Found::Pdu { route: 0, header: Header { length: 0, ..header }, at: 8 }))
        );
        assert_eq!(found("00000101 00000003 00B400", 0), Ok((11, dropped(TOO_LONG, 0x101, 3))));
        assert_eq!(found("00000102 00000001 00", 0), Ok((9, dropped(NO_ROUTE, 0x102, 1))));
        assert_eq!(found("00000101 000000", 0), Ok((7, dropped(CUT, 0, 0))));
        assert_eq!(found("00000102 FFFFFFFF 00", 0), Ok((9, dropped(CUT, 0x102, 0xFFFF_FFFF))));
        assert_eq!(found("00000101", 4), Ok((4, Found::End)));
        assert_eq!(found("00000101", 5), Err(3));
    }
}
