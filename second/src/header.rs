//! R5.1 to R5.6: a header, which receive route counts for it, and why it is dropped.

use crate::bytes::number;
use crate::fault::{or, seeded, Fault};
use crate::table::{Route, Table};

/// "Id 4 bytes, length 4 bytes, payload."
pub const HEADER: usize = 8;

pub const NO_ROUTE: u8 = 20;
pub const SWITCHED_OFF: u8 = 21;
pub const TOO_LONG: u8 = 22;
pub const CUT: u8 = 23;

#[derive(Clone, Copy, PartialEq, Eq, Debug, Default)]
pub struct Header {
    pub id: u32,
    pub length: u32,
}

impl Header {
    pub fn read(bytes: &[u8]) -> Self {
        Header { id: number(bytes, 0, 4) as u32, length: number(bytes, 4, 4) as u32 }
    }
}

/// "It is on when its groups are 0 or share a set bit with the connection's switches".
pub fn is_on(groups: u32, switches: u32) -> bool {
    let nobody = groups == 0 && !seeded(Fault::ZeroGroupsOff);
    nobody || or(Fault::EveryBitNeeded, groups & switches != 0, groups & switches == groups)
}

/// The route for a header, or the reason of its drop. "A receive route counts for the header's id on its connection." "First
/// that applies: drop 20 no route, 21 switched off, 22 longer than allowed." Of a marked route "its longest payload is not applied and 22
/// is never given".
pub fn lookup(table: &Table, connection: usize, switches: u32, header: Header) -> Result<usize, u8> {
    let own = |route: &Route| usize::from(route.connection) == connection;
    let counts = |route: &Route| route.id == header.id && (own(route) || seeded(Fault::RouteOfAnother));
    let route = table.routes.iter().position(counts).ok_or(NO_ROUTE)?;
    let row = &table.routes[route];
    let off = !is_on(row.groups, switches);
    let longest = u32::from(row.longest).saturating_sub(or(Fault::LongestIsTooLong, 0, 1));
    let long = (!row.transfer || seeded(Fault::LongestApplied)) && header.length > longest;
    let reasons =
        or(Fault::LengthBeforeSwitch, [(off, SWITCHED_OFF), (long, TOO_LONG)], [(long, TOO_LONG), (off, SWITCHED_OFF)]);
    let dropped = reasons.iter().find(|(applies, _)| *applies);
    let number = or(Fault::RouteAmongOwn, route, table.routes[..route].iter().filter(|row| own(row)).count());
    dropped.map_or(Ok(number), |&(_, reason)| Err(reason))
}
