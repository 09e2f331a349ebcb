//! R7.1 to R7.6: which connection of a group a source belongs to.

use crate::connection::met;
use crate::fault::{or, seeded, Fault};
use crate::state::{Mode, Record, State, RECORDS};
use crate::table::{Remote, Table, TCP, UDP};

/// "A field matches when equal, or 0 in the record": which of address and port are equal, or nothing when one does not match.
fn equal(record: &Record, source: Remote) -> Option<(bool, bool)> {
    let (address, port) = (record.remote.address == source.address, record.remote.port == source.port);
    let matching = (address || record.remote.address == 0) && (port || record.remote.port == 0);
    matching.then_some((address, port))
}

/// "both fields first, then address with any port, then any address with the port, then neither": the higher, the better.
fn rank((address, port): (bool, bool)) -> usize {
    let worth = or(Fault::OldTie, 2, 1);
    let (of_address, of_port) = or(Fault::PortFirst, (worth, 1), (1, 2));
    usize::from(address) * of_address + usize::from(port) * of_port
}

/// "Members count if reconnect or online without close wanted"; for accept "over members in reconnect without close wanted".
fn counts(record: &Record, protocol: u8) -> bool {
    let mode = match record.mode {
        Mode::Reconnect => true,
        Mode::Online => protocol == UDP || seeded(Fault::AcceptOnline),
        Mode::Offline => seeded(Fault::OfflineMember),
    };
    mode && (!record.close_wanted || seeded(Fault::ClosingMember))
}

/// The members of a group that count and match, by their numbers, each with what is equal.
fn matching(table: &Table, state: &State, group: u8, protocol: u8, source: Remote) -> Vec<(usize, (bool, bool))> {
    let members = (0..table.connections.len()).filter(|&i| table.connections[i].group == group);
    let counting = members.filter(|&i| counts(&state.records[i], protocol));
    counting.filter_map(|i| Some((i, equal(&state.records[i], source)?))).collect()
}

/// "ties still go to the lowest number".
fn best(table: &Table, state: &State, group: u8, protocol: u8, source: Remote) -> Option<usize> {
    let worth = |&(number, equal): &(usize, (bool, bool))| {
        let rank = or(Fault::FewerFieldsWin, rank(equal), 3 - rank(equal));
        (or(Fault::FirstRowWins, rank, 0), or(Fault::HighestWinsTies, RECORDS - number, number))
    };
    matching(table, state, group, protocol, source).into_iter().max_by_key(worth).map(|(number, _)| number)
}

/// What a choice was between, where no member matched by both fields: true when members matched by either half, and then whether one
/// that matched by its port stood before all that matched by their address.
pub fn between_halves(table: &Table, state: &State, group: u8, source: Remote) -> (bool, bool) {
    let protocol = table.groups.get(usize::from(group)).map_or(0, |row| row.protocol);
    let all = matching(table, state, group, protocol, source);
    let first = |kind| all.iter().position(|&(_, equal)| equal == kind);
    match (first((true, true)), first((true, false)), first((false, true))) {
        (None, Some(address), Some(port)) => (true, port < address),
        _ => (false, false),
    }
}

/// "A datagram event names a UDP group and a source; a source with address 0 or port 0 gets 3." "It becomes online with the
/// source as remote. An accept event does the same for a TCP group". The chosen connection, or the number of the refusal.
pub fn select(table: &Table, state: &mut State, group: u8, protocol: u8, source: Remote) -> Result<usize, u8> {
    let row = table.groups.get(usize::from(group)).ok_or(2)?;
    let of_another = row.protocol != protocol && !seeded(Fault::GroupOfAnyProtocol);
    let nobody = or(Fault::HalfSourceAllowed, source.has_wildcard(), source == Remote::default());
    if of_another || nobody {
        return Err(3);
    }
    let chosen = best(table, state, group, protocol, source).ok_or(10)?;
    let record = &mut state.records[chosen];
    *record = met(table.config(chosen), record.clone(), source);
    Ok(chosen)
}

pub const DATAGRAM: u8 = UDP;
pub const ACCEPT: u8 = TCP;

#[cfg(test)]
mod tests {
    use super::*;
    use crate::fault;
    use crate::table::{Connection, Group};

    const SOURCE: Remote = Remote { address: 0x0A00_0001, port: 30490 };

    /// Who is chosen among UDP members with these remotes, all in reconnect.
    fn chosen(remotes: &[(u32, u16)]) -> Result<usize, u8> {
        let row = |&(address, port): &(u32, u16)| {
            let remote = Remote { address, port };
            Connection { group: 0, automatic: true, remote, send_size: 8, alive: 0, switches: 0 }
        };
        let connections = remotes.iter().map(row).collect();
        let table = Table { groups: vec![Group { protocol: UDP }], connections, ..Table::default() };
        let mut state = State::fresh(&table);
        state.records.iter_mut().for_each(|record| record.mode = Mode::Reconnect);
        let answer = select(&table, &mut state, 0, DATAGRAM, SOURCE);
        assert!(
            answer.map_or(true, |number| (state.records[number].mode, state.records[number].remote) == (Mode::Online, SOURCE))
        );
        answer
    }

    #[test]
    fn address_before_port_then_the_lowest_number() {
        let Remote { address, port } = SOURCE;
        assert_eq!(chosen(&[(0, 0), (address, port)]), Ok(1));
        assert_eq!(chosen(&[(0, 0), (0, port), (address, 0)]), Ok(2));
        assert_eq!(chosen(&[(0, 0), (address, 0), (0, port), (address, 0)]), Ok(1));
        assert_eq!(chosen(&[(address, 0), (0, port), (address, port)]), Ok(2));
        assert_eq!(chosen(&[(0, 0), (address, 1), (0, port)]), Ok(2));
        assert_eq!(fault::with(Fault::OldTie, || chosen(&[(0, 0), (0, port), (address, 0)])), Ok(1));
        assert_eq!(chosen(&[(0, 0), (0, 0)]), Ok(0));
        assert_eq!(chosen(&[(1, port), (address, 1), (0, 1)]), Err(10));
        assert_eq!(chosen(&[]), Err(10));
    }
}
