//! Sections 8 and 9 of the rules: what an event makes of one record, or the number of its refusal; and the tick. R19.6 and R19.7: cancel, failed.
//! Section 20: what a datagram and a tick make of the alive timer.

use crate::fault::{or, seeded, Fault};
use crate::state::{Config, Mode, Record};
use crate::stream::READY;
use crate::table::Remote;

type Answer = Result<Record, u8>;

/// "else 3".
fn allowed(condition: bool, then: Record) -> Answer {
    condition.then_some(then).ok_or(3)
}

/// "Open: non-automatic, offline, no close wanted, else 3; sets open wanted."
pub fn open(config: Config, record: Record) -> Answer {
    let manual = !config.row.automatic || seeded(Fault::OpenAutomatic);
    let free = !record.close_wanted || seeded(Fault::OpenWithClose);
    allowed(manual && record.mode == Mode::Offline && free, Record { open_wanted: true, ..record })
}

/// "Close: non-automatic, and open wanted or not offline, else 3; sets close wanted, clears open."
pub fn close(config: Config, record: Record) -> Answer {
    let closable = record.open_wanted || record.mode != Mode::Offline || seeded(Fault::CloseOffline);
    let open_wanted = record.open_wanted && seeded(Fault::CloseKeepsOpen);
    allowed(!config.row.automatic && closable, Record { close_wanted: true, open_wanted, ..record })
}

/// "Connected: TCP, reconnect, no close wanted, remote without wildcard, else 3; becomes online."
pub fn connected(config: Config, record: Record) -> Answer {
    let named = !record.remote.has_wildcard() || seeded(Fault::ConnectedToAnyone);
    let ready = record.mode == Mode::Reconnect && !record.close_wanted && named;
    let remote_set = record.remote_set && !seeded(Fault::ConnectedClearsMark);
    allowed(config.tcp && ready, Record { mode: Mode::Online, remote_set, ..record })
}

/// "Lost: TCP online, else 3; becomes reconnect, held bytes dropped, remote as configured."
pub fn lost(config: Config, record: Record) -> Answer {
    let condition = config.tcp && record.mode == Mode::Online;
    let part = or(Fault::LostKeepsPart, READY, record.part);
    let used = or(Fault::LostKeepsSend, 0, record.used);
    let remote = or(Fault::LostKeepsRemote, config.row.remote, record.remote);
    let close_wanted = record.close_wanted && !seeded(Fault::LostForgetsClose);
    let remote_set = record.remote_set && seeded(Fault::LostKeepsMark);
    let back = Record { remote, remote_set, ..record.reset(config.row) };
    allowed(condition, Record { mode: Mode::Reconnect, part, used, close_wanted, timer: 0, due: false, ..back })
}

/// "The receiver may cancel, which sets close wanted (00575, 00581); it gets 3 when none runs".
pub fn cancel(config: Config, record: Record) -> Answer {
    let runs = record.part.is_transfer() || seeded(Fault::CancelAlways);
    let refused =
        (config.row.automatic && seeded(Fault::CancelNotAutomatic)) || (record.close_wanted && seeded(Fault::CancelOnce));
    let part = or(Fault::CancelEnds, record.part, READY);
    allowed(runs && !refused, Record { close_wanted: true, open_wanted: false, part, ..record })
}

/// "The tick or loss that ends a transfer early answers failed": one ran before, and none runs after.
pub fn failed(before: &Record, after: &Record) -> bool {
    before.part.is_transfer() && !after.part.is_transfer()
}

/// "Set remote: not online, else 3." "a mark that the upper layer set the remote".
pub fn set_remote(config: Config, record: Record, remote: Remote) -> Answer {
    let configured = remote == config.row.remote && seeded(Fault::ConfiguredIsUnmarked);
    let remote_set = !configured || record.remote_set;
    allowed(record.mode != Mode::Online || seeded(Fault::RemoteWhileOnline), Record { remote, remote_set, ..record })
}

/// "It becomes online with the source as remote." "The timer starts when a datagram replaces a wildcard; while it runs, accepted datagrams
/// restart it." The mark stays.
pub fn met(config: Config, record: Record, source: Remote) -> Record {
    let wild = or(Fault::AliveByAddress, record.remote.has_wildcard(), record.remote.address == 0);
    let starts = wild || seeded(Fault::AliveByAny) || (record.alive > 0 && !seeded(Fault::AliveOnce));
    let alive = if starts { config.row.alive } else { record.alive };
    let clears = or(Fault::AcceptClearsMark, seeded(Fault::DatagramClearsMark) && !config.tcp, config.tcp);
    let remote = or(Fault::SourceNotTaken, source, record.remote);
    Record { mode: Mode::Online, remote, alive, remote_set: record.remote_set && !clears, ..record }
}

/// "Switch one routing group of one connection": "switch n is the bit worth 2 to the n".
pub fn switch(record: Record, number: u8, on: bool) -> Record {
    let bit = 1u32 << or(Fault::SwitchesFromTheTop, number, 31 - number);
    let switches = match on {
        true => record.switches | bit,
        false => record.switches & !bit,
    };
    Record { switches, ..record }
}

/// "Tick, per connection in order. Close wanted: back to the fresh record except switches, and nothing more this tick."
pub fn tick(config: Config, record: Record) -> Record {
    if !record.close_wanted {
        return run_alive(config, record);
    }
    let switches = or(Fault::CloseResetsSwitches, record.switches, config.row.switches);
    let remote_set = record.remote_set && seeded(Fault::CloseKeepsMark);
    let closed = Record { switches, remote_set, ..Record::fresh(config.row) };
    or(Fault::ClosingTickGoesOn, closed.clone(), go_online(config, Record { mode: Mode::Reconnect, ..closed }))
}

/// "It falls by 1 at each tick, after a wanted close. At 0, unless the upper layer set the remote, the connection goes to reconnect, .. and that
/// tick does no more for it; else the timer just stops."
fn run_alive(config: Config, record: Record) -> Record {
    let alive = record.alive.saturating_sub(1);
    let ended = record.alive > 0 && alive <= or(Fault::ExpiryTooSoon, 0, 1);
    let kept = record.remote_set && !seeded(Fault::MarkOverlooked);
    let record = Record { alive: if ended { 0 } else { alive }, ..record };
    if ended && !kept {
        let gone = let_go(config, record);
        return or(Fault::ExpiryGoesOn, gone.clone(), go_online(config, gone));
    }
    if ended && seeded(Fault::StopEndsTick) {
        return record;
    }
    run_timer(go_online(config, go_offline_to_reconnect(config, record)))
}

/// "the connection goes to reconnect, waiting send bytes are dropped, the remote returns to the configured one".
fn let_go(config: Config, record: Record) -> Record {
    let used = or(Fault::ExpiryKeepsSend, 0, record.used);
    let due = record.due && seeded(Fault::ExpiryKeepsDue);
    let remote = or(Fault::ExpiryKeepsRemote, config.row.remote, record.remote);
    Record { remote, ..Record { mode: Mode::Reconnect, used, timer: 0, due, ..record }.reset(config.row) }
}

/// "offline with open wanted or automatic becomes reconnect, open cleared".
fn go_offline_to_reconnect(config: Config, record: Record) -> Record {
    let starts = record.mode == Mode::Offline && (record.open_wanted || config.row.automatic);
    match starts {
        true => Record { mode: Mode::Reconnect, open_wanted: seeded(Fault::TickKeepsOpen) && record.open_wanted, ..record },
        false => record,
    }
}

/// "then UDP reconnect without wildcard becomes online".
fn go_online(config: Config, record: Record) -> Record {
    let remote = or(Fault::TickLooksAtTheRow, record.remote, config.row.remote);
    let goes = record.mode == Mode::Reconnect && !config.tcp && !remote.has_wildcard();
    Record { mode: if goes { Mode::Online } else { record.mode }, ..record }
}

/// "a running timer falls by 1 and at 0 becomes due".
fn run_timer(record: Record) -> Record {
    let timer = record.timer.saturating_sub(1);
    let ended = record.timer > 0 && timer <= or(Fault::DueOneTickEarly, 0, 1);
    Record { timer: if ended { 0 } else { timer }, due: record.due || ended, ..record }
}

#[cfg(test)]
mod tests {
    use super::*;
    use crate::stream::Part;
    use crate::table::Connection;

    const EXACT: Remote = Remote { address: 1, port: 1 };

    /// The modes and wishes that ticks lead to.
    fn ticked(tcp: bool, automatic: bool, record: Record) -> Vec<(Mode, bool, bool)> {
        let row = Connection { group: 0, automatic, remote: EXACT, send_size: 8, alive: 0, switches: 5 };
        let config = Config { row: &row, tcp };
        let ticks = std::iter::successors(Some(record), |record| Some(tick(config, record.clone())));
        ticks.skip(1).take(2).map(|record| (record.mode, record.open_wanted, record.close_wanted)).collect()
    }

    #[test]
    fn a_tick_opens_connects_and_closes() {
        let offline = Record { remote: EXACT, ..Record::zero() };
        let wanted = Record { open_wanted: true, ..offline.clone() };
        let closing = Record { mode: Mode::Online, close_wanted: true, ..offline.clone() };
        let online = (Mode::Online, false, false);
        assert_eq!(ticked(false, false, offline), [(Mode::Offline, false, false); 2]);
        assert_eq!(ticked(false, false, wanted.clone()), [online; 2]);
        assert_eq!(ticked(true, false, wanted), [(Mode::Reconnect, false, false); 2]);
        assert_eq!(ticked(false, true, closing), [(Mode::Offline, false, false), online]);
    }

    #[test]
    fn a_transfer_is_cancelled_and_fails_at_the_tick() {
        for (automatic, close_wanted) in [(false, false), (false, true), (true, false), (true, true)] {
            let row = Connection { group: 0, automatic, remote: EXACT, send_size: 8, alive: 0, switches: 5 };
            let config = Config { row: &row, tcp: true };
            let ready = Record { mode: Mode::Online, remote: EXACT, close_wanted, ..Record::zero() };
            let running = Record { part: Part::Transfer { route: 0, left: 9 }, ..ready.clone() };
            assert_eq!(cancel(config, ready.clone()), Err(3));
            assert_eq!(cancel(config, Record { part: Part::Skip(9), ..ready.clone() }), Err(3));
            let cancelled = cancel(config, running.clone()).unwrap();
            assert_eq!(cancelled, Record { close_wanted: true, ..running.clone() });
            assert!(!failed(&running, &cancelled) && failed(&cancelled, &tick(config, cancelled.clone())));
            assert!(failed(&running, &lost(config, running.clone()).unwrap()));
            assert!(!failed(&ready, &tick(config, ready.clone())));
        }
    }

    /// A service that anybody may use, with a limit of three ticks, and its record with send bytes once a datagram has come.
    fn service(remote: Remote) -> (Connection, Record) {
        let row = Connection { group: 0, automatic: true, remote, send_size: 99, alive: 3, switches: 5 };
        let reconnect = Record { mode: Mode::Reconnect, ..Record::fresh(&row) };
        let met = met(Config { row: &row, tcp: false }, reconnect, EXACT);
        (row, Record { used: 9, timer: 7, ..met })
    }

    fn ticks(row: &Connection, record: &Record, count: usize) -> Record {
        (0..count).fold(record.clone(), |record, _| tick(Config { row, tcp: false }, record))
    }

    #[test]
    fn a_silent_peer_is_let_go_at_its_third_tick() {
        let (row, met) = service(Remote { address: 0, port: 1 });
        assert_eq!((met.mode, met.alive), (Mode::Online, 3));
        assert_eq!(ticks(&row, &met, 2), Record { alive: 1, timer: 5, ..met.clone() });
        let gone = Record { mode: Mode::Reconnect, ..Record::fresh(&row) };
        assert_eq!(ticks(&row, &met, 3), gone);
        assert_eq!(ticks(&row, &met, 9), gone);
        let again = super::met(Config { row: &row, tcp: false }, ticks(&row, &met, 2), EXACT);
        assert_eq!(ticks(&row, &again, 2).mode, Mode::Online);
        assert_eq!(ticks(&row, &again, 3), gone);
        let wanted = Record { close_wanted: true, ..ticks(&row, &met, 2) };
        assert_eq!(ticks(&row, &wanted, 1), Record::fresh(&row));
    }

    #[test]
    fn a_remote_that_the_upper_layer_set_is_kept() {
        let (row, met) = service(Remote::default());
        let marked = Record { remote_set: true, ..met.clone() };
        assert_eq!(ticks(&row, &marked, 3), Record { alive: 0, timer: 4, ..marked.clone() });
        // stopped, it is not started by a datagram that replaces nothing
        let config = Config { row: &row, tcp: false };
        assert_eq!(super::met(config, ticks(&row, &marked, 3), EXACT).alive, 0);
        let set = set_remote(config, Record::fresh(&row), row.remote).unwrap();
        assert_eq!(set, Record { remote_set: true, ..Record::fresh(&row) });
        assert_eq!(super::met(config, set, EXACT), Record { remote_set: true, used: 0, timer: 0, ..met });
    }

    #[test]
    fn the_tick_that_lets_go_does_no_more() {
        let (row, met) = service(EXACT);
        assert_eq!(met.alive, 0);
        let watched = Record { alive: 1, ..met };
        assert_eq!(ticks(&row, &watched, 1).mode, Mode::Reconnect);
        assert_eq!(ticks(&row, &watched, 2).mode, Mode::Online);
    }

    #[test]
    fn a_timer_falls_and_becomes_due() {
        let timer = |timer| Record { timer, ..Record::zero() };
        assert_eq!(run_timer(timer(2)), timer(1));
        assert_eq!(run_timer(timer(1)), Record { due: true, ..timer(0) });
        assert_eq!(run_timer(timer(0)), timer(0));
    }
}
