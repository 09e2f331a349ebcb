//! Section 2 of the rules: the sixteen records, lent memory, and what is fresh.

use crate::fault::{seeded, Fault};
use crate::stream::{Part, READY};
use crate::table::{check, Connection, Remote, Table, LONGEST, MOST_SEND_SIZE, TCP};
use std::rc::Rc;

/// "Lent memory: receive 23,424 bytes (16 of 1,464), send 23,552 (16 of 1,472), one stretch per connection in number order".
pub const RECORDS: usize = 16;
pub const RECEIVE: usize = RECORDS * LONGEST as usize;
pub const SEND: usize = RECORDS * MOST_SEND_SIZE as usize;

#[derive(Clone, Copy, PartialEq, Eq, Debug)]
pub enum Mode {
    Offline,
    Reconnect,
    Online,
}

#[derive(Clone, PartialEq, Eq, Debug)]
pub struct Record {
    pub mode: Mode,
    pub open_wanted: bool,
    pub close_wanted: bool,
    pub remote: Remote,
    pub switches: u32,
    pub part: Part,
    pub used: u16,
    pub timer: u16,
    pub due: bool,
    /// "Every record now carries the timer (online only, up to the limit)": the alive timer, 0 when stopped,
    pub alive: u16,
    /// "and a mark that the upper layer set the remote".
    pub remote_set: bool,
}

impl Record {
    pub fn zero() -> Self {
        let remote = Remote::default();
        Record {
            mode: Mode::Offline,
            open_wanted: false,
            close_wanted: false,
            remote,
            switches: 0,
            part: READY,
            used: 0,
            timer: 0,
            due: false,
            alive: 0,
            remote_set: false,
        }
    }

    /// "Fresh: offline, nothing wanted or held, remote and switches from the table".
    pub fn fresh(row: &Connection) -> Self {
        Record { remote: row.remote, switches: row.switches, ..Record::zero() }
    }

    /// "the remote returns to the configured one": the mark is "cleared when the remote is reset", and no alive timer runs.
    pub fn reset(self, row: &Connection) -> Self {
        Record { remote: row.remote, alive: 0, remote_set: false, ..self }
    }

    /// What answer 4 looks at: "not online or with close wanted".
    pub fn is_open(&self) -> bool {
        self.mode == Mode::Online && !self.close_wanted
    }
}

/// What the table says of one connection.
#[derive(Clone, Copy)]
pub struct Config<'a> {
    pub row: &'a Connection,
    pub tcp: bool,
}

impl Table {
    pub fn config(&self, connection: usize) -> Config<'_> {
        Config { row: &self.connections[connection], tcp: self.protocol(connection) == TCP }
    }
}

#[derive(Clone, PartialEq, Eq, Debug)]
pub struct State {
    pub records: Vec<Record>,
    pub udp_drops: u32,
    pub tcp_drops: u32,
}

impl State {
    /// The state of the empty table: "records past the row count are all zero", counts 0.
    pub fn empty() -> Self {
        State { records: vec![Record::zero(); RECORDS], udp_drops: 0, tcp_drops: 0 }
    }

    pub fn fresh(table: &Table) -> Self {
        let mut state = State::empty();
        for (record, row) in state.records.iter_mut().zip(&table.connections) {
            *record = Record::fresh(row);
        }
        state
    }

    pub fn drops(&mut self, tcp: bool) -> &mut u32 {
        if tcp != seeded(Fault::OtherCount) {
            &mut self.tcp_drops
        } else {
            &mut self.udp_drops
        }
    }

    /// "Two drop counts, UDP and TCP, stop at 4,294,967,295."
    pub fn add_drops(&mut self, tcp: bool, more: usize) {
        let count = self.drops(tcp);
        *count = if seeded(Fault::CountWraps) { count.wrapping_add(more as u32) } else { count.saturating_add(more as u32) };
    }
}

/// Table image, state and both lent memories: what a call is given and leaves.
#[derive(Clone)]
pub struct World {
    pub table: Result<Rc<Table>, usize>,
    pub state: State,
    pub receive: Vec<u8>,
    pub send: Vec<u8>,
}

impl World {
    /// A fresh state under an image; "table refused, with place; the state returned is that of the empty table".
    pub fn new(image: &[u8]) -> Self {
        let table = check(image).map(Rc::new);
        let state = table.as_ref().map_or_else(|_| State::empty(), |table| State::fresh(table));
        World { table, state, receive: vec![0; RECEIVE], send: vec![0; SEND] }
    }

    /// A connection's stretch of receive memory; of an unsound state, as far as there is one.
    pub fn received(&self, connection: usize, held: usize) -> &[u8] {
        let start = connection * usize::from(LONGEST);
        &self.receive[start..(start + held).min(RECEIVE)]
    }

    /// The bytes that wait in a connection's stretch of send memory.
    pub fn waiting(&self, connection: usize) -> &[u8] {
        let start = connection * usize::from(MOST_SEND_SIZE);
        &self.send[start..(start + usize::from(self.state.records[connection].used)).min(SEND)]
    }
}
