//! The state: cells, slots and clock.

use crate::value::Value;

/// Most cells that a machine has; the least is 1.
pub const CELLS_AT_MOST: usize = 64;

/// Slots are numbered 1 to this.
pub const SLOTS: usize = 8;

/// A shared cell. Its holder is not kept here, see [`Machine::holder`].
#[derive(Clone, Copy, Debug, PartialEq, Eq)]
pub struct Cell {
    /// The present value. Its kind never changes.
    pub value: Value,
    /// The commit stamp of the transaction that published the value.
    pub stamp: u64,
}

/// An entry of a read log.
#[derive(Clone, Copy, Debug, PartialEq, Eq)]
pub struct Read {
    /// Number of the cell.
    pub cell: u8,
    /// The value that was read.
    pub value: Value,
    /// Whether the entry is marked.
    pub marked: bool,
}

/// An entry of a write log.
#[derive(Clone, Copy, Debug, PartialEq, Eq)]
pub struct Write {
    /// Number of the cell.
    pub cell: u8,
    /// The value to be published.
    pub value: Value,
}

/// Where a transaction stands. An idle slot has no transaction.
#[derive(Clone, Copy, Debug, PartialEq, Eq)]
pub enum Phase {
    /// Phase 1.
    Open,
    /// Phase 2.
    Locking {
        /// How many cells of the write log are taken, from the lowest.
        taken: usize,
    },
    /// Phase 3.
    Twilight(Commit),
    /// Phase 4.
    Publishing {
        /// As it was in twilight.
        commit: Commit,
        /// How many cells of the write log are published, from the lowest.
        published: usize,
    },
}

/// What a transaction has from enter on.
#[derive(Clone, Copy, Debug, PartialEq, Eq)]
pub struct Commit {
    /// The commit stamp.
    pub stamp: u64,
    /// The ignoring flag.
    pub ignoring: bool,
}

/// What a slot that is not idle has.
#[derive(Clone, Debug, PartialEq, Eq)]
pub struct Transaction {
    /// The clock at begin.
    pub start: u64,
    /// The read log, in order of first read.
    pub reads: Vec<Read>,
    /// The write log, in ascending order of cell.
    pub writes: Vec<Write>,
    /// The phase, with what belongs to it alone.
    pub phase: Phase,
}

impl Transaction {
    /// Most entries of each log.
    pub const LOG_ROOM: usize = 16;

    /// A transaction just begun.
    pub fn begun(start: u64) -> Transaction {
        Transaction { start, reads: Vec::new(), writes: Vec::new(), phase: Phase::Open }
    }

    /// The read log's entry of a cell.
    pub fn read_of(&self, cell: u8) -> Option<Read> {
        self.reads.iter().find(|read| read.cell == cell).copied()
    }

    /// The write log's entry of a cell.
    pub fn write_of(&self, cell: u8) -> Option<Write> {
        self.writes.iter().find(|write| write.cell == cell).copied()
    }

    /// Whether some read entry is marked.
    pub fn some_mark(&self) -> bool {
        self.reads.iter().any(|read| read.marked)
    }

    /// The cells of the marked read entries, in the order of the read log.
    pub fn marked(&self) -> impl Iterator<Item = u8> + '_ {
        self.reads.iter().filter(|read| read.marked).map(|read| read.cell)
    }

    /// The marked cells that are also in the write log, in the order of the read
    /// log.
    pub fn marked_written(&self) -> impl Iterator<Item = u8> + '_ {
        self.marked().filter(|cell| self.write_of(*cell).is_some())
    }

    /// Whether some marked cell is also in the write log.
    pub fn some_marked_written(&self) -> bool {
        self.marked_written().next().is_some()
    }

    /// Whether the flag is set, both logs are full, and all that was read is
    /// marked. If no update is lost, the logs then have no cell in common.
    pub fn is_full_and_ignoring(&self) -> bool {
        let full = [self.reads.len(), self.writes.len()] == [Transaction::LOG_ROOM; 2];
        let flag = self.commit().is_some_and(|commit| commit.ignoring);
        full && flag && self.reads.iter().all(|read| read.marked)
    }

    /// What it has from enter on.
    pub fn commit(&self) -> Option<Commit> {
        match self.phase {
            Phase::Open | Phase::Locking { .. } => None,
            Phase::Twilight(commit) | Phase::Publishing { commit, .. } => Some(commit),
        }
    }

    /// The entries of the write log whose cells it holds.
    pub fn held(&self) -> impl Iterator<Item = &Write> {
        let (first, end) = match self.phase {
            Phase::Open => (0, 0),
            Phase::Locking { taken } => (0, taken),
            Phase::Twilight(_) => (0, self.writes.len()),
            Phase::Publishing { published, .. } => (published, self.writes.len()),
        };
        self.writes.iter().take(end).skip(first)
    }
}

/// The whole state. It is well formed always: there is no way to make or to
/// change one but those of this library.
#[derive(Clone, Debug, PartialEq, Eq)]
pub struct Machine {
    pub(crate) clock: u64,
    pub(crate) cells: Vec<Cell>,
    pub(crate) slots: [Option<Transaction>; SLOTS],
}

impl Machine {
    /// A fresh machine, clock and stamps 0 and at rest. There is none unless
    /// the values are 1 to 64 in number and all legal.
    pub fn fresh(values: &[Value]) -> Option<Machine> {
        let right_number = (1..=CELLS_AT_MOST).contains(&values.len());
        let all_legal = values.iter().all(|value| value.is_legal());
        (right_number && all_legal).then(|| Machine {
            clock: 0,
            cells: values.iter().map(|&value| Cell { value, stamp: 0 }).collect(),
            slots: Default::default(),
        })
    }

    /// The last stamp given.
    pub fn clock(&self) -> u64 {
        self.clock
    }

    /// The cells, in the order of their numbers.
    pub fn cells(&self) -> &[Cell] {
        &self.cells
    }

    /// The transaction of a slot from 1 to 8, none if the slot is idle.
    pub fn slot(&self, number: u8) -> Option<&Transaction> {
        let place = usize::from(number).checked_sub(1)?;
        self.slots.get(place)?.as_ref()
    }

    /// The numbers of the slots that are not idle, with their transactions.
    pub fn transactions(&self) -> impl Iterator<Item = (u8, &Transaction)> {
        let numbered = (1..).zip(&self.slots);
        numbered.filter_map(|(number, slot)| Some((number, slot.as_ref()?)))
    }

    /// The slot that holds a cell, 0 for none.
    pub fn holder(&self, cell: u8) -> u8 {
        let holds = |transaction: &Transaction| transaction.held().any(|write| write.cell == cell);
        self.transactions()
            .find(|(_, transaction)| holds(transaction))
            .map_or(0, |(number, _)| number)
    }

    /// The slot other than this one that holds the cell, if there is one.
    pub fn other_holder(&self, cell: u8, slot: u8) -> Option<u8> {
        Some(self.holder(cell)).filter(|holder| ![0, slot].contains(holder))
    }

    /// Whether all slots are idle.
    pub fn at_rest(&self) -> bool {
        self.slots.iter().all(Option::is_none)
    }
}
