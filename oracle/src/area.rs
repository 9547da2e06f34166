//! The packed area: to bytes, from bytes, and the two functions on bytes.

use crate::binary::{read_descriptions, DESCRIPTION_LENGTH};
use crate::call::{Call, Refusal, Reply};
use crate::machine::{
    Cell, Commit, Machine, Phase, Read, Transaction, Write, CELLS_AT_MOST, SLOTS,
};
use crate::record::{length_for, AreaRecord, CellRecord, ReadRecord, SlotRecord, WriteRecord};
use crate::value::Value;
use crate::wellformed::well_formed_record;

/// The length of the area of n cells: 1,590 + 14 × n.
pub fn area_length(n: usize) -> usize {
    length_for(n)
}

/// Makes one step on a lent area and answers code × 2^40 + kind × 2^32 + word.
pub fn step_on_bytes(area: &mut [u8], step: u8, slot: u8, cell: u8, kind: u8, word: u32) -> u64 {
    let Some(mut machine) = Machine::unpack(area) else {
        return Reply::Refused(Refusal::NotWellFormed).number();
    };
    let reply = machine.step(Call { step, slot, cell, kind, word });
    // Nothing is written for a refused call, not even the same bytes.
    if !reply.is_refused() {
        area.copy_from_slice(&machine.pack());
    }
    reply.number()
}

/// Lays out a fresh area from descriptions of 5 bytes. Answers 0, or writes
/// nothing and answers 1 for wrong lengths, 6 for an illegal kind or word.
pub fn lay_out_on_bytes(area: &mut [u8], descriptions: &[u8]) -> u64 {
    let n = descriptions.len() / DESCRIPTION_LENGTH;
    let whole = descriptions.len() == n * DESCRIPTION_LENGTH;
    if !whole || !(1..=CELLS_AT_MOST).contains(&n) || area.len() != area_length(n) {
        return Refusal::NotWellFormed.code().into();
    }
    let values = read_descriptions(descriptions);
    let Some(machine) = values.and_then(|values| Machine::fresh(&values)) else {
        return Refusal::IllegalValue.code().into();
    };
    area.copy_from_slice(&machine.pack());
    0
}

impl Machine {
    /// The area's bytes.
    pub fn pack(&self) -> Vec<u8> {
        let n = self.cells.len();
        let cells = (0..).zip(&self.cells).map(|(number, cell)| CellRecord {
            kind: cell.value.kind().number(),
            holder: self.holder(number),
            word: cell.value.word(),
            stamp: cell.stamp,
        });
        let record = AreaRecord {
            version: 1,
            length: area_length(n) as u32,
            n: n as u8,
            clock: self.clock,
            cells: cells.collect(),
            slots: std::array::from_fn(|place| pack_slot(self.slots[place].as_ref())),
        };
        record.encode()
    }

    /// The machine of these bytes; there is one exactly if they are well formed.
    pub fn unpack(bytes: &[u8]) -> Option<Machine> {
        let area = well_formed_record(bytes)?;
        let mut slots: [Option<Transaction>; SLOTS] = Default::default();
        for (slot, record) in slots.iter_mut().zip(&area.slots) {
            *slot = unpack_slot(&area, record)?;
        }
        Some(Machine {
            clock: area.clock,
            cells: area.cells.iter().map(unpack_cell).collect::<Option<_>>()?,
            slots,
        })
    }
}

fn pack_slot(slot: Option<&Transaction>) -> SlotRecord {
    let Some(transaction) = slot else {
        return SlotRecord::default();
    };
    let (phase, taken) = pack_phase(transaction.phase);
    let commit = transaction.commit();
    let mut record = SlotRecord {
        phase,
        ignoring: commit.map_or(0, |commit| u8::from(commit.ignoring)),
        taken: taken as u8,
        read_count: transaction.reads.len() as u8,
        write_count: transaction.writes.len() as u8,
        start: transaction.start,
        commit_stamp: commit.map_or(0, |commit| commit.stamp),
        ..SlotRecord::default()
    };
    for (entry, read) in record.reads.iter_mut().zip(&transaction.reads) {
        *entry =
            ReadRecord { cell: read.cell, mark: u8::from(read.marked), word: read.value.word() };
    }
    for (entry, write) in record.writes.iter_mut().zip(&transaction.writes) {
        *entry = WriteRecord { cell: write.cell, word: write.value.word() };
    }
    record
}

/// The phase's number and its "taken".
fn pack_phase(phase: Phase) -> (u8, usize) {
    match phase {
        Phase::Open => (1, 0),
        Phase::Locking { taken } => (2, taken),
        Phase::Twilight(_) => (3, 0),
        Phase::Publishing { published, .. } => (4, published),
    }
}

fn unpack_cell(record: &CellRecord) -> Option<Cell> {
    Some(Cell { value: Value::described(record.kind, record.word)?, stamp: record.stamp })
}

fn unpack_slot(area: &AreaRecord, record: &SlotRecord) -> Option<Option<Transaction>> {
    let Some(phase) = unpack_phase(record) else {
        return Some(None);
    };
    // Kinds of log words are those of the cells.
    let value = |cell: u8, word: u32| {
        let shared = area.cells.get(usize::from(cell))?;
        Value::described(shared.kind, word)
    };
    let read = |entry: &ReadRecord| {
        Some(Read {
            cell: entry.cell,
            value: value(entry.cell, entry.word)?,
            marked: entry.mark == 1,
        })
    };
    let write = |entry: &WriteRecord| {
        Some(Write { cell: entry.cell, value: value(entry.cell, entry.word)? })
    };
    Some(Some(Transaction {
        start: record.start,
        reads: record.used_reads().map(read).collect::<Option<_>>()?,
        writes: record.used_writes().map(write).collect::<Option<_>>()?,
        phase,
    }))
}

/// None if the slot is idle.
fn unpack_phase(record: &SlotRecord) -> Option<Phase> {
    let taken = usize::from(record.taken);
    let commit = Commit { stamp: record.commit_stamp, ignoring: record.ignoring == 1 };
    match record.phase {
        1 => Some(Phase::Open),
        2 => Some(Phase::Locking { taken }),
        3 => Some(Phase::Twilight(commit)),
        4 => Some(Phase::Publishing { commit, published: taken }),
        _ => None,
    }
}
