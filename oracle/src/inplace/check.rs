//! Whether a lent area is well formed, in one pass over the slots and one over
//! the cells, and without taking a copy of either.

use super::view::*;
use crate::machine::{Transaction, CELLS_AT_MOST, SLOTS};

pub fn well_formed(area: &Area) -> bool {
    let clock = u64::from_be_bytes(*area.clock);
    let mut due = [0; CELLS_AT_MOST];
    slots_are_good(area, clock, &mut due) && cells_are_good(area.cells, clock, &due)
}

/// Cells are gone through last: only then is it known who is due to hold them.
fn cells_are_good(cells: &[CellBytes], clock: u64, due: &[u8; CELLS_AT_MOST]) -> bool {
    cells.iter().zip(due).all(|(cell, holder)| {
        legal(cell[KIND], u32_at(cell, CELL_WORD))
            && cell[HOLDER] == *holder
            && u64_at(cell, CELL_STAMP) <= clock
    })
}

fn slots_are_good(area: &Area, clock: u64, due: &mut [u8; CELLS_AT_MOST]) -> bool {
    let mut commit_stamps = [0; SLOTS];
    for (place, slot) in area.slots.iter().enumerate() {
        if slot[PHASE] == 0 {
            if *slot != [0; size_of::<SlotBytes>()] {
                return false;
            }
            continue;
        }
        let commit_stamp = u64_at(slot, COMMIT_STAMP);
        let taken_before = commit_stamp != 0 && commit_stamps[..place].contains(&commit_stamp);
        commit_stamps[place] = commit_stamp;
        if taken_before
            || !numbers_are_good(slot, clock)
            || !logs_are_good(slot, area.cells)
            || !hold(slot, place as u8 + 1, due)
        {
            return false;
        }
    }
    true
}

/// The numbers of a slot that is not idle.
fn numbers_are_good(slot: &SlotBytes, clock: u64) -> bool {
    let (start, commit_stamp) = (u64_at(slot, START), u64_at(slot, COMMIT_STAMP));
    let (taken, write_count) = (slot[TAKEN], slot[WRITE_COUNT]);
    let room = Transaction::LOG_ROOM as u8;
    let entered = commit_stamp > start && commit_stamp <= clock;
    let by_phase = match slot[PHASE] {
        1 => taken == 0 && commit_stamp == 0,
        2 => taken <= write_count && commit_stamp == 0,
        3 => taken == 0 && entered,
        4 => taken < write_count && entered,
        _ => false,
    };
    by_phase && start <= clock && slot[READ_COUNT] <= room && write_count <= room
}

fn logs_are_good(slot: &SlotBytes, cells: &[CellBytes]) -> bool {
    let (reads, unused_reads) = read_entries(slot).split_at(slot[READ_COUNT].into());
    let (writes, unused_writes) = write_entries(slot).split_at(slot[WRITE_COUNT].into());
    let Some(some_mark) = good_reads(reads, cells) else {
        return false;
    };
    let flag_is_good = match slot[PHASE] {
        3 => slot[IGNORING] <= u8::from(some_mark),
        4 => slot[IGNORING] == u8::from(some_mark),
        _ => slot[IGNORING] == 0 && !some_mark,
    };
    // Only slots with the flag pay for the question whether an update is lost.
    flag_is_good
        && writes_are_good(writes, cells)
        && (slot[IGNORING] == 0 || marked_cells(reads) & written_cells(writes) == 0)
        && all_zero(unused_reads.as_flattened())
        && all_zero(unused_writes.as_flattened())
}

/// Whether some entry is marked; none if the entries are not good.
fn good_reads(reads: &[ReadBytes], cells: &[CellBytes]) -> Option<bool> {
    let mut seen = [false; CELLS_AT_MOST];
    let mut marks = 0;
    for read in reads {
        let number = usize::from(read[0]);
        let cell = cells.get(number)?;
        if seen[number] || !legal(cell[KIND], u32_at(read, READ_WORD)) {
            return None;
        }
        seen[number] = true;
        marks |= read[MARK];
    }
    (marks <= 1).then_some(marks == 1)
}

fn writes_are_good(writes: &[WriteBytes], cells: &[CellBytes]) -> bool {
    let mut least = 0;
    writes.iter().all(|write| {
        let above = write[0] >= least;
        least = write[0].saturating_add(1);
        let cell = cells.get(usize::from(write[0]));
        above && cell.is_some_and(|cell| legal(cell[KIND], u32_at(write, WRITE_WORD)))
    })
}

/// A bit for each cell whose entry is marked. The entries are good, so that
/// their cells are below 64.
pub fn marked_cells(reads: &[ReadBytes]) -> u64 {
    reads.iter().fold(0, |cells, read| cells | u64::from(read[MARK]) << read[0])
}

/// A bit for each cell of the entries, which are good, too.
pub fn written_cells(writes: &[WriteBytes]) -> u64 {
    writes.iter().fold(0, |cells, write| cells | 1 << write[0])
}

/// Every byte is looked at, which is quicker than to stop at the first that
/// is not zero: the compiler then takes many at a time.
fn all_zero(bytes: &[u8]) -> bool {
    bytes.iter().fold(0, |all, byte| all | byte) == 0
}

/// Notes the slot as due to hold the cells that its phase says. False if
/// another slot is due to hold one of them.
fn hold(slot: &SlotBytes, number: u8, due: &mut [u8; CELLS_AT_MOST]) -> bool {
    held(slot).iter().all(|write| {
        let holder = &mut due[usize::from(write[0])];
        let free = *holder == 0;
        *holder = number;
        free
    })
}

/// The entries of the write log whose cells the slot holds.
pub fn held(slot: &SlotBytes) -> &[WriteBytes] {
    let (taken, count) = (usize::from(slot[TAKEN]), usize::from(slot[WRITE_COUNT]));
    let writes = write_entries(slot);
    match slot[PHASE] {
        2 => &writes[..taken],
        3 => &writes[..count],
        4 => &writes[taken..count],
        _ => &[],
    }
}
