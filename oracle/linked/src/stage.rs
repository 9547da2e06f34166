//! Areas on which one slot, the subject, is about to make a step, and the others
//! are busy.

use std::ops::Range;

use oracle::machine::CELLS_AT_MOST;
use oracle::{Call, Machine, Step, Value};
use Step::*;

/// The slot that makes the step.
pub const SUBJECT: u8 = 8;

/// The cell that another slot publishes after the subject has read it: the
/// last of its reads, so that its mark is found last.
pub(crate) const STALE: u8 = 15;

/// A cell that another slot holds.
pub(crate) const HELD: u8 = 16;

/// Another one, of the same kind as the stale cell: read in its place, it takes
/// the check of the read log as long.
const HELD_LIKE_STALE: u8 = 18;

#[derive(Clone)]
pub(crate) struct Stage(pub Machine);

impl Stage {
    /// The others in their places, after the subject has begun and read these
    /// cells. It is idle if there are none.
    pub fn set(early_reads: Range<u8>) -> Option<Stage> {
        let mut stage = Stage::fresh(&usual_values())?;
        if !early_reads.is_empty() {
            stage = stage.then(Begin).each(Read, early_reads);
        }
        Some(stage.among_others())
    }

    /// The same, with a cell among the reads that another slot then holds: its
    /// mark, the only one, is on no cell that the subject can write.
    pub fn set_with_a_held_read() -> Option<Stage> {
        let begun = Stage::fresh(&usual_values())?.then(Begin);
        let held = HELD_LIKE_STALE..HELD_LIKE_STALE + 1;
        Some(begun.each(Read, 0..STALE).each(Read, held).among_others())
    }

    /// The subject has begun and read cells, slot 7 has published some, and all
    /// slots but the subject are open and hold nothing.
    pub fn among_open(
        early_reads: impl Iterator<Item = u8>,
        newer: impl Iterator<Item = u8> + Clone,
    ) -> Option<Stage> {
        let mut stage = Stage::fresh(&usual_values())?.then(Begin).each(Read, early_reads);
        stage.renew(7, newer);
        (1..SUBJECT).for_each(|slot| stage.fill_logs(slot, 16..32));
        Some(stage)
    }

    /// All slots but the subject have the flag set and publish, and the subject
    /// has read 16 cells that are newer. Slot 1 makes them so first. What slot 1
    /// itself then reads, slot 6 publishes or holds.
    pub fn among_flags() -> Option<Stage> {
        let mut stage = Stage::fresh(&usual_values())?;
        for slot in 2..=SUBJECT {
            stage.make(slot, Begin, 0);
            read_half(slot).for_each(|cell| stage.make(slot, Read, cell));
        }
        for cells in [0..16, 16..32] {
            stage.renew(1, cells);
        }
        (2..=5).for_each(|slot| stage.commit_and_keep_one(slot));
        stage.make(1, Begin, 0);
        read_half(1).take(15).chain([kept(6)]).for_each(|cell| stage.make(1, Read, cell));
        [6, 7, 1].into_iter().for_each(|slot| stage.commit_and_keep_one(slot));
        Some(stage)
    }

    /// The slot has read, and now writes 16 other cells, ignores its marks,
    /// commits, and publishes all cells but the last.
    pub fn commit_and_keep_one(&mut self, slot: u8) {
        write_half(slot).for_each(|cell| self.make(slot, Write, cell));
        self.make(slot, Write, kept(slot));
        self.make(slot, Close, 0);
        (0..16).for_each(|_| self.make(slot, Lock, 0));
        [Enter, Ignore, Finish].into_iter().for_each(|step| self.make(slot, step, 0));
        (0..15).for_each(|_| self.make(slot, Publish, 0));
    }

    /// The slot publishes these cells.
    fn renew(&mut self, slot: u8, cells: impl Iterator<Item = u8> + Clone) {
        self.make(slot, Begin, 0);
        cells.clone().for_each(|cell| self.make(slot, Write, cell));
        self.make(slot, Close, 0);
        cells.clone().for_each(|_| self.make(slot, Lock, 0));
        [Enter, Finish].into_iter().for_each(|step| self.make(slot, step, 0));
        cells.for_each(|_| self.make(slot, Publish, 0));
    }

    /// All slots idle.
    pub fn fresh(values: &[Value]) -> Option<Stage> {
        Machine::fresh(values).map(Stage)
    }

    /// The others have come to their places.
    pub fn among_others(mut self) -> Stage {
        self.renew(7, STALE..STALE + 1);
        for slot in 4..=7 {
            self.fill_logs(slot, 16..32);
        }
        for (slot, cells) in [(1, 16..32), (2, 32..48), (3, 48..64)] {
            self.fill_logs(slot, cells.clone());
            self.make(slot, Close, 0);
            cells.for_each(|_| self.make(slot, Lock, 0));
        }
        for (slot, step) in [(1, Enter), (2, Enter), (2, Finish)] {
            self.make(slot, step, 0);
        }
        self
    }

    fn fill_logs(&mut self, slot: u8, cells: Range<u8>) {
        self.make(slot, Begin, 0);
        for cell in cells {
            self.make(slot, Read, cell);
            self.make(slot, Write, cell);
        }
    }

    fn make(&mut self, slot: u8, step: Step, cell: u8) {
        let call = self.call(slot, step, cell);
        self.0.step(call);
    }

    /// A value that the step brings is one that suits the cell.
    pub fn call(&self, slot: u8, step: Step, cell: u8) -> Call {
        let value = self.0.cells()[usize::from(cell)].value;
        let (kind, word) = (value.kind().number(), value.word());
        Call { step: step.number(), slot, cell, kind, word }
    }

    /// The subject has made the step.
    pub fn then(&self, step: Step) -> Stage {
        self.times(step, 1)
    }

    pub fn times(&self, step: Step, times: u8) -> Stage {
        let mut next = self.clone();
        (0..times).for_each(|_| next.make(SUBJECT, step, 0));
        next
    }

    /// The subject has made the step on each of these cells.
    pub fn each(&self, step: Step, cells: impl Iterator<Item = u8>) -> Stage {
        let mut next = self.clone();
        cells.for_each(|cell| next.make(SUBJECT, step, cell));
        next
    }

    /// The subject has written to all cells that are left to it, and locked.
    pub fn locked(&self) -> Stage {
        self.each(Write, 0..16).with_locks()
    }

    /// The subject, with a full write log, has taken all its cells.
    pub fn with_locks(&self) -> Stage {
        self.then(Close).times(Lock, 16)
    }

    pub fn entered(&self) -> Stage {
        self.locked().then(Enter)
    }

    pub fn at_last_stamp(&self) -> Stage {
        let mut area = self.0.pack();
        area[6..14].fill(0xff);
        Machine::unpack(&area).map_or_else(|| self.clone(), Stage)
    }
}

/// What a slot reads: odd slots what even slots write, and the other way round.
fn read_half(slot: u8) -> Range<u8> {
    let from = 16 * (slot % 2);
    from..from + 16
}

/// 15 cells that the slot does not read.
fn write_half(slot: u8) -> Range<u8> {
    let from = 16 - 16 * (slot % 2);
    from..from + 15
}

/// The cell that a slot has left to publish.
fn kept(slot: u8) -> u8 {
    CELLS_AT_MOST as u8 - 1 - SUBJECT + slot
}

/// One of each kind in turn.
pub(crate) fn usual_values() -> Vec<Value> {
    let one_of_each = [Value::Truth(true), Value::Whole(1), Value::Real(f32::from_bits(1))];
    one_of_each.into_iter().cycle().take(CELLS_AT_MOST).collect()
}
