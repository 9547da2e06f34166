//! Tasks that count up: each reads some cells and writes some of their
//! values plus one. What is marked at enter is ignored, reloaded or given up,
//! and what was reloaded is written anew.

use crate::call::{Call, Step};
use crate::generate::Habit;
use crate::machine::{Machine, Phase, Transaction, Write};
use crate::random::Random;
use crate::value::{Kind, Value};

/// What the tasks of a random walk do.
#[derive(Clone, Copy, Debug)]
pub enum Tasks {
    /// Likely steps, and wrong ones among them.
    Any(Habit),
    /// They count up.
    CountUp {
        /// Slots 1 to this are in use.
        slots: u8,
    },
    /// They write as many cells as a log has room for.
    FillLogs {
        /// Slots 1 to this are in use.
        slots: u8,
    },
    /// They write other cells than they read.
    Apart {
        /// Slots 1 to this are in use.
        slots: u8,
    },
}

impl Random {
    /// Tasks of one walk; those of one walk in three count up.
    pub fn tasks(&mut self) -> Tasks {
        let habit = self.habit();
        match self.up_to(2) {
            0 => Tasks::CountUp { slots: habit.slots.max(2) },
            _ => Tasks::Any(habit),
        }
    }

    /// Values for so many cells: of all kinds for likely steps, else wholes.
    pub fn values_for(&mut self, tasks: Tasks, count: usize) -> Vec<Value> {
        match tasks {
            Tasks::Any(_) => self.values(count),
            Tasks::CountUp { .. } | Tasks::FillLogs { .. } | Tasks::Apart { .. } => {
                (0..count).map(|_| self.value(Kind::Whole)).collect()
            }
        }
    }

    /// The next call of one of the tasks.
    pub fn call_of(&mut self, tasks: Tasks, machine: &Machine) -> Call {
        match tasks {
            Tasks::Any(habit) => self.likely_call(machine, habit),
            Tasks::CountUp { slots } => self.counting_call(machine, slots),
            Tasks::FillLogs { slots } => self.filling_call(machine, slots),
            Tasks::Apart { slots } => self.call_apart(machine, slots),
        }
    }

    /// Every slot counts up every second cell that it reads, even slots the even
    /// ones: what one only reads another one counts up.
    fn counting_call(&mut self, machine: &Machine, slots: u8) -> Call {
        let slot = self.between(1, u64::from(slots)) as u8;
        match machine.slot(slot) {
            None => bare(Step::Begin, slot),
            Some(own) if own.phase == Phase::Open => self.counting_open(machine, own, slot),
            Some(own) => self.call_to_commit(own, slot),
        }
    }

    fn counting_open(&mut self, machine: &Machine, own: &Transaction, slot: u8) -> Call {
        let mut counted = own.reads.iter().filter(|read| read.cell % 2 == slot % 2);
        let missing = counted.find(|read| own.write_of(read.cell).is_none());
        match missing.and_then(|read| counted_up(own, read.cell)) {
            Some(next) => bringing(Step::Write, slot, next),
            None if own.reads.is_empty() || !self.one_in(3) => {
                let cell = self.place(machine.cells().len()) as u8;
                Call { cell, ..bare(Step::Read, slot) }
            }
            None if self.one_in(12) => bare(Step::GiveUp, slot),
            None => bare(Step::Close, slot),
        }
    }

    /// The next step towards the commit of what was counted up. Marks are
    /// ignored, reloaded or left, and what was reloaded is counted up again.
    pub fn call_to_commit(&mut self, own: &Transaction, slot: u8) -> Call {
        use Step::*;
        match own.phase {
            Phase::Open => bare(Close, slot),
            Phase::Locking { taken } if taken == own.writes.len() => bare(Enter, slot),
            Phase::Locking { .. } if self.one_in(20) => bare(GiveUp, slot),
            Phase::Locking { .. } => bare(Lock, slot),
            Phase::Twilight(commit) if own.some_mark() && !commit.ignoring => {
                let steps = [Ignore, Ignore, Reload, Reload, Finish, GiveUp];
                bare(self.pick(&steps).unwrap_or(Ignore), slot)
            }
            Phase::Twilight(_) if self.one_in(12) => bare(Ignore, slot),
            Phase::Twilight(_) => {
                let mut next = own.writes.iter().filter_map(|write| counted_up(own, write.cell));
                let wrong = next.find(|next| !own.writes.contains(next));
                wrong.map_or(bare(Finish, slot), |next| bringing(Update, slot, next))
            }
            Phase::Publishing { .. } => bare(Publish, slot),
        }
    }
}

/// What is to be written after the whole number that was read of a cell.
fn counted_up(own: &Transaction, cell: u8) -> Option<Write> {
    match own.read_of(cell)?.value {
        Value::Whole(read) => Some(Write { cell, value: Value::Whole(read.wrapping_add(1)) }),
        _ => None,
    }
}

/// A call of a step that needs its slot alone.
pub(crate) fn bare(step: Step, slot: u8) -> Call {
    Call { step: step.number(), slot, ..Call::default() }
}

/// A call of the step with the cell and the value of an entry.
pub(crate) fn bringing(step: Step, slot: u8, entry: Write) -> Call {
    let (kind, word) = (entry.value.kind().number(), entry.value.word());
    Call { step: step.number(), slot, cell: entry.cell, kind, word }
}
