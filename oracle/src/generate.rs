//! Random values, calls, machines and sheets, for tests that compare.

use crate::binary::Sheet;
use crate::call::{Call, Step};
use crate::machine::{Cell, Commit, Machine, Phase, Read, Transaction, Write};
use crate::random::Random;
use crate::value::{Kind, Value};

/// Words at the edges of some kind.
const EDGE_WORDS: [u32; 10] = [
    0,
    1,
    2,
    0x7fff_ffff,
    0x8000_0000,
    0xffff_ffff,
    0x7f7f_ffff,
    0x7f80_0000,
    0xff7f_ffff,
    0xff80_0000,
];

/// How the transactions of a random walk behave.
#[derive(Clone, Copy, Debug)]
pub struct Habit {
    /// Slots 1 to this are in use.
    pub slots: u8,
    /// One in so many steps of an open slot closes it.
    pub patience: u64,
}

impl Random {
    /// A number of cells, often a small one, so that transactions meet.
    pub fn cell_count(&mut self) -> usize {
        self.pick(&[1, 2, 2, 3, 5, 17, 20, 64]).unwrap_or(1)
    }

    /// A habit: from one patient slot to eight hasty ones.
    pub fn habit(&mut self) -> Habit {
        Habit {
            slots: self.pick(&[1, 3, 5, 8]).unwrap_or(1),
            patience: self.pick(&[3, 8, 40]).unwrap_or(3),
        }
    }

    /// A legal value of this kind.
    pub fn value(&mut self, kind: Kind) -> Value {
        loop {
            let word = match kind {
                Kind::Truth => u32::from(self.one_in(2)),
                _ => self.junk_word(),
            };
            if let Some(value) = Value::from_word(kind, word) {
                return value;
            }
        }
    }

    /// Legal values for this many cells.
    pub fn values(&mut self, count: usize) -> Vec<Value> {
        let mut values = Vec::new();
        for _ in 0..count {
            let kind = self.pick(&Kind::ALL).unwrap_or(Kind::Whole);
            values.push(self.value(kind));
        }
        values
    }

    /// A call that is likely to be wrong in some way.
    pub fn junk_call(&mut self) -> Call {
        if self.one_in(8) {
            return Call {
                step: self.byte(),
                slot: self.byte(),
                cell: self.byte(),
                kind: self.byte(),
                word: self.word(),
            };
        }
        Call {
            step: self.up_to(15) as u8,
            slot: self.up_to(9) as u8,
            cell: self.up_to(65) as u8,
            kind: self.up_to(4) as u8,
            word: self.junk_word(),
        }
    }

    /// A call that most often suits the state of its slot.
    pub fn likely_call(&mut self, machine: &Machine, habit: Habit) -> Call {
        let junk = self.junk_call();
        if self.one_in(30) {
            return junk;
        }
        let slot = self.between(1, u64::from(habit.slots)) as u8;
        let own = machine.slot(slot);
        let step = self.likely_step(own, habit.patience);
        self.with_likely_arguments(machine, Call { step: step.number(), slot, ..junk })
    }

    /// The call with arguments that most often suit its step and its slot.
    pub fn with_likely_arguments(&mut self, machine: &Machine, mut call: Call) -> Call {
        let Some(step) = Step::numbered(call.step) else {
            return call;
        };
        if step.uses_cell() && !self.one_in(30) {
            call.cell = self.likely_cell(machine, machine.slot(call.slot), step);
        }
        if step.uses_value() && !self.one_in(10) {
            let cell = machine.cells().get(usize::from(call.cell));
            let value = self.value(cell.map_or(Kind::Whole, |cell| cell.value.kind()));
            (call.kind, call.word) = (value.kind().number(), value.word());
        }
        call
    }

    /// A machine that random steps from a fresh one have led to.
    pub fn reached(&mut self) -> Option<Machine> {
        let n = self.cell_count();
        let tasks = self.tasks();
        let mut machine = Machine::fresh(&self.values_for(tasks, n))?;
        for _ in 0..self.between(20, 120) {
            let call = self.call_of(tasks, &machine);
            machine.step(call);
        }
        Some(machine)
    }

    /// A well-formed machine, also such a one as no steps lead to.
    pub fn machine(&mut self) -> Machine {
        let n = self.cell_count();
        self.machine_with(n, Random::values)
    }

    /// Such a machine with so many cells, whose values are drawn by a function.
    pub fn machine_with(
        &mut self,
        n: usize,
        values: fn(&mut Random, usize) -> Vec<Value>,
    ) -> Machine {
        let edge = self.up_to(20);
        let clock = self.pick(&[edge, edge << 32, u64::MAX - edge, u64::MAX]).unwrap_or(0);
        let values = values(self, n);
        let cells = values.into_iter().map(|value| Cell { value, stamp: self.up_to(clock) });
        let mut machine = Machine { clock, cells: cells.collect(), slots: Default::default() };
        for place in 0..machine.slots.len() {
            let slot = self.transaction(&machine);
            machine.slots[place] = slot;
        }
        machine
    }

    /// A sheet whose steps make some sense, or none at all.
    pub fn sheet(&mut self) -> Option<Sheet> {
        let n = self.cell_count();
        let cells = self.values(n);
        let mut machine = Machine::fresh(&cells)?;
        let habit = self.habit();
        let sense = self.one_in(2);
        let mut calls = Vec::new();
        for _ in 0..self.up_to(80) {
            let call = if sense { self.likely_call(&machine, habit) } else { self.junk_call() };
            machine.step(call);
            calls.push(call);
        }
        Sheet::new(cells, calls).ok()
    }

    fn junk_word(&mut self) -> u32 {
        let edge = self.pick(&EDGE_WORDS).unwrap_or(0);
        let any = self.word();
        self.pick(&[edge, any, any >> 24]).unwrap_or(0)
    }

    fn likely_step(&mut self, own: Option<&Transaction>, patience: u64) -> Step {
        use Step::*;
        let Some(own) = own else {
            return Begin;
        };
        let steps: &[Step] = match own.phase {
            Phase::Open if self.one_in(patience) => &[Close, Close, Close, Close, GiveUp],
            Phase::Open => &[Read, Read, Write],
            Phase::Locking { .. } if self.one_in(20) => &[GiveUp],
            Phase::Locking { taken } if taken < own.writes.len() => &[Lock],
            Phase::Locking { .. } => &[Enter],
            Phase::Twilight(_) if self.one_in(20) => &[GiveUp],
            Phase::Twilight(_) => &[Reread, Update, Ask, Reload, Ignore, Finish, Finish],
            Phase::Publishing { .. } => &[Publish],
        };
        self.pick(steps).unwrap_or(Begin)
    }

    fn likely_cell(&mut self, machine: &Machine, own: Option<&Transaction>, step: Step) -> u8 {
        let logged: Vec<u8> = match (step, own) {
            (Step::Reread | Step::Ask, Some(own)) => own.reads.iter().map(|r| r.cell).collect(),
            (Step::Update, Some(own)) => own.writes.iter().map(|w| w.cell).collect(),
            _ => Vec::new(),
        };
        if logged.is_empty() || self.one_in(10) {
            return self.place(machine.cells().len()) as u8;
        }
        self.pick(&logged).unwrap_or(0)
    }

    /// What a slot may have beside the slots that are already there.
    fn transaction(&mut self, machine: &Machine) -> Option<Transaction> {
        if self.one_in(4) {
            return None;
        }
        let mut own = Transaction::begun(self.up_to(machine.clock));
        own.reads = self.logged(machine, |cell, value| Read { cell, value, marked: false });
        own.writes = self.logged(machine, |cell, value| Write { cell, value });
        own.writes.sort_by_key(|write| write.cell);
        match self.up_to(3) {
            0 => {}
            1 => self.set_locking(&mut own, machine),
            2 => self.set_twilight(&mut own, machine),
            _ => self.set_publishing(&mut own, machine),
        }
        Some(own)
    }

    /// Entries for some cells in any order, each cell at most once.
    pub(crate) fn logged<T>(&mut self, machine: &Machine, entry: fn(u8, Value) -> T) -> Vec<T> {
        let most = machine.cells.len().min(Transaction::LOG_ROOM) as u64;
        let count = if self.one_in(8) { most } else { self.up_to(most) };
        self.entries(machine, count, entry)
    }

    /// Entries for so many cells, which there have to be.
    pub(crate) fn entries<T>(
        &mut self,
        machine: &Machine,
        count: u64,
        entry: fn(u8, Value) -> T,
    ) -> Vec<T> {
        let mut left: Vec<u8> = (0..machine.cells.len() as u8).collect();
        let mut entries = Vec::new();
        for _ in 0..count {
            let cell = left.swap_remove(self.place(left.len()));
            let kind = machine.cells[usize::from(cell)].value.kind();
            entries.push(entry(cell, self.value(kind)));
        }
        entries
    }

    fn set_locking(&mut self, own: &mut Transaction, machine: &Machine) {
        let free = own.writes.iter().take_while(|write| machine.holder(write.cell) == 0);
        let taken = self.up_to(free.count() as u64) as usize;
        own.phase = Phase::Locking { taken };
    }

    pub(crate) fn set_twilight(&mut self, own: &mut Transaction, machine: &Machine) {
        let Some(stamp) = self.commit_stamp(own, machine) else {
            return;
        };
        own.writes.retain(|write| machine.holder(write.cell) == 0);
        self.set_marks(own);
        let may_ignore = own.some_mark() && !own.some_marked_written();
        let ignoring = may_ignore && self.one_in(2);
        own.phase = Phase::Twilight(Commit { stamp, ignoring });
    }

    fn set_publishing(&mut self, own: &mut Transaction, machine: &Machine) {
        let backwards = own.writes.iter().rev();
        let free = backwards.take_while(|write| machine.holder(write.cell) == 0).count();
        let stamp = self.commit_stamp(own, machine);
        let (Some(stamp), 1..) = (stamp, free) else {
            return;
        };
        self.set_marks(own);
        let writes: Vec<u8> = own.writes.iter().map(|write| write.cell).collect();
        for read in &mut own.reads {
            read.marked &= !writes.contains(&read.cell);
        }
        let ignoring = own.some_mark();
        let unpublished = self.between(1, free as u64) as usize;
        own.phase = Phase::Publishing {
            commit: Commit { stamp, ignoring },
            published: own.writes.len() - unpublished,
        };
    }

    fn set_marks(&mut self, own: &mut Transaction) {
        let rarity = self.between(1, 4);
        for read in &mut own.reads {
            read.marked = rarity > 1 && self.one_in(rarity);
        }
    }

    /// A commit stamp above start that no other slot has, if one is found.
    pub(crate) fn commit_stamp(&mut self, own: &Transaction, machine: &Machine) -> Option<u64> {
        let least = own.start.checked_add(1)?;
        let commits = machine.transactions().filter_map(|(_, other)| other.commit());
        let others: Vec<u64> = commits.map(|commit| commit.stamp).collect();
        let any = self.between(least, machine.clock);
        // Next to another one: a single wrong bit makes the two equal.
        let near = self.pick(&others).map_or(any, |other| other ^ 1);
        let stamp = self.pick(&[any, near])?;
        let fits = (least..=machine.clock).contains(&stamp) && !others.contains(&stamp);
        fits.then_some(stamp)
    }
}
