//! Slots with marks: those that may ignore them, those that may not, and areas
//! with the flag set where it may not be, which is their only fault.

use super::rounds::{Made, Round};
use crate::call::{Call, Step};
use crate::machine::{Commit, Machine, Phase, Read, Transaction, Write, SLOTS};
use crate::random::Random;
use crate::wellformed::{faults, NO_UPDATE_LOST};

/// Where the written cell stands whose mark the flag is on.
#[derive(Clone, Copy)]
pub enum Lost {
    Twilight,
    Publishing,
    Published,
}

impl Lost {
    pub const ALL: [Lost; 3] = [Lost::Twilight, Lost::Publishing, Lost::Published];

    pub fn name(self) -> &'static str {
        match self {
            Lost::Twilight => "in twilight",
            Lost::Publishing => "in publishing",
            Lost::Published => "in publishing, the cell is published already",
        }
    }
}

impl Round<'_> {
    /// Steps on an area with the flag set, on the same with a mark where it may
    /// not be, and on both without the flag.
    pub(super) fn flagged(&mut self) -> Made {
        let (machine, place) = self.random.machine_that_ignores();
        if machine.slots[place].as_ref().is_some_and(Transaction::is_full_and_ignoring) {
            self.tally.note_full_and_ignoring();
        }
        let mut call = self.any_call(&machine);
        self.step(&mut machine.pack(), call)?;
        call.slot = place as u8 + 1;
        self.step(&mut machine.pack(), call)?;
        self.step(&mut machine.pack(), ignore(place))?;
        self.without_flag(machine.clone(), place, call)?;
        let Some((losing, lost)) = self.random.losing(machine, place) else {
            return Ok(());
        };
        self.tally.note_lost(lost);
        self.spoilt(losing.pack(), call)?;
        self.without_flag(losing, place, call)
    }

    /// In twilight it is not yet set, and ignore would set it. In publishing it
    /// is missing, for there a mark requires it, and nothing else is at fault.
    fn without_flag(&mut self, mut machine: Machine, place: usize, call: Call) -> Made {
        match machine.slots[place].as_mut().map(|own| &mut own.phase) {
            Some(Phase::Twilight(commit)) => {
                commit.ignoring = false;
                self.step(&mut machine.pack(), ignore(place))
            }
            Some(Phase::Publishing { commit, .. }) => {
                commit.ignoring = false;
                self.spoilt(machine.pack(), call)
            }
            _ => Ok(()),
        }
    }
}

/// No slot is left that holds a cell.
pub(super) fn end_holders(machine: &mut Machine) {
    for slot in &mut machine.slots {
        if slot.as_ref().is_some_and(|other| other.held().next().is_some()) {
            *slot = None;
        }
    }
}

fn ignore(place: usize) -> Call {
    Call { step: Step::Ignore.number(), slot: place as u8 + 1, ..Call::default() }
}

impl Random {
    /// A well-formed machine with the flag set in the slot at this place.
    pub(super) fn machine_that_ignores(&mut self) -> (Machine, usize) {
        loop {
            let n = self.pick(&[2, 3, 5, 17, 20, 32, 33, 64]).unwrap_or(64);
            let mut machine = self.machine_with(n, Random::values);
            let place = self.place(SLOTS);
            machine.slots[place] = None;
            if let Some(own) = self.ignoring(&mut machine) {
                machine.slots[place] = Some(own);
                return (machine, place);
            }
        }
    }

    /// A transaction with the flag set, in twilight or publishing, if one is
    /// found that suits the other slots. At times all that it has read is marked,
    /// and it writes as many cells.
    fn ignoring(&mut self, machine: &mut Machine) -> Option<Transaction> {
        let mut own = Transaction::begun(self.up_to(machine.clock));
        let stamp = self.commit_stamp(&own, machine)?;
        if self.one_in(3) {
            self.fill_logs_apart(&mut own, machine);
        } else {
            own.reads = self.logged(machine, |cell, value| Read { cell, value, marked: false });
            own.writes = self.logged(machine, |cell, value| Write { cell, value });
            own.writes.retain(|write| machine.holder(write.cell) == 0);
            let writes: Vec<u8> = own.writes.iter().map(|write| write.cell).collect();
            for read in &mut own.reads {
                read.marked = !writes.contains(&read.cell) && self.one_in(2);
            }
        }
        own.writes.sort_by_key(|write| write.cell);
        let commit = Commit { stamp, ignoring: true };
        let unpublished = own.writes.len().checked_sub(1)?;
        own.phase = match self.up_to(1) {
            0 => Phase::Twilight(commit),
            _ => Phase::Publishing { commit, published: self.up_to(unpublished as u64) as usize },
        };
        own.some_mark().then_some(own)
    }

    /// Half of the cells are read and half are written, or 16. Who holds a cell
    /// has to go.
    fn fill_logs_apart(&mut self, own: &mut Transaction, machine: &mut Machine) {
        end_holders(machine);
        let mut left: Vec<u8> = (0..machine.cells.len() as u8).collect();
        for _ in 0..(left.len() / 2).min(Transaction::LOG_ROOM) {
            let [read, written] = [(); 2].map(|()| left.swap_remove(self.place(left.len())));
            let value = |cell: u8| machine.cells[usize::from(cell)].value;
            own.reads.push(Read { cell: read, value: value(read), marked: true });
            own.writes.push(Write { cell: written, value: value(written) });
        }
    }

    /// The same machine with a mark on a cell that is written, and sometimes on
    /// no other. It has no other fault.
    pub(super) fn losing(&mut self, mut machine: Machine, place: usize) -> Option<(Machine, Lost)> {
        let own = machine.slots[place].as_mut()?;
        let at = self.place(own.writes.len());
        let Write { cell, value } = *own.writes.get(at)?;
        let lost = match own.phase {
            Phase::Publishing { published, .. } if at < published => Lost::Published,
            Phase::Publishing { .. } => Lost::Publishing,
            _ => Lost::Twilight,
        };
        if self.one_in(2) {
            own.reads.iter_mut().for_each(|read| read.marked = false);
        }
        let any = self.place(own.reads.len());
        let entry = own.reads.iter().position(|read| read.cell == cell).unwrap_or(any);
        own.reads[entry] = Read { cell, value, marked: true };
        (faults(&machine.pack()) == [NO_UPDATE_LOST]).then_some((machine, lost))
    }
}
