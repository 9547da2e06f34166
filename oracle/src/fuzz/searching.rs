//! Cells looked for in write logs.

use super::flagged::end_holders;
use super::rounds::{Made, Round};
use crate::call::Step;
use crate::counting::bringing;
use crate::machine::{Machine, Phase, Read, Transaction, Write, SLOTS};
use crate::random::Random;

/// So many cells are looked for in one log.
const CELLS: usize = 8;

impl Round<'_> {
    /// Cells are read and written in an open slot, or updated in twilight, each
    /// with the log as it was.
    pub(super) fn cells_sought(&mut self) -> Made {
        let (machine, own, slot) = self.random.machine_that_wrote();
        let area = machine.pack();
        let is_open = own.phase == Phase::Open;
        let steps = if is_open { &[Step::Read, Step::Write][..] } else { &[Step::Update] };
        for _ in 0..CELLS {
            let cell = self.random.cell_near_the_ends(&machine, &own);
            let kind = machine.cells[usize::from(cell)].value.kind();
            for step in steps {
                let value = self.random.value(kind);
                self.step(&mut area.clone(), bringing(*step, slot, Write { cell, value }))?;
            }
        }
        Ok(())
    }
}

impl Random {
    /// A well-formed machine, with the transaction of a slot that is open or in
    /// twilight. Every second time its write log is full.
    fn machine_that_wrote(&mut self) -> (Machine, Transaction, u8) {
        let n = self.pick(&[17, 20, 64, 64]).unwrap_or(64);
        let mut machine = self.machine_with(n, Random::values);
        let place = self.place(SLOTS);
        machine.slots[place] = None;
        end_holders(&mut machine);
        let mut own = Transaction::begun(self.up_to(machine.clock));
        own.reads = self.logged(&machine, |cell, value| Read { cell, value, marked: false });
        let room = Transaction::LOG_ROOM as u64;
        let count = if self.one_in(2) { room } else { self.up_to(room) };
        own.writes = self.entries(&machine, count, |cell, value| Write { cell, value });
        own.writes.sort_by_key(|write| write.cell);
        if self.one_in(2) {
            self.set_twilight(&mut own, &machine);
        }
        machine.slots[place] = Some(own.clone());
        (machine, own, place as u8 + 1)
    }
}
