//! Tasks that read one half of the cells and write the other one, so that what
//! is marked stands below all that is written, or above it.

use crate::call::{Call, Step};
use crate::counting::{bare, bringing};
use crate::machine::{Machine, Phase, Write};
use crate::random::Random;
use crate::value::Kind;

/// One in so many steps of an open slot closes it.
const PATIENCE: u64 = 10;

impl Random {
    /// Even slots write the lower half of the cells, which odd slots read. There
    /// have to be two cells.
    pub(crate) fn call_apart(&mut self, machine: &Machine, slots: u8) -> Call {
        let slot = self.between(1, u64::from(slots)) as u8;
        match machine.slot(slot) {
            None => bare(Step::Begin, slot),
            Some(own) if own.phase == Phase::Open && !self.one_in(PATIENCE) => {
                let step = self.pick(&[Step::Read, Step::Write]).unwrap_or(Step::Read);
                let all = machine.cells().len();
                let lower = (step == Step::Write) == slot.is_multiple_of(2);
                let half = if lower { 0..all / 2 } else { all / 2..all };
                let cell = (half.start + self.place(half.len())) as u8;
                let value = self.value(Kind::Whole);
                bringing(step, slot, Write { cell, value })
            }
            Some(own) => self.call_to_commit(own, slot),
        }
    }
}
