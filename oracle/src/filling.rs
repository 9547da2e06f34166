//! Tasks that fill their write logs, and look for cells in them: with likely
//! steps alone few transactions that write as much as a log has room for come to
//! their commit.

use crate::call::{Call, Step};
use crate::machine::{Machine, Phase, Transaction};
use crate::random::Random;

/// One in so many steps of an open slot closes it with what it has.
const PATIENCE: u64 = 60;

/// One in so many steps goes on where no more is to be added: the log is full, or
/// the slot is in twilight.
const PATIENCE_WHEN_FILLED: u64 = 6;

impl Random {
    /// A slot writes until its log is full, reads now and then, looks for cells
    /// in the log, and goes on to its commit.
    pub(crate) fn filling_call(&mut self, machine: &Machine, slots: u8) -> Call {
        let slot = self.between(1, u64::from(slots)) as u8;
        let call = |step: Step| Call { step: step.number(), slot, ..Call::default() };
        let Some(own) = machine.slot(slot) else {
            return call(Step::Begin);
        };
        let fills = own.phase == Phase::Open && own.writes.len() < Transaction::LOG_ROOM;
        let patience = if fills { PATIENCE } else { PATIENCE_WHEN_FILLED };
        let steps: &[Step] = match own.phase {
            Phase::Open if fills => &[Step::Read, Step::Write, Step::Write, Step::Write],
            Phase::Open => &[Step::Read, Step::Write],
            Phase::Twilight(_) => &[Step::Update],
            _ => &[],
        };
        let step = self.pick(steps).filter(|_| !self.one_in(patience));
        let Some(step) = step else {
            return self.call_to_commit(own, slot);
        };
        let likely = self.with_likely_arguments(machine, call(step));
        let cell = if fills { likely.cell } else { self.cell_near_the_ends(machine, own) };
        Call { cell, ..likely }
    }

    /// Four times in six the lowest cell of a write log, the highest, or one next
    /// to them outside of it; else any cell.
    pub(crate) fn cell_near_the_ends(&mut self, machine: &Machine, own: &Transaction) -> u8 {
        let last = machine.cells().len() as u8 - 1;
        let any = self.up_to(last.into()) as u8;
        let ends = own.writes.first().zip(own.writes.last());
        let near = ends.map(|(lowest, highest)| {
            let (lowest, highest) = (lowest.cell, highest.cell);
            [lowest.saturating_sub(1), lowest, highest, last.min(highest + 1), any, any]
        });
        self.pick(&near.unwrap_or([any; 6])).unwrap_or(any)
    }
}
