//! What the random sheets have reached of the effects that a trace shows, and of
//! the steps that it is silent of.

use crate::call::{Call, Reply, Step};
use crate::counts::Count;
use crate::machine::{Machine, Transaction};
use crate::trace::{Deed, Effect};

/// A step that was made.
pub(super) struct Made<'a> {
    pub call: Call,
    pub reply: Reply,
    pub effect: Option<&'a Effect>,
    /// The machine after it.
    pub machine: &'a Machine,
}

/// What is counted, the least count, and which steps it is.
type Sort = (&'static str, u64, fn(&Made) -> bool);

const SORTS: [Sort; 18] = [
    ("lines `at`", 20_000, |made| made.deed() == Some(&Deed::Begun)),
    ("lines `r`", 45_000, |made| matches!(made.deed(), Some(Deed::Read { .. }))),
    ("lines `rl`", 4_000, |made| made.deed() == Some(&Deed::Reloaded)),
    ("lines `co`", 10_000, |made| made.commit().is_some()),
    ("lines `ab`", 7_000, |made| made.deed() == Some(&Deed::Aborted)),
    ("lines of a transaction above 99", 6_500, |made| {
        made.effect.is_some_and(|effect| effect.transaction > 99)
    }),
    ("`co` of no cell", 4_500, |made| made.written() == Some(0)),
    ("`co` of 1 cell", 3_500, |made| made.written() == Some(1)),
    ("`co` of 16 cells", 80, |made| made.written() == Some(Transaction::LOG_ROOM)),
    ("`co` of a cell below 10 and of one above", 800, |made| {
        made.commit().is_some_and(|(_, cells)| cells.first() < Some(&10) && cells.last() > Some(&9))
    }),
    ("`co` with a stamp above 99", 500, |made| made.commit().is_some_and(|(stamp, _)| stamp > 99)),
    ("`co` with a stamp below the clock", 2_500, |made| {
        made.commit().is_some_and(|(stamp, _)| stamp < made.machine.clock())
    }),
    ("`ab` for give up", 6_000, |made| made.is_accepted(Step::GiveUp)),
    ("`ab` for outcome 13", 700, |made| made.reply == Reply::Ended),
    ("begins refused, no line", 230, |made| made.is_refused_silently(Step::Begin)),
    ("reloads refused, no line", 900, |made| made.is_refused_silently(Step::Reload)),
    ("reads from the write log, no line", 20_000, |made| made.is_logged_read(true)),
    ("reads from the read log, no line", 12_000, |made| made.is_logged_read(false)),
];

impl Made<'_> {
    fn deed(&self) -> Option<&Deed> {
        self.effect.map(|effect| &effect.deed)
    }

    fn commit(&self) -> Option<(u64, &[u8])> {
        match self.deed() {
            Some(Deed::Committed { stamp, cells }) => Some((*stamp, cells)),
            _ => None,
        }
    }

    fn written(&self) -> Option<usize> {
        self.commit().map(|(_, cells)| cells.len())
    }

    fn is_refused_silently(&self, step: Step) -> bool {
        self.call.step == step.number() && self.reply.is_refused() && self.effect.is_none()
    }

    fn is_accepted(&self, step: Step) -> bool {
        self.call.step == step.number() && !self.reply.is_refused()
    }

    /// Such a read leaves the logs as they were.
    fn is_logged_read(&self, written: bool) -> bool {
        let own = self.machine.slot(self.call.slot);
        let is_written = own.and_then(|own| own.write_of(self.call.cell)).is_some();
        self.is_accepted(Step::Read) && self.effect.is_none() && is_written == written
    }
}

/// Counts of lines and of steps without one.
#[derive(Clone, Debug, Default)]
pub(super) struct Effects {
    counts: [u64; SORTS.len()],
}

impl Effects {
    pub fn note(&mut self, made: &Made) {
        for (count, (_, _, is_such)) in self.counts.iter_mut().zip(SORTS) {
            *count += u64::from(is_such(made));
        }
    }

    pub fn counts(&self) -> Vec<Count> {
        let sorts = SORTS.iter().zip(self.counts);
        sorts.map(|((name, least, _), count)| (name.to_string(), count, *least)).collect()
    }
}
