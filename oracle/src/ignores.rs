//! What the steps ignore and finish have met of marked and of written cells, for
//! the tallies of what a comparison has reached.

use crate::call::{Call, Reply, Step};
use crate::counts::Count;
use crate::machine::{Machine, Read, Transaction, Write, SLOTS};

/// How many counts there are, and so how many least ones.
pub(crate) const COUNTED: usize = 11;

/// Counts of ignores, and of commits with the flag.
#[derive(Clone, Debug, Default)]
pub(crate) struct Ignores {
    set_the_flag: u64,
    /// Code 15 because of one cell, though several are marked. A library that
    /// looks at the first or the last entry of a log alone is seen only where
    /// the cell stands elsewhere, and where it stands just there.
    one_of_several: u64,
    first_read: u64,
    last_read: u64,
    first_write: u64,
    last_write: u64,
    /// The flag is set though a cell that was read and is not marked is
    /// written. A library that looks at all that was read refuses this.
    own_write_beside_marks: u64,
    again: u64,
    own_write_and_no_mark: u64,
    commits: u64,
    repairs: u64,
}

impl Ignores {
    /// Whether a call of this step is one to be noted.
    pub fn is_about(step: u8) -> bool {
        [Step::Ignore, Step::Finish].iter().any(|about| about.number() == step)
    }

    /// Notes a reply by its code, with the machine before the call.
    pub fn note(&mut self, before: &Machine, call: Call, code: u8) {
        let Some(own) = before.slot(call.slot) else {
            return;
        };
        let ignoring = own.commit().is_some_and(|commit| commit.ignoring);
        let own_write = own.reads.iter().any(|read| own.write_of(read.cell).is_some());
        match (Step::numbered(call.step), code) {
            (Some(Step::Ignore), 15) => self.note_refused(own),
            (Some(Step::Ignore), 0) if ignoring => self.again += 1,
            (Some(Step::Ignore), 0) if own.some_mark() => {
                self.set_the_flag += 1;
                self.own_write_beside_marks += u64::from(own_write);
            }
            (Some(Step::Ignore), 0) if own_write => self.own_write_and_no_mark += 1,
            (Some(Step::Finish), 0) if own_write && ignoring => self.commits += 1,
            _ => {}
        }
    }

    fn note_refused(&mut self, own: &Transaction) {
        let faults: Vec<u8> = own.marked_written().collect();
        let ([cell], 2..) = (&faults[..], own.marked().count()) else {
            return;
        };
        self.one_of_several += 1;
        let read = |entry: Option<&Read>| entry.is_some_and(|read| read.cell == *cell);
        let write = |entry: Option<&Write>| entry.is_some_and(|write| write.cell == *cell);
        let several_writes = own.writes.len() > 1;
        self.first_read += u64::from(read(own.reads.first()));
        self.last_read += u64::from(read(own.reads.last()));
        self.first_write += u64::from(several_writes && write(own.writes.first()));
        self.last_write += u64::from(several_writes && write(own.writes.last()));
    }

    /// A transaction that got 15 has committed what it repaired.
    pub fn note_repair(&mut self) {
        self.repairs += 1;
    }

    /// The counts with these least ones, in this order.
    pub fn counts(&self, least: [u64; COUNTED]) -> Vec<Count> {
        let named: [(&str, u64); COUNTED] = [
            ("ignores that set the flag", self.set_the_flag),
            ("code 15, one of several marked cells is written", self.one_of_several),
            ("code 15, it is the first that was read", self.first_read),
            ("code 15, it is the last that was read", self.last_read),
            ("code 15, it is the lowest that is written", self.first_write),
            ("code 15, it is the highest that is written", self.last_write),
            ("ignores beside a cell in both logs, not marked", self.own_write_beside_marks),
            ("ignores with the flag set before", self.again),
            ("ignores with a cell in both logs and no mark", self.own_write_and_no_mark),
            ("commits with the flag and a cell in both logs", self.commits),
            ("code 15, then reload, update and commit", self.repairs),
        ];
        let counts = named.into_iter().zip(least);
        counts.map(|((name, count), least)| (name.to_string(), count, least)).collect()
    }
}

/// How far each slot has come with what to do after code 15.
#[derive(Clone, Debug, Default)]
pub(crate) struct Repairs {
    slots: [Repair; SLOTS],
}

#[derive(Clone, Debug, Default)]
enum Repair {
    #[default]
    Nothing,
    /// These cells are marked and written.
    Refused(Vec<u8>),
    Reloaded(Vec<u8>),
    Updated,
}

impl Repairs {
    /// Notes a step, and says whether a transaction has so committed: after 15
    /// it has reloaded, updated a cell that was marked and written, and finished.
    /// The machine is looked at after 15 alone, which changes nothing, so it is
    /// no matter whether this is the machine before or after.
    pub fn note(&mut self, machine: &Machine, call: Call, reply: Reply) -> bool {
        let place = usize::from(call.slot).wrapping_sub(1);
        let Some(repair) = self.slots.get_mut(place) else {
            return false;
        };
        let was = std::mem::take(repair);
        let done = reply.code() == 0;
        *repair = match (was, Step::numbered(call.step)) {
            (_, Some(Step::Ignore)) if reply.code() == 15 => {
                let own = machine.slot(call.slot);
                Repair::Refused(own.into_iter().flat_map(Transaction::marked_written).collect())
            }
            (Repair::Refused(cells), Some(Step::Reload)) if done => Repair::Reloaded(cells),
            (Repair::Reloaded(cells), Some(Step::Update)) if done && cells.contains(&call.cell) => {
                Repair::Updated
            }
            (Repair::Updated, Some(Step::Finish)) => return done,
            (_, Some(Step::Finish | Step::GiveUp)) if !reply.is_refused() => Repair::Nothing,
            (was, _) => was,
        };
        false
    }
}
