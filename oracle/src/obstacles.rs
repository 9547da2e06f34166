//! How often another slot was in the way of a step, for the tallies of what a
//! comparison has reached.

use crate::call::{Call, Step};
use crate::counts::{rarest, Count};
use crate::machine::{Machine, Transaction, SLOTS};

/// How many counts there are, and so how many least ones.
pub(crate) const COUNTED: usize = 9;

/// Counts of refusals that are due to a holder, or would be but for a lower
/// code.
#[derive(Clone, Debug, Default)]
pub(crate) struct Obstacles {
    locks: u64,
    reloads: u64,
    /// Reloads with several held cells in their read log. A library that names
    /// the lowest, the highest or the last of them is seen only where the first
    /// is another.
    first_not_lowest: u64,
    first_not_highest: u64,
    first_not_last: u64,
    held_and_newer: u64,
    held_and_log_full: u64,
    /// Code 14 with each slot as the holder.
    holders_of_reads: [u64; SLOTS],
    /// Code 11 likewise.
    holders_of_others: [u64; SLOTS],
}

impl Obstacles {
    /// Whether a call with this code is one to be noted.
    pub fn is_about(code: u8) -> bool {
        [9, 11, 14].contains(&code)
    }

    /// Notes a reply by its number. A refused call leaves the machine as it
    /// was, so it is no matter whether this is the machine before or after.
    pub fn note(&mut self, machine: &Machine, call: Call, number: u64) {
        let (code, cell, holder) = ((number >> 40) as u8, (number >> 8) as u8, number as u8);
        let Some(own) = machine.slot(call.slot) else {
            return;
        };
        match (code, Step::numbered(call.step)) {
            (9, Some(Step::Read)) => {
                let held = machine.other_holder(call.cell, call.slot).is_some();
                self.held_and_log_full += u64::from(held);
            }
            (11, step) => {
                self.holders_of_others[usize::from(holder) - 1] += 1;
                match step {
                    Some(Step::Lock) => self.locks += 1,
                    _ => self.note_reload(machine, own, call.slot, cell),
                }
            }
            (14, _) => {
                self.holders_of_reads[usize::from(holder) - 1] += 1;
                let stamp = machine.cells()[usize::from(call.cell)].stamp;
                self.held_and_newer += u64::from(stamp > own.start);
            }
            _ => {}
        }
    }

    fn note_reload(&mut self, machine: &Machine, own: &Transaction, slot: u8, first: u8) {
        let cells = own.reads.iter().map(|read| read.cell);
        let held = cells.filter(|cell| machine.other_holder(*cell, slot).is_some());
        let held: Vec<u8> = held.collect();
        self.reloads += 1;
        self.first_not_lowest += u64::from(held.iter().min() != Some(&first));
        self.first_not_highest += u64::from(held.iter().max() != Some(&first));
        self.first_not_last += u64::from(held.last() != Some(&first));
    }

    /// The counts with these least ones, in this order.
    pub fn counts(&self, least: [u64; COUNTED]) -> Vec<Count> {
        let named: [(&str, u64); COUNTED] = [
            ("code 11 of lock", self.locks),
            ("code 11 of reload", self.reloads),
            ("code 11 of reload, the first is not the lowest", self.first_not_lowest),
            ("code 11 of reload, the first is not the highest", self.first_not_highest),
            ("code 11 of reload, the first is not the last", self.first_not_last),
            ("code 14 of a cell that is newer, too", self.held_and_newer),
            ("code 9 of a read of a held cell", self.held_and_log_full),
            ("code 11 with the holder that is told least", rarest(&self.holders_of_others)),
            ("code 14 with the holder that is told least", rarest(&self.holders_of_reads)),
        ];
        let counts = named.into_iter().zip(least);
        counts.map(|((name, count), least)| (name.to_string(), count, least)).collect()
    }
}
