//! What the calls of the wear task have reached.

use std::collections::BTreeMap;

use crate::counts::{rarest, Count};
use crate::inplace::view::{u32_at, CellBytes, CELL_WORD};
use crate::machine::{Machine, Transaction};
use crate::record::HEADER_LENGTH;
use crate::wear::GROUPS_AT_MOST;
use crate::wear_set::{reasons, REASON_COUNT};

/// The codes that there are, in the order in which they are tested.
const CODES: [(u8, u64); 9] = [
    (0, 2000),
    (1, 4000),
    (32, 2500),
    (3, 800),
    (4, 1500),
    (14, 4000),
    (10, 500),
    (33, 300),
    (34, 1000),
];

/// The least counts of bad sets, one for each reason.
const BAD_SETS: [u64; REASON_COUNT] = [340, 170, 230, 250, 380, 330];

/// Counts of the operations that were answered alike.
#[derive(Clone, Debug, Default)]
pub struct WearTally {
    codes: BTreeMap<u8, u64>,
    /// Code 32 where no other reason applies, for each reason: a library that
    /// misses the one is seen by nothing else.
    bad_sets: BTreeMap<&'static str, u64>,
    /// Code 14 and code 10 at each place of a set.
    held_reads: [u64; Transaction::LOG_ROOM],
    newer_reads: [u64; Transaction::LOG_ROOM],
    /// Code 33 for each group.
    negatives: [u64; GROUPS_AT_MOST],
    negatives_of_unusable: u64,
    /// Code 34 though a group is usable: it has the last count.
    worn_out: u64,
    picks: [u64; GROUPS_AT_MOST],
    ties: u64,
    unusable_with_fewer: u64,
    /// Commits of tasks that levelled and wrote nothing but the count.
    commits: u64,
    /// Those that ignored marks, all on other cells than the count's.
    commits_with_marks: u64,
    /// Those after code 15, with the count written anew.
    repaired: u64,
    /// Code 15 where the count that levelling wrote is among the marked cells.
    marked_counts: u64,
    /// Areas that have no other fault than an update lost.
    pub lost: u64,
}

impl WearTally {
    pub fn calls(&self) -> u64 {
        self.codes.values().sum()
    }

    pub fn note(&mut self, before: &[u8], set: &[u8], number: u64) {
        let (place, code) = ((number >> 48) as usize, (number >> 40) as u8);
        *self.codes.entry(code).or_default() += 1;
        match code {
            0 => self.note_pick(&groups_of(before, set), number as u32 as usize),
            32 => self.note_bad_set(before, set),
            14 => self.held_reads[place] += 1,
            10 => self.newer_reads[place] += 1,
            33 => {
                self.negatives[place / 2] += 1;
                let (usable, _) = groups_of(before, set)[place / 2];
                self.negatives_of_unusable += u64::from(!usable);
            }
            34 => {
                let some_usable = groups_of(before, set).iter().any(|(usable, _)| *usable);
                self.worn_out += u64::from(some_usable);
            }
            _ => {}
        }
    }

    fn note_bad_set(&mut self, before: &[u8], set: &[u8]) {
        // The area is well formed, or the code would be 1.
        let machine = Machine::unpack(before);
        let faults = machine.map_or_else(Vec::new, |machine| machine.wear_set_faults(set));
        if let [only] = faults[..] {
            *self.bad_sets.entry(only).or_default() += 1;
        }
    }

    fn note_pick(&mut self, groups: &[(bool, u32)], picked: usize) {
        self.picks[picked] += 1;
        let (_, fewest) = groups[picked];
        self.ties += u64::from(groups[picked + 1..].contains(&(true, fewest)));
        let fewer = groups.iter().any(|(usable, erases)| !usable && *erases < fewest);
        self.unusable_with_fewer += u64::from(fewer);
    }

    /// A transaction that levelled and wrote nothing else has committed, with
    /// marks or not, after code 15 or not.
    pub fn note_commit(&mut self, marked: bool, repaired: bool) {
        self.commits += 1;
        self.commits_with_marks += u64::from(marked);
        self.repaired += u64::from(repaired);
    }

    /// A transaction that levelled may not ignore the mark on its count.
    pub fn note_marked_count(&mut self) {
        self.marked_counts += 1;
    }

    pub(super) fn counts(&self) -> Vec<Count> {
        let mut counts: Vec<Count> = Vec::new();
        for (code, least) in CODES {
            let count = self.codes.get(&code).copied().unwrap_or(0);
            counts.push((format!("wear code {code}"), count, least));
        }
        for (reason, least) in reasons().zip(BAD_SETS) {
            let count = self.bad_sets.get(reason).copied().unwrap_or(0);
            counts.push((format!("wear code 32 for this alone: {reason}"), count, least));
        }
        let named = [
            ("wear code 14 at the place with fewest of them", rarest(&self.held_reads), 10),
            ("wear code 10 at the place with fewest of them", rarest(&self.newer_reads), 2),
            ("wear code 33 at the place with fewest of them", rarest(&self.negatives), 6),
            ("wear code 33 for a group that is not usable", self.negatives_of_unusable, 80),
            ("wear code 34 with a usable group at the last count", self.worn_out, 300),
            ("picks of a group above 0", self.picks[1..].iter().sum(), 1000),
            ("picks of the group with fewest of them", rarest(&self.picks), 20),
            ("picks on a tie", self.ties, 400),
            ("picks beside an unusable group with fewer erases", self.unusable_with_fewer, 250),
            ("commits of tasks that levelled alone", self.commits, 250),
            ("commits of tasks that levelled alone, marks ignored", self.commits_with_marks, 8),
            ("commits of tasks that levelled alone, repaired after 15", self.repaired, 6),
            ("code 15 of tasks that levelled, the count is marked", self.marked_counts, 35),
            ("wear code 1 for this alone: an update is lost", self.lost, 500),
        ];
        counts.extend(named.map(|(name, count, least)| (name.to_string(), count, least)));
        counts
    }
}

/// Whether each group of a good set is usable, and its erases.
fn groups_of(area: &[u8], set: &[u8]) -> Vec<(bool, u32)> {
    let cells: &[CellBytes] = area[HEADER_LENGTH..].as_chunks().0;
    let word = |cell: u8| u32_at(&cells[usize::from(cell)], CELL_WORD);
    let pairs = set.as_chunks().0.iter();
    pairs.map(|[truth, erases]| (word(*truth) == 1, word(*erases))).collect()
}
