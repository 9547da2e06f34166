//! The commits of a walk, replayed one after the other in the order of their
//! stamps. If every commit saw the values of its place in that order and the
//! cells end with the values of the replay, the transactions were as good as
//! alone.

use std::collections::BTreeMap;

use oracle::Call;

use crate::peek::Peek;

/// The logs of a commit, by cell.
struct Entry {
    stamp: u64,
    ignoring: bool,
    reads: BTreeMap<usize, u32>,
    writes: BTreeMap<usize, u32>,
}

/// Commits are noted from the bytes, also where a wrong step has left what is not
/// well formed.
pub struct Ledger {
    words: Vec<u32>,
    commits: Vec<Entry>,
}

impl Ledger {
    pub fn new(area: &Peek) -> Ledger {
        Ledger { words: words_of(area), commits: Vec::new() }
    }

    /// Notes a commit: a finish that is answered with code 0.
    pub fn note(&mut self, before: &Peek, call: Call, code: u8) {
        if call.step != 12 || code != 0 {
            return;
        }
        let slot = call.slot;
        let word = |at: usize| before.number(at, 4) as u32;
        let reads = before.read_cells(slot).into_iter().enumerate();
        let writes = before.write_cells(slot).into_iter().enumerate();
        self.commits.push(Entry {
            stamp: before.commit(slot),
            ignoring: before.flag(slot) == 1,
            reads: reads.map(|(at, cell)| (cell, word(before.read_at(slot, at) + 2))).collect(),
            writes: writes.map(|(at, cell)| (cell, word(before.write_at(slot, at) + 1))).collect(),
        });
    }

    /// Replays all. The area must be at rest, so that all is published.
    pub fn replay(self, area: &Peek) {
        assert!((1..=8).all(|slot| area.phase(slot) == 0));
        let (faults, words) = self.replayed();
        assert_eq!(faults, [""; 0]);
        assert_eq!(words, words_of(area));
    }

    /// What does not hold of the commits, and the words at the end. Who ignores
    /// marks has asked not to be held to what was read, but for the cells that
    /// are written, too.
    pub fn replayed(mut self) -> (Vec<String>, Vec<u32>) {
        let mut faults = Vec::new();
        self.commits.sort_by_key(|entry| entry.stamp);
        for Entry { stamp, ignoring, reads, writes } in &self.commits {
            for (cell, word) in reads {
                let held_to_it = !ignoring || writes.contains_key(cell);
                let replayed = self.words[*cell];
                if held_to_it && replayed != *word {
                    faults.push(format!("stamp {stamp}: cell {cell} is {replayed}, read {word}"));
                }
            }
            writes.iter().for_each(|(cell, word)| self.words[*cell] = *word);
        }
        (faults, self.words)
    }

    /// How many commits have a cell in both logs, and how many of these ignored
    /// marks.
    pub fn updates(&self) -> (usize, usize) {
        let both = |entry: &&Entry| entry.reads.keys().any(|cell| entry.writes.contains_key(cell));
        let updates = self.commits.iter().filter(both);
        (updates.clone().count(), updates.filter(|entry| entry.ignoring).count())
    }

    /// How many commits have written the cell.
    pub fn writers(&self, cell: usize) -> u32 {
        self.commits.iter().filter(|entry| entry.writes.contains_key(&cell)).count() as u32
    }
}

fn words_of(area: &Peek) -> Vec<u32> {
    (0..area.n()).map(|cell| area.word(cell)).collect()
}
