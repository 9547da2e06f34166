//! What "well formed" means, sentence by sentence.
//!
//! Each sentence is asked of the whole area and by itself: none relies on
//! another one having been found true.

use crate::machine::{Transaction, CELLS_AT_MOST, SLOTS};
use crate::record::{length_for, AreaRecord, SlotRecord};
use crate::value::Value;

/// A sentence in the document's words, and the check that it holds.
type Sentence = (&'static str, fn(&AreaRecord) -> bool);

const LENGTHS_AGREE: &str = "the lent length, the length field and the formula agree";

pub(crate) const SENTENCE_COUNT: usize = 22;

/// The sentence of request #103.
pub(crate) const NO_UPDATE_LOST: &str =
    "the flag is 1 only if no marked cell is also in the write log";

pub(crate) const MARK_REQUIRES_FLAG: &str = "in phase 4 a mark requires the flag";

const SENTENCES: [Sentence; SENTENCE_COUNT] = [
    (LENGTHS_AGREE, lengths_agree),
    ("version 1", version_1),
    ("n from 1 to 64", n_from_1_to_64),
    ("phases 0 to 4", phases_0_to_4),
    ("kinds, words and holders legal", kinds_words_and_holders_legal),
    ("cell stamps and starts at most the clock", stamps_and_starts_at_most_the_clock),
    ("an idle slot all zero", idle_slot_all_zero),
    ("unused entries all zero", unused_entries_all_zero),
    ("counts at most 16", counts_at_most_16),
    ("log cells below n", log_cells_below_n),
    ("no log cell twice in one log", none_twice_in_one_log),
    ("write log ascending", write_log_ascending),
    ("log words legal", log_words_legal),
    ("flags and marks 0 or 1", flags_and_marks_0_or_1),
    ("taken as the phase says and never above the write count", taken_as_the_phase_says),
    ("commit stamp as the phase says", commit_stamp_as_the_phase_says),
    ("commit stamp different from any other slot's", commit_stamps_differ),
    ("marks are 0 before phase 3", marks_are_0_before_phase_3),
    ("the flag is 1 only if some mark is 1", flag_only_if_some_mark),
    (NO_UPDATE_LOST, no_update_lost),
    (MARK_REQUIRES_FLAG, in_phase_4_a_mark_requires_the_flag),
    ("a cell's holder is s exactly if s holds it", holders_exact),
];

/// The sentences that make up "well formed".
pub fn sentences() -> impl Iterator<Item = &'static str> {
    SENTENCES.into_iter().map(|(words, _)| words)
}

/// The sentences that do not hold of these bytes.
pub fn faults(bytes: &[u8]) -> Vec<&'static str> {
    let Some(area) = AreaRecord::decode(bytes) else {
        return vec![LENGTHS_AGREE];
    };
    let broken = SENTENCES.iter().filter(|(_, holds)| !holds(&area));
    broken.map(|(words, _)| *words).collect()
}

/// Whether these bytes are a well-formed area.
pub fn well_formed(bytes: &[u8]) -> bool {
    well_formed_record(bytes).is_some()
}

pub(crate) fn well_formed_record(bytes: &[u8]) -> Option<AreaRecord> {
    let area = AreaRecord::decode(bytes)?;
    SENTENCES.iter().all(|(_, holds)| holds(&area)).then_some(area)
}

/// That the lent length and the formula agree is seen when the record is
/// decoded, since there the bytes neither run short nor are left over.
fn lengths_agree(area: &AreaRecord) -> bool {
    usize::try_from(area.length) == Ok(length_for(area.cells.len()))
}

fn version_1(area: &AreaRecord) -> bool {
    area.version == 1
}

fn n_from_1_to_64(area: &AreaRecord) -> bool {
    (1..=CELLS_AT_MOST).contains(&usize::from(area.n))
}

fn phases_0_to_4(area: &AreaRecord) -> bool {
    area.slots.iter().all(|slot| slot.phase <= 4)
}

fn kinds_words_and_holders_legal(area: &AreaRecord) -> bool {
    area.cells.iter().all(|cell| {
        let legal = Value::described(cell.kind, cell.word).is_some();
        legal && usize::from(cell.holder) <= SLOTS
    })
}

fn stamps_and_starts_at_most_the_clock(area: &AreaRecord) -> bool {
    let stamps = area.cells.iter().map(|cell| cell.stamp);
    let starts = area.slots.iter().map(|slot| slot.start);
    stamps.chain(starts).all(|stamp| stamp <= area.clock)
}

fn idle_slot_all_zero(area: &AreaRecord) -> bool {
    let mut idle = area.slots.iter().filter(|slot| slot.phase == 0);
    idle.all(|slot| *slot == SlotRecord::default())
}

fn unused_entries_all_zero(area: &AreaRecord) -> bool {
    area.slots.iter().all(|slot| {
        all_default_after(&slot.reads, slot.read_count)
            && all_default_after(&slot.writes, slot.write_count)
    })
}

fn all_default_after<T: Default + PartialEq>(entries: &[T], count: u8) -> bool {
    let mut unused = entries.iter().skip(usize::from(count));
    unused.all(|entry| *entry == T::default())
}

fn counts_at_most_16(area: &AreaRecord) -> bool {
    let mut counts = area.slots.iter().flat_map(|slot| [slot.read_count, slot.write_count]);
    counts.all(|count| usize::from(count) <= Transaction::LOG_ROOM)
}

fn log_cells_below_n(area: &AreaRecord) -> bool {
    let mut words = area.slots.iter().flat_map(log_words);
    words.all(|(cell, _)| cell < area.n)
}

/// Cell and word of every used entry of both logs.
fn log_words(slot: &SlotRecord) -> impl Iterator<Item = (u8, u32)> + '_ {
    let reads = slot.used_reads().map(|read| (read.cell, read.word));
    let writes = slot.used_writes().map(|write| (write.cell, write.word));
    reads.chain(writes)
}

fn none_twice_in_one_log(area: &AreaRecord) -> bool {
    area.slots.iter().all(|slot| {
        all_differ(slot.used_reads().map(|read| read.cell))
            && all_differ(slot.used_writes().map(|write| write.cell))
    })
}

fn all_differ<T: Ord>(items: impl Iterator<Item = T>) -> bool {
    let mut sorted: Vec<T> = items.collect();
    sorted.sort_unstable();
    sorted.windows(2).all(|pair| pair[0] != pair[1])
}

fn write_log_ascending(area: &AreaRecord) -> bool {
    let ascending = |slot: &SlotRecord| slot.used_writes().map(|write| write.cell).is_sorted();
    area.slots.iter().all(ascending)
}

/// Kinds of log words are those of the cells. A log cell that is not below n
/// has no kind; that is the fault of another sentence.
fn log_words_legal(area: &AreaRecord) -> bool {
    let mut words = area.slots.iter().flat_map(log_words);
    words.all(|(cell, word)| match area.cells.get(usize::from(cell)) {
        Some(shared) => Value::described(shared.kind, word).is_some(),
        None => true,
    })
}

fn flags_and_marks_0_or_1(area: &AreaRecord) -> bool {
    area.slots.iter().all(|slot| {
        let marks = slot.used_reads().map(|read| read.mark);
        marks.chain([slot.ignoring]).all(|bit| bit <= 1)
    })
}

fn taken_as_the_phase_says(area: &AreaRecord) -> bool {
    area.slots.iter().all(|slot| match slot.phase {
        2 => slot.taken <= slot.write_count,
        4 => slot.taken < slot.write_count,
        _ => slot.taken == 0,
    })
}

fn commit_stamp_as_the_phase_says(area: &AreaRecord) -> bool {
    area.slots.iter().all(|slot| match slot.phase {
        0..=2 => slot.commit_stamp == 0,
        3 | 4 => slot.commit_stamp > slot.start && slot.commit_stamp <= area.clock,
        _ => true,
    })
}

fn commit_stamps_differ(area: &AreaRecord) -> bool {
    let entered = area.slots.iter().filter(|slot| matches!(slot.phase, 3 | 4));
    all_differ(entered.map(|slot| slot.commit_stamp))
}

fn marks_are_0_before_phase_3(area: &AreaRecord) -> bool {
    let mut before = area.slots.iter().filter(|slot| slot.phase < 3);
    before.all(|slot| slot.used_reads().all(|read| read.mark == 0))
}

fn some_mark(slot: &SlotRecord) -> bool {
    slot.used_reads().any(|read| read.mark == 1)
}

fn flag_only_if_some_mark(area: &AreaRecord) -> bool {
    let mut flagged = area.slots.iter().filter(|slot| slot.ignoring == 1);
    flagged.all(some_mark)
}

/// The whole write log counts, so in phase 4 cells already published, too.
fn no_update_lost(area: &AreaRecord) -> bool {
    let mut flagged = area.slots.iter().filter(|slot| slot.ignoring == 1);
    flagged.all(|slot| {
        let mut marked = slot.used_reads().filter(|read| read.mark == 1);
        !marked.any(|read| slot.used_writes().any(|write| write.cell == read.cell))
    })
}

fn in_phase_4_a_mark_requires_the_flag(area: &AreaRecord) -> bool {
    let mut publishing = area.slots.iter().filter(|slot| slot.phase == 4);
    publishing.all(|slot| slot.ignoring == 1 || !some_mark(slot))
}

fn holders_exact(area: &AreaRecord) -> bool {
    let slots = || (1..).zip(&area.slots);
    (0..area.n).zip(&area.cells).all(|(number, cell)| {
        slots().all(|(s, slot)| (cell.holder == s) == must_hold(slot, number))
    })
}

fn must_hold(slot: &SlotRecord, cell: u8) -> bool {
    let taken = usize::from(slot.taken);
    let place = || slot.used_writes().position(|write| write.cell == cell);
    match slot.phase {
        2 => place().is_some_and(|place| place < taken),
        3 => place().is_some(),
        4 => place().is_some_and(|place| place >= taken),
        _ => false,
    }
}
