//! What each row of the table of steps says of the bytes: which of them a step
//! may change, and what those that it changes become.

use std::ops::Range;

use oracle::Call;

use crate::bench::{Answer, Bench};
use crate::peek::{conflicts, Peek};

const CLOCK: Range<usize> = 6..14;

/// Checks a step that was made. Refused ones change nothing, which the bench
/// sees to.
pub fn check(before: &Bench, after: &Bench, call: Call, answer: Answer) {
    let (old, new) = (before.peek(), after.peek());
    let mut patched = before.bytes.clone();
    for range in may_change(&old, &new, call) {
        patched[range.clone()].copy_from_slice(&after.bytes[range]);
    }
    assert_eq!(patched, after.bytes, "{call:?} changes what its row doesn't name");
    check_places(&old, &new, call);
    check_answer(&old, &new, call, answer);
}

fn may_change(old: &Peek, new: &Peek, call: Call) -> Vec<Range<usize>> {
    let slot = call.slot;
    let at = old.slot_at(slot);
    let (phase, flag, taken) = (at..at + 1, at + 1..at + 2, at + 2..at + 3);
    let (read_count, write_count, commit) = (at + 3..at + 4, at + 4..at + 5, at + 13..at + 21);
    let entries = 0..old.reads(slot);
    let mark = |entry: usize| old.read_at(slot, entry) + 1..old.read_at(slot, entry) + 2;
    let mark_and_word = |entry: usize| old.read_at(slot, entry) + 1..old.read_at(slot, entry + 1);
    if call.step == 1 {
        let all = at..at + 197;
        return vec![all];
    }
    if new.phase(slot) == 0 {
        return turned_idle(old, call);
    }
    match call.step {
        2 if new.reads(slot) == old.reads(slot) => vec![],
        2 => vec![read_count, new_read(old, slot)],
        3 => vec![write_count, old.write_at(slot, 0)..old.write_at(slot, 16)],
        4 | 12 => vec![phase],
        5 => vec![taken, holder(old, old.write_cells(slot)[old.taken(slot)])],
        6 => entries.map(mark).chain([CLOCK, phase, taken, commit]).collect(),
        8 => vec![written_word(old, call)],
        10 => entries.map(mark_and_word).chain([CLOCK, flag, commit]).collect(),
        11 => vec![flag],
        13 => vec![taken, value_and_holder(old, old.write_cells(slot)[old.taken(slot)])],
        _ => vec![],
    }
}

fn turned_idle(old: &Peek, call: Call) -> Vec<Range<usize>> {
    let at = old.slot_at(call.slot);
    let slot = at..at + 197;
    if call.step == 13 {
        let last = old.write_cells(call.slot)[old.taken(call.slot)];
        return vec![slot, value_and_holder(old, last)];
    }
    let cells = (0..old.n()).filter(|cell| old.holder(*cell) == call.slot);
    cells.map(|cell| holder(old, cell)).chain([slot]).collect()
}

fn new_read(old: &Peek, slot: u8) -> Range<usize> {
    old.read_at(slot, old.reads(slot))..old.read_at(slot, old.reads(slot) + 1)
}

fn holder(old: &Peek, cell: usize) -> Range<usize> {
    old.cell_at(cell) + 1..old.cell_at(cell) + 2
}

/// All of a cell but its kind.
fn value_and_holder(old: &Peek, cell: usize) -> Range<usize> {
    old.cell_at(cell) + 1..old.cell_at(cell + 1)
}

fn write_entry(peek: &Peek, call: Call) -> Option<usize> {
    let cells = peek.write_cells(call.slot);
    cells.iter().position(|cell| *cell == usize::from(call.cell))
}

fn read_entry(peek: &Peek, call: Call) -> Option<usize> {
    let cells = peek.read_cells(call.slot);
    cells.iter().position(|cell| *cell == usize::from(call.cell))
}

fn written_word(peek: &Peek, call: Call) -> Range<usize> {
    let entry = write_entry(peek, call).expect("a cell in the write log");
    peek.write_at(call.slot, entry) + 1..peek.write_at(call.slot, entry + 1)
}

fn read_word(peek: &Peek, slot: u8, entry: usize) -> u32 {
    peek.number(peek.read_at(slot, entry) + 2, 4) as u32
}

/// What the changed bytes become, for the steps that do more than to move on.
fn check_places(old: &Peek, new: &Peek, call: Call) {
    let slot = call.slot;
    let entries = 0..old.reads(slot);
    match call.step {
        1 => assert_eq!((new.phase(slot), new.start(slot)), (1, old.clock())),
        3 | 8 => {
            let place = written_word(new, call);
            assert_eq!(new.number(place.start, 4) as u32, call.word);
        }
        4 => assert_eq!((new.phase(slot), new.taken(slot)), (2, 0)),
        5 => assert_eq!(new.taken(slot), old.taken(slot) + 1),
        6 => {
            let cells = old.read_cells(slot).into_iter();
            let expected: Vec<u8> = cells.map(|cell| conflicts(old, slot, cell).into()).collect();
            assert_eq!(new.marks(slot), expected);
            assert_eq!((new.clock(), new.commit(slot)), (old.clock() + 1, old.clock() + 1));
            assert_eq!(new.phase(slot), 3);
        }
        10 => {
            let cells = old.read_cells(slot).into_iter();
            let shared: Vec<u32> = cells.map(|cell| old.word(cell)).collect();
            let taken: Vec<u32> = entries.map(|entry| read_word(new, slot, entry)).collect();
            assert_eq!(taken, shared);
            assert!(!new.marks(slot).contains(&1) && new.flag(slot) == 0);
            assert_eq!((new.clock(), new.commit(slot)), (old.clock() + 1, old.clock() + 1));
        }
        11 => assert_eq!(new.flag(slot), u8::from(old.marks(slot).contains(&1))),
        13 => check_published(old, new, slot),
        14 => assert_eq!(new.phase(slot), 0),
        _ => {}
    }
}

fn check_published(old: &Peek, new: &Peek, slot: u8) {
    let entry = old.taken(slot);
    let cell = old.write_cells(slot)[entry];
    let word = old.number(old.write_at(slot, entry) + 1, 4) as u32;
    assert_eq!((new.word(cell), new.stamp(cell)), (word, old.commit(slot)));
    assert_eq!(new.holder(cell), 0);
    let last = entry + 1 == old.writes(slot);
    assert_eq!((new.phase(slot), new.taken(slot)), if last { (0, 0) } else { (4, entry + 1) });
}

fn word_to_read(peek: &Peek, call: Call) -> u32 {
    match (write_entry(peek, call), read_entry(peek, call)) {
        (Some(_), _) => peek.number(written_word(peek, call).start, 4) as u32,
        (None, Some(entry)) => read_word(peek, call.slot, entry),
        (None, None) => peek.word(usize::from(call.cell)),
    }
}

fn check_answer(old: &Peek, new: &Peek, call: Call, answer: Answer) {
    let (slot, cell) = (call.slot, usize::from(call.cell));
    let truth = |truth: bool| (0, 1, u32::from(truth));
    let expected = match call.step {
        2 => (0, old.kind(cell), word_to_read(old, call)),
        6 => truth(!new.marks(slot).contains(&1)),
        7 => {
            let entry = read_entry(old, call).expect("a cell in the read log");
            (0, old.kind(cell), read_word(old, slot, entry))
        }
        9 => {
            let entry = read_entry(old, call).expect("a cell in the read log");
            truth(old.marks(slot)[entry] == 1)
        }
        12 => {
            let ended = old.marks(slot).contains(&1) && old.flag(slot) == 0;
            let idle = ended || old.writes(slot) == 0;
            assert_eq!(new.phase(slot), if idle { 0 } else { 4 });
            (if ended { 13 } else { 0 }, 0, 0)
        }
        _ => (0, 0, 0),
    };
    assert_eq!(answer, expected, "{call:?}");
}
