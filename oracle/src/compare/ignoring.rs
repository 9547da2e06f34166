//! Sheets in which a slot ignores what is marked, or may not.

use super::case::Case;
use super::steps::Steps;
use crate::call::Step::*;
use crate::machine::{Transaction, CELLS_AT_MOST, SLOTS};

/// Marks on cells that are written and on cells that are not, then one cell that
/// is marked and written at every place of either log.
pub(super) fn sheets_that_ignore() -> Vec<Case> {
    let [reads, writes, higher]: [Vec<u8>; 3] =
        [0, 16, 32].map(|first| (first..first + 16).collect());
    let mut cases = vec![
        ignoring("a totaliser", &[0], &[0], &[0]),
        ignoring("a mark, nothing written", &[0, 1], &[], &[1]),
        ignoring("16 marks, 16 other cells written", &reads, &writes, &reads),
        ignoring("16 marks, cells written that are 32 higher", &reads, &higher, &reads),
        ignoring("16 marks, all of them written", &reads, &reads, &reads),
        ignoring("a cell in both logs, no mark", &[0, 1], &[0], &[]),
        ignoring("a mark beside a cell in both logs", &[0, 1, 2], &[0, 2], &[1]),
        in_each_phase(),
    ];
    let last = Transaction::LOG_ROOM as u8 - 1;
    let corners = [(0, 0), (0, last), (last, 0), (last, last)];
    let places = (0..=last).map(|place| (place, place * 7 % (last + 1)));
    cases.extend(corners.into_iter().chain(places).map(one_marked_and_written));
    cases
}

fn ignoring(name: &str, reads: &[u8], writes: &[u8], stale: &[u8]) -> Case {
    let mut steps = Steps::default();
    two_tries(&mut steps, (1, 2), reads, writes, stale);
    steps.on_cells(name, CELLS_AT_MOST)
}

/// A slot reads and writes, and another one publishes the stale cells before it
/// enters. It asks of what it has read, ignores twice, and finishes; then the
/// same with a reload behind, and all written anew.
pub(super) fn two_tries(
    steps: &mut Steps,
    slots: (u8, u8),
    reads: &[u8],
    writes: &[u8],
    stale: &[u8],
) {
    let (slot, other) = slots;
    for repairs in [false, true] {
        steps.add(Begin, slot, 0);
        steps.each(Read, slot, reads);
        steps.each(Write, slot, writes);
        steps.renew(other, stale);
        steps.add(Close, slot, 0);
        steps.each(Lock, slot, writes);
        steps.add(Enter, slot, 0);
        steps.each(Ask, slot, reads);
        steps.all(&[Ignore, Ignore], slot);
        if repairs {
            steps.all(&[Reload, Ignore], slot);
            steps.each(Update, slot, writes);
        }
        steps.add(Finish, slot, 0);
        steps.each(Publish, slot, writes);
    }
}

/// Both logs are full. Of the cells that were read every second is marked, and
/// one of these is written; so is one that is not marked.
fn one_marked_and_written((read_place, write_place): (u8, u8)) -> Case {
    let room = Transaction::LOG_ROOM as u8;
    let writes: Vec<u8> = (20..20 + room).collect();
    let mut reads: Vec<u8> = (0..room).collect();
    let beside = usize::from((read_place + 1) % room);
    reads[usize::from(read_place)] = writes[usize::from(write_place)];
    reads[beside] = writes[usize::from((write_place + 1) % room)];
    let is_stale = |place: &usize| place % 2 == usize::from(read_place % 2);
    let mut stale: Vec<u8> = (0..reads.len()).filter(is_stale).map(|at| reads[at]).collect();
    stale.sort_unstable();
    let slot = 1 + read_place % SLOTS as u8;
    let mut steps = Steps::default();
    two_tries(&mut steps, (slot, 1 + slot % SLOTS as u8), &reads, &writes, &stale);
    let name = format!("the cell read at place {read_place} is written at {write_place}");
    steps.on_cells(name, CELLS_AT_MOST)
}

/// Idle, open, locking with a lock missing and without, in twilight, publishing.
fn in_each_phase() -> Case {
    let mut steps = Steps::default();
    for step in [Begin, Read, Write, Close, Lock, Enter, Finish, Publish] {
        steps.add(Ignore, 1, 0);
        steps.add(step, 1, 0);
    }
    steps.add(Ignore, 1, 0);
    steps.on_cells("ignore in each phase", 1)
}
