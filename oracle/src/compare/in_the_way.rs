//! Sheets in which another slot is in the way.

use super::case::{Case, CELL};
use super::steps::Steps;
use crate::call::Step::*;
use crate::machine::{Transaction, CELLS_AT_MOST, SLOTS};

/// E11 as it stands, what comes first, then each slot as the holder of each
/// cell, and a reload with one holder after the other in its way.
pub(super) fn sheets_with_a_holder() -> Vec<Case> {
    let mut cases = vec![e11(), held_newer_or_full(), second_lock()];
    cases.extend((1..=SLOTS as u8).map(held_by));
    cases.push(reload_past_holders());
    cases
}

fn e11() -> Case {
    let mut steps = Steps::default();
    steps.hold(1, &[0]);
    steps.meet(2, 0);
    let cells = [&CELL[..], &[1, 0, 0, 0, 0]].concat();
    Case::of_parts("E11", 1, &cells, &steps.bytes)
}

/// Slot 1 reads cell 16 when it is newer, when it is held as well, when it is
/// newer again, and the same with a full read log.
fn held_newer_or_full() -> Case {
    let mut steps = Steps::default();
    steps.add(Begin, 1, 0);
    steps.renew(2, &[16]);
    for reads in [0..0, 0..16] {
        reads.for_each(|cell| steps.add(Read, 1, cell));
        steps.add(Read, 1, 16);
        steps.hold(3, &[16]);
        steps.add(Read, 1, 16);
        steps.add(GiveUp, 3, 0);
        steps.add(Read, 1, 16);
    }
    steps.on_cells("held, newer or full", 17)
}

/// Slot 1 holds the second cell that slot 2 needs.
fn second_lock() -> Case {
    let mut steps = Steps::default();
    steps.hold(1, &[4]);
    steps.hold(2, &[3, 4]);
    steps.on_cells("the second lock", 5)
}

/// The slot holds as many cells at a time as its log has room for.
fn held_by(holder: u8) -> Case {
    let other = 1 + holder % SLOTS as u8;
    let all: Vec<u8> = (0..CELLS_AT_MOST as u8).collect();
    let mut steps = Steps::default();
    for cells in all.chunks(Transaction::LOG_ROOM) {
        steps.hold(holder, cells);
        for cell in cells {
            steps.meet(other, *cell);
            steps.add(GiveUp, other, 0);
        }
        steps.add(GiveUp, holder, 0);
    }
    steps.on_cells(format!("every cell held by slot {holder}"), CELLS_AT_MOST)
}

/// Slot 8 has read 16 cells, every seventh of 16 in turn, and each of the
/// others holds two of them. Whom the reload tells of gives up, so that the next
/// one tells of another.
fn reload_past_holders() -> Case {
    let read: Vec<u8> = (0..16).map(|turn| turn * 7 % 16).collect();
    let mut steps = Steps::default();
    steps.add(Begin, 8, 0);
    read.iter().for_each(|cell| steps.add(Read, 8, *cell));
    steps.add(Close, 8, 0);
    steps.add(Enter, 8, 0);
    for holder in 1..=7 {
        steps.hold(holder, &[2 * holder, 2 * holder + 1]);
    }
    steps.add(Reload, 8, 0);
    for holder in [3, 7, 2, 6, 1, 5, 4] {
        steps.add(GiveUp, holder, 0);
        steps.add(Reload, 8, 0);
    }
    steps.on_cells("reload past seven holders", 16)
}
