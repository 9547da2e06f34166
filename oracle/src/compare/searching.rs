//! Sheets in which every cell is looked for in a write log, and such in which the
//! marked cells and the written ones lie in each way to one another.

use super::case::Case;
use super::ignoring::two_tries;
use super::steps::Steps;
use crate::call::Step::*;
use crate::machine::{Transaction, CELLS_AT_MOST};

const ROOM: u8 = Transaction::LOG_ROOM as u8;
const ALL_CELLS: u8 = CELLS_AT_MOST as u8;

/// Marked cells, and of others one below them, two between and one next above.
/// A look at what is written may end above any bound of the marked cells: joined
/// by `|` the first three give 62, and the others their highest. Joined by `^`
/// these give 12, which is no bound.
const MARKED: [([u8; 3], [u8; 4]); 2] =
    [([10, 20, 40], [5, 15, 30, 41]), ([4, 36, 44], [3, 20, 40, 45])];

/// Every order in which three cells may have been read.
const ORDERS: [[usize; 3]; 6] = [[0, 1, 2], [0, 2, 1], [1, 0, 2], [1, 2, 0], [2, 0, 1], [2, 1, 0]];

/// Logs of 0, 1, 2, 8, 15 and 16 entries, full ones with gaps and without, from
/// the first cell on and up to the last one; then marks read in every order.
pub(super) fn sheets_that_search() -> Vec<Case> {
    let every_third = |count: u8| (0..count).map(|place| 3 + 3 * place).collect();
    let logs: [Vec<u8>; 9] = [
        vec![],
        vec![30],
        vec![30, 33],
        every_third(ROOM / 2),
        every_third(ROOM - 1),
        every_third(ROOM),
        (0..ROOM).collect(),
        (ALL_CELLS - ROOM..ALL_CELLS).collect(),
        (0..ROOM).map(|place| place * (ALL_CELLS / (ROOM - 1))).collect(),
    ];
    let mut cases: Vec<Case> = logs.iter().map(|log| every_cell_sought(log)).collect();
    for (marked, others) in MARKED {
        cases.extend(ORDERS.map(|order| marked_and_written(marked, others, order)));
    }
    cases
}

/// Written in no order, with a word that tells the cell. What is not in the log
/// is written only where there is no room for it.
fn every_cell_sought(log: &[u8]) -> Case {
    let slot = 1 + log.len() as u8 % 8;
    let places = 0..log.len();
    let mut steps = Steps::default();
    steps.add(Begin, slot, 0);
    for cell in places.map(|place| log[place * 7 % log.len()]) {
        steps.bring(Write, slot, cell, 64 + cell);
    }
    (0..ALL_CELLS).for_each(|cell| steps.add(Read, slot, cell));
    let is_full = log.len() == Transaction::LOG_ROOM;
    for cell in (0..ALL_CELLS).filter(|cell| is_full || log.contains(cell)) {
        steps.bring(Write, slot, cell, 128 + cell);
    }
    (0..ALL_CELLS).for_each(|cell| steps.add(Read, slot, cell));
    steps.add(Close, slot, 0);
    steps.each(Lock, slot, log);
    steps.add(Enter, slot, 0);
    (0..ALL_CELLS).for_each(|cell| steps.bring(Update, slot, cell, 192 + cell));
    steps.add(Finish, slot, 0);
    steps.each(Publish, slot, log);
    let (first, last) = (log.first(), log.last());
    let ends = first.zip(last).map(|(first, last)| format!(", from {first} to {last}"));
    let name = format!("every cell sought in {} written{}", log.len(), ends.unwrap_or_default());
    steps.on_cells(name, CELLS_AT_MOST)
}

/// The lowest, the middle or the highest of the marked cells is written beside
/// others, or none; and all that is written stands below the marks or above them.
fn marked_and_written(marked: [u8; 3], others: [u8; 4], order: [usize; 3]) -> Case {
    let [lowest, middle, highest] = marked;
    let [below, lower_gap, upper_gap, above] = others;
    let last = ALL_CELLS - 1;
    let logs: [&[u8]; 9] = [
        &[below, lowest, above],
        &[lower_gap, middle, above],
        &[lower_gap, upper_gap, highest],
        &[lower_gap, highest, above],
        &[below, lower_gap, upper_gap, highest],
        &[below, lower_gap, upper_gap, above, last],
        &[0, below],
        &[above, above + 1, last],
        &[0, highest],
    ];
    let reads = order.map(|place| marked[place]);
    let mut steps = Steps::default();
    for written in logs {
        two_tries(&mut steps, (3, 4), &reads, written, &marked);
    }
    let name = format!("marks on {reads:?}, cells written at, between and around them");
    steps.on_cells(name, CELLS_AT_MOST)
}
