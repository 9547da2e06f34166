//! Sheets at the edges of what is good, and inputs just behind them.

use super::case::{Case, BEGIN, CELL};
use super::ignoring::sheets_that_ignore;
use super::in_the_way::sheets_with_a_holder;
use super::searching::sheets_that_search;
use super::traced::sheets_to_trace;
use crate::binary::STEPS_AT_MOST;
use crate::machine::CELLS_AT_MOST;
use crate::random::Random;
use crate::text;

const S_TEXT: &str = include_str!("../../../examples/sheets/s.txt");

/// Good sheets: none and most of everything, every slot in the way, marks that
/// may be ignored and that may not, every place in a write log, every effect, and
/// every byte in every place of a step.
pub fn edge_sheets() -> Vec<Case> {
    let numbers_of_cells = 1..=CELLS_AT_MOST;
    let mut cases: Vec<Case> = numbers_of_cells
        .map(|n| Case::of_parts(format!("{n} cells, no steps"), 1, &CELL.repeat(n), &[]))
        .collect();
    cases.push(words());
    cases.push(Case::of_parts("4096 steps on one cell", 1, &CELL, &BEGIN.repeat(STEPS_AT_MOST)));
    cases.push(longest());
    cases.push(reloads());
    cases.extend(sheets_with_a_holder());
    cases.extend(sheets_that_ignore());
    cases.extend(sheets_that_search());
    cases.extend(sheets_to_trace());
    for place in 0..4 {
        let mut steps = Vec::new();
        for byte in 0..=255 {
            // A write, so that every argument is used.
            let mut step = [3, 1, 0, 2, 0, 0, 0, byte];
            step[place] = byte;
            steps.extend(step);
        }
        let steps = [&BEGIN[..], &steps].concat();
        cases.push(Case::of_parts(format!("every byte at {place} of a step"), 1, &CELL, &steps));
    }
    cases
}

/// The longest good sheet.
fn longest() -> Case {
    let (cells, steps) = (CELL.repeat(CELLS_AT_MOST), BEGIN.repeat(STEPS_AT_MOST));
    Case::of_parts("the longest sheet", 1, &cells, &steps)
}

/// Legal words at the edges of each kind, in the cells and through a log.
fn words() -> Case {
    let words: [(u8, u32); 14] = [
        (1, 0),
        (1, 1),
        (2, 0),
        (2, 0x7fff_ffff),
        (2, 0x8000_0000),
        (2, 0xffff_ffff),
        (2, 0x7f80_0000),
        (3, 0),
        (3, 0x8000_0000),
        (3, 1),
        (3, 0x7f7f_ffff),
        (3, 0xff7f_ffff),
        (3, 0x0080_0000),
        (3, 0x89ab_cdef),
    ];
    let (mut cells, mut steps) = (Vec::new(), BEGIN.to_vec());
    for (cell, (kind, word)) in (0..).zip(words) {
        let [a, b, c, d] = word.to_be_bytes();
        cells.extend([kind, a, b, c, d]);
        steps.extend([2, 1, cell, 0, 0, 0, 0, 0]);
        steps.extend([3, 1, cell, kind, a, b, c, d]);
    }
    Case::of_parts("words at the edges", 1, &cells, &steps)
}

/// A commit with the greatest stamp that a sheet can publish.
fn reloads() -> Case {
    let step = |number| [number, 1, 0, 2, 0, 0, 0, 9];
    let mut steps: Vec<u8> = [1, 3, 4, 5, 6].into_iter().flat_map(step).collect();
    steps.extend(step(10).repeat(STEPS_AT_MOST - 7));
    steps.extend([12, 13].into_iter().flat_map(step));
    Case::of_parts("4089 reloads", 1, &CELL, &steps)
}

/// Sheet S and the longest sheet without their last bytes.
pub fn cut_sheets() -> Vec<Case> {
    let (s, longest) = (sheet_s(), longest());
    let all = 0..s.bytes.len();
    let some = [325, 326, 327, 328, 329, 336, 16_384, 32_768, 33_088, 33_091, 33_092];
    let cut = |of: &Case, length: usize| {
        Case::new(format!("{length} bytes of {}", of.name), of.bytes[..length].to_vec())
    };
    let cut_s = all.map(|length| cut(&s, length));
    cut_s.chain(some.map(|length| cut(&longest, length))).collect()
}

fn sheet_s() -> Case {
    let sheet = text::assemble(S_TEXT.as_bytes());
    Case::new("sheet S", sheet.map(|sheet| sheet.encode()).unwrap_or_default())
}

/// Good sheets with more behind them, and junk, longer than any good sheet.
pub fn long_inputs() -> Vec<Case> {
    let (s, longest) = (sheet_s(), longest());
    let no_steps = Case::of_parts("a sheet with no steps", 1, &CELL, &[]);
    let mut cases = Vec::new();
    for more in [1, 2, 3, 5, 8, 179] {
        cases.push(with_more(&s, more));
        cases.push(with_more(&no_steps, more));
    }
    // Every length at which a buffer may end, and those that are 0 or the same
    // in 16 bits.
    let longer = [40_000, 65_535, 65_536, 65_537, 98_629, 131_072];
    let lengths = (33_094..=33_120).chain(longer);
    cases.extend(lengths.map(|length| with_more(&longest, length - longest.bytes.len())));
    let mut random = Random::new(1);
    let mut junk: Vec<u8> = (0..40_000).map(|_| random.byte()).collect();
    cases.push(Case::new("40000 random bytes", junk.clone()));
    junk[0] = 1;
    cases.push(Case::new("byte 1 and 39999 random bytes", junk));
    for byte in [0, 1, 5, b'\n', 255] {
        cases.push(Case::new(format!("40000 bytes {byte}"), vec![byte; 40_000]));
    }
    cases
}

fn with_more(of: &Case, more: usize) -> Case {
    let bytes = [&of.bytes[..], &vec![0; more]].concat();
    Case::new(format!("{} and {more} bytes more", of.name), bytes)
}

/// The same as elsewhere; only how they arrive differs.
pub fn sheets_in_pieces() -> Vec<Case> {
    let long = with_more(&longest(), 6_907);
    let slowly =
        |case: Case| Case { name: format!("{}, in pieces", case.name), in_pieces: true, ..case };
    [sheet_s(), longest(), long, reloads()].map(slowly).to_vec()
}
