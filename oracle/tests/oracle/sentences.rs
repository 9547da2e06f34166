//! Each sentence of "well formed", broken alone.

use oracle::{faults, wellformed, Machine, Value};

use crate::bench::Bench;
use crate::peek::{self, Peek};

const CELLS: [Value; 3] = [Value::Whole(5), Value::Truth(false), Value::Whole(7)];

/// An area after these steps, with clock 5 at first.
fn after(lines: &[&str]) -> Vec<u8> {
    let mut bench = Bench::fresh(&CELLS).at_clock(5);
    bench.make_all(lines);
    bench.bytes
}

/// The same with bytes replaced.
fn patched(lines: &[&str], patches: &[(usize, u8)]) -> Vec<u8> {
    let mut area = after(lines);
    for (at, byte) in patches {
        area[*at] = *byte;
    }
    area
}

/// Place of a number in the record of a slot, of three cells.
fn slot(number: u8, place: usize) -> usize {
    14 + 14 * 3 + 197 * (usize::from(number) - 1) + place
}

const FLAG: usize = 1;
const TAKEN: usize = 2;
const READ_COUNT: usize = 3;
/// The last byte of a number of eight.
const START: usize = 12;
const COMMIT: usize = 20;
const READS: usize = 21;
const MARK: usize = 22;
const WRITES: usize = 117;
/// Holder of cell 0.
const HOLDER: usize = 15;

const OPEN: [&str; 4] = ["begin 1", "read 1 0", "read 1 2", "write 1 0 whole 6"];
const LOCKED: [&str; 4] = ["begin 1", "write 1 0 whole 6", "close 1", "lock 1"];
const TWILIGHT: [&str; 4] = ["begin 1", "read 1 0", "close 1", "enter 1"];
/// Cells 0 and 2 are read and marked, cell 0 is written, too.
const MARKED: [&str; 17] = [
    "begin 1",
    "read 1 0",
    "read 1 2",
    "write 1 0 whole 6",
    "begin 2",
    "write 2 0 whole 8",
    "write 2 2 whole 9",
    "close 2",
    "lock 2",
    "lock 2",
    "enter 2",
    "finish 2",
    "publish 2",
    "publish 2",
    "close 1",
    "lock 1",
    "enter 1",
];
const PUBLISHING: [&str; 7] =
    ["begin 1", "read 1 2", "write 1 0 whole 6", "close 1", "lock 1", "enter 1", "finish 1"];

/// All cells of an area are taken out but one cell is put in n times.
fn with_n(n: u8) -> Vec<u8> {
    let area = after(&[]);
    let length = 1590 + 14 * usize::from(n);
    let mut all = area[..14].to_vec();
    all[1..5].copy_from_slice(&(length as u32).to_be_bytes());
    all[5] = n;
    all.extend(area[14..28].repeat(usize::from(n)));
    all.resize(length, 0);
    all
}

fn full_read_log_of_17() -> Vec<u8> {
    let mut bench = Bench::of_wholes(17);
    bench.make_all(&["begin 1"]);
    for cell in 0..16 {
        bench.make_all(&[&format!("read 1 {cell}")]);
    }
    let at = bench.peek().slot_at(1) + READ_COUNT;
    bench.bytes[at] = 17;
    bench.bytes
}

fn two_in_twilight() -> Vec<u8> {
    let lines = [TWILIGHT.as_slice(), &["begin 2", "close 2", "enter 2"]].concat();
    patched(&lines, &[(slot(2, START), 5), (slot(2, COMMIT), 6)])
}

type Example = (&'static str, Vec<u8>);

fn examples_of_header_and_cells() -> Vec<Example> {
    let legal = "kinds, words and holders legal";
    let at_most_clock = "cell stamps and starts at most the clock";
    let holder = "a cell's holder is s exactly if s holds it";
    vec![
        ("the lent length, the length field and the formula agree", patched(&[], &[(4, 0)])),
        ("version 1", patched(&[], &[(0, 2)])),
        ("version 1", patched(&[], &[(0, 0)])),
        ("n from 1 to 64", with_n(0)),
        ("n from 1 to 64", with_n(65)),
        (legal, patched(&[], &[(14, 0)])),
        (legal, patched(&[], &[(14, 4)])),
        (legal, patched(&[], &[(14 + 14 + 5, 2)])),
        (legal, patched(&[], &[(HOLDER, 9)])),
        (at_most_clock, patched(&[], &[(14 + 13, 6)])),
        (at_most_clock, patched(&OPEN, &[(slot(1, START), 6)])),
        (holder, patched(&[], &[(HOLDER, 1)])),
        (holder, patched(&LOCKED, &[(HOLDER, 0)])),
        (holder, patched(&LOCKED, &[(HOLDER, 2)])),
        (holder, patched(&LOCKED, &[(slot(1, TAKEN), 0)])),
        (holder, patched(&PUBLISHING, &[(HOLDER, 0)])),
    ]
}

fn examples_of_logs() -> Vec<Example> {
    let unused = "unused entries all zero";
    let twice = "no log cell twice in one log";
    let writes_2 = ["begin 1", "write 1 0 whole 6", "write 1 2 whole 6"];
    let truth_log = ["begin 1", "read 1 1", "write 1 1 truth 1"];
    let swapped = [(slot(1, WRITES), 2), (slot(1, WRITES + 5), 0)];
    vec![
        (unused, patched(&OPEN, &[(slot(1, READS + 6 * 2 + 5), 1)])),
        (unused, patched(&OPEN, &[(slot(1, READS + 6 * 15), 1)])),
        (unused, patched(&OPEN, &[(slot(1, WRITES + 5), 1)])),
        (unused, patched(&OPEN, &[(slot(1, 196), 1)])),
        ("counts at most 16", full_read_log_of_17()),
        ("log cells below n", patched(&OPEN, &[(slot(1, READS), 3)])),
        ("log cells below n", patched(&OPEN, &[(slot(1, WRITES), 3)])),
        (twice, patched(&OPEN, &[(slot(1, READS), 2)])),
        (twice, patched(&writes_2, &[(slot(1, WRITES + 5), 0)])),
        ("write log ascending", patched(&writes_2, &swapped)),
        ("log words legal", patched(&truth_log, &[(slot(1, READS + 5), 2)])),
        ("log words legal", patched(&truth_log, &[(slot(1, WRITES + 4), 2)])),
    ]
}

fn examples_of_phases() -> Vec<Example> {
    let bits = "flags and marks 0 or 1";
    let taken = "taken as the phase says and never above the write count";
    let commit = "commit stamp as the phase says";
    let flag = "the flag is 1 only if some mark is 1";
    vec![
        ("phases 0 to 4", patched(&[], &[(slot(8, 0), 5)])),
        ("an idle slot all zero", patched(&[], &[(slot(3, START), 1)])),
        (bits, patched(&TWILIGHT, &[(slot(1, FLAG), 2)])),
        (bits, patched(&TWILIGHT, &[(slot(1, MARK), 2)])),
        (taken, patched(&OPEN, &[(slot(1, TAKEN), 1)])),
        (taken, patched(&LOCKED, &[(slot(1, TAKEN), 2)])),
        (taken, patched(&TWILIGHT, &[(slot(1, TAKEN), 1)])),
        (taken, patched(&PUBLISHING, &[(slot(1, TAKEN), 1), (HOLDER, 0)])),
        (commit, patched(&OPEN, &[(slot(1, COMMIT), 6)])),
        (commit, patched(&LOCKED, &[(slot(1, COMMIT), 6)])),
        (commit, patched(&TWILIGHT, &[(slot(1, COMMIT), 5)])),
        (commit, patched(&TWILIGHT, &[(slot(1, COMMIT), 7)])),
        (commit, patched(&PUBLISHING, &[(slot(1, COMMIT), 0)])),
        ("commit stamp different from any other slot's", two_in_twilight()),
        ("marks are 0 before phase 3", patched(&OPEN, &[(slot(1, MARK), 1)])),
        (flag, patched(&TWILIGHT, &[(slot(1, FLAG), 1)])),
        (flag, patched(&OPEN, &[(slot(1, FLAG), 1)])),
        ("in phase 4 a mark requires the flag", patched(&PUBLISHING, &[(slot(1, MARK), 1)])),
    ]
}

/// The sentence of request #103.
pub const NO_UPDATE_LOST: &str = "the flag is 1 only if no marked cell is also in the write log";

/// Slot 1 has the flag on its mark of cell 2, and cells 0 and 1 in both logs, of
/// which cell 0 is published already.
fn ignoring_and_publishing() -> Vec<u8> {
    let mut lines = vec!["begin 1", "read 1 0", "read 1 1", "read 1 2", "write 1 0 whole 6"];
    lines.extend(["write 1 1 truth 1", "begin 2", "write 2 2 whole 9", "close 2", "lock 2"]);
    lines.extend(["enter 2", "finish 2", "publish 2", "close 1", "lock 1", "lock 1", "enter 1"]);
    lines.extend(["ignore 1", "finish 1", "publish 1"]);
    after(&lines)
}

/// The flag, the mark, or the written cell makes it so.
fn examples_of_lost_updates() -> Vec<Example> {
    let with = |patches: &[(usize, u8)]| {
        let mut area = ignoring_and_publishing();
        patches.iter().for_each(|(at, byte)| area[*at] = *byte);
        area
    };
    let second = MARK + 6;
    let third = MARK + 12;
    vec![
        (NO_UPDATE_LOST, patched(&MARKED, &[(slot(1, FLAG), 1)])),
        (NO_UPDATE_LOST, patched(&MARKED, &[(slot(1, FLAG), 1), (slot(1, second), 0)])),
        // Cell 0 is published, cell 1 is not.
        (NO_UPDATE_LOST, with(&[(slot(1, MARK), 1)])),
        (NO_UPDATE_LOST, with(&[(slot(1, second), 1)])),
        (NO_UPDATE_LOST, with(&[(slot(1, MARK), 1), (slot(1, third), 0)])),
        (NO_UPDATE_LOST, with(&[(slot(1, second), 1), (slot(1, third), 0)])),
        // The cell that is not published is cell 2 now, with its holder.
        (NO_UPDATE_LOST, with(&[(slot(1, WRITES + 5), 2), (HOLDER + 14, 0), (HOLDER + 28, 1)])),
    ]
}

/// Next to them: what is marked is not written, or the flag is not set.
#[test]
fn marks_that_lose_no_update_are_well_formed() {
    let areas = [
        patched(&MARKED, &[]),
        patched(&MARKED, &[(slot(1, FLAG), 1), (slot(1, MARK), 0)]),
        ignoring_and_publishing(),
    ];
    for area in areas {
        assert_eq!(faults(&area), [""; 0]);
        assert!(peek::well_formed(&area));
    }
}

#[test]
fn each_sentence_can_be_broken_alone() {
    let mut examples = examples_of_header_and_cells();
    examples.extend(examples_of_logs());
    examples.extend(examples_of_phases());
    examples.extend(examples_of_lost_updates());
    for (sentence, area) in &examples {
        assert_eq!(faults(area), [*sentence]);
        assert!(!peek::well_formed(area), "{sentence}");
    }
    for sentence in wellformed::sentences() {
        assert!(examples.iter().any(|(broken, _)| *broken == sentence), "{sentence}");
    }
}

#[test]
fn the_areas_that_the_examples_start_from_are_well_formed() {
    for lines in [&OPEN[..], &LOCKED, &TWILIGHT, &MARKED, &PUBLISHING, &[]] {
        let area = after(lines);
        assert_eq!(faults(&area), [""; 0]);
        assert_eq!(Peek(&area).n(), 3);
    }
}

#[test]
fn every_n_with_its_length() {
    for n in 0..=u8::MAX {
        let area = with_n(n);
        let wrong = if (1..=64).contains(&n) { vec![] } else { vec!["n from 1 to 64"] };
        assert_eq!(faults(&area), wrong, "{n}");
        assert_eq!(Machine::unpack(&area).is_some(), wrong.is_empty(), "{n}");
    }
}
