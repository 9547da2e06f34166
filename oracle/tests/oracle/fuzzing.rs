//! The fuzzer passes what is right and catches what is wrong.

use oracle::fuzz::{fuzz, one_round, Failure, Library, Tally};
use oracle::{lay_out_on_bytes, step_in_place, step_on_bytes, wear_in_place, wear_on_bytes, Call};

use crate::peek::Peek;
use crate::slips::{self, Slip, Wear, BAD_SETS_TAKEN, SLIPS};
use crate::wrong_ignores::{loses_updates_alone, with_lost_marks_hidden};
use crate::wrong_ignores::{LENIENT_CHECKS, STRICT_CHECKS, WRONG_FLAGS, WRONG_IGNORES};
use crate::wrong_obstacles::WRONG_OBSTACLES;
use crate::wrong_searches::{LENIENT_LOOKS, STRICT_LOOKS, WRONG_LOOKS};
use crate::wrong_searches::{WRONG_READS, WRONG_UPDATES, WRONG_WRITES};

pub type StepOnBytes = fn(&mut [u8], Call) -> u64;
type LayOut = fn(&mut [u8], &[u8]) -> u64;

/// As many calls as the least counts are for.
const CALLS: u64 = 250_000;

/// How many sorts of rounds there are, which take turns. The first is of steps
/// from a fresh area, and the last four are of lay-outs and of the wear task.
const SORTS: usize = 12;
const LAY_OUTS: u64 = 8;

const RIGHT: Library = Library { step, lay_out: lay_out_on_bytes, wear: wear_on_bytes };

/// Each is wrong in one way.
pub const WRONG_STEPS: [(&str, StepOnBytes); 11] = [
    ("always refuses", |_, _| 1 << 40),
    ("always answers the same", |_, _| 0),
    ("changes nothing", |area, call| step(&mut area.to_vec(), call)),
    ("writes though it refuses", writes_though_it_refuses),
    ("answers a kind too much", answers_a_kind_too_much),
    ("leaves a byte in an idle slot", leaves_a_byte_in_an_idle_slot),
    ("keeps the old stamp at reload", keeps_the_old_stamp_at_reload),
    ("frees all at the first publish", frees_all_at_the_first_publish),
    ("takes version 2", takes_version_2),
    ("believes the area's own length", believes_the_areas_own_length),
    ("uses an argument that the step does not use", |area, call| match call {
        Call { step: 4, cell: 200.., .. } => 4 << 40,
        _ => step(area, call),
    }),
];

const WRONG_LAY_OUTS: [(&str, LayOut); 4] = [
    ("codes as those of a step", |area, descriptions| lay_out_on_bytes(area, descriptions) << 40),
    ("writes though it refuses", |area, descriptions| {
        area.fill(0);
        lay_out_on_bytes(area, descriptions)
    }),
    ("leaves the last byte", |area, descriptions| {
        let last = area.last().copied();
        let code = lay_out_on_bytes(area, descriptions);
        area.last_mut().into_iter().zip(last).for_each(|(byte, last)| *byte = last);
        code
    }),
    ("takes 65 cells", |area, descriptions| match descriptions.len() {
        325 if area.len() == 2500 => 0,
        _ => lay_out_on_bytes(area, descriptions),
    }),
];

const WRONG_WEARS: [(&str, Wear); 6] = [
    ("always refuses", |_, _, _| 1 << 40),
    ("always picks the first", |_, _, _| 2 << 32),
    ("changes nothing", |area, set, slot| wear_on_bytes(&mut area.to_vec(), set, slot)),
    ("believes that the set is as long as its last byte says", |area, set, slot| {
        wear_on_bytes(area, &set[..set.len() % 256], slot)
    }),
    ("does not see that an update is lost", |area, set, slot| match loses_updates_alone(area) {
        true => wear_on_bytes(&mut with_lost_marks_hidden(area), set, slot),
        false => wear_on_bytes(area, set, slot),
    }),
    ("clears an area that is not well formed", |area, set, slot| {
        let number = wear_on_bytes(area, set, slot);
        if number == 1 << 40 {
            area.fill(0);
        }
        number
    }),
];

/// What is told short of a run in which no one is in the way.
pub const IN_THE_WAY: [&str; 11] = [
    "code 10:",
    "code 14:",
    "code 11 of lock:",
    "code 11 of reload:",
    "code 11 of reload, the first is not the lowest:",
    "code 11 of reload, the first is not the highest:",
    "code 11 of reload, the first is not the last:",
    "code 14 of a cell that is newer, too:",
    "code 9 of a read of a held cell:",
    "code 11 with the holder that is told least:",
    "code 14 with the holder that is told least:",
];

/// What is told short of a run in which nothing is marked.
pub const IGNORED: [&str; 12] = [
    "code 15:",
    "ignores that set the flag:",
    "code 15, one of several marked cells is written:",
    "code 15, it is the first that was read:",
    "code 15, it is the last that was read:",
    "code 15, it is the lowest that is written:",
    "code 15, it is the highest that is written:",
    "ignores beside a cell in both logs, not marked:",
    "ignores with the flag set before:",
    "ignores with a cell in both logs and no mark:",
    "commits with the flag and a cell in both logs:",
    "code 15, then reload, update and commit:",
];

/// What is told short of a run in which nothing is looked for in a write log.
pub const SEARCHED: [&str; 13] = [
    "sought below a log with room,",
    "sought in a gap of a log with room,",
    "sought above a log with room,",
    "sought the first entry of a log with room,",
    "sought the last entry of a log with room,",
    "sought another entry of a log with room,",
    "sought below a full log,",
    "sought in a gap of a full log,",
    "sought above a full log,",
    "sought an entry of a full log,",
    "ignores, done, a written cell above all of several marked ones:",
    "code 15, a written cell above all of several marked ones:",
    "ignores, all of several marked cells above all written ones:",
];

/// Those that damaged areas and tasks that level are needed for, too.
const IGNORED_BY_SORT: [&str; 10] = [
    "an update lost, in twilight:",
    "an update lost, in publishing:",
    "an update lost, in publishing, the cell is published already:",
    "the flag set, 16 marked reads and 16 writes:",
    "broken alone: the flag is 1 only if no marked cell",
    "broken alone: in phase 4 a mark requires the flag:",
    "commits of tasks that levelled alone, marks ignored:",
    "code 15 of tasks that levelled, the count is marked:",
    "commits of tasks that levelled alone, repaired after 15:",
    "wear code 1 for this alone: an update is lost:",
];

pub fn step(area: &mut [u8], call: Call) -> u64 {
    step_on_bytes(area, call.step, call.slot, call.cell, call.kind, call.word)
}

fn in_place(area: &mut [u8], call: Call) -> u64 {
    step_in_place(area, call.step, call.slot, call.cell, call.kind, call.word)
}

fn writes_though_it_refuses(area: &mut [u8], call: Call) -> u64 {
    let number = step(area, call);
    if number >> 40 == 4 {
        area[13] ^= 1;
    }
    number
}

fn answers_a_kind_too_much(area: &mut [u8], call: Call) -> u64 {
    let number = step(area, call);
    if number >> 40 == 13 {
        return number + (1 << 32);
    }
    number
}

fn leaves_a_byte_in_an_idle_slot(area: &mut [u8], call: Call) -> u64 {
    let number = step(area, call);
    if call.step == 14 && number == 0 {
        let at = Peek(area).slot_at(call.slot);
        area[at + 196] = 1;
    }
    number
}

fn keeps_the_old_stamp_at_reload(area: &mut [u8], call: Call) -> u64 {
    let before = area.to_vec();
    let number = step(area, call);
    if call.step == 10 && number == 0 {
        let at = Peek(area).slot_at(call.slot) + 13;
        area[at..at + 8].copy_from_slice(&before[at..at + 8]);
    }
    number
}

fn frees_all_at_the_first_publish(area: &mut [u8], call: Call) -> u64 {
    let number = step(area, call);
    if call.step != 13 || number != 0 {
        return number;
    }
    for cell in 0..Peek(area).n() {
        let at = Peek(area).cell_at(cell) + 1;
        if area[at] == call.slot {
            area[at] = 0;
        }
    }
    number
}

fn takes_version_2(area: &mut [u8], call: Call) -> u64 {
    if area.first() != Some(&2) {
        return step(area, call);
    }
    area[0] = 1;
    let number = step(area, call);
    area[0] = 2;
    number
}

fn believes_the_areas_own_length(area: &mut [u8], call: Call) -> u64 {
    let own = area.get(3..5).map(|field| usize::from(field[0]) << 8 | usize::from(field[1]));
    let length = own.unwrap_or(0).min(area.len());
    step(&mut area[..length], call)
}

fn run(library: Library, calls: u64) -> Result<Tally, Failure> {
    fuzz(library, 1, calls, &mut |_, _| {})
}

/// As many calls as the least counts are for, so this is the test of the step
/// and of the wear task in place, too.
#[test]
fn what_is_in_place_is_right_and_every_least_count_is_reached() {
    let library = Library { step: in_place, wear: wear_in_place, ..RIGHT };
    let tally = run(library, CALLS).unwrap_or_else(|failure| panic!("{failure}"));
    assert!(tally.calls() >= CALLS);
    assert_eq!(tally.short(), [""; 0], "{tally}");
}

/// The slips are tried on an operation that is right without them.
#[test]
fn the_wear_task_as_a_list_of_calls_is_right() {
    let wear: Wear = |area, set, slot| slips::wear(area, set, slot, Slip::Nothing);
    let library = Library { wear, ..RIGHT };
    let mut tally = Tally::default();
    // Rounds of the last three sorts only.
    for round in (0..2000).filter(|round| round % SORTS as u64 > LAY_OUTS) {
        one_round(library, 1, round, &mut tally).unwrap_or_else(|failure| panic!("{failure}"));
    }
    let short = tally.short();
    assert!(!short.iter().any(|line| line.contains("wear") || line.contains("picks")), "{short:?}");
}

#[test]
fn a_run_that_reaches_little_is_told_so() {
    let mut tally = Tally::default();
    // Rounds of the first sort only, and so many that no least count is 0.
    for round in (0..8000).step_by(SORTS) {
        one_round(RIGHT, 1, round, &mut tally).unwrap_or_else(|failure| panic!("{failure}"));
    }
    let short = tally.short();
    let is_told = |start: &str| short.iter().any(|line| line.starts_with(start));
    assert!(is_told("code 12") && is_told("broken alone: version 1"), "{short:?}");
    for code in [0, 1, 3, 4, 10, 14, 32, 33, 34] {
        assert!(is_told(&format!("wear code {code}:")), "{code} in {short:?}");
    }
    for reason in ["no byte", "an odd", "more than", "a cell not", "a cell twice", "a cell of"] {
        let start = format!("wear code 32 for this alone: {reason}");
        assert!(is_told(&start), "{start} in {short:?}");
    }
    let more = ["10 at", "14 at", "33 at", "33 for", "34 with"].map(|of| format!("wear code {of}"));
    let picks = ["picks of a", "picks of the", "picks on", "picks beside", "commits of tasks"];
    for start in more.iter().map(String::as_str).chain(picks) {
        assert!(is_told(start), "{start} in {short:?}");
    }
}

/// Lay-outs only, so that no slot is ever in another one's way.
#[test]
fn a_run_with_no_one_in_the_way_and_nothing_in_the_logs_is_told_so() {
    let mut tally = Tally::default();
    for round in (LAY_OUTS..20_000).step_by(SORTS) {
        one_round(RIGHT, 1, round, &mut tally).unwrap_or_else(|failure| panic!("{failure}"));
    }
    let short = tally.short();
    let short_of = IN_THE_WAY.into_iter().chain(IGNORED).chain(IGNORED_BY_SORT).chain(SEARCHED);
    for start in short_of {
        assert!(short.iter().any(|line| line.starts_with(start)), "{start} in {short:?}");
    }
}

#[test]
fn every_wrong_step_is_caught() {
    for (name, step) in WRONG_STEPS {
        assert!(run(Library { step, ..RIGHT }, 50_000).is_err(), "{name}");
    }
}

/// By the answer alone: no byte of the area differs.
#[test]
fn every_wrong_word_on_who_is_in_the_way_is_caught() {
    for (name, step) in WRONG_OBSTACLES {
        let failure = run(Library { step, ..RIGHT }, 50_000).expect_err(name);
        println!("{name}: round {}", failure.round);
        let is_answer = failure.report.contains("answer: wanted code");
        assert!(is_answer && !failure.report.contains("its byte"), "{name}: {failure}");
    }
}

#[test]
fn every_wrong_ignore_is_caught() {
    for &(name, step) in WRONG_IGNORES.iter().chain(&WRONG_FLAGS).chain(&STRICT_CHECKS) {
        let failure = run(Library { step, ..RIGHT }, 50_000).expect_err(name);
        println!("{name}: round {}", failure.round);
    }
}

#[test]
fn every_wrong_search_is_caught() {
    for &(name, step) in [WRONG_READS, WRONG_WRITES, WRONG_UPDATES].into_iter().flatten() {
        let failure = run(Library { step, ..RIGHT }, 50_000).expect_err(name);
        println!("{name}: round {}", failure.round);
    }
}

#[test]
fn every_wrong_look_at_what_is_written_is_caught() {
    for &(name, step) in WRONG_LOOKS.iter().chain(STRICT_LOOKS) {
        let failure = run(Library { step, ..RIGHT }, 50_000).expect_err(name);
        println!("{name}: round {}", failure.round);
    }
}

/// At an area that loses an update, and not by chance at something else.
#[test]
fn every_update_that_may_be_lost_is_caught() {
    for &(name, step) in LENIENT_CHECKS.iter().chain(LENIENT_LOOKS) {
        let failure = run(Library { step, ..RIGHT }, 50_000).expect_err(name);
        println!("{name}: round {}", failure.round);
        assert!(failure.report.contains("answer: wanted code 1, kind 0"), "{name}: {failure}");
    }
}

#[test]
fn every_wrong_lay_out_is_caught() {
    for (name, lay_out) in WRONG_LAY_OUTS {
        assert!(run(Library { lay_out, ..RIGHT }, 50_000).is_err(), "{name}");
    }
}

#[test]
fn every_wrong_wear_task_is_caught() {
    for &(name, wear) in SLIPS.iter().chain(&WRONG_WEARS) {
        let failure = run(Library { wear, ..RIGHT }, 50_000).expect_err(name);
        println!("{name}: round {}", failure.round);
    }
}

/// And at such a set, so not by chance at something else.
#[test]
fn every_bad_set_that_is_taken_is_caught() {
    for &(name, wear) in BAD_SETS_TAKEN {
        let failure = run(Library { wear, ..RIGHT }, 50_000).expect_err(name);
        println!("{name}: round {}", failure.round);
        assert!(failure.report.contains("answer: wanted code 32, kind 0"), "{name}: {failure}");
    }
}

#[test]
fn a_failure_is_repeated_by_its_round_alone() {
    let library = Library { step: takes_version_2, ..RIGHT };
    let failure = run(library, 50_000).expect_err("a wrong library");
    let again = one_round(library, 1, failure.round, &mut Tally::default());
    assert_eq!(again.expect_err("the same").to_string(), failure.to_string());
    assert!(failure.to_string().contains("answer: wanted code 1, kind 0, word 00000000"));
    assert!(failure.to_string().ends_with(&format!("seed 1, round {}", failure.round)));
}
