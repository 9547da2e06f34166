//! Steps that have most to do: 64 cells and eight busy slots, 16 entries in
//! each log, and all cells held that the step itself does not need.
//!
//! One slot, the subject, makes the step. Of the others, slots 1 to 3 hold the
//! cells from 16 on, in twilight, publishing and locking, and slots 4 to 7 are
//! open. What the flag costs is seen where the others all have it set, and how
//! long a search of the write log takes where they are all open.

use std::ops::Range;

use oracle::machine::{CELLS_AT_MOST, SLOTS};
use oracle::wear::GROUPS_AT_MOST;
use oracle::{Call, Step, Value};
use Step::*;

use crate::stage::{usual_values, Stage, HELD, STALE, SUBJECT};

/// An area and the step to be made on it.
pub struct Case {
    /// The row that it belongs to: the step's name, or one of its own.
    pub row: String,
    /// The area before the step.
    pub area: Vec<u8>,
    /// The step.
    pub call: Call,
    /// The code that it is to get.
    pub code: u8,
}

/// An area and the wear set to level with on it, in the slot of the subject.
pub struct WearCase {
    /// The area before the operation.
    pub area: Vec<u8>,
    /// The set.
    pub set: Vec<u8>,
    /// The number that it is to answer.
    pub number: u64,
}

/// The row of the area that takes most of a check.
pub const ALL_FLAGGED: &str = "no such step, 8 slots with the flag";

/// The cells of a full write log, with room below, between and above.
const WRITTEN: [Range<u8>; 2] = [6..14, 17..25];

/// Where a cell stands in that log. These are all of one kind, so that the place
/// alone makes a difference.
const SOUGHT: [(&str, u8); 5] = [
    ("cell below", 0),
    ("cell among", 15),
    ("cell above", 63),
    ("the first entry", 6),
    ("the last entry", 24),
];

/// For each step a case or two in which it is done, and one in which it is
/// refused as late as it can be; for each cause why a cell can't be read, one.
/// Then those with a row of their own.
pub fn all() -> Option<Vec<Case>> {
    let idle = Stage::set(0..0)?;
    let mut cases = before_locking(&idle, &Stage::set(0..STALE)?);
    cases.extend(while_locking(&idle, &Stage::set(0..STALE + 1)?));
    let entered = Stage::set(0..STALE + 1)?.entered();
    let may_ignore = Stage::set_with_a_held_read()?.entered();
    cases.extend(in_twilight(&entered, &Stage::set(1..HELD + 1)?.entered(), &may_ignore));
    cases.extend(after_twilight(&may_ignore));
    cases.extend(whatever_the_slot(&idle));
    cases.extend(with_marks(&entered, &Stage::set(HELD..HELD + 16)?.entered()));
    cases.extend(with_flags(&Stage::among_flags()?)?);
    cases.extend(in_a_full_log(&Stage::among_open(32..47, 0..0)?));
    cases.extend(with_marks_apart()?);
    Some(cases)
}

/// For the most groups and for one: the case in which all cells are read and
/// the last group is picked, and those that are refused after the last read or
/// at it.
pub fn wear() -> Option<Vec<WearCase>> {
    let mut cases = Vec::new();
    for groups in [GROUPS_AT_MOST, 1] {
        cases.extend(wear_of(groups)?);
    }
    Some(cases)
}

/// Each group has fewer erases than the one before it. The cells of the set
/// are those that no other slot holds, the last of them in the last place.
fn wear_of(groups: usize) -> Option<[WearCase; 5]> {
    let last = groups - 1;
    let place = (2 * last + 1) as u64;
    let fewer = |group: usize| (true, (GROUPS_AT_MOST - group) as i32);
    let good: Vec<(bool, i32)> = (0..groups).map(fewer).collect();
    let mut negative = good.clone();
    negative[last] = (false, -1);
    let worn_out = vec![(true, i32::MAX); groups];
    let set: Vec<u8> = (0..HELD).skip(usize::from(HELD) - 2 * groups).collect();
    let mut set_held = set.clone();
    // Of the right kind, and held by another slot.
    set_held[2 * last + 1] = HELD;
    let fresh = |read: &[(bool, i32)]| Stage::fresh(&values_with(read));
    let begun = |read: &[(bool, i32)]| Some(fresh(read)?.among_others().then(Begin));
    let case = |stage: Stage, set: &[u8], number| {
        let (area, set) = (stage.0.pack(), set.to_vec());
        WearCase { area, set, number }
    };
    Some([
        case(begun(&good)?, &set, (2 << 32) + last as u64),
        // Slot 1 is in the way.
        case(begun(&good)?, &set_held, (place << 48) + (14 << 40) + (2 << 32) + 1),
        // The last cell of the set is published after the start.
        case(fresh(&good)?.then(Begin).among_others(), &set, (place << 48) + (10 << 40)),
        case(begun(&negative)?, &set, (place << 48) + (33 << 40)),
        case(begun(&worn_out)?, &set, 34 << 40),
    ])
}

/// Cells of all kinds, but for these groups right before the held cells.
fn values_with(groups: &[(bool, i32)]) -> Vec<Value> {
    let cells =
        groups.iter().map(|(usable, erases)| [Value::Truth(*usable), Value::Whole(*erases)]);
    let mut values: Vec<Value> = usual_values();
    let from = usize::from(HELD) - 2 * groups.len();
    for (value, cell) in values[from..].iter_mut().zip(cells.flatten()) {
        *value = cell;
    }
    values
}

fn before_locking(idle: &Stage, stale: &Stage) -> Vec<Case> {
    let begun = idle.then(Begin);
    let room_to_read = begun.each(Write, 48..64).each(Read, 0..15);
    let room_to_write = begun.each(Read, 0..16).each(Write, 1..16);
    let full = room_to_write.each(Write, 0..1);
    vec![
        idle.case(Begin, 0, 0),
        full.case(Begin, 0, 4),
        room_to_read.case(Read, 15, 0),
        room_to_read.case(Read, HELD, 14),
        stale.each(Write, 48..64).case(Read, STALE, 10),
        full.case(Read, HELD, 9),
        room_to_write.case(Write, 0, 0),
        full.case(Write, HELD, 9),
        full.case(Close, 0, 0),
        full.then(Close).case(Close, 0, 4),
    ]
}

fn while_locking(idle: &Stage, stale: &Stage) -> Vec<Case> {
    let mine = idle.then(Begin).each(Read, 0..16).each(Write, 0..15);
    let all_but_one = |last| mine.each(Write, last..last + 1).then(Close).times(Lock, 15);
    let locked = stale.locked();
    vec![
        all_but_one(15).case(Lock, 0, 0),
        all_but_one(HELD).case(Lock, 0, 11),
        locked.case(Enter, 0, 0),
        locked.at_last_stamp().case(Enter, 0, 12),
    ]
}

fn in_twilight(entered: &Stage, reads_held: &Stage, may_ignore: &Stage) -> Vec<Case> {
    let mut cases = Vec::new();
    for step in [Reread, Update, Ask] {
        cases.extend([entered.case(step, 15, 0), entered.case(step, HELD, 8)]);
    }
    cases.extend([
        entered.case(Reload, 0, 0),
        reads_held.case(Reload, 0, 11),
        entered.at_last_stamp().case(Reload, 0, 12),
        may_ignore.case(Ignore, 0, 0),
        entered.case(Finish, 0, 13),
        may_ignore.then(Ignore).case(Finish, 0, 0),
        entered.case(Publish, 0, 4),
        entered.case(GiveUp, 0, 0),
    ]);
    cases
}

fn after_twilight(may_ignore: &Stage) -> Vec<Case> {
    let committed = may_ignore.then(Ignore).then(Finish);
    vec![
        committed.case(Ignore, 0, 4),
        committed.case(Finish, 0, 4),
        committed.case(Publish, 0, 0),
        committed.times(Publish, 15).case(Publish, 0, 0),
        committed.case(GiveUp, 0, 4),
    ]
}

/// Codes 2 and 3 take the check of the area and nothing else. Code 1 takes
/// most of it if the fault is in its last bytes, whichever those are.
fn whatever_the_slot(idle: &Stage) -> Vec<Case> {
    let area = idle.0.pack();
    let begin = Call { step: Begin.number(), slot: SUBJECT, ..Call::default() };
    let no_such_slot = Call { slot: 9, ..begin };
    let slots_at = 14 + 14 * CELLS_AT_MOST;
    let mut cases = vec![
        idle.no_such_step("no such step"),
        Case { row: Begin.name().into(), area: area.clone(), call: no_such_slot, code: 3 },
    ];
    for last in [slots_at - 8, area.len() - 1] {
        let mut area = area.clone();
        area[last] = 0xff;
        cases.push(Case { row: Begin.name().into(), area, call: begin, code: 1 });
    }
    cases
}

/// Full logs: the last cell of both is the only one that is marked and written,
/// or all that was read is marked and other cells are written.
fn with_marks(entered: &Stage, apart: &Stage) -> Vec<Case> {
    vec![
        entered.case(Ignore, 0, 15).in_row("ignore, the last marked is the last written"),
        apart.case(Ignore, 0, 0).in_row("ignore, 16 marks and 16 other writes"),
    ]
}

/// Every other slot has the flag set, with 16 marks and 16 writes, and then the
/// subject, too.
fn with_flags(subject: &Stage) -> Option<Vec<Case>> {
    let mut all = subject.clone();
    all.commit_and_keep_one(SUBJECT);
    let flags = all.0.transactions().filter(|(_, own)| own.is_full_and_ignoring()).count();
    (flags == SLOTS).then(|| {
        vec![
            all.no_such_step(ALL_FLAGGED),
            subject.locked().case(Enter, 0, 0).in_row("enter, 7 others with the flag"),
            subject.entered().case(Reload, 0, 0).in_row("reload, 7 others with the flag"),
        ]
    })
}

/// What is not in the log is read from the shared cell, and is the last read
/// that there is room for; to write or to update it is refused.
fn in_a_full_log(begun: &Stage) -> Vec<Case> {
    let open = WRITTEN.into_iter().fold(begun.clone(), |stage, cells| stage.each(Write, cells));
    let entered = open.with_locks().then(Enter);
    let mut cases = Vec::new();
    for (step, stage, if_missing) in [(Read, &open, 0), (Write, &open, 9), (Update, &entered, 8)] {
        for (place, cell) in SOUGHT {
            let is_entry = WRITTEN.iter().any(|cells| cells.contains(&cell));
            let code = if is_entry { 0 } else { if_missing };
            let row = format!("{}, full log: {place}", step.name());
            cases.push(stage.case(step, cell, code).in_row(row));
        }
    }
    cases
}

/// Full logs that have no marked cell in common. What bounds the look at the
/// written ones may lie above all marks: joined by `|`, 17 to 32 give 63.
fn with_marks_apart() -> Option<[Case; 4]> {
    let [even, odd] = [0, 1].map(|first| (first..32).step_by(2));
    let below = Stage::among_open(0..16, 0..16)?.each(Write, 48..64);
    let below_a_bound = Stage::among_open(17..33, 17..33)?.each(Write, 40..56);
    let in_turns = Stage::among_open(even.clone(), even)?.each(Write, odd);
    let unmarked = Stage::among_open(0..16, 0..0)?.each(Write, 48..64);
    let rows = [
        (below, "ignore, full logs: all marked below what is written"),
        (below_a_bound, "ignore, 16 marks up to 32, writes from 40 on"),
        (in_turns, "ignore, 16 marks and 16 writes between them"),
        (unmarked, "ignore, no mark, 16 written"),
    ];
    let entered = |written: Stage| written.with_locks().then(Enter);
    Some(rows.map(|(written, row)| entered(written).case(Ignore, 0, 0).in_row(row)))
}

impl Stage {
    pub fn case(&self, step: Step, cell: u8, code: u8) -> Case {
        let call = self.call(SUBJECT, step, cell);
        Case { row: step.name().into(), area: self.0.pack(), call, code }
    }

    pub fn no_such_step(&self, row: &str) -> Case {
        let call = Call { step: 0, slot: SUBJECT, ..Call::default() };
        Case { row: row.into(), area: self.0.pack(), call, code: 2 }
    }
}

impl Case {
    fn in_row(self, row: impl Into<String>) -> Case {
        Case { row: row.into(), ..self }
    }
}
