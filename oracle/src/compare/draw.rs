//! Random sheets.

use super::case::Case;
use crate::binary::{Sheet, STEPS_AT_MOST};
use crate::call::{Call, Reply, Step};
use crate::counting::Tasks;
use crate::generate::Habit;
use crate::machine::{Machine, CELLS_AT_MOST, SLOTS};
use crate::random::Random;

/// The sorts of random sheets return after so many.
const ROUND: u64 = 80;

const CHANGED_SHEETS: u64 = 300;
const REFUSED_SHEETS: u64 = 50;

/// A sheet with a commit. It follows from the seed and its own number alone.
pub fn random_sheet(seed: u64, number: u64) -> Case {
    let mut random = Random::of_part(seed, number);
    let sheet = match number % ROUND {
        0 => busy_sheet(&mut random),
        10 | 30 | 50 | 70 => wide_sheet(&mut random),
        20 | 40 | 60 => sheet_apart(&mut random),
        _ => some_sheet(&mut random),
    };
    Case::new(format!("random sheet {number} of seed {seed}"), encoded(sheet))
}

/// A sheet of most cells and most steps, with all slots in use.
pub fn full_sheet(seed: u64) -> Vec<u8> {
    encoded(busy_sheet(&mut Random::new(seed)))
}

/// Random sheets, most with some sense, with one byte changed to any other.
/// Some are still good.
pub fn changed_sheets(seed: u64) -> Vec<Case> {
    let case = |number| {
        // Parts of the run that no random sheet has.
        let mut random = Random::of_part(seed, u64::MAX - number);
        let mut bytes = encoded(random.sheet());
        let place = match random.up_to(2) {
            0 => random.place(bytes.len().min(8)),
            _ => random.place(bytes.len()),
        };
        if let Some(byte) = bytes.get_mut(place) {
            *byte ^= random.between(1, 255) as u8;
        }
        Case::new(format!("changed sheet {number} of seed {seed}, at byte {place}"), bytes)
    };
    (0..CHANGED_SHEETS).map(case).collect()
}

/// Sheets with steps that are all refused, so that none has an effect.
pub fn refused_sheets(seed: u64) -> Vec<Case> {
    let case = |number| {
        // Parts of the run below those of the changed sheets.
        let mut random = Random::of_part(seed, u64::MAX - CHANGED_SHEETS - number);
        let bytes = encoded(refused_sheet(&mut random));
        Case::new(format!("refused sheet {number} of seed {seed}"), bytes)
    };
    (0..REFUSED_SHEETS).map(case).collect()
}

/// Every drawing gives a good sheet; an empty input would be told as bad and
/// be missed by the least counts.
fn encoded(sheet: Option<Sheet>) -> Vec<u8> {
    sheet.map(|sheet| sheet.encode()).unwrap_or_default()
}

fn some_sheet(random: &mut Random) -> Option<Sheet> {
    let n = random.cell_count();
    let tasks = random.tasks();
    let steps = random.between(40, 300) as usize;
    sheet_with_a_commit(random, n, tasks, steps)
}

fn busy_sheet(random: &mut Random) -> Option<Sheet> {
    let patience = random.pick(&[8, 40])?;
    let tasks = Tasks::Any(Habit { slots: SLOTS as u8, patience });
    sheet_with_a_commit(random, CELLS_AT_MOST, tasks, STEPS_AT_MOST)
}

/// Some transactions write as many cells as a log has room for.
fn wide_sheet(random: &mut Random) -> Option<Sheet> {
    let n = random.pick(&[17, 20, 64])?;
    let tasks = Tasks::FillLogs { slots: random.between(1, 3) as u8 };
    sheet_with_a_commit(random, n, tasks, 500)
}

/// All that is marked is below what is written, or above it.
fn sheet_apart(random: &mut Random) -> Option<Sheet> {
    let n = random.pick(&[4, 6, 10, 20])?;
    let tasks = Tasks::Apart { slots: random.between(2, 4) as u8 };
    sheet_with_a_commit(random, n, tasks, 300)
}

/// What a fresh machine refuses leaves it fresh for the next step.
fn refused_sheet(random: &mut Random) -> Option<Sheet> {
    let n = random.cell_count();
    let cells = random.values(n);
    let fresh = Machine::fresh(&cells)?;
    let steps = random.between(1, 100) as usize;
    let calls = std::iter::repeat_with(|| random.junk_call());
    let refused = calls.filter(|call| fresh.clone().step(*call).is_refused());
    Sheet::new(cells, refused.take(steps).collect()).ok()
}

/// Draws until some transaction commits, which few short sheets lack.
fn sheet_with_a_commit(random: &mut Random, n: usize, tasks: Tasks, steps: usize) -> Option<Sheet> {
    loop {
        let cells = random.values_for(tasks, n);
        let mut machine = Machine::fresh(&cells)?;
        let mut commits = 0;
        let mut calls = Vec::new();
        for _ in 0..steps {
            let call = random.call_of(tasks, &machine);
            commits += u64::from(is_commit(call, machine.step(call)));
            calls.push(call);
        }
        if commits > 0 {
            return Sheet::new(cells, calls).ok();
        }
    }
}

fn is_commit(call: Call, reply: Reply) -> bool {
    Step::numbered(call.step) == Some(Step::Finish) && reply == Reply::Done
}
