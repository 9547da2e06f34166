//! What the sheets have reached, so that a run can't compare nothing unseen.

use std::fmt;

use super::effects::{Effects, Made};
use crate::binary::{Sheet, STEPS_AT_MOST};
use crate::call::{Call, Reply, Step};
use crate::counts::{self, Count};
use crate::ignores::{self, Ignores, Repairs};
use crate::machine::{Machine, CELLS_AT_MOST};
use crate::obstacles::{self, Obstacles};
use crate::searches::{self, Searches};
use crate::trace::Tracer;

/// The least counts are those of so many random sheets, and of more in
/// proportion. Fewer may miss one of them by chance.
pub const LEAST_COUNTS_ARE_FOR: u64 = 2_000;

/// The least counts of steps with another slot in the way.
const OBSTACLES: [u64; obstacles::COUNTED] = [4000, 200, 12, 12, 30, 90, 150, 200, 150];

/// The least counts of ignores and of what comes of them.
const IGNORES: [u64; ignores::COUNTED] = [350, 60, 25, 18, 1, 2, 120, 50, 450, 110, 30];

/// The least counts of searches of a write log.
const SEARCHES: [u64; searches::COUNTED] =
    [75, 140, 110, 480, 450, 290, 22, 85, 50, 570, 38, 11, 16];

/// Counts of what was compared and found alike.
#[derive(Clone, Debug, Default)]
pub struct Tally {
    good: u64,
    bad: u64,
    with_a_commit: u64,
    full: u64,
    codes: [u64; 16],
    done: [u64; 15],
    marks: u64,
    obstacles: Obstacles,
    ignores: Ignores,
    searches: Searches,
    effects: Effects,
}

impl Tally {
    /// Inputs of both sorts.
    pub fn compared(&self) -> u64 {
        self.good + self.bad
    }

    pub(super) fn note_input(&mut self, is_good: bool) {
        let count = if is_good { &mut self.good } else { &mut self.bad };
        *count += 1;
    }

    /// For random sheets only: what was written by hand says nothing of them.
    pub(super) fn note_steps(&mut self, sheet: &Sheet) {
        let commits = self.commits();
        if let Some(machine) = Machine::fresh(sheet.cells()) {
            let (mut tracer, mut repairs) = (Tracer::new(machine), Repairs::default());
            for call in sheet.calls() {
                self.note_step(&mut tracer, *call, &mut repairs);
            }
        }
        let committed = self.commits() > commits;
        let size = (sheet.cells().len(), sheet.calls().len());
        self.with_a_commit += u64::from(committed);
        self.full += u64::from(committed && size == (CELLS_AT_MOST, STEPS_AT_MOST));
    }

    fn note_step(&mut self, tracer: &mut Tracer, call: Call, repairs: &mut Repairs) {
        let is_noted = Ignores::is_about(call.step) || Searches::is_about(call.step);
        let before = is_noted.then(|| tracer.machine().clone());
        let (reply, effect) = tracer.step(call);
        let machine = tracer.machine();
        if let Some(before) = &before {
            self.ignores.note(before, call, reply.code());
            self.searches.note(before, call, reply.code());
        }
        if repairs.note(machine, call, reply) {
            self.ignores.note_repair();
        }
        self.codes[usize::from(reply.code())] += 1;
        self.obstacles.note(machine, call, reply.number());
        self.effects.note(&Made { call, reply, effect: effect.as_ref(), machine });
        if let Some(step) = Step::numbered(call.step).filter(|_| reply.code() == 0) {
            self.done[usize::from(step.number())] += 1;
            // Enter answers false: something is marked.
            let marks = step == Step::Enter && reply.word() == 0 && reply != Reply::Done;
            self.marks += u64::from(marks);
        }
    }

    fn commits(&self) -> u64 {
        self.done[usize::from(Step::Finish.number())]
    }

    /// The counts that are below their least.
    pub fn short(&self, sheets: u64) -> Vec<String> {
        counts::short(self.counts(), sheets, LEAST_COUNTS_ARE_FOR)
    }

    fn counts(&self) -> Vec<Count> {
        let named = [
            ("random sheets with a commit", self.with_a_commit, 2_000),
            ("of these with 64 cells and 4096 steps", self.full, 20),
            ("commits", self.commits(), 10_000),
            ("enters that mark", self.marks, 1_000),
            ("reloads", self.done[usize::from(Step::Reload.number())], 4_000),
            ("aborts", self.codes[13], 500),
        ];
        let mut counts: Vec<Count> =
            named.map(|(name, count, least)| (name.to_string(), count, least)).to_vec();
        // Codes 1 and 12 are out of a sheet's reach, and 13 is an abort.
        for code in (2..=11).chain([14, 15]) {
            let least = match code {
                14 => 2_500,
                15 => 200,
                _ => 500,
            };
            counts.push((format!("code {code}"), self.codes[code], least));
        }
        counts.extend(self.obstacles.counts(OBSTACLES));
        counts.extend(self.ignores.counts(IGNORES));
        counts.extend(self.searches.counts(SEARCHES));
        counts.extend(self.effects.counts());
        for step in Step::ALL {
            let count = self.done[usize::from(step.number())];
            counts.push((format!("{} done", step.name()), count, 1_500));
        }
        counts
    }
}

impl fmt::Display for Tally {
    fn fmt(&self, f: &mut fmt::Formatter) -> fmt::Result {
        for (name, count, _) in self.counts() {
            writeln!(f, "{count:10}  {name}")?;
        }
        let (good, bad) = (self.good, self.bad);
        write!(f, "{:10}  inputs, {good} of them good sheets and {bad} bad", self.compared())
    }
}
