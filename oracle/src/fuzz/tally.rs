//! What the calls have reached, so that a run can't compare nothing unseen.

use std::fmt;

use super::flagged::Lost;
use super::wear_tally::WearTally;
use crate::call::Call;
use crate::counts::{self, Count};
use crate::ignores::{self, Ignores};
use crate::machine::Machine;
use crate::obstacles::{self, Obstacles};
use crate::searches::{self, Searches};
use crate::wellformed::{sentences, MARK_REQUIRES_FLAG, SENTENCE_COUNT};

/// The least counts are those of so many calls; others are in proportion.
const LEAST_COUNTS_ARE_FOR: u64 = 250_000;

/// The least counts of steps with another slot in the way.
const OBSTACLES: [u64; obstacles::COUNTED] = [1500, 200, 70, 70, 100, 150, 5, 60, 25];

/// The least counts of ignores and of what comes of them.
const IGNORES: [u64; ignores::COUNTED] = [1000, 400, 60, 60, 70, 60, 400, 1000, 180, 80, 12];

/// The least counts of searches of a write log.
const SEARCHES: [u64; searches::COUNTED] =
    [155, 170, 150, 295, 275, 120, 110, 180, 95, 970, 660, 160, 28];

/// The least counts of areas that lose an update, in the order of their names.
const LOST: [u64; Lost::ALL.len()] = [900, 600, 300];

/// The least count of areas that lack the flag on a mark in publishing, and
/// nothing else.
const MARK_WITHOUT_FLAG: u64 = 1500;

/// Counts of the calls that were answered alike.
#[derive(Clone, Debug, Default)]
pub struct Tally {
    codes: [u64; 16],
    done: [u64; 15],
    marks: u64,
    obstacles: Obstacles,
    pub(super) ignores: Ignores,
    searches: Searches,
    lay_outs: [u64; 7],
    pub(super) wear: WearTally,
    /// Areas with some bytes changed that are well formed all the same.
    still_well_formed: u64,
    /// Areas in which no other sentence is broken, for each sentence.
    alone: [u64; SENTENCE_COUNT],
    /// Those of them that lose an update by their flag, by the written cell.
    lost: [u64; Lost::ALL.len()],
    /// Well-formed areas with the flag set that are next to losing one: all that
    /// was read is marked, and both logs are full.
    full_and_ignoring: u64,
}

impl Tally {
    /// Calls of all functions.
    pub fn calls(&self) -> u64 {
        self.codes.iter().chain(&self.lay_outs).sum::<u64>() + self.wear.calls()
    }

    pub(super) fn note_step(&mut self, before: &[u8], call: Call, number: u64) {
        let code = (number >> 40) as u8;
        self.codes[usize::from(code)] += 1;
        let is_noted = Obstacles::is_about(code)
            || Ignores::is_about(call.step)
            || Searches::is_about(call.step);
        if let Some(machine) = Some(before).filter(|_| is_noted).and_then(Machine::unpack) {
            self.obstacles.note(&machine, call, number);
            self.ignores.note(&machine, call, code);
            self.searches.note(&machine, call, code);
        }
        if code != 0 {
            return;
        }
        self.done[usize::from(call.step)] += 1;
        // Enter answers false: something is marked.
        self.marks += u64::from(call.step == 6 && number as u32 == 0);
    }

    pub(super) fn note_lay_out(&mut self, code: u64) {
        self.lay_outs[code as usize] += 1;
    }

    pub(super) fn note_lost(&mut self, lost: Lost) {
        self.lost[lost as usize] += 1;
    }

    pub(super) fn note_full_and_ignoring(&mut self) {
        self.full_and_ignoring += 1;
    }

    pub(super) fn note_faults(&mut self, faults: &[&str]) {
        match faults {
            [] => self.still_well_formed += 1,
            [only] => {
                let place = sentences().position(|sentence| sentence == *only);
                self.alone[place.unwrap_or(0)] += 1;
            }
            _ => {}
        }
    }

    /// The counts that are below their least.
    pub fn short(&self) -> Vec<String> {
        counts::short(self.counts(), self.calls(), LEAST_COUNTS_ARE_FOR)
    }

    fn counts(&self) -> Vec<Count> {
        let mut counts: Vec<Count> = Vec::new();
        for (code, count) in self.codes.iter().enumerate() {
            let least = match code {
                14 => 600,
                15 => 1000,
                _ => 100,
            };
            counts.push((format!("code {code}"), *count, least));
        }
        for (step, count) in self.done.iter().enumerate().skip(1) {
            counts.push((format!("step {step} done"), *count, 300));
        }
        for code in [0, 1, 6] {
            counts.push((format!("lay-out code {code}"), self.lay_outs[code], 200));
        }
        let named = [
            ("commits", self.done[12], 1000),
            ("enters that mark", self.marks, 300),
            ("reloads", self.done[10], 400),
            ("aborts", self.codes[13], 100),
            ("damaged and still well formed", self.still_well_formed, 2000),
            ("the flag set, 16 marked reads and 16 writes", self.full_and_ignoring, 300),
        ];
        counts.extend(named.map(|(name, count, least)| (name.to_string(), count, least)));
        counts.extend(self.obstacles.counts(OBSTACLES));
        counts.extend(self.ignores.counts(IGNORES));
        counts.extend(self.searches.counts(SEARCHES));
        for ((lost, count), least) in Lost::ALL.into_iter().zip(self.lost).zip(LOST) {
            counts.push((format!("an update lost, {}", lost.name()), count, least));
        }
        for (sentence, count) in sentences().zip(self.alone) {
            let least = if sentence == MARK_REQUIRES_FLAG { MARK_WITHOUT_FLAG } else { 5 };
            counts.push((format!("broken alone: {sentence}"), count, least));
        }
        counts.extend(self.wear.counts());
        counts
    }
}

impl fmt::Display for Tally {
    fn fmt(&self, f: &mut fmt::Formatter) -> fmt::Result {
        for (name, count, _) in self.counts() {
            writeln!(f, "{count:10}  {name}")?;
        }
        write!(f, "{:10}  calls", self.calls())
    }
}
