//! The sorts of rounds.

use super::failure::{differences, Given};
use super::guarded::Guarded;
use super::{Library, Tally};
use crate::area::{area_length, lay_out_on_bytes, step_on_bytes};
use crate::binary::{describe, DESCRIPTION_LENGTH};
use crate::call::Call;
use crate::counting::Tasks;
use crate::generate::Habit;
use crate::ignores::Repairs;
use crate::machine::Machine;
use crate::random::Random;
use crate::value::Value;
use crate::wellformed::faults;

/// What a round does.
#[derive(Clone, Copy)]
pub enum Sort {
    Walk,
    LastStamps,
    AnyArea,
    Damage,
    Junk,
    EveryStepAndSlot,
    Flagged,
    CellsSought,
    LayOut,
    WearWalk,
    WearAnyArea,
    WearSpoilt,
}

impl Sort {
    const ALL: [Sort; 12] = [
        Sort::Walk,
        Sort::LastStamps,
        Sort::AnyArea,
        Sort::Damage,
        Sort::Junk,
        Sort::EveryStepAndSlot,
        Sort::Flagged,
        Sort::CellsSought,
        Sort::LayOut,
        Sort::WearWalk,
        Sort::WearAnyArea,
        Sort::WearSpoilt,
    ];

    pub fn of(round: u64) -> Sort {
        Sort::ALL[(round % Sort::ALL.len() as u64) as usize]
    }

    pub fn name(self) -> &'static str {
        match self {
            Sort::Walk => "random steps from a fresh area",
            Sort::LastStamps => "random steps near the last stamp",
            Sort::AnyArea => "any well-formed areas",
            Sort::Damage => "areas with one to three bytes changed",
            Sort::Junk => "junk of any length",
            Sort::EveryStepAndSlot => "every step and slot on one area",
            Sort::Flagged => "slots with marks and with the flag, and tasks that count up",
            Sort::CellsSought => "cells looked for in write logs",
            Sort::LayOut => "lay-outs",
            Sort::WearWalk => "tasks that level, from a fresh area",
            Sort::WearAnyArea => "wear tasks on any well-formed areas",
            Sort::WearSpoilt => "wear tasks on damaged areas and junk",
        }
    }
}

/// Makes the calls of a round. An error is the report of a difference.
pub struct Round<'a> {
    pub library: Library,
    pub random: Random,
    pub tally: &'a mut Tally,
}

pub type Made = Result<(), String>;

impl Round<'_> {
    pub fn make(&mut self, sort: Sort) -> Made {
        match sort {
            Sort::Walk => self.walk(0, 200),
            Sort::LastStamps => {
                let clock = u64::MAX - self.random.up_to(40);
                self.walk(clock, 100)
            }
            Sort::AnyArea => self.any_areas(),
            Sort::Damage => (0..8).try_for_each(|_| self.damage()),
            Sort::Junk => self.junk(),
            Sort::EveryStepAndSlot => self.every_step_and_slot(),
            Sort::Flagged => {
                (0..30).try_for_each(|_| self.flagged())?;
                let n = self.random.between(1, 4) as usize;
                self.walk_of(Tasks::CountUp { slots: 5 }, n, 0, 150)
            }
            Sort::CellsSought => (0..12).try_for_each(|_| self.cells_sought()),
            Sort::LayOut => self.lay_outs(),
            Sort::WearWalk => self.tasks_that_level(),
            Sort::WearAnyArea => (0..35).try_for_each(|_| self.level_on_any_area()),
            Sort::WearSpoilt => self.level_on_spoilt_areas(),
        }
    }

    /// Steps one after the other, from a fresh area with another clock.
    fn walk(&mut self, clock: u64, steps: u64) -> Made {
        let n = self.random.cell_count();
        let tasks = self.random.tasks();
        self.walk_of(tasks, n, clock, steps)
    }

    fn walk_of(&mut self, tasks: Tasks, n: usize, clock: u64, steps: u64) -> Made {
        let values = self.random.values_for(tasks, n);
        let (mut area, mut machine) = self.fresh(&values, clock)?;
        let mut repairs = Repairs::default();
        for _ in 0..steps {
            let call = self.random.call_of(tasks, &machine);
            self.step(&mut area, call)?;
            let reply = machine.step(call);
            if repairs.note(&machine, call, reply) {
                self.tally.ignores.note_repair();
            }
        }
        Ok(())
    }

    /// Lays out an area with these cells and another clock.
    pub(super) fn fresh(
        &mut self,
        values: &[Value],
        clock: u64,
    ) -> Result<(Vec<u8>, Machine), String> {
        let mut area = self.bytes(area_length(values.len()));
        self.lay_out(&mut area, &describe(values))?;
        area[6..14].copy_from_slice(&clock.to_be_bytes());
        let machine = Machine::unpack(&area).ok_or("a fresh area is not well formed")?;
        Ok((area, machine))
    }

    fn any_areas(&mut self) -> Made {
        for _ in 0..200 {
            let machine = self.random.machine();
            let call = self.any_call(&machine);
            self.step(&mut machine.pack(), call)?;
        }
        Ok(())
    }

    /// Many damages to one area. What is left may still be well formed.
    fn damage(&mut self) -> Made {
        let machine = self.some_machine();
        let area = machine.pack();
        for _ in 0..50 {
            let mut damaged = area.clone();
            self.random.damage(&mut damaged);
            let call = self.any_call(&machine);
            self.spoilt(damaged, call)?;
        }
        Ok(())
    }

    fn junk(&mut self) -> Made {
        let machine = self.some_machine();
        let area = machine.pack();
        for _ in 0..10 {
            let junk = self.random.junk();
            let wrong_length = self.random.cut_or_longer(&area);
            let wrong_n = self.random.too_few_or_many_cells();
            for spoilt in [junk, wrong_length, wrong_n] {
                let call = self.any_call(&machine);
                self.spoilt(spoilt, call)?;
            }
        }
        Ok(())
    }

    /// A step on bytes that are likely not to be well formed.
    pub(super) fn spoilt(&mut self, mut area: Vec<u8>, call: Call) -> Made {
        let faults = faults(&area);
        self.tally.note_faults(&faults);
        self.step(&mut area, call)
    }

    fn every_step_and_slot(&mut self) -> Made {
        let machine = self.some_machine();
        let area = machine.pack();
        for step in (0..=15).chain([255]) {
            for slot in (0..=9).chain([255]) {
                let call = Call { step, slot, ..self.random.junk_call() };
                let call = self.random.with_likely_arguments(&machine, call);
                self.step(&mut area.clone(), call)?;
            }
        }
        Ok(())
    }

    fn lay_outs(&mut self) -> Made {
        for _ in 0..40 {
            let n = self.random.pick(&[0, 1, 2, 3, 20, 63, 64, 65, 66]).unwrap_or(1);
            let mut descriptions = describe(&self.random.values(n));
            let mut length = area_length(n);
            let described = descriptions.len();
            match self.random.up_to(6) {
                0 => length = self.random.up_to(3000) as usize,
                1 => descriptions.truncate(self.random.place(described + 1)),
                2 => descriptions.resize(described + self.random.between(1, 4) as usize, 2),
                3 => descriptions.resize(described + DESCRIPTION_LENGTH * 256, 2),
                4 => self.spoil(&mut descriptions),
                _ => {}
            }
            let mut area = self.bytes(length);
            self.lay_out(&mut area, &descriptions)?;
        }
        Ok(())
    }

    /// Puts another kind or word into one of the descriptions.
    fn spoil(&mut self, descriptions: &mut [u8]) {
        let place = self.random.place(descriptions.len() / DESCRIPTION_LENGTH);
        let junk = self.random.junk_call();
        let start = place * DESCRIPTION_LENGTH;
        if let Some([kind, word @ ..]) = descriptions.get_mut(start..start + DESCRIPTION_LENGTH) {
            *kind = junk.kind;
            word.copy_from_slice(&junk.word.to_be_bytes());
        }
    }

    /// A machine in any state.
    fn some_machine(&mut self) -> Machine {
        match self.random.up_to(1) {
            0 => self.random.reached().unwrap_or_else(|| self.random.machine()),
            _ => self.random.machine(),
        }
    }

    /// A call in any slot, mostly one that suits it.
    pub(super) fn any_call(&mut self, machine: &Machine) -> Call {
        let call = self.random.likely_call(machine, Habit { slots: 8, patience: 4 });
        let step = if self.random.one_in(4) { self.random.up_to(15) as u8 } else { call.step };
        Call { step, ..call }
    }

    fn bytes(&mut self, length: usize) -> Vec<u8> {
        (0..length).map(|_| self.random.byte()).collect()
    }

    /// Makes the step on both and leaves the area as it then is.
    pub(super) fn step(&mut self, area: &mut [u8], call: Call) -> Made {
        let before = area.to_vec();
        let Call { step, slot, cell, kind, word } = call;
        let number = step_on_bytes(area, step, slot, cell, kind, word);
        let mut lent = Guarded::new(&before, &mut self.random);
        let given = (self.library.step)(lent.lend(), call);
        let asked =
            format_args!("step {step}, slot {slot}, cell {cell}, kind {kind}, word {word:08x}");
        differences(asked, &before, Given::wanted(number, area), Given::lent(given, &lent))?;
        self.tally.note_step(&before, call, number);
        Ok(())
    }

    /// Makes the lay-out on both and leaves the area as it then is.
    fn lay_out(&mut self, area: &mut [u8], descriptions: &[u8]) -> Made {
        let before = area.to_vec();
        let number = lay_out_on_bytes(area, descriptions);
        let mut lent = Guarded::new(&before, &mut self.random);
        let mut read = Guarded::new(descriptions, &mut self.random);
        let given = (self.library.lay_out)(lent.lend(), read.lend());
        let asked = format_args!("lay-out from {descriptions:02x?}");
        differences(asked, &before, Given::wanted(number, area), Given::lent(given, &lent))?;
        if read.bytes() != descriptions || read.changed_guard().is_some() {
            return Err(format!("{asked}\n  the descriptions were changed\n"));
        }
        self.tally.note_lay_out(number);
        Ok(())
    }
}
