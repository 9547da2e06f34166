//! Rounds of the wear task.

use super::failure::{differences, Given};
use super::guarded::Guarded;
use super::rounds::{Made, Round};
use crate::call::{Call, Refusal, Reply, Step};
use crate::generate::Habit;
use crate::ignores::Repairs;
use crate::machine::{Machine, Transaction, SLOTS};
use crate::wear::wear_on_bytes;

/// Tasks that level on an area, one after the other.
struct Walk {
    area: Vec<u8>,
    machine: Machine,
    /// For each slot the cell of the count that its transaction has written by
    /// levelling.
    levelled: [Option<u8>; SLOTS],
    repairs: Repairs,
}

impl Walk {
    /// The slot's transaction, if it has levelled.
    fn levelled_in(&self, slot: u8) -> Option<&Transaction> {
        let levelled = self.levelled.get(usize::from(slot).wrapping_sub(1))?;
        self.machine.slot(slot).filter(|_| levelled.is_some())
    }
}

impl Round<'_> {
    /// Tasks that level on two sets and commit, among ordinary steps, from a
    /// fresh area.
    pub(super) fn tasks_that_level(&mut self) -> Made {
        let n = self.random.wear_cell_count();
        let values = self.random.wear_values(n);
        let (area, machine) = self.fresh(&values, 0)?;
        let sets = [(); 2].map(|()| self.random.wear_set(&machine, 1));
        let repairs = Repairs::default();
        let mut walk = Walk { area, machine, levelled: [None; SLOTS], repairs };
        let slots = self.random.pick(&[2, 3, 5, 8]).unwrap_or(2);
        let habit = Habit { slots, patience: self.random.between(1, 6) };
        for _ in 0..250 {
            let mut call = self.random.call_among_tasks(&walk.machine, habit);
            if let Some(own) = walk.levelled_in(call.slot).filter(|_| !self.random.one_in(4)) {
                call = self.random.call_to_commit(own, call.slot);
            }
            if walk.machine.is_open_and_empty(call.slot) && !self.random.one_in(5) {
                let set = &sets[self.random.place(sets.len())];
                self.level(&mut walk, set, call.slot)?;
            } else if self.random.one_in(15) {
                let (set, slot) = self.random.wear_arguments(&walk.machine, call.slot);
                self.level(&mut walk, &set, slot)?;
            } else {
                self.step_of_task(&mut walk, call)?;
            }
        }
        Ok(())
    }

    fn level(&mut self, walk: &mut Walk, set: &[u8], slot: u8) -> Made {
        self.wear(&mut walk.area, set, slot)?;
        if let Ok(group) = walk.machine.wear(set, slot) {
            walk.levelled[usize::from(slot) - 1] = Some(set[2 * group + 1]);
        }
        Ok(())
    }

    fn step_of_task(&mut self, walk: &mut Walk, call: Call) -> Made {
        self.step(&mut walk.area, call)?;
        let before = walk.machine.clone();
        let reply = walk.machine.step(call);
        let repaired = walk.repairs.note(&walk.machine, call, reply);
        let place = usize::from(call.slot).wrapping_sub(1);
        let Some(levelled) = walk.levelled.get_mut(place) else {
            return Ok(());
        };
        let own = before.slot(call.slot).zip(*levelled);
        match (Step::numbered(call.step), reply, own) {
            (Some(Step::Begin), Reply::Done, _) => *levelled = None,
            (Some(Step::Ignore), Reply::Refused(Refusal::MarkedWritten), Some((own, count)))
                if own.marked_written().any(|cell| cell == count) =>
            {
                self.tally.wear.note_marked_count();
            }
            // What levelling wrote is never taken out of the log again.
            (Some(Step::Finish), Reply::Done, Some((own, _))) if own.writes.len() == 1 => {
                self.tally.wear.note_commit(own.some_mark(), repaired);
            }
            _ => {}
        }
        Ok(())
    }

    /// Other slots hold cells or have published newer ones.
    pub(super) fn level_on_any_area(&mut self) -> Made {
        let (machine, open) = self.random.machine_to_level();
        let area = machine.pack();
        for _ in 0..4 {
            let (set, slot) = self.random.wear_arguments(&machine, open);
            self.wear(&mut area.clone(), &set, slot)?;
        }
        Ok(())
    }

    /// Few bytes changed, too many or too few of them, or junk.
    pub(super) fn level_on_spoilt_areas(&mut self) -> Made {
        let (machine, open) = self.random.machine_to_level();
        let area = machine.pack();
        for _ in 0..60 {
            let mut spoilt = area.clone();
            match self.random.up_to(5) {
                0 => spoilt = self.random.junk(),
                1 => spoilt = self.random.cut_or_longer(&area),
                _ => self.random.damage(&mut spoilt),
            }
            let (set, slot) = self.random.wear_arguments(&machine, open);
            self.wear(&mut spoilt, &set, slot)?;
        }
        (0..10).try_for_each(|_| self.level_where_an_update_is_lost())
    }

    /// Whatever the set and the slot are, there is nothing else at fault.
    fn level_where_an_update_is_lost(&mut self) -> Made {
        let (machine, place) = self.random.machine_that_ignores();
        let Some((losing, _)) = self.random.losing(machine, place) else {
            return Ok(());
        };
        let slot = self.random.between(1, SLOTS as u64) as u8;
        let (set, slot) = self.random.wear_arguments(&losing, slot);
        self.tally.wear.lost += 1;
        self.wear(&mut losing.pack(), &set, slot)
    }

    /// Makes the operation on both and leaves the area as it then is.
    fn wear(&mut self, area: &mut [u8], set: &[u8], slot: u8) -> Made {
        let before = area.to_vec();
        let number = wear_on_bytes(area, set, slot);
        let mut lent = Guarded::new(&before, &mut self.random);
        let mut read = Guarded::new(set, &mut self.random);
        let given = (self.library.wear)(lent.lend(), read.lend(), slot);
        let asked = format_args!("wear, slot {slot}, set {set:?}");
        differences(asked, &before, Given::wanted(number, area), Given::lent(given, &lent))?;
        if read.bytes() != set || read.changed_guard().is_some() {
            return Err(format!("{asked}\n  the set was changed\n"));
        }
        self.tally.wear.note(&before, set, number);
        Ok(())
    }
}
