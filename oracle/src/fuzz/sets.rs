//! Machines to level on, and wear sets, good and bad ones.

use crate::call::{Call, Step};
use crate::generate::Habit;
use crate::machine::{Machine, Transaction, SLOTS};
use crate::random::Random;
use crate::value::{Kind, Value};
use crate::wear::GROUPS_AT_MOST;

impl Random {
    /// Room for one group at least, often for eight, and sometimes for more.
    pub(super) fn wear_cell_count(&mut self) -> usize {
        self.pick(&[2, 4, 9, 20, 40, 64]).unwrap_or(64)
    }

    /// A truth value, a whole, then more of both, and a real now and then.
    /// Sometimes most groups are worn out.
    pub(super) fn wear_values(&mut self, n: usize) -> Vec<Value> {
        let worn_out = self.one_in(4);
        let mut values = Vec::new();
        for cell in 0..n {
            let spared = !worn_out || self.one_in(5);
            let any = self.pick(&[Kind::Truth, Kind::Whole]).unwrap_or(Kind::Whole);
            values.push(match [Kind::Truth, Kind::Whole].get(cell).unwrap_or(&any) {
                _ if cell > 1 && self.one_in(9) => self.value(Kind::Real),
                Kind::Truth => Value::Truth(spared && !self.one_in(4)),
                _ if spared => Value::Whole(self.erases()),
                _ => Value::Whole(i32::MAX),
            });
        }
        values
    }

    /// Few, so that groups tie, or the last ones there are; seldom negative.
    fn erases(&mut self) -> i32 {
        let any = self.word() as i32;
        if self.one_in(30) {
            return self.pick(&[-1, i32::MIN, any | i32::MIN]).unwrap_or(-1);
        }
        match self.up_to(9) {
            0 => i32::MAX,
            1 => i32::MAX - 1,
            2 => any & i32::MAX,
            _ => self.up_to(3) as i32,
        }
    }

    /// A likely call. The wholes that it brings are numbers of erases: groups
    /// would else soon have negative ones.
    pub(super) fn call_among_tasks(&mut self, machine: &Machine, habit: Habit) -> Call {
        let mut call = self.likely_call(machine, habit);
        let brings_value = Step::numbered(call.step).is_some_and(Step::uses_value);
        if brings_value && call.kind == Kind::Whole.number() {
            call.word = self.erases() as u32;
        }
        call
    }

    /// Any well-formed machine with a slot that is open with empty logs. Most
    /// often few cells are newer than its start, and often few are held.
    pub(super) fn machine_to_level(&mut self) -> (Machine, u8) {
        let n = self.wear_cell_count();
        let mut machine = self.machine_with(n, Random::wear_values);
        if self.one_in(2) {
            let busy = self.place(SLOTS);
            machine.slots[busy..].fill(None);
        }
        let (clock, any) = (machine.clock, self.up_to(machine.clock));
        let few_newer = clock - clock / 16;
        let starts = [clock, clock, few_newer, few_newer, few_newer, few_newer, any];
        let start = self.pick(&starts).unwrap_or(clock);
        let place = self.place(SLOTS);
        machine.slots[place] = Some(Transaction::begun(start));
        (machine, place as u8 + 1)
    }

    /// A set and a slot. Most often this slot, with a set that suits it.
    pub(super) fn wear_arguments(&mut self, machine: &Machine, slot: u8) -> (Vec<u8>, u8) {
        let mut set = self.wear_set(machine, slot);
        if self.one_in(5) {
            self.spoil_set(&mut set, machine.cells().len() as u8);
        }
        let slot = match self.up_to(11) {
            0 => self.pick(&[0, 9, slot | 128, 255]).unwrap_or(0),
            1 | 2 => self.between(1, SLOTS as u64) as u8,
            _ => slot,
        };
        (set, slot)
    }

    /// A good set if the machine has the cells, or seldom one of nine groups.
    pub(super) fn wear_set(&mut self, machine: &Machine, slot: u8) -> Vec<u8> {
        let any = self.between(1, GROUPS_AT_MOST as u64) as usize;
        let groups = if self.one_in(12) { GROUPS_AT_MOST + 1 } else { any };
        let groups = if self.one_in(3) { GROUPS_AT_MOST } else { groups };
        let truths = self.cells_to_read(machine, slot, Kind::Truth);
        let erases = self.cells_to_read(machine, slot, Kind::Whole);
        let pairs = truths.into_iter().zip(erases).take(groups);
        let mut set: Vec<u8> = pairs.flat_map(|(truth, erases)| [truth, erases]).collect();
        if self.one_in(3) {
            self.put_in_the_way(&mut set, machine, slot);
        }
        set
    }

    /// All cells of a kind in any order, mostly those first that can be read.
    fn cells_to_read(&mut self, machine: &Machine, slot: u8, kind: Kind) -> Vec<u8> {
        let mut left = cells_of(machine, kind);
        let mut cells = Vec::new();
        while !left.is_empty() {
            cells.push(left.swap_remove(self.place(left.len())));
        }
        if !self.one_in(12) {
            cells.sort_by_cached_key(|cell| !is_readable(machine, slot, *cell));
        }
        cells
    }

    /// Puts a cell that can't be read, if there is one, at any place of a set:
    /// one that is held, or more often, as they are fewer, one that is newer.
    fn put_in_the_way(&mut self, set: &mut [u8], machine: &Machine, slot: u8) {
        let place = self.place(set.len());
        let held = self.one_in(3);
        let mut cells = cells_of(machine, [Kind::Truth, Kind::Whole][place % 2]);
        cells.retain(|cell| !set.contains(cell) && !is_readable(machine, slot, *cell));
        cells.retain(|cell| machine.other_holder(*cell, slot).is_some() == held);
        put(set, place, self.pick(&cells));
    }

    /// Makes a set a bad one, most often.
    fn spoil_set(&mut self, set: &mut Vec<u8>, n: u8) {
        let place = self.place(set.len());
        let below_n = self.place(n.into()) as u8;
        // Of the right kind, and there already.
        let twin = set.iter().copied().cycle().nth(place + 2);
        match self.up_to(8) {
            0 => set.clear(),
            1 => set.truncate(place),
            2 => set.push(below_n),
            3 => set.extend_from_within(..),
            4 => {
                // As long as before, by its last byte or its last two.
                let more = self.pick(&[256, 65536]).unwrap_or(256);
                set.resize(set.len() + more, 0);
            }
            5 => put(set, place, self.pick(&[n, n + 1, 64, 128, 255])),
            6 => put(set, place, Some(below_n)),
            7 => put(set, place, twin),
            // Truth cells where erases cells should be.
            _ => set.reverse(),
        }
    }
}

fn put(set: &mut [u8], place: usize, cell: Option<u8>) {
    if let (Some(old), Some(cell)) = (set.get_mut(place), cell) {
        *old = cell;
    }
}

fn cells_of(machine: &Machine, kind: Kind) -> Vec<u8> {
    let numbered = (0..).zip(machine.cells());
    numbered.filter(|(_, cell)| cell.value.kind() == kind).map(|(number, _)| number).collect()
}

fn is_readable(machine: &Machine, slot: u8, cell: u8) -> bool {
    let start = machine.slot(slot).map_or(machine.clock(), |own| own.start);
    machine.cells()[usize::from(cell)].stamp <= start && machine.other_holder(cell, slot).is_none()
}
