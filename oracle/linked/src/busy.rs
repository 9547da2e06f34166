//! Sheets of steps on an area with 64 cells whose eight slots are busy.

use oracle::binary::STEPS_AT_MOST;
use oracle::generate::Habit;
use oracle::machine::{CELLS_AT_MOST, SLOTS};
use oracle::{Call, Machine, Random};

/// All slots are in use, and their logs grow long.
const HABIT: Habit = Habit { slots: SLOTS as u8, patience: 40 };

/// Steps that fill the slots before a sheet begins.
const FIRST_STEPS: usize = 400;

/// A sheet that begins on a busy area.
pub struct BusySheet {
    /// The area before the first step.
    pub area: Vec<u8>,
    /// The steps.
    pub calls: Vec<Call>,
    /// Slots that are not idle, on average over the steps.
    pub busy_slots: f64,
    /// Entries of both logs of a busy slot, likewise.
    pub entries: f64,
}

impl BusySheet {
    /// The sheet of a seed. There is one for each: 64 legal values are always
    /// enough for a fresh machine.
    pub fn of(seed: u64) -> Option<BusySheet> {
        let mut random = Random::new(seed);
        let mut machine = Machine::fresh(&random.values(CELLS_AT_MOST))?;
        steps(&mut machine, &mut random, FIRST_STEPS, |_| {});
        let area = machine.pack();
        let (mut busy, mut entries) = (0, 0);
        let calls = steps(&mut machine, &mut random, STEPS_AT_MOST, |machine| {
            busy += machine.transactions().count();
            let logs = machine.transactions().map(|(_, own)| own.reads.len() + own.writes.len());
            entries += logs.sum::<usize>();
        });
        Some(BusySheet {
            area,
            calls,
            busy_slots: busy as f64 / STEPS_AT_MOST as f64,
            entries: entries as f64 / busy as f64,
        })
    }
}

/// Makes so many steps, and looks at the machine before each.
fn steps(
    machine: &mut Machine,
    random: &mut Random,
    count: usize,
    mut look: impl FnMut(&Machine),
) -> Vec<Call> {
    let mut calls = Vec::new();
    for _ in 0..count {
        look(machine);
        let call = random.likely_call(machine, HABIT);
        machine.step(call);
        calls.push(call);
    }
    calls
}
