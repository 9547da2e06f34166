//! A second tracer, which looks at the bytes of the area before and after each
//! step.

use oracle::compare::{Case, Given};
use oracle::{Call, Sheet};

use crate::comparing::{laid_out, prints};
use crate::fuzzing::step;
use crate::peek::Peek;

/// A step as a tracer sees it.
pub struct Seen<'a> {
    pub call: Call,
    pub code: u8,
    pub before: Peek<'a>,
    pub after: Peek<'a>,
    /// All steps up to this one, with their codes.
    pub past: &'a [(Call, u8)],
    /// Those of them that are begins.
    pub begins: &'a [(Call, u8)],
}

/// The name of an effect and what stands behind slot and number.
pub type Told = Option<(&'static str, Vec<u64>)>;

impl Seen<'_> {
    pub fn is(&self, step: u8, code: u8) -> bool {
        (self.call.step, self.code) == (step, code)
    }

    pub fn commits(&self) -> bool {
        self.is(12, 0)
    }

    pub fn phase(&self) -> u8 {
        self.before.phase(self.call.slot)
    }

    pub fn is_idle_after(&self) -> bool {
        self.after.phase(self.call.slot) == 0
    }

    pub fn is_ignoring(&self) -> bool {
        self.before.flag(self.call.slot) == 1
    }

    pub fn is_from_the_write_log(&self) -> bool {
        self.is(2, 0) && self.written().contains(&self.call.cell.into())
    }

    /// Also if the write log has the cell and has answered.
    pub fn is_from_the_read_log(&self) -> bool {
        let cells = || self.before.read_cells(self.call.slot);
        self.is(2, 0) && cells().contains(&self.call.cell.into())
    }

    /// An accepted read of a cell that is in one of these logs.
    pub fn is_read_in_logs(&self, area: &Peek, slot: u8) -> bool {
        let cells = || [area.read_cells(slot), area.write_cells(slot)].concat();
        self.is(2, 0) && cells().contains(&self.call.cell.into())
    }

    pub fn next_slot(&self) -> u8 {
        1 + self.call.slot % 8
    }

    pub fn stamp(&self) -> u64 {
        self.before.commit(self.call.slot)
    }

    pub fn written(&self) -> Vec<u64> {
        numbers(self.before.write_cells(self.call.slot))
    }

    /// The stamp that the slot's last enter gave: a stamp is given by each enter
    /// and each reload.
    pub fn entered(&self) -> u64 {
        let is_own =
            |(call, code): &(Call, u8)| (call.step, call.slot, *code) == (6, self.call.slot, 0);
        let last = self.past.iter().rposition(is_own).map_or(0, |last| last + 1);
        let gives = |(call, code): &&(Call, u8)| [6, 10].contains(&call.step) && *code == 0;
        self.past[..last].iter().filter(gives).count() as u64
    }

    /// The cells as the slot wrote them, since its last begin.
    pub fn in_order_of_writing(&self) -> Vec<u64> {
        let own = self.past.iter().filter(|(call, code)| call.slot == self.call.slot && *code == 0);
        let mut cells: Vec<u64> = Vec::new();
        for (call, _) in own {
            match call.step {
                1 => cells.clear(),
                3 if !cells.contains(&call.cell.into()) => cells.push(call.cell.into()),
                _ => {}
            }
        }
        cells
    }

    /// How many begins are such, up to the slot's last accepted one.
    pub fn number_by(&self, is_such: impl Fn(Call, u8) -> bool) -> u64 {
        let is_own = |(call, code): &(Call, u8)| call.slot == self.call.slot && *code == 0;
        let last = self.begins.iter().rposition(is_own).map_or(0, |last| last + 1);
        let such = self.begins[..last].iter().filter(|(call, code)| is_such(*call, *code));
        such.count() as u64
    }
}

/// Cells as the numbers of a line.
pub fn numbers(cells: Vec<usize>) -> Vec<u64> {
    cells.into_iter().map(|cell| cell as u64).collect()
}

/// What a step has to be shown with, if at all.
pub fn effect(seen: &Seen) -> Told {
    match (seen.call.step, seen.code) {
        (1, 0) => Some(("at", Vec::new())),
        (2, 0) if seen.is_read_in_logs(&seen.before, seen.call.slot) => None,
        (2, 0) => Some(("r", vec![seen.call.cell.into()])),
        (10, 0) => Some(("rl", Vec::new())),
        (12, 0) => Some(("co", [vec![seen.stamp()], seen.written()].concat())),
        (12, 13) | (14, 0) => Some(("ab", Vec::new())),
        _ => None,
    }
}

/// The number of the slot's transaction.
pub fn number(seen: &Seen) -> u64 {
    seen.number_by(|_, code| code == 0)
}

/// The trace of a sheet with these looks at each of its steps.
pub fn traced(case: &Case, effect: &dyn Fn(&Seen) -> Told, number: fn(&Seen) -> u64) -> Given {
    let Ok(sheet) = Sheet::decode(&case.bytes) else {
        return prints("bad sheet\n");
    };
    let mut area = laid_out(&sheet);
    let (mut past, mut begins, mut lines) = (Vec::new(), Vec::new(), Vec::new());
    for call in sheet.calls().iter().copied() {
        let before = area.clone();
        let code = (step(&mut area, call) >> 40) as u8;
        past.push((call, code));
        begins.extend(past.last().filter(|_| call.step == 1));
        let (before, after) = (Peek(&before), Peek(&area));
        let seen = Seen { call, code, before, after, past: &past, begins: &begins };
        if let Some((name, more)) = effect(&seen) {
            let more: String = more.iter().map(|number| format!(" {number}")).collect();
            lines.push(format!("{name} {} {}{more}\n", call.slot, number(&seen)));
        }
    }
    prints(lines.concat())
}
