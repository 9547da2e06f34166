//! Steps that ignore wrongly, and checks of an area that miss what the flag may
//! not be on, or take it to be where it is not.

use oracle::Call;

use crate::fuzzing::{step, StepOnBytes};
use crate::peek::{self, Peek};

/// Whether a slot that is in twilight may not ignore, or loses an update.
pub type Judge = fn(&Peek, u8) -> bool;

/// Each ignores wrongly in one way. The area is checked as it should be.
pub const WRONG_IGNORES: [(&str, StepOnBytes); 24] = [
    ("never refuses", |area, call| judged(area, call, |_, _| false)),
    ("all that was read instead of what is marked", |area, call| {
        judged(area, call, |peek, slot| some_mark(peek, slot) && read_and_written(peek, slot))
    }),
    ("all that was read, marks or none", |area, call| judged(area, call, read_and_written)),
    ("what is not marked instead of what is", |area, call| {
        judged(area, call, |peek, slot| {
            let marked = peek.marked_and_written(slot);
            some_mark(peek, slot) && both(peek, slot).iter().any(|cell| !marked.contains(cell))
        })
    }),
    ("any mark where something is written", |area, call| {
        judged(area, call, |peek, slot| some_mark(peek, slot) && peek.writes(slot) > 0)
    }),
    ("only if all that is marked is written", |area, call| {
        judged(area, call, |peek, slot| {
            some_mark(peek, slot) && peek.marked_cells(slot) == peek.marked_and_written(slot)
        })
    }),
    ("the first marked cell alone", |area, call| judged(area, call, first_marked)),
    ("the last marked cell alone", |area, call| judged(area, call, last_marked)),
    ("the lowest written cell alone", |area, call| judged(area, call, lowest_written)),
    ("the highest written cell alone", |area, call| judged(area, call, highest_written)),
    ("all but the last cell that was read", |area, call| {
        judged(area, call, |peek, slot| {
            let last = peek.read_cells(slot).last().copied();
            peek.marked_and_written(slot).iter().any(|cell| Some(*cell) != last)
        })
    }),
    ("the same place in both logs", |area, call| {
        judged(area, call, |peek, slot| {
            let mut places = peek.read_cells(slot).into_iter().zip(peek.write_cells(slot));
            let marked = peek.marked_cells(slot);
            places.any(|(read, write)| read == write && marked.contains(&read))
        })
    }),
    ("cells told apart by five bits", |area, call| {
        judged(area, call, |peek, slot| {
            let writes = peek.write_cells(slot);
            let marked = peek.marked_cells(slot);
            marked.iter().any(|cell| writes.iter().any(|write| write % 32 == cell % 32))
        })
    }),
    ("15 and the flag set all the same", |area, call| {
        after_15(area, call, |area, at| area[at + FLAG] = 1)
    }),
    ("15 and the marks cleared", |area, call| {
        after_15(area, call, |area, at| (0..16).for_each(|entry| area[at + 22 + 6 * entry] = 0))
    }),
    ("15 and the transaction ended", |area, call| {
        let number = step(area, call);
        if number == 15 << 40 {
            step(area, Call { step: 14, ..call });
        }
        number
    }),
    ("15 with the cell", |area, call| {
        let number = step(area, call);
        let fifteen = number == 15 << 40;
        let cell = fifteen.then(|| Peek(area).marked_and_written(call.slot)[0] as u64);
        number + cell.map_or(0, |cell| (2 << 32) + cell)
    }),
    ("15 with a word", |area, call| retold(area, call, 15, (15 << 40) + 1)),
    ("15 with a kind", |area, call| retold(area, call, 15, (15 << 40) + (1 << 32))),
    ("4 for 15", |area, call| retold(area, call, 15, 4 << 40)),
    ("13 for 15", |area, call| retold(area, call, 15, 13 << 40)),
    ("15 for 4", |area, call| match call.step {
        11 => retold(area, call, 4, 15 << 40),
        _ => step(area, call),
    }),
    ("finish gets 15 where it ends without commit", |area, call| refuses_too(area, call, 12)),
    ("reload gets 15", |area, call| refuses_too(area, call, 10)),
];

/// Each has an ignore that is wrong where it is repeated or has nothing to do.
pub const WRONG_FLAGS: [(&str, StepOnBytes); 2] = [
    ("the flag cleared by a second ignore", |area, call| {
        let flag = entered(area, call).map(|at| area[at + FLAG]);
        let number = step(area, call);
        entered(area, call).into_iter().for_each(|at| area[at + FLAG] &= 1 - flag.unwrap_or(0));
        number
    }),
    ("the flag set with no mark", |area, call| {
        let number = step(area, call);
        let at = entered(area, call).filter(|_| number == 0);
        at.into_iter().for_each(|at| area[at + FLAG] = 1);
        number
    }),
];

/// Each sees an update lost where there is none.
pub const STRICT_CHECKS: [(&str, StepOnBytes); 4] = [
    ("all that was read instead of what is marked", |area, call| {
        strict(area, call, |peek, slot| peek.flag(slot) == 1 && read_and_written(peek, slot))
    }),
    ("any write with the flag", |area, call| {
        strict(area, call, |peek, slot| peek.flag(slot) == 1 && peek.writes(slot) > 0)
    }),
    ("with the flag or without", |area, call| {
        strict(area, call, |peek, slot| !peek.marked_and_written(slot).is_empty())
    }),
    ("no cell in both logs", |area, call| strict(area, call, read_and_written)),
];

/// Each misses updates that are lost, all or some of them.
pub const LENIENT_CHECKS: [(&str, StepOnBytes); 9] = [
    ("no such clause", without_the_clause),
    ("in twilight only", |area, call| lenient(area, call, |peek, slot| peek.phase(slot) == 3)),
    ("in publishing only", |area, call| lenient(area, call, |peek, slot| peek.phase(slot) == 4)),
    ("cells that are not yet published only", |area, call| {
        lenient(area, call, |peek, slot| {
            let left = peek.write_cells(slot).split_off(peek.taken(slot));
            peek.marked_and_written(slot).iter().any(|cell| left.contains(cell))
        })
    }),
    ("published cells only", |area, call| {
        lenient(area, call, |peek, slot| {
            let published = &peek.write_cells(slot)[..peek.taken(slot)];
            peek.marked_and_written(slot).iter().any(|cell| published.contains(cell))
        })
    }),
    ("the first marked cell alone", |area, call| lenient(area, call, first_marked)),
    ("the last marked cell alone", |area, call| lenient(area, call, last_marked)),
    ("the lowest written cell alone", |area, call| lenient(area, call, lowest_written)),
    ("the highest written cell alone", |area, call| lenient(area, call, highest_written)),
];

const FLAG: usize = 1;

fn some_mark(peek: &Peek, slot: u8) -> bool {
    peek.marks(slot).contains(&1)
}

/// The cells in both logs.
fn both(peek: &Peek, slot: u8) -> Vec<usize> {
    let mut cells = peek.read_cells(slot);
    cells.retain(|cell| peek.write_cells(slot).contains(cell));
    cells
}

fn read_and_written(peek: &Peek, slot: u8) -> bool {
    !both(peek, slot).is_empty()
}

fn first_marked(peek: &Peek, slot: u8) -> bool {
    peek.marked_cells(slot).first().is_some_and(|cell| peek.write_cells(slot).contains(cell))
}

fn last_marked(peek: &Peek, slot: u8) -> bool {
    peek.marked_cells(slot).last().is_some_and(|cell| peek.write_cells(slot).contains(cell))
}

fn lowest_written(peek: &Peek, slot: u8) -> bool {
    peek.write_cells(slot).first().is_some_and(|cell| peek.marked_cells(slot).contains(cell))
}

fn highest_written(peek: &Peek, slot: u8) -> bool {
    peek.write_cells(slot).last().is_some_and(|cell| peek.marked_cells(slot).contains(cell))
}

/// Where the slot of an ignore stands that is in twilight.
fn entered(area: &[u8], call: Call) -> Option<usize> {
    let known = call.step == 11 && (1..=8).contains(&call.slot) && peek::well_formed(area);
    let peek = Peek(area);
    (known && peek.phase(call.slot) == 3).then(|| peek.slot_at(call.slot))
}

/// Ignores unless this judge is against it.
pub fn judged(area: &mut [u8], call: Call, refuses: Judge) -> u64 {
    let Some(at) = entered(area, call) else {
        return step(area, call);
    };
    if refuses(&Peek(area), call.slot) {
        return 15 << 40;
    }
    ignored(area, at, call.slot)
}

fn ignored(area: &mut [u8], at: usize, slot: u8) -> u64 {
    area[at + FLAG] = some_mark(&Peek(area), slot).into();
    0
}

/// The slot's bytes begin at this place.
fn after_15(area: &mut [u8], call: Call, change: fn(&mut [u8], usize)) -> u64 {
    let number = step(area, call);
    if number == 15 << 40 {
        let at = Peek(area).slot_at(call.slot);
        change(area, at);
    }
    number
}

/// Another reply for this code.
fn retold(area: &mut [u8], call: Call, code: u64, told: u64) -> u64 {
    match step(area, call) {
        number if number == code << 40 => told,
        number => number,
    }
}

/// A step other than ignore that is refused where ignore would be.
fn refuses_too(area: &mut [u8], call: Call, number: u8) -> u64 {
    let ignore = Call { step: 11, ..call };
    let refused = call.step == number && entered(area, ignore).is_some();
    if refused && !Peek(area).marked_and_written(call.slot).is_empty() {
        return 15 << 40;
    }
    step(area, call)
}

/// Takes an area for bad in which some slot is so.
pub fn strict(area: &mut [u8], call: Call, loses: Judge) -> u64 {
    let is_good = peek::well_formed(area);
    if is_good && (1..=8).any(|slot| loses(&Peek(area), slot)) {
        return 1 << 40;
    }
    step(area, call)
}

/// The check of an area before the request.
pub fn without_the_clause(area: &mut [u8], call: Call) -> u64 {
    lenient(area, call, |_, _| false)
}

/// Marks that are not seen are taken off, and the flag with the last of them.
/// After the step they are put back, unless the slot has ended or reloaded. Ask
/// and ignore are about the marks of their slot: there it is the flag alone,
/// without which a mark is good in twilight.
pub fn lenient(area: &mut [u8], call: Call, sees: Judge) -> u64 {
    if !loses_updates_alone(area) {
        return step(area, call);
    }
    let peek = Peek(area);
    let unseen = (1..=8).filter(|slot| peek.flag(*slot) == 1 && !sees(&peek, *slot));
    let looks_at_marks = |slot| slot == call.slot && [9, 11].contains(&call.step);
    let hides = |slot| match looks_at_marks(slot) && peek.phase(slot) == 3 {
        true => vec![(slot, peek.slot_at(slot) + FLAG)],
        false => lost_marks(&peek, slot),
    };
    let hidden: Vec<(u8, usize)> = unseen.flat_map(hides).collect();
    hidden.iter().for_each(|(_, at)| area[*at] = 0);
    let number = step(area, call);
    for (slot, at) in hidden {
        let ended = Peek(area).phase(slot) < 3;
        let reloaded = number == 0 && (call.step, call.slot) == (10, slot);
        area[at] = if ended || reloaded { area[at] } else { 1 };
    }
    number
}

/// Whether the area is well formed but for updates that are lost.
pub fn loses_updates_alone(area: &[u8]) -> bool {
    let has_slots = area.len() > 1590 && area.len() == 1590 + 14 * Peek(area).n();
    has_slots && {
        let hidden = with_lost_marks_hidden(area);
        hidden != area && peek::well_formed(&hidden)
    }
}

/// The area as who does not see that updates are lost may take it.
pub fn with_lost_marks_hidden(area: &[u8]) -> Vec<u8> {
    let mut hidden = area.to_vec();
    for (_, at) in (1..=8).flat_map(|slot| lost_marks(&Peek(area), slot)) {
        hidden[at] = 0;
    }
    hidden
}

/// The places of marks on cells that are written, in a slot with the flag; and
/// that of the flag, if there is no other mark.
fn lost_marks(peek: &Peek, slot: u8) -> Vec<(u8, usize)> {
    let lost = peek.marked_and_written(slot);
    if peek.flag(slot) != 1 || lost.is_empty() {
        return Vec::new();
    }
    let entries = (0..16).map(|entry| peek.read_at(slot, entry));
    let lost_entries =
        entries.filter(|at| peek.0[at + 1] == 1 && lost.contains(&usize::from(peek.0[*at])));
    let mut places: Vec<(u8, usize)> = lost_entries.map(|at| (slot, at + 1)).collect();
    if lost == peek.marked_cells(slot) {
        places.push((slot, peek.slot_at(slot) + FLAG));
    }
    places
}

/// Ignore and the check as they were before the request.
pub fn before_the_request(area: &mut [u8], call: Call) -> u64 {
    match entered(&with_lost_marks_hidden(area), call) {
        Some(at) => ignored(area, at, call.slot),
        None => without_the_clause(area, call),
    }
}
