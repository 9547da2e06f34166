//! Steps that tell wrongly who is in the way.

use oracle::Call;

use crate::bench::Answer;
use crate::fuzzing::{step, StepOnBytes};
use crate::peek::Peek;

/// Each is wrong in one way, and right in all other replies.
pub const WRONG_OBSTACLES: [(&str, StepOnBytes); 16] = [
    ("the caller's own slot as the holder of a cell to read", |area, call| {
        retold(area, call, |_, call, answer| match answer {
            (14, ..) => (14, 2, call.slot.into()),
            _ => answer,
        })
    }),
    ("the caller's own slot as the holder for lock and reload", |area, call| {
        retold(area, call, |_, call, answer| match answer {
            (11, _, word) => (11, 2, word / 256 * 256 + u32::from(call.slot)),
            _ => answer,
        })
    }),
    ("cell and holder exchanged", |area, call| {
        retold(area, call, |_, _, answer| match answer {
            (11, _, word) => (11, 2, word % 256 * 256 + word / 256),
            _ => answer,
        })
    }),
    ("the last obstacle", |area, call| reload_tells(area, call, |held| held.last().copied())),
    ("the lowest obstacle", |area, call| {
        reload_tells(area, call, |held| held.iter().min().copied())
    }),
    ("the highest obstacle", |area, call| {
        reload_tells(area, call, |held| held.iter().max().copied())
    }),
    ("the first cell that was read, held or not", |area, call| {
        retold(area, call, |peek, call, answer| match (call.step, answer) {
            (10, (11, _, word)) => (11, 2, peek.read_cells(call.slot)[0] as u32 * 256 + word % 256),
            _ => answer,
        })
    }),
    ("the first cell of the write log for lock", |area, call| {
        retold(area, call, |peek, call, answer| match (call.step, answer) {
            (5, (11, _, word)) => (11, 2, peek.write_cells(call.slot)[0] as u32 * 256 + word % 256),
            _ => answer,
        })
    }),
    ("10 for a held cell", |area, call| {
        retold(area, call, |_, _, answer| if answer.0 == 14 { (10, 0, 0) } else { answer })
    }),
    ("14 for a newer cell", |area, call| {
        retold(area, call, |peek, call, answer| match answer {
            (10, ..) => (14, 2, peek.holder(call.cell.into()).into()),
            _ => answer,
        })
    }),
    ("10 for a cell that is held and newer", |area, call| {
        retold(area, call, |peek, call, answer| match answer {
            (14, ..) if peek.stamp(call.cell.into()) > peek.start(call.slot) => (10, 0, 0),
            _ => answer,
        })
    }),
    ("14 though the log is full", |area, call| {
        retold(area, call, |peek, call, answer| match (call.step, answer) {
            (2, (9, ..)) if ![0, call.slot].contains(&peek.holder(call.cell.into())) => {
                (14, 2, peek.holder(call.cell.into()).into())
            }
            _ => answer,
        })
    }),
    ("14 with the cell in its word", |area, call| {
        retold(area, call, |_, call, answer| match answer {
            (14, _, word) => (14, 2, u32::from(call.cell) * 256 + word),
            _ => answer,
        })
    }),
    ("11 with the holder alone", |area, call| {
        retold(area, call, |_, _, answer| match answer {
            (11, _, word) => (11, 2, word % 256),
            _ => answer,
        })
    }),
    ("11 with kind and word 0", |area, call| {
        retold(area, call, |_, _, answer| if answer.0 == 11 { (11, 0, 0) } else { answer })
    }),
    ("14 with kind and word 0", |area, call| {
        retold(area, call, |_, _, answer| if answer.0 == 14 { (14, 0, 0) } else { answer })
    }),
];

/// Makes the step and tells another reply. After a refusal the area is as it
/// was, so it may be looked at for what to tell.
fn retold(area: &mut [u8], call: Call, tell: fn(&Peek, Call, Answer) -> Answer) -> u64 {
    let number = step(area, call);
    let answer = ((number >> 40) as u8, (number >> 32) as u8, number as u32);
    if [0, 1, 13].contains(&answer.0) {
        return number;
    }
    let (code, kind, word) = tell(&Peek(area), call, answer);
    (u64::from(code) << 40) + (u64::from(kind) << 32) + u64::from(word)
}

/// A reload that picks another one of its obstacles.
fn reload_tells(area: &mut [u8], call: Call, pick: fn(&[usize]) -> Option<usize>) -> u64 {
    let number = step(area, call);
    if call.step != 10 || number >> 40 != 11 {
        return number;
    }
    let peek = Peek(area);
    let mut held = peek.read_cells(call.slot);
    held.retain(|cell| ![0, call.slot].contains(&peek.holder(*cell)));
    let told = pick(&held).map_or(0, |cell| cell as u64 * 256 + u64::from(peek.holder(cell)));
    (11 << 40) + (2 << 32) + told
}
