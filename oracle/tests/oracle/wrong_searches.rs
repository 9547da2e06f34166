//! Steps whose search of the write log begins or ends in the wrong place, and
//! ignores and checks of an area whose look at what is written does so.

use oracle::Call;

use crate::fuzzing::{step, StepOnBytes};
use crate::peek::{self, Peek};
use crate::wrong_ignores::{judged, lenient, strict};

/// The place at which a cell is found in the cells of a write log.
type Search = fn(&[usize], usize) -> Option<usize>;

/// Makes of each search a read, a write and an update that is wrong in it alone,
/// and of those that are right in a full log a read and an update: write has to
/// search nothing else.
macro_rules! wrong_searches {
    (
        in_any_log: $($name:literal, $search:expr;)*
        in_a_log_with_room: $($other:literal, $more:expr;)*
    ) => {
        pub const WRONG_READS: &[(&str, StepOnBytes)] = &[
            $((concat!("read ", $name), |area, call| read(area, call, $search)),)*
            $((concat!("read ", $other), |area, call| read(area, call, $more)),)*
        ];

        pub const WRONG_WRITES: &[(&str, StepOnBytes)] = &[
            $((concat!("write ", $name), |area, call| write(area, call, $search)),)*
        ];

        pub const WRONG_UPDATES: &[(&str, StepOnBytes)] = &[
            $((concat!("update ", $name), |area, call| update(area, call, $search)),)*
            $((concat!("update ", $other), |area, call| update(area, call, $more)),)*
        ];
    };
}

wrong_searches! {
    in_any_log:
        "ends at the first smaller cell", |log, cell| {
            let end = log.iter().position(|written| *written < cell);
            found(&log[..end.unwrap_or(log.len())], cell)
        };
        "ends at an equal cell without finding it", |_, _| None;
        "starts at the second entry", |log, cell| found(log, cell).filter(|place| *place > 0);
        "leaves out the last entry", |log, cell| {
            found(log, cell).filter(|place| place + 1 < log.len())
        };
        "leaves out the sixteenth entry", |log, cell| {
            found(log, cell).filter(|place| *place < 15)
        };
        "looks at the first 8 entries only", |log, cell| {
            found(log, cell).filter(|place| *place < 8)
        };
        "ends one entry before the first larger cell", |log, cell| {
            let end = log.iter().skip(1).position(|written| *written > cell);
            found(&log[..end.unwrap_or(log.len())], cell)
        };
        "ends at the first gap", |log, cell| {
            let gap = log.windows(2).position(|pair| pair[1] > pair[0] + 1);
            found(&log[..gap.map_or(log.len(), |place| place + 1)], cell)
        };
        "takes the first larger cell for found", |log, cell| {
            log.iter().position(|written| *written >= cell)
        };
        "takes the last smaller cell for found", |log, cell| {
            log.iter().rposition(|written| *written <= cell)
        };
        "tells cells apart by five bits", |log, cell| {
            log.iter().position(|written| written % 32 == cell % 32)
        };
    in_a_log_with_room:
        "looks at unused entries, too", |log, cell| found(&with_unused(log), cell);
        "looks at unused entries up to the first larger cell", |log, cell| {
            let all = with_unused(log);
            let end = all.iter().position(|written| *written > cell);
            found(&all[..end.unwrap_or(all.len())], cell)
        };
        "halves all 16 entries, unused ones too", |log, cell| {
            with_unused(log).binary_search(&cell).ok()
        };
}

fn found(log: &[usize], cell: usize) -> Option<usize> {
    log.iter().position(|written| *written == cell)
}

/// All 16 entries have a cell; that of the unused ones is 0.
fn with_unused(log: &[usize]) -> Vec<usize> {
    let mut all = log.to_vec();
    all.resize(16, 0);
    all
}

/// Where the search finds the cell of a call of this step, which is not where it
/// is. None if it is right, and for calls that do not come to a search.
fn wrongly_found(area: &[u8], call: Call, number: u8, search: Search) -> Option<Option<usize>> {
    let peek = Peek(area);
    let comes_so_far = call.step == number
        && peek::well_formed(area)
        && !(2..=7).contains(&peek::code_of(&peek, call))
        && (number != 3 || peek.writes(call.slot) == 16);
    let log = comes_so_far.then(|| peek.write_cells(call.slot))?;
    let place = search(&log, call.cell.into());
    (place != found(&log, call.cell.into())).then_some(place)
}

fn read(area: &mut [u8], call: Call, search: Search) -> u64 {
    match wrongly_found(area, call, 2, search) {
        None => step(area, call),
        Some(None) => read_without_write_log(area, call),
        Some(Some(place)) => {
            let peek = Peek(area);
            let kind = u64::from(peek.kind(call.cell.into()));
            (kind << 32) + peek.number(peek.write_at(call.slot, place) + 1, 4)
        }
    }
}

fn read_without_write_log(area: &mut [u8], call: Call) -> u64 {
    let (count_at, log_at) = (Peek(area).slot_at(call.slot) + 4, Peek(area).write_at(call.slot, 0));
    let before = area.to_vec();
    area[count_at] = 0;
    area[log_at..log_at + 80].fill(0);
    let number = step(area, call);
    area[count_at] = before[count_at];
    area[log_at..log_at + 80].copy_from_slice(&before[log_at..log_at + 80]);
    number
}

fn write(area: &mut [u8], call: Call, search: Search) -> u64 {
    match wrongly_found(area, call, 3, search) {
        None => step(area, call),
        Some(place) => put(area, call, place, 9),
    }
}

fn update(area: &mut [u8], call: Call, search: Search) -> u64 {
    match wrongly_found(area, call, 8, search) {
        None => step(area, call),
        Some(place) => put(area, call, place, 8),
    }
}

/// Puts the word there, or refuses with this code.
fn put(area: &mut [u8], call: Call, place: Option<usize>, code: u64) -> u64 {
    let Some(place) = place else {
        return code << 40;
    };
    let at = Peek(area).write_at(call.slot, place) + 1;
    area[at..at + 4].copy_from_slice(&call.word.to_be_bytes());
    0
}

/// Whether a marked cell is seen among the written ones. The marked ones are in
/// the order of the read log.
type Look = fn(&[usize], &[usize]) -> bool;

/// Makes of each look an ignore that is wrong in it alone, and a check of slots
/// with the flag: one that misses, or one that sees too much.
macro_rules! wrong_looks {
    (
        missing: $($name:literal, $look:expr;)*
        seeing_too_much: $($other:literal, $more:expr;)*
    ) => {
        pub const WRONG_LOOKS: &[(&str, StepOnBytes)] = &[
            $((concat!("ignore ", $name), |area, call| {
                judged(area, call, |peek, slot| seen(peek, slot, $look))
            }),)*
            $((concat!("ignore ", $other), |area, call| {
                judged(area, call, |peek, slot| seen(peek, slot, $more))
            }),)*
        ];

        pub const LENIENT_LOOKS: &[(&str, StepOnBytes)] = &[
            $((concat!("check ", $name), |area, call| {
                lenient(area, call, |peek, slot| seen(peek, slot, $look))
            }),)*
        ];

        pub const STRICT_LOOKS: &[(&str, StepOnBytes)] = &[
            $((concat!("check ", $other), |area, call| {
                strict(area, call, |peek, slot| peek.flag(slot) == 1 && seen(peek, slot, $more))
            }),)*
        ];
    };
}

wrong_looks! {
    missing:
        "ends above the lowest marked cell", |marked, written| {
            seen_up_to(marked.iter().min(), marked, written)
        };
        "ends above the first that was marked", |marked, written| {
            seen_up_to(marked.first(), marked, written)
        };
        "ends above the last that was marked", |marked, written| {
            seen_up_to(marked.last(), marked, written)
        };
        "ends above all that was marked but the first", |marked, written| {
            seen_up_to(marked.iter().skip(1).max().or(marked.first()), marked, written)
        };
        "ends above all that was marked but the last", |marked, written| {
            seen_up_to(marked.iter().rev().skip(1).max().or(marked.last()), marked, written)
        };
        "ends above the marked cells joined by exclusive or", |marked, written| {
            let joined = marked.iter().copied().reduce(|one, other| one ^ other);
            seen_up_to(joined.as_ref(), marked, written)
        };
        "ends at the highest marked cell", |marked, written| {
            let highest = marked.iter().max();
            written.iter().any(|cell| marked.contains(cell) && Some(cell) != highest)
        };
        "ends at the first cell below the marked ones", |marked, written| {
            let lowest = marked.iter().min();
            let mut looked_at = written.iter().take_while(|cell| Some(*cell) >= lowest);
            looked_at.any(|cell| marked.contains(cell))
        };
        "starts at the second written cell", |marked, written| {
            written.iter().skip(1).any(|cell| marked.contains(cell))
        };
        "leaves out the last written cell", |marked, written| {
            written.iter().rev().skip(1).any(|cell| marked.contains(cell))
        };
        "looks at the first 8 written cells only", |marked, written| {
            written.iter().take(8).any(|cell| marked.contains(cell))
        };
    seeing_too_much:
        "takes the end for a marked cell", |marked, written| {
            let highest = marked.iter().max();
            let end = highest.is_some() && written.last() > highest;
            end || seen_up_to(highest, marked, written)
        };
        "takes a cell below the highest marked one for marked", |marked, written| {
            written.first().is_some_and(|lowest| Some(lowest) <= marked.iter().max())
        };
}

fn seen(peek: &Peek, slot: u8, look: Look) -> bool {
    look(&peek.marked_cells(slot), &peek.write_cells(slot))
}

/// The look ends at the first written cell above this one.
fn seen_up_to(last: Option<&usize>, marked: &[usize], written: &[usize]) -> bool {
    written.iter().take_while(|cell| Some(*cell) <= last).any(|cell| marked.contains(cell))
}
