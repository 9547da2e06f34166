//! The wear task in place: one check of the area for all of its steps.

use super::check;
use super::steps::Turn;
use super::view::*;
use crate::call::{Call, Refusal, Reply, Step};
use crate::machine::{Transaction, CELLS_AT_MOST};
use crate::wear::{picked_number, WearRefusal};

/// The same as [`wear_on_bytes`](crate::wear_on_bytes), in place.
// A caller in C can't have it inlined either.
#[inline(never)]
pub fn wear_in_place(area: &mut [u8], set: &[u8], slot: u8) -> u64 {
    level(area, set, slot).map_or_else(WearRefusal::number, picked_number)
}

/// A set has at most as many cells as the read log has room for.
type Words = [u32; Transaction::LOG_ROOM];

fn level(area: &mut [u8], set: &[u8], slot: u8) -> Result<usize, WearRefusal> {
    let lent = Area::lent(area).filter(check::well_formed);
    let Area { clock, cells, slots } = lent.ok_or(WearRefusal::NotWellFormed)?;
    if !set_is_good(set, cells) {
        return Err(WearRefusal::BadSet);
    }
    let place = usize::from(slot).wrapping_sub(1);
    let own = slots.get_mut(place).ok_or(WearRefusal::NoSuchSlot)?;
    if own[PHASE] != 1 || own[READ_COUNT] != 0 || own[WRITE_COUNT] != 0 {
        return Err(WearRefusal::NotOpenAndEmpty);
    }
    let mut step = |step: Step, place: usize, word: u32| {
        let call = Call { step: step.number(), slot, cell: set[place], kind: 2, word };
        let reply = Turn { clock, cells, own, call }.make(step);
        reply.map_err(|refusal| refused(refusal, place))
    };
    let mut words: Words = [0; Transaction::LOG_ROOM];
    for (place, word) in words[..set.len()].iter_mut().enumerate() {
        *word = step(Step::Read, place, 0)? as u32;
    }
    let group = pick(&words[..set.len()])?;
    let place = 2 * group + 1;
    step(Step::Write, place, words[place] + 1)?;
    Ok(group)
}

fn refused(refusal: Refusal, place: usize) -> WearRefusal {
    WearRefusal::Core { reply: Reply::Refused(refusal), place }
}

fn set_is_good(set: &[u8], cells: &[CellBytes]) -> bool {
    if !set.len().is_multiple_of(2) || !(2..=Transaction::LOG_ROOM).contains(&set.len()) {
        return false;
    }
    let mut seen = [false; CELLS_AT_MOST];
    set.iter().enumerate().all(|(place, number)| {
        let number = usize::from(*number);
        let right_kind = 1 + (place % 2) as u8;
        let suits = cells.get(number).is_some_and(|cell| cell[KIND] == right_kind);
        suits && !std::mem::replace(&mut seen[number], true)
    })
}

/// The first negative count is told; else the least count below the last one
/// decides, and the lowest number.
fn pick(words: &[u32]) -> Result<usize, WearRefusal> {
    let (mut picked, mut fewest) = (None, i32::MAX);
    for (group, &[usable, erases]) in words.as_chunks().0.iter().enumerate() {
        let erases = erases as i32;
        if erases < 0 {
            return Err(WearRefusal::NegativeCount { place: 2 * group + 1 });
        }
        if usable == 1 && erases < fewest {
            (picked, fewest) = (Some(group), erases);
        }
    }
    picked.ok_or(WearRefusal::NoneLeft)
}
