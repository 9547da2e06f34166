//! The step in place: what a Rust programmer would write where only speed and
//! memory count. It is the yardstick for the time of the core.
//!
//! The lent bytes are checked and changed where they stand. Nothing is
//! unpacked, and nothing is allocated.

mod check;
mod steps;
pub(crate) mod view;
mod wear;

pub use wear::wear_in_place;

use crate::call::{Call, Refusal, Reply, Step};
use steps::Turn;
use view::Area;

/// The same as [`step_on_bytes`](crate::step_on_bytes), in place.
// A caller in C can't have it inlined either.
#[inline(never)]
pub fn step_in_place(area: &mut [u8], step: u8, slot: u8, cell: u8, kind: u8, word: u32) -> u64 {
    let call = Call { step, slot, cell, kind, word };
    make(area, call).unwrap_or_else(|refusal| Reply::Refused(refusal).number())
}

fn make(area: &mut [u8], call: Call) -> Result<u64, Refusal> {
    let lent = Area::lent(area).filter(check::well_formed);
    let Area { clock, cells, slots } = lent.ok_or(Refusal::NotWellFormed)?;
    let step = Step::numbered(call.step).ok_or(Refusal::NoSuchStep)?;
    let place = usize::from(call.slot).wrapping_sub(1);
    let own = slots.get_mut(place).ok_or(Refusal::NoSuchSlot)?;
    Turn { clock, cells, own, call }.make(step)
}
