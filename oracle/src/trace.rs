//! The effects of a sheet's run, a line each: request #104.
//!
//! A step has an effect or is silent. Silent are all refused steps, the reads
//! that a log answers, and all accepted steps but begin, read, reload, finish and
//! give up.

use std::fmt;

use crate::binary::Sheet;
use crate::call::{Call, Reply, Step};
use crate::forms::{self, BAD_SHEET};
use crate::machine::{Machine, Transaction, SLOTS};
use crate::text::TextError;

/// What a step has done to the transaction of its slot.
#[derive(Clone, Debug, PartialEq, Eq)]
pub struct Effect {
    /// The slot.
    pub slot: u8,
    /// The number of its transaction. Accepted begins are counted from 1, those
    /// of all slots together.
    pub transaction: u32,
    /// What was done.
    pub deed: Deed,
}

/// The five sorts of effects.
#[derive(Clone, Debug, PartialEq, Eq)]
pub enum Deed {
    /// `at`: it has begun.
    Begun,
    /// `r`: it has read a shared cell.
    Read {
        /// The cell.
        cell: u8,
    },
    /// `rl`: it has reloaded.
    Reloaded,
    /// `co`: the finish that commits it.
    Committed {
        /// Its commit stamp.
        stamp: u64,
        /// The cells that it has written, in ascending order.
        cells: Vec<u8>,
    },
    /// `ab`: it has given up, or its outcome is 13.
    Aborted,
}

/// The line without its newline.
impl fmt::Display for Effect {
    fn fmt(&self, f: &mut fmt::Formatter) -> fmt::Result {
        let Effect { slot, transaction, deed } = self;
        match deed {
            Deed::Begun => write!(f, "at {slot} {transaction}"),
            Deed::Read { cell } => write!(f, "r {slot} {transaction} {cell}"),
            Deed::Reloaded => write!(f, "rl {slot} {transaction}"),
            Deed::Committed { stamp, cells } => {
                write!(f, "co {slot} {transaction} {stamp}")?;
                cells.iter().try_for_each(|cell| write!(f, " {cell}"))
            }
            Deed::Aborted => write!(f, "ab {slot} {transaction}"),
        }
    }
}

/// Makes steps and tells their effects.
#[derive(Clone, Debug)]
pub struct Tracer {
    machine: Machine,
    /// How many begins were accepted.
    begun: u32,
    /// For each slot, the number of its last accepted begin.
    numbers: [u32; SLOTS],
}

impl Tracer {
    /// On this machine, of which no begin was seen.
    pub fn new(machine: Machine) -> Tracer {
        Tracer { machine, begun: 0, numbers: [0; SLOTS] }
    }

    /// The machine after the steps that were made.
    pub fn machine(&self) -> &Machine {
        &self.machine
    }

    /// Makes one step, and answers its effect if it has one.
    pub fn step(&mut self, call: Call) -> (Reply, Option<Effect>) {
        let before = self.machine.slot(call.slot).cloned();
        let reply = self.machine.step(call);
        let deed = if reply.is_refused() { None } else { deed(before.as_ref(), call, reply) };
        (reply, deed.and_then(|deed| self.effect(call.slot, deed)))
    }

    /// There is a number for every slot of which a step was accepted.
    fn effect(&mut self, slot: u8, deed: Deed) -> Option<Effect> {
        let number = self.numbers.get_mut(usize::from(slot).wrapping_sub(1))?;
        if deed == Deed::Begun {
            self.begun += 1;
            *number = self.begun;
        }
        Some(Effect { slot, transaction: *number, deed })
    }
}

/// What an accepted step has done, by what its slot had before.
fn deed(before: Option<&Transaction>, call: Call, reply: Reply) -> Option<Deed> {
    match (Step::numbered(call.step)?, before) {
        (Step::Begin, _) => Some(Deed::Begun),
        (Step::Read, Some(own)) => {
            let logged = own.write_of(call.cell).is_some() || own.read_of(call.cell).is_some();
            (!logged).then_some(Deed::Read { cell: call.cell })
        }
        (Step::Reload, _) => Some(Deed::Reloaded),
        (Step::Finish, _) if reply == Reply::Ended => Some(Deed::Aborted),
        (Step::Finish, Some(own)) => {
            let cells = own.writes.iter().map(|write| write.cell).collect();
            Some(Deed::Committed { stamp: own.commit()?.stamp, cells })
        }
        (Step::GiveUp, _) => Some(Deed::Aborted),
        _ => None,
    }
}

/// The effects of a sheet's run, each with the place of its step from 1. None if
/// there is no machine with its cells.
pub fn effects(sheet: &Sheet) -> Option<Vec<(usize, Effect)>> {
    let mut tracer = Tracer::new(Machine::fresh(sheet.cells())?);
    let calls = (1..).zip(sheet.calls());
    Some(calls.filter_map(|(place, call)| Some((place, tracer.step(*call).1?))).collect())
}

/// The trace of a sheet: a line for each of its effects.
pub fn trace(sheet: &Sheet) -> String {
    let Some(effects) = effects(sheet) else {
        return BAD_SHEET.to_string();
    };
    effects.into_iter().map(|(_, effect)| format!("{effect}\n")).collect()
}

/// The trace of a sheet in binary form, which may be a bad one.
pub fn trace_binary(bytes: &[u8]) -> String {
    forms::of_binary(bytes, trace)
}

/// The trace of a sheet in either form, see [`forms::looks_like_text`].
pub fn trace_either(bytes: &[u8]) -> Result<String, TextError> {
    forms::of_either(bytes, trace)
}
