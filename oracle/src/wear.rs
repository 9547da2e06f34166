//! Request #101 of document 02: the wear task on top of the cells.
//!
//! A wear set has a truth cell (usable) and a whole-number cell (erases) for
//! each of its groups. The task asks the machine for steps as any caller does:
//! a read of every cell of the set and, if a group is picked, one write.

use crate::call::{Call, Reply, Step};
use crate::machine::{Machine, Phase, SLOTS};
use crate::value::{Kind, Value};

/// Most groups of a wear set; the least is 1.
pub const GROUPS_AT_MOST: usize = 8;

/// The kinds of a group's cells, in the order of the set.
pub(crate) const KINDS: [Kind; 2] = [Kind::Truth, Kind::Whole];

/// Why the wear task picks no group. A place is that of a cell in the set,
/// from 0.
#[derive(Clone, Copy, Debug, PartialEq, Eq)]
pub enum WearRefusal {
    /// Code 1: the area is not well formed.
    NotWellFormed,
    /// Code 32: not 1 to 8 groups, or a cell not below n, twice or of the
    /// wrong kind.
    BadSet,
    /// Code 3: slot outside 1 to 8.
    NoSuchSlot,
    /// Code 4: the slot's transaction is not open with empty logs.
    NotOpenAndEmpty,
    /// The code of the core, which did not do the step on this cell, with the
    /// holder if another slot holds it.
    Core {
        /// What the core replied.
        reply: Reply,
        /// The cell's place.
        place: usize,
    },
    /// Code 33: a count is negative.
    NegativeCount {
        /// The place of the first such count's cell.
        place: usize,
    },
    /// Code 34: no usable group has a count below 2^31 - 1.
    NoneLeft,
}

impl WearRefusal {
    /// The refusal as one number:
    /// place × 2^48 + code × 2^40 + kind × 2^32 + word.
    pub fn number(self) -> u64 {
        let (place, code) = match self {
            WearRefusal::NotWellFormed => (0, 1),
            WearRefusal::BadSet => (0, 32),
            WearRefusal::NoSuchSlot => (0, 3),
            WearRefusal::NotOpenAndEmpty => (0, 4),
            WearRefusal::Core { reply, place } => return at_place(place) + reply.number(),
            WearRefusal::NegativeCount { place } => (place, 33),
            WearRefusal::NoneLeft => (0, 34),
        };
        at_place(place) + (code << 40)
    }

    /// Whether it is told before the first read, so that nothing was changed.
    pub fn comes_before_reads(self) -> bool {
        use WearRefusal::*;
        matches!(self, NotWellFormed | BadSet | NoSuchSlot | NotOpenAndEmpty)
    }
}

fn at_place(place: usize) -> u64 {
    (place as u64) << 48
}

/// The number for a group that was picked: code 0, kind 2, the group's number.
pub fn picked_number(group: usize) -> u64 {
    Reply::Answer(Value::Whole(group as i32)).number()
}

/// Levels on a lent area: reads the cells of the set, picks a group and writes
/// its count plus one. Answers place × 2^48 + code × 2^40 + kind × 2^32 + word.
pub fn wear_on_bytes(area: &mut [u8], set: &[u8], slot: u8) -> u64 {
    let Some(mut machine) = Machine::unpack(area) else {
        return WearRefusal::NotWellFormed.number();
    };
    let outcome = machine.wear(set, slot);
    // Before the first read nothing is written, not even the same bytes.
    if !outcome.is_err_and(WearRefusal::comes_before_reads) {
        area.copy_from_slice(&machine.pack());
    }
    outcome.map_or_else(WearRefusal::number, picked_number)
}

/// What was read of a group.
struct Group {
    number: usize,
    usable: bool,
    erases: i32,
}

impl Group {
    /// The place of its erases cell in the set.
    fn erases_place(&self) -> usize {
        2 * self.number + 1
    }
}

impl Machine {
    /// Makes the wear task's operation in a slot and gives the number of the
    /// group that was picked. Reads made before a refusal stay in the log.
    pub fn wear(&mut self, set: &[u8], slot: u8) -> Result<usize, WearRefusal> {
        if !self.is_wear_set(set) {
            return Err(WearRefusal::BadSet);
        }
        if !(1..=SLOTS).contains(&usize::from(slot)) {
            return Err(WearRefusal::NoSuchSlot);
        }
        if !self.is_open_and_empty(slot) {
            return Err(WearRefusal::NotOpenAndEmpty);
        }
        let groups = self.read_groups(set, slot)?;
        if let Some(negative) = groups.iter().find(|group| group.erases < 0) {
            return Err(WearRefusal::NegativeCount { place: negative.erases_place() });
        }
        let picked = fewest_erases(&groups).ok_or(WearRefusal::NoneLeft)?;
        let more = Value::Whole(picked.erases + 1);
        self.core(Step::Write, slot, set, picked.erases_place(), more)?;
        Ok(picked.number)
    }

    /// Whether a slot from 1 to 8 has an open transaction with empty logs.
    pub fn is_open_and_empty(&self, slot: u8) -> bool {
        self.slot(slot).is_some_and(|own| {
            own.phase == Phase::Open && own.reads.is_empty() && own.writes.is_empty()
        })
    }

    /// Reads group by group, the truth cell first.
    fn read_groups(&mut self, set: &[u8], slot: u8) -> Result<Vec<Group>, WearRefusal> {
        let mut groups = Vec::new();
        for number in 0..set.len() / KINDS.len() {
            let usable = self.read_place(slot, set, 2 * number)? == Value::Truth(true);
            let erases = self.read_place(slot, set, 2 * number + 1)?.word() as i32;
            groups.push(Group { number, usable, erases });
        }
        Ok(groups)
    }

    fn read_place(&mut self, slot: u8, set: &[u8], place: usize) -> Result<Value, WearRefusal> {
        // A read uses no value, so any will do.
        let reply = self.core(Step::Read, slot, set, place, Value::Truth(false))?;
        match reply {
            Reply::Answer(value) => Ok(value),
            // No read that is done answers without a value.
            _ => Err(WearRefusal::Core { reply, place }),
        }
    }

    /// A step on the cell at a place of the set. A refusal is passed on.
    fn core(
        &mut self,
        step: Step,
        slot: u8,
        set: &[u8],
        place: usize,
        value: Value,
    ) -> Result<Reply, WearRefusal> {
        let (kind, word) = (value.kind().number(), value.word());
        let reply = self.step(Call { step: step.number(), slot, cell: set[place], kind, word });
        match reply {
            Reply::Refused(_) => Err(WearRefusal::Core { reply, place }),
            _ => Ok(reply),
        }
    }
}

/// The usable group with the fewest erases. Of several it is the first, so the
/// one with the lowest number; one that can't count on is not among them.
fn fewest_erases(groups: &[Group]) -> Option<&Group> {
    let left = groups.iter().filter(|group| group.usable && group.erases < i32::MAX);
    left.min_by_key(|group| group.erases)
}
