//! What is wrong with a bad wear set, reason by reason.
//!
//! Each reason is asked by itself: none relies on another one having been
//! found false.

use crate::machine::Machine;
use crate::value::Kind;
use crate::wear::{GROUPS_AT_MOST, KINDS};

/// A reason in words, and whether it applies to a set.
type Reason = (&'static str, fn(&Machine, &[u8]) -> bool);

pub(crate) const REASON_COUNT: usize = 6;

const REASONS: [Reason; REASON_COUNT] = [
    ("no byte", |_, set| set.is_empty()),
    ("an odd number of bytes", |_, set| !set.len().is_multiple_of(KINDS.len())),
    ("more than 16 bytes", |_, set| set.len() > KINDS.len() * GROUPS_AT_MOST),
    ("a cell not below n", |machine, set| set.iter().any(|cell| kind(machine, *cell).is_none())),
    ("a cell twice", |_, set| (1..set.len()).any(|place| set[..place].contains(&set[place]))),
    ("a cell of the wrong kind", some_wrong_kind),
];

/// The reasons for which a set can be a bad one.
pub(crate) fn reasons() -> impl Iterator<Item = &'static str> {
    REASONS.into_iter().map(|(words, _)| words)
}

impl Machine {
    /// Whether these cells describe 1 to 8 groups.
    pub fn is_wear_set(&self, set: &[u8]) -> bool {
        !REASONS.iter().any(|(_, applies)| applies(self, set))
    }

    /// The reasons for which this is a bad set; there are none if it is good.
    pub fn wear_set_faults(&self, set: &[u8]) -> Vec<&'static str> {
        let found = REASONS.iter().filter(|(_, applies)| applies(self, set));
        found.map(|(words, _)| *words).collect()
    }
}

/// The kind of a cell, if it is below n.
fn kind(machine: &Machine, cell: u8) -> Option<Kind> {
    Some(machine.cells().get(usize::from(cell))?.value.kind())
}

fn some_wrong_kind(machine: &Machine, set: &[u8]) -> bool {
    let mut with_kinds = set.iter().zip(KINDS.into_iter().cycle());
    with_kinds.any(|(cell, right)| kind(machine, *cell).is_some_and(|kind| kind != right))
}
