//! What is printed when the library differs.

use std::fmt::{self, Write};

use super::guarded::Guarded;
use crate::record::{cells_in, CELL_LENGTH, HEADER_LENGTH, SLOT_LENGTH};

/// A call that the two answered differently, and how to make it again.
#[derive(Clone, Debug)]
pub struct Failure {
    /// The seed of the run.
    pub seed: u64,
    /// The round in which it was.
    pub round: u64,
    /// What rounds of its sort do.
    pub sort: &'static str,
    /// How many calls of the round were answered alike before it.
    pub calls_before: u64,
    /// The call and the differences.
    pub report: String,
}

impl fmt::Display for Failure {
    fn fmt(&self, f: &mut fmt::Formatter) -> fmt::Result {
        let Failure { seed, round, sort, calls_before, report } = self;
        writeln!(f, "the library differs in round {round} ({sort}), after {calls_before} calls")?;
        write!(f, "{report}")?;
        write!(f, "repeat with seed {seed}, round {round}")
    }
}

/// What a call gave back: the number, the bytes, and the first guard byte
/// that was changed.
pub struct Given<'a> {
    number: u64,
    bytes: &'a [u8],
    changed_guard: Option<isize>,
}

impl<'a> Given<'a> {
    pub fn wanted(number: u64, bytes: &'a [u8]) -> Given<'a> {
        Given { number, bytes, changed_guard: None }
    }

    pub fn lent(number: u64, lent: &'a Guarded) -> Given<'a> {
        Given { number, bytes: lent.bytes(), changed_guard: lent.changed_guard() }
    }
}

/// An error says how the given differs from the wanted.
pub fn differences(
    asked: fmt::Arguments,
    before: &[u8],
    wanted: Given,
    given: Given,
) -> Result<(), String> {
    let same = given.number == wanted.number && given.bytes == wanted.bytes;
    if same && given.changed_guard.is_none() {
        return Ok(());
    }
    let mut report = String::new();
    if given.number != wanted.number {
        let (wanted, given) = (in_parts(wanted.number), in_parts(given.number));
        add(&mut report, format_args!("answer: wanted {wanted}; given {given}"));
    }
    for (place, (now, right)) in given.bytes.iter().zip(wanted.bytes).enumerate() {
        if now != right {
            let name = name_of(place, before);
            add(&mut report, format_args!("{name}: wanted {right:02x}, given {now:02x}"));
        }
    }
    if let Some(place) = given.changed_guard {
        add(&mut report, format_args!("a byte outside was changed, at {place}"));
    }
    Err(format!("{asked}\n{report}the {} bytes before the call:\n{}", before.len(), rows(before)))
}

fn in_parts(number: u64) -> String {
    let (place, code) = (number >> 48, number >> 40 & 0xff);
    let (kind, word) = (number >> 32 & 0xff, number & 0xffff_ffff);
    format!("code {code}, kind {kind}, word {word:08x}, place {place} ({number:#x})")
}

/// What stands at a place of an area, as far as its length tells.
fn name_of(place: usize, area: &[u8]) -> String {
    let slots_at = HEADER_LENGTH + CELL_LENGTH * cells_in(area.len());
    let Some(in_cells) = place.checked_sub(HEADER_LENGTH) else {
        return format!("byte {place}");
    };
    let (part, first, at) = match place.checked_sub(slots_at) {
        None => ("cell", in_cells / CELL_LENGTH, in_cells % CELL_LENGTH),
        Some(in_slots) => ("slot", 1 + in_slots / SLOT_LENGTH, in_slots % SLOT_LENGTH),
    };
    format!("byte {place} ({part} {first}, its byte {at})")
}

fn rows(bytes: &[u8]) -> String {
    let mut out = String::new();
    for (row, bytes) in bytes.chunks(32).enumerate() {
        let hex: String = bytes.iter().map(|byte| format!("{byte:02x}")).collect();
        add(&mut out, format_args!("{:6} {hex}", row * 32));
    }
    out
}

/// Writing to a string cannot fail, so there is no error to hand on.
fn add(report: &mut String, line: fmt::Arguments) {
    let _ = writeln!(report, "  {line}");
}
