//! The run of a sheet, step by step.

use crate::binary::Sheet;
use crate::forms::looks_like_text;
use crate::machine::{Machine, SLOTS};
use crate::text;
use crate::value::Value;

use super::moment::{Moment, NO_SLOT};
use super::title::Title;

/// The run of a sheet, ready to be drawn.
pub struct Timeline {
    pub(super) title: Title,
    /// Slots in ascending order, then [`NO_SLOT`] if a step needs it.
    pub(super) lanes: Vec<u8>,
    pub(super) moments: Vec<Moment>,
    pub(super) first_values: Vec<Value>,
    pub(super) end: Machine,
}

impl Timeline {
    /// The run of a sheet in either form. The comment at the head of a text is
    /// its title.
    pub fn read(bytes: &[u8]) -> Result<Timeline, String> {
        if looks_like_text(bytes) {
            let sheet = text::assemble(bytes).map_err(|error| error.to_string())?;
            let words = String::from_utf8_lossy(text::unmarked(bytes));
            return Timeline::of(&sheet, &words).map_err(|bad| format!("bad sheet: {bad}"));
        }
        let sheet = Sheet::decode(bytes).map_err(|bad| format!("bad sheet: {bad}"))?;
        Timeline::of(&sheet, "").map_err(|bad| format!("bad sheet: {bad}"))
    }

    /// The run of a sheet, with the title that the comments of this text give.
    pub fn of(sheet: &Sheet, words: &str) -> Result<Timeline, crate::BadSheet> {
        let first_values = sheet.cells().to_vec();
        let mut machine = Machine::fresh(&first_values).ok_or(crate::BadSheet::Cells)?;
        let mut moments = Vec::new();
        for (place, &call) in (1..).zip(sheet.calls()) {
            moments.push(Moment::made(&mut machine, place, call));
        }
        let mut lanes: Vec<u8> = (1..=SLOTS as u8).collect();
        lanes.push(NO_SLOT);
        lanes.retain(|lane| moments.iter().any(|moment| moment.lane == *lane));
        Ok(Timeline { title: Title::of(words), lanes, moments, first_values, end: machine })
    }

    /// The codes that some step got, in ascending order.
    pub(super) fn codes(&self) -> Vec<u8> {
        let mut codes: Vec<u8> = self.moments.iter().map(|moment| moment.code).collect();
        codes.retain(|code| *code != 0);
        codes.sort_unstable();
        codes.dedup();
        codes
    }
}

/// What a code means, short enough for a legend.
pub(super) fn code_words(code: u8) -> &'static str {
    match code {
        2 => "there is no such step",
        3 => "there is no such slot",
        4 => "not allowed in the slot's present state",
        5 => "there is no such cell",
        6 => "illegal kind or word",
        7 => "the kind differs from the cell's",
        8 => "the cell is not in the log",
        9 => "the log has 16 entries",
        10 => "the cell is newer than the start",
        11 => "another slot holds a cell to be locked or reloaded",
        12 => "the clock is at its end",
        13 => "marked and not ignored: ended without commit",
        14 => "another slot holds the cell",
        15 => "some marked cell is also in the slot's write log",
        _ => "the area is not well formed",
    }
}
