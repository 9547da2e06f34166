//! Running a sheet: the lines that it prints.

use std::fmt::Write;

use crate::binary::Sheet;
use crate::call::Reply;
use crate::forms::{self, BAD_SHEET};
use crate::machine::Machine;
use crate::text::TextError;

/// The output of a sheet: a line per step, a line per cell, and the clock.
pub fn run(sheet: &Sheet) -> String {
    let Some(mut machine) = Machine::fresh(sheet.cells()) else {
        return BAD_SHEET.to_string();
    };
    let mut out = String::new();
    for (place, &call) in (1..).zip(sheet.calls()) {
        add_step(&mut out, place, machine.step(call));
    }
    add_cells(&mut out, &machine);
    add_line(&mut out, format_args!("clock {}", machine.clock()));
    out
}

/// The output of a sheet in binary form, which may be a bad one.
pub fn run_binary(bytes: &[u8]) -> String {
    forms::of_binary(bytes, run)
}

/// The output of a sheet in either form, see [`forms::looks_like_text`].
pub fn run_either(bytes: &[u8]) -> Result<String, TextError> {
    forms::of_either(bytes, run)
}

fn add_step(out: &mut String, place: usize, reply: Reply) {
    let (code, kind, word) = (reply.code(), reply.kind(), reply.word());
    add_line(out, format_args!("{place} {code} {kind} {word:08x}"));
}

fn add_cells(out: &mut String, machine: &Machine) {
    for (number, cell) in (0..).zip(machine.cells()) {
        let (kind, word) = (cell.value.kind().number(), cell.value.word());
        let (stamp, holder) = (cell.stamp, machine.holder(number));
        add_line(out, format_args!("cell {number} {kind} {word:08x} {stamp} {holder}"));
    }
}

/// Writing to a string cannot fail, so there is no error to hand on.
fn add_line(out: &mut String, line: std::fmt::Arguments) {
    let _ = writeln!(out, "{line}");
}
