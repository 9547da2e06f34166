//! The two programs that are compared.

use std::fmt;

use crate::binary::Sheet;
use crate::{run, trace};

/// A program that takes a sheet.
#[derive(Clone, Copy, Debug, PartialEq, Eq)]
pub enum Program {
    /// The one that runs it.
    Run,
    /// The one that traces it.
    Trace,
}

impl Program {
    /// Both, in the order in which they are given an input.
    pub const BOTH: [Program; 2] = [Program::Run, Program::Trace];

    /// What it has to print for this input.
    pub fn wanted(self, bytes: &[u8]) -> String {
        match self {
            Program::Run => run::run_binary(bytes),
            Program::Trace => trace::trace_binary(bytes),
        }
    }

    /// The place of the step that a line of what it has to print is about, both
    /// from 1.
    pub(super) fn place_of(self, sheet: &Sheet, line: usize) -> Option<usize> {
        match self {
            Program::Run => Some(line),
            Program::Trace => trace::effects(sheet)?.get(line - 1).map(|(place, _)| *place),
        }
    }
}

/// The command of `sheet` that gives the same.
impl fmt::Display for Program {
    fn fmt(&self, f: &mut fmt::Formatter) -> fmt::Result {
        f.pad(match self {
            Program::Run => "run",
            Program::Trace => "trace",
        })
    }
}
