//! The step sheet and its binary form.

use std::fmt;

use crate::bytes::Reader;
use crate::call::Call;
use crate::machine::CELLS_AT_MOST;
use crate::value::Value;

/// Most steps of a sheet.
pub const STEPS_AT_MOST: usize = 4096;

/// Length of the description of a cell: kind and word.
pub(crate) const DESCRIPTION_LENGTH: usize = 5;

const CALL_LENGTH: usize = 8;

/// A good step sheet.
#[derive(Clone, Debug, PartialEq, Eq)]
pub struct Sheet {
    cells: Vec<Value>,
    calls: Vec<Call>,
}

/// Why something is no good sheet.
#[derive(Clone, Copy, Debug, PartialEq, Eq)]
pub enum BadSheet {
    /// The version is not 1.
    Version,
    /// A byte is missing.
    Missing,
    /// A byte is left over.
    LeftOver,
    /// The length of the descriptions is no multiple of 5.
    DescriptionsLength,
    /// The length of the steps is no multiple of 8.
    StepsLength,
    /// n is not 1 to 64.
    Cells,
    /// A description is illegal.
    Description,
    /// There are too many steps.
    Steps,
}

impl fmt::Display for BadSheet {
    fn fmt(&self, f: &mut fmt::Formatter) -> fmt::Result {
        f.write_str(match self {
            BadSheet::Version => "the version is not 1",
            BadSheet::Missing => "a byte is missing",
            BadSheet::LeftOver => "a byte is left over",
            BadSheet::DescriptionsLength => "the length of the descriptions is no multiple of 5",
            BadSheet::StepsLength => "the length of the steps is no multiple of 8",
            BadSheet::Cells => "a sheet has 1 to 64 cells",
            BadSheet::Description => "the kind or the word of a cell is illegal",
            BadSheet::Steps => "a sheet has at most 4096 steps",
        })
    }
}

impl Sheet {
    /// A sheet of these cells and steps. The steps may be any numbers; wrong
    /// ones get codes when the sheet is run.
    pub fn new(cells: Vec<Value>, calls: Vec<Call>) -> Result<Sheet, BadSheet> {
        if !(1..=CELLS_AT_MOST).contains(&cells.len()) {
            return Err(BadSheet::Cells);
        }
        if !cells.iter().all(|cell| cell.is_legal()) {
            return Err(BadSheet::Description);
        }
        if calls.len() > STEPS_AT_MOST {
            return Err(BadSheet::Steps);
        }
        Ok(Sheet { cells, calls })
    }

    /// The first values of the cells.
    pub fn cells(&self) -> &[Value] {
        &self.cells
    }

    /// The steps.
    pub fn calls(&self) -> &[Call] {
        &self.calls
    }

    /// The sheet with this binary form.
    pub fn decode(bytes: &[u8]) -> Result<Sheet, BadSheet> {
        let mut reader = Reader::new(bytes);
        if reader.u8().ok_or(BadSheet::Missing)? != 1 {
            return Err(BadSheet::Version);
        }
        let descriptions = counted(&mut reader).ok_or(BadSheet::Missing)?;
        let steps = counted(&mut reader).ok_or(BadSheet::Missing)?;
        if !reader.is_at_end() {
            return Err(BadSheet::LeftOver);
        }
        if descriptions.len() % DESCRIPTION_LENGTH != 0 {
            return Err(BadSheet::DescriptionsLength);
        }
        let cells = read_descriptions(descriptions).ok_or(BadSheet::Description)?;
        let calls = read_calls(steps).ok_or(BadSheet::StepsLength)?;
        Sheet::new(cells, calls)
    }

    /// The binary form.
    pub fn encode(&self) -> Vec<u8> {
        let mut out = vec![1];
        let descriptions = describe(&self.cells);
        push_length(&mut out, descriptions.len());
        out.extend(descriptions);
        push_length(&mut out, self.calls.len() * CALL_LENGTH);
        for call in &self.calls {
            out.extend([call.step, call.slot, call.cell, call.kind]);
            out.extend(call.word.to_be_bytes());
        }
        out
    }
}

/// A 2-byte length and that many bytes.
fn counted<'a>(reader: &mut Reader<'a>) -> Option<&'a [u8]> {
    let length = reader.u16()?;
    reader.slice(usize::from(length))
}

/// The numbers of cells and steps in a good sheet are such that it fits.
fn push_length(out: &mut Vec<u8>, length: usize) {
    out.extend((length as u16).to_be_bytes());
}

/// The descriptions of 5 bytes of these values: kind and word.
pub fn describe(values: &[Value]) -> Vec<u8> {
    let mut out = Vec::new();
    for value in values {
        out.push(value.kind().number());
        out.extend(value.word().to_be_bytes());
    }
    out
}

/// The values that descriptions of 5 bytes each describe, if all are legal.
pub(crate) fn read_descriptions(bytes: &[u8]) -> Option<Vec<Value>> {
    let mut reader = Reader::new(bytes);
    let mut values = Vec::new();
    while !reader.is_at_end() {
        values.push(Value::described(reader.u8()?, reader.u32()?)?);
    }
    Some(values)
}

/// None if the last step is not whole.
fn read_calls(bytes: &[u8]) -> Option<Vec<Call>> {
    let mut reader = Reader::new(bytes);
    let mut calls = Vec::new();
    while !reader.is_at_end() {
        calls.push(Call {
            step: reader.u8()?,
            slot: reader.u8()?,
            cell: reader.u8()?,
            kind: reader.u8()?,
            word: reader.u32()?,
        });
    }
    Some(calls)
}
