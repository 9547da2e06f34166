//! Steps to be written into a sheet one after the other.

use super::case::{Case, CELL};
use crate::call::Step::{self, *};

/// Steps on cells that are all whole numbers.
#[derive(Default)]
pub(super) struct Steps {
    pub bytes: Vec<u8>,
}

impl Steps {
    pub fn add(&mut self, step: Step, slot: u8, cell: u8) {
        self.bring(step, slot, cell, 0);
    }

    /// With a word, for the steps that use one. It is of one byte.
    pub fn bring(&mut self, step: Step, slot: u8, cell: u8, word: u8) {
        let kind = if step.uses_value() { 2 } else { 0 };
        self.bytes.extend([step.number(), slot, cell, kind, 0, 0, 0, word]);
    }

    /// The same step on each of these cells.
    pub fn each(&mut self, step: Step, slot: u8, cells: &[u8]) {
        cells.iter().for_each(|cell| self.add(step, slot, *cell));
    }

    /// Steps that need no cell.
    pub fn all(&mut self, steps: &[Step], slot: u8) {
        steps.iter().for_each(|step| self.add(*step, slot, 0));
    }

    /// The slot takes these cells and keeps them.
    pub fn hold(&mut self, slot: u8, cells: &[u8]) {
        self.add(Begin, slot, 0);
        self.each(Write, slot, cells);
        self.add(Close, slot, 0);
        self.each(Lock, slot, cells);
    }

    /// The slot publishes these cells.
    pub fn renew(&mut self, slot: u8, cells: &[u8]) {
        self.hold(slot, cells);
        self.all(&[Enter, Finish], slot);
        self.each(Publish, slot, cells);
    }

    /// The slot reads the cell, and writes and locks it.
    pub fn meet(&mut self, slot: u8, cell: u8) {
        for step in [Begin, Read, Write, Close, Lock] {
            self.add(step, slot, cell);
        }
    }

    pub fn on_cells(self, name: impl Into<String>, cells: usize) -> Case {
        Case::of_parts(name, 1, &CELL.repeat(cells), &self.bytes)
    }
}
