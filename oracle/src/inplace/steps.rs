//! The fourteen steps on the bytes of a well-formed area.

use super::check::{held, marked_cells, written_cells};
use super::view::*;
use crate::call::{Call, Refusal, Reply, Step};
use crate::machine::Transaction;

/// The number of the reply.
type Outcome = Result<u64, Refusal>;

const DONE: Outcome = Ok(0);

/// The parts of the area that a step of one slot has to do with.
pub struct Turn<'a> {
    pub clock: &'a mut [u8; 8],
    pub cells: &'a mut [CellBytes],
    pub own: &'a mut SlotBytes,
    pub call: Call,
}

impl Turn<'_> {
    pub fn make(self, step: Step) -> Outcome {
        let missing = self.own[TAKEN] < self.own[WRITE_COUNT];
        match (step, self.own[PHASE]) {
            (Step::Begin, 0) => self.begin(),
            (Step::Read, 1) => self.read(),
            (Step::Write, 1) => self.write(),
            (Step::Close, 1) => self.turn_to(2),
            (Step::Lock, 2) if missing => self.lock(),
            (Step::Enter, 2) if !missing => self.enter(),
            (Step::Reread, 3) => self.reread(),
            (Step::Update, 3) => self.update(),
            (Step::Ask, 3) => self.ask(),
            (Step::Reload, 3) => self.reload(),
            (Step::Ignore, 3) => self.ignore(),
            (Step::Finish, 3) => self.finish(),
            (Step::Publish, 4) => self.publish(),
            (Step::GiveUp, 1..=3) => self.free_and_clear(DONE),
            _ => Err(Refusal::NotAllowed),
        }
    }

    fn begin(self) -> Outcome {
        self.own[START..COMMIT_STAMP].copy_from_slice(self.clock);
        self.turn_to(1)
    }

    fn read(self) -> Outcome {
        let kind = self.kind_of_cell()?;
        if let Some(place) = self.place_in_writes() {
            return answer(kind, u32_at(&self.writes()[place], WRITE_WORD));
        }
        if let Some(place) = self.place_in_reads() {
            return answer(kind, u32_at(&self.reads()[place], READ_WORD));
        }
        let count = self.reads().len();
        if count == Transaction::LOG_ROOM {
            return Err(Refusal::LogFull);
        }
        match self.other_holder(self.call.cell) {
            0 if self.is_newer(self.call.cell) => return Err(Refusal::ReadNewer),
            0 => {}
            holder => return Err(Refusal::ReadHeld { holder }),
        }
        let word = u32_at(&self.cells[usize::from(self.call.cell)], CELL_WORD);
        let entry = &mut read_entries_mut(self.own)[count];
        entry[0] = self.call.cell;
        put_u32(entry, READ_WORD, word);
        self.own[READ_COUNT] += 1;
        answer(kind, word)
    }

    fn write(self) -> Outcome {
        self.value_suits_cell()?;
        let count = self.writes().len();
        let place = self.writes().partition_point(|write| write[0] < self.call.cell);
        let is_new = self.writes().get(place).is_none_or(|write| write[0] != self.call.cell);
        if is_new && count == Transaction::LOG_ROOM {
            return Err(Refusal::LogFull);
        }
        let entries = write_entries_mut(self.own);
        if is_new {
            entries.copy_within(place..count, place + 1);
        }
        entries[place][0] = self.call.cell;
        put_u32(&mut entries[place], WRITE_WORD, self.call.word);
        self.own[WRITE_COUNT] += u8::from(is_new);
        DONE
    }

    fn lock(self) -> Outcome {
        let cell = self.writes()[usize::from(self.own[TAKEN])][0];
        self.not_held(cell)?;
        self.cells[usize::from(cell)][HOLDER] = self.call.slot;
        self.own[TAKEN] += 1;
        DONE
    }

    fn enter(mut self) -> Outcome {
        let stamp = self.next_stamp()?;
        let mut some_mark = false;
        for place in 0..self.reads().len() {
            let cell = self.reads()[place][0];
            let marked = self.other_holder(cell) != 0 || self.is_newer(cell);
            read_entries_mut(self.own)[place][MARK] = marked.into();
            some_mark |= marked;
        }
        self.give(stamp);
        self.own[TAKEN] = 0;
        self.own[PHASE] = 3;
        answer(1, u32::from(!some_mark))
    }

    fn reread(self) -> Outcome {
        let kind = self.kind_of_cell()?;
        let place = self.place_in_reads().ok_or(Refusal::NotInLog)?;
        answer(kind, u32_at(&self.reads()[place], READ_WORD))
    }

    fn update(self) -> Outcome {
        self.value_suits_cell()?;
        let place = self.place_in_writes().ok_or(Refusal::NotInLog)?;
        put_u32(&mut write_entries_mut(self.own)[place], WRITE_WORD, self.call.word);
        DONE
    }

    fn ask(self) -> Outcome {
        self.kind_of_cell()?;
        let place = self.place_in_reads().ok_or(Refusal::NotInLog)?;
        answer(1, self.reads()[place][MARK].into())
    }

    fn reload(mut self) -> Outcome {
        self.reads().iter().try_for_each(|read| self.not_held(read[0]))?;
        let stamp = self.next_stamp()?;
        let count = self.reads().len();
        for entry in &mut read_entries_mut(self.own)[..count] {
            let word = u32_at(&self.cells[usize::from(entry[0])], CELL_WORD);
            put_u32(entry, READ_WORD, word);
            entry[MARK] = 0;
        }
        self.own[IGNORING] = 0;
        self.give(stamp);
        DONE
    }

    fn ignore(self) -> Outcome {
        let marked = marked_cells(self.reads());
        if marked & written_cells(self.writes()) != 0 {
            return Err(Refusal::MarkedWritten);
        }
        self.own[IGNORING] = u8::from(marked != 0);
        DONE
    }

    fn finish(self) -> Outcome {
        if self.some_mark() && self.own[IGNORING] == 0 {
            return self.free_and_clear(Ok(Reply::Ended.number()));
        }
        if self.own[WRITE_COUNT] == 0 {
            return self.free_and_clear(DONE);
        }
        self.turn_to(4)
    }

    fn publish(self) -> Outcome {
        let write = self.writes()[usize::from(self.own[TAKEN])];
        let cell = &mut self.cells[usize::from(write[0])];
        cell[HOLDER] = 0;
        put_u32(cell, CELL_WORD, u32_at(&write, WRITE_WORD));
        put_u64(cell, CELL_STAMP, u64_at(self.own, COMMIT_STAMP));
        self.own[TAKEN] += 1;
        if self.own[TAKEN] == self.own[WRITE_COUNT] {
            self.own.fill(0);
        }
        DONE
    }

    fn turn_to(self, phase: u8) -> Outcome {
        self.own[PHASE] = phase;
        DONE
    }

    fn free_and_clear(self, outcome: Outcome) -> Outcome {
        for write in held(self.own) {
            self.cells[usize::from(write[0])][HOLDER] = 0;
        }
        self.own.fill(0);
        outcome
    }

    fn reads(&self) -> &[ReadBytes] {
        &read_entries(self.own)[..usize::from(self.own[READ_COUNT])]
    }

    fn writes(&self) -> &[WriteBytes] {
        &write_entries(self.own)[..usize::from(self.own[WRITE_COUNT])]
    }

    fn place_in_reads(&self) -> Option<usize> {
        self.reads().iter().position(|read| read[0] == self.call.cell)
    }

    /// The log ascends, so the search ends at the first cell that is not smaller.
    fn place_in_writes(&self) -> Option<usize> {
        let place = self.writes().iter().position(|write| write[0] >= self.call.cell)?;
        (self.writes()[place][0] == self.call.cell).then_some(place)
    }

    fn some_mark(&self) -> bool {
        self.reads().iter().any(|read| read[MARK] == 1)
    }

    fn kind_of_cell(&self) -> Result<u8, Refusal> {
        let cell = self.cells.get(usize::from(self.call.cell));
        cell.map(|cell| cell[KIND]).ok_or(Refusal::NoSuchCell)
    }

    fn value_suits_cell(&self) -> Result<(), Refusal> {
        let kind = self.kind_of_cell()?;
        if !legal(self.call.kind, self.call.word) {
            return Err(Refusal::IllegalValue);
        }
        if self.call.kind != kind {
            return Err(Refusal::OtherKind);
        }
        Ok(())
    }

    /// The other slot that holds the cell, 0 for none.
    fn other_holder(&self, cell: u8) -> u8 {
        let holder = self.cells[usize::from(cell)][HOLDER];
        if holder == self.call.slot {
            0
        } else {
            holder
        }
    }

    fn not_held(&self, cell: u8) -> Result<(), Refusal> {
        match self.other_holder(cell) {
            0 => Ok(()),
            holder => Err(Refusal::HeldByAnother { cell, holder }),
        }
    }

    fn is_newer(&self, cell: u8) -> bool {
        let stamp = u64_at(&self.cells[usize::from(cell)], CELL_STAMP);
        stamp > u64_at(self.own, START)
    }

    fn next_stamp(&self) -> Result<u64, Refusal> {
        let clock = u64::from_be_bytes(*self.clock);
        clock.checked_add(1).ok_or(Refusal::ClockAtEnd)
    }

    fn give(&mut self, stamp: u64) {
        *self.clock = stamp.to_be_bytes();
        put_u64(self.own, COMMIT_STAMP, stamp);
    }
}

fn answer(kind: u8, word: u32) -> Outcome {
    Ok((u64::from(kind) << 32) + u64::from(word))
}
