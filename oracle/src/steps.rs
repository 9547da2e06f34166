//! The fourteen steps.
//!
//! Every function here first asks for each refusal of its step, from the
//! lowest code to the highest, and only then changes anything: so the lowest
//! code that applies is given, and a refused call leaves the machine as it was.
//! Code 14 is asked for at the place of 10 and before it, code 15 after 4.

use crate::call::{Call, Refusal, Reply, Step};
use crate::machine::{Cell, Commit, Machine, Phase, Read, Transaction, Write};
use crate::value::Value;

/// What the slot has after the step, and the reply.
type Outcome = Result<(Option<Transaction>, Reply), Refusal>;

impl Machine {
    /// Makes one step.
    pub fn step(&mut self, call: Call) -> Reply {
        self.try_step(call).unwrap_or_else(Reply::Refused)
    }

    fn try_step(&mut self, call: Call) -> Result<Reply, Refusal> {
        let step = Step::numbered(call.step).ok_or(Refusal::NoSuchStep)?;
        let place = usize::from(call.slot).wrapping_sub(1);
        let slot = self.slots.get(place).ok_or(Refusal::NoSuchSlot)?;
        let (after, reply) = match slot.clone() {
            None => self.step_of_idle(step)?,
            Some(transaction) => self.step_of(transaction, step, call)?,
        };
        self.slots[place] = after;
        Ok(reply)
    }

    fn step_of_idle(&self, step: Step) -> Outcome {
        match step {
            Step::Begin => goes_on(Transaction::begun(self.clock), Reply::Done),
            _ => Err(Refusal::NotAllowed),
        }
    }

    /// The column "allowed when" of the table of steps.
    fn step_of(&mut self, own: Transaction, step: Step, call: Call) -> Outcome {
        let entries = own.writes.len();
        match (step, own.phase) {
            (Step::Read, Phase::Open) => self.read(own, call),
            (Step::Write, Phase::Open) => self.write(own, call),
            (Step::Close, Phase::Open) => close(own),
            (Step::Lock, Phase::Locking { taken }) if taken < entries => {
                self.lock(own, call.slot, taken)
            }
            (Step::Enter, Phase::Locking { taken }) if taken == entries => {
                self.enter(own, call.slot)
            }
            (Step::Reread, Phase::Twilight(_)) => self.reread(own, call.cell),
            (Step::Update, Phase::Twilight(_)) => self.update(own, call),
            (Step::Ask, Phase::Twilight(_)) => self.ask(own, call.cell),
            (Step::Reload, Phase::Twilight(_)) => self.reload(own, call.slot),
            (Step::Ignore, Phase::Twilight(commit)) => ignore(own, commit),
            (Step::Finish, Phase::Twilight(commit)) => finish(own, commit),
            (Step::Publish, Phase::Publishing { commit, published }) => {
                self.publish(own, commit, published)
            }
            (Step::GiveUp, Phase::Open | Phase::Locking { .. } | Phase::Twilight(_)) => {
                turns_idle(Reply::Done)
            }
            _ => Err(Refusal::NotAllowed),
        }
    }

    fn read(&self, mut own: Transaction, call: Call) -> Outcome {
        let shared = self.cell(call.cell)?;
        let written = own.write_of(call.cell).map(|write| write.value);
        let logged = written.or(own.read_of(call.cell).map(|read| read.value));
        if let Some(value) = logged {
            return goes_on(own, Reply::Answer(value));
        }
        room_in_log(own.reads.len())?;
        if let Some(refusal) = self.conflict(call.cell, call.slot, own.start) {
            return Err(refusal);
        }
        own.reads.push(Read { cell: call.cell, value: shared.value, marked: false });
        goes_on(own, Reply::Answer(shared.value))
    }

    fn write(&self, mut own: Transaction, call: Call) -> Outcome {
        let value = self.value_for_cell(call)?;
        let entry = Write { cell: call.cell, value };
        match own.writes.binary_search_by_key(&call.cell, |write| write.cell) {
            Ok(place) => own.writes[place] = entry,
            Err(place) => {
                room_in_log(own.writes.len())?;
                own.writes.insert(place, entry);
            }
        }
        goes_on(own, Reply::Done)
    }

    fn lock(&self, mut own: Transaction, slot: u8, taken: usize) -> Outcome {
        self.first_held([own.writes[taken].cell], slot)?;
        own.phase = Phase::Locking { taken: taken + 1 };
        goes_on(own, Reply::Done)
    }

    fn enter(&mut self, mut own: Transaction, slot: u8) -> Outcome {
        let stamp = self.next_stamp()?;
        let start = own.start;
        for read in &mut own.reads {
            read.marked = self.conflict(read.cell, slot, start).is_some();
        }
        self.enter_twilight(&mut own, stamp);
        let nothing_marked = Value::Truth(!own.some_mark());
        goes_on(own, Reply::Answer(nothing_marked))
    }

    fn reread(&self, own: Transaction, cell: u8) -> Outcome {
        let entry = self.read_entry(&own, cell)?;
        goes_on(own, Reply::Answer(entry.value))
    }

    fn update(&self, mut own: Transaction, call: Call) -> Outcome {
        let value = self.value_for_cell(call)?;
        let mut entries = own.writes.iter_mut();
        let entry = entries.find(|write| write.cell == call.cell);
        entry.ok_or(Refusal::NotInLog)?.value = value;
        goes_on(own, Reply::Done)
    }

    fn ask(&self, own: Transaction, cell: u8) -> Outcome {
        let entry = self.read_entry(&own, cell)?;
        goes_on(own, Reply::Answer(Value::Truth(entry.marked)))
    }

    /// Takes a new stamp even if nothing was marked: with the old one the
    /// transaction would claim a place before a write that it has read.
    fn reload(&mut self, mut own: Transaction, slot: u8) -> Outcome {
        self.first_held(own.reads.iter().map(|read| read.cell), slot)?;
        let stamp = self.next_stamp()?;
        for read in &mut own.reads {
            read.value = self.cells[usize::from(read.cell)].value;
            read.marked = false;
        }
        self.enter_twilight(&mut own, stamp);
        goes_on(own, Reply::Done)
    }

    fn publish(&mut self, mut own: Transaction, commit: Commit, published: usize) -> Outcome {
        let Write { cell, value } = own.writes[published];
        let stamp = commit.stamp;
        self.cells[usize::from(cell)] = Cell { value, stamp };
        let published = published + 1;
        if published == own.writes.len() {
            return turns_idle(Reply::Done);
        }
        own.phase = Phase::Publishing { commit, published };
        goes_on(own, Reply::Done)
    }

    fn cell(&self, cell: u8) -> Result<Cell, Refusal> {
        let cell = self.cells.get(usize::from(cell));
        cell.copied().ok_or(Refusal::NoSuchCell)
    }

    /// The value that write and update bring, if it suits the cell.
    fn value_for_cell(&self, call: Call) -> Result<Value, Refusal> {
        let cell = self.cell(call.cell)?;
        let value = Value::described(call.kind, call.word).ok_or(Refusal::IllegalValue)?;
        if value.kind() != cell.value.kind() {
            return Err(Refusal::OtherKind);
        }
        Ok(value)
    }

    /// The read entry that reread and ask are about. It is looked for in the
    /// read log alone, also if the cell is in the write log.
    fn read_entry(&self, own: &Transaction, cell: u8) -> Result<Read, Refusal> {
        self.cell(cell)?;
        own.read_of(cell).ok_or(Refusal::NotInLog)
    }

    /// Why a read of the cell by a transaction with this start is out of date
    /// or may become so under a stamp that is already given. The holder counts
    /// whatever the cell's stamp is: it may have a commit stamp that is not
    /// above start and not have published yet.
    fn conflict(&self, cell: u8, slot: u8, start: u64) -> Option<Refusal> {
        let held = self.other_holder(cell, slot).map(|holder| Refusal::ReadHeld { holder });
        let newer = self.cells[usize::from(cell)].stamp > start;
        held.or(newer.then_some(Refusal::ReadNewer))
    }

    /// An error names the first of these cells that another slot holds.
    fn first_held(&self, cells: impl IntoIterator<Item = u8>, slot: u8) -> Result<(), Refusal> {
        let held = cells.into_iter().find_map(|cell| {
            let holder = self.other_holder(cell, slot)?;
            Some(Refusal::HeldByAnother { cell, holder })
        });
        held.map_or(Ok(()), Err)
    }

    fn next_stamp(&self) -> Result<u64, Refusal> {
        self.clock.checked_add(1).ok_or(Refusal::ClockAtEnd)
    }

    fn enter_twilight(&mut self, own: &mut Transaction, stamp: u64) {
        self.clock = stamp;
        let ignoring = false;
        own.phase = Phase::Twilight(Commit { stamp, ignoring });
    }
}

fn close(mut own: Transaction) -> Outcome {
    own.phase = Phase::Locking { taken: 0 };
    goes_on(own, Reply::Done)
}

/// A marked cell that is written, too, holds an update of another transaction:
/// the written value was made without it and would take its place.
fn ignore(mut own: Transaction, mut commit: Commit) -> Outcome {
    if own.some_marked_written() {
        return Err(Refusal::MarkedWritten);
    }
    if own.some_mark() {
        commit.ignoring = true;
        own.phase = Phase::Twilight(commit);
    }
    goes_on(own, Reply::Done)
}

fn finish(mut own: Transaction, commit: Commit) -> Outcome {
    if own.some_mark() && !commit.ignoring {
        return turns_idle(Reply::Ended);
    }
    if own.writes.is_empty() {
        return turns_idle(Reply::Done);
    }
    let published = 0;
    own.phase = Phase::Publishing { commit, published };
    goes_on(own, Reply::Done)
}

fn room_in_log(entries: usize) -> Result<(), Refusal> {
    if entries >= Transaction::LOG_ROOM {
        return Err(Refusal::LogFull);
    }
    Ok(())
}

fn goes_on(own: Transaction, reply: Reply) -> Outcome {
    Ok((Some(own), reply))
}

/// A slot without a transaction holds nothing, so this frees its cells too.
fn turns_idle(reply: Reply) -> Outcome {
    Ok((None, reply))
}
