//! What a caller asks of the machine and what it is told.

use crate::value::Value;

/// The fourteen steps.
#[derive(Clone, Copy, Debug, PartialEq, Eq)]
#[allow(missing_docs)] // the variants are the words of the table of steps
pub enum Step {
    Begin = 1,
    Read,
    Write,
    Close,
    Lock,
    Enter,
    Reread,
    Update,
    Ask,
    Reload,
    Ignore,
    Finish,
    Publish,
    GiveUp,
}

impl Step {
    /// All steps, in the order of their numbers.
    pub const ALL: [Step; 14] = [
        Step::Begin,
        Step::Read,
        Step::Write,
        Step::Close,
        Step::Lock,
        Step::Enter,
        Step::Reread,
        Step::Update,
        Step::Ask,
        Step::Reload,
        Step::Ignore,
        Step::Finish,
        Step::Publish,
        Step::GiveUp,
    ];

    /// The step with this number.
    pub fn numbered(number: u8) -> Option<Step> {
        Step::ALL.into_iter().find(|step| step.number() == number)
    }

    /// Its number, 1 to 14.
    pub fn number(self) -> u8 {
        self as u8
    }

    /// Its name in the text form.
    pub fn name(self) -> &'static str {
        match self {
            Step::Begin => "begin",
            Step::Read => "read",
            Step::Write => "write",
            Step::Close => "close",
            Step::Lock => "lock",
            Step::Enter => "enter",
            Step::Reread => "reread",
            Step::Update => "update",
            Step::Ask => "ask",
            Step::Reload => "reload",
            Step::Ignore => "ignore",
            Step::Finish => "finish",
            Step::Publish => "publish",
            Step::GiveUp => "give up",
        }
    }

    /// Whether the step uses its cell.
    pub fn uses_cell(self) -> bool {
        matches!(self, Step::Read | Step::Reread | Step::Ask) || self.uses_value()
    }

    /// Whether the step uses its kind and word.
    pub fn uses_value(self) -> bool {
        matches!(self, Step::Write | Step::Update)
    }
}

/// A step with its arguments, as a caller hands them over: any numbers at all.
#[derive(Clone, Copy, Debug, Default, PartialEq, Eq)]
pub struct Call {
    /// Number of the step.
    pub step: u8,
    /// Number of the slot.
    pub slot: u8,
    /// Number of the cell.
    pub cell: u8,
    /// Number of the kind.
    pub kind: u8,
    /// The word.
    pub word: u32,
}

/// Why a call is refused, with what the reply names.
#[derive(Clone, Copy, Debug, PartialEq, Eq)]
pub enum Refusal {
    /// The area is not well formed.
    NotWellFormed,
    /// Step number outside 1 to 14.
    NoSuchStep,
    /// Slot outside 1 to 8.
    NoSuchSlot,
    /// The step is not allowed in the slot's present state.
    NotAllowed,
    /// Ignore: some marked cell is also in the slot's write log.
    MarkedWritten,
    /// Cell not below n.
    NoSuchCell,
    /// Kind outside 1 to 3 or word illegal for it.
    IllegalValue,
    /// Kind differs from the cell's.
    OtherKind,
    /// Cell not in the log.
    NotInLog,
    /// A new entry is needed and the log has 16.
    LogFull,
    /// Read: another slot holds the shared cell.
    ReadHeld {
        /// That slot.
        holder: u8,
    },
    /// Read: the shared cell has a stamp above start.
    ReadNewer,
    /// Lock or reload: another slot holds the cell to be locked, or a cell
    /// that was read.
    HeldByAnother {
        /// The cell; for reload the first such cell in read-log order.
        cell: u8,
        /// That slot.
        holder: u8,
    },
    /// The clock is 2^64 - 1.
    ClockAtEnd,
}

impl Refusal {
    /// The code, 1 to 12, 14 or 15.
    pub fn code(self) -> u8 {
        match self {
            Refusal::NotWellFormed => 1,
            Refusal::NoSuchStep => 2,
            Refusal::NoSuchSlot => 3,
            Refusal::NotAllowed => 4,
            Refusal::NoSuchCell => 5,
            Refusal::IllegalValue => 6,
            Refusal::OtherKind => 7,
            Refusal::NotInLog => 8,
            Refusal::LogFull => 9,
            Refusal::ReadNewer => 10,
            Refusal::HeldByAnother { .. } => 11,
            Refusal::ClockAtEnd => 12,
            Refusal::ReadHeld { .. } => 14,
            Refusal::MarkedWritten => 15,
        }
    }

    /// Who is in the way, as a whole number. Only 11 and 14 tell it; kind and
    /// word of all others are 0.
    pub fn in_the_way(self) -> Option<Value> {
        match self {
            Refusal::ReadHeld { holder } => Some(Value::Whole(holder.into())),
            Refusal::HeldByAnother { cell, holder } => {
                Some(Value::Whole(i32::from(cell) * 256 + i32::from(holder)))
            }
            _ => None,
        }
    }
}

/// The answer to a call.
#[derive(Clone, Copy, Debug, PartialEq, Eq)]
pub enum Reply {
    /// Code 0, kind 0, word 0.
    Done,
    /// Code 0 with a kind and a word.
    Answer(Value),
    /// A code other than 0 and 13; nothing was changed.
    Refused(Refusal),
    /// Code 13: the transaction ended without commit.
    Ended,
}

impl Reply {
    /// The code, 0 to 15.
    pub fn code(self) -> u8 {
        match self {
            Reply::Done | Reply::Answer(_) => 0,
            Reply::Refused(refusal) => refusal.code(),
            Reply::Ended => 13,
        }
    }

    /// What the reply tells beside its code.
    pub fn value(self) -> Option<Value> {
        match self {
            Reply::Done | Reply::Ended => None,
            Reply::Answer(value) => Some(value),
            Reply::Refused(refusal) => refusal.in_the_way(),
        }
    }

    /// The kind, 0 if there is none.
    pub fn kind(self) -> u8 {
        self.value().map_or(0, |value| value.kind().number())
    }

    /// The word, 0 if there is none.
    pub fn word(self) -> u32 {
        self.value().map_or(0, Value::word)
    }

    /// The reply as one number: code × 2^40 + kind × 2^32 + word.
    pub fn number(self) -> u64 {
        (u64::from(self.code()) << 40) + (u64::from(self.kind()) << 32) + u64::from(self.word())
    }

    /// Whether the call was refused, so that nothing was changed.
    pub fn is_refused(self) -> bool {
        matches!(self, Reply::Refused(_))
    }
}
