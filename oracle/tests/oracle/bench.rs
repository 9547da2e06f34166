//! A machine and an area side by side. Every call is made on both, they must
//! agree, and what holds of every call is checked of every call.

use oracle::{describe, lay_out_on_bytes, step_on_bytes, text, Call, Machine, Value};

use crate::peek::{self, Peek};

/// Code, kind and word.
pub type Answer = (u8, u8, u32);

pub const DONE: Answer = (0, 0, 0);
pub const TRUE: Answer = (0, 1, 1);
pub const FALSE: Answer = (0, 1, 0);

pub fn whole(number: i32) -> Answer {
    (0, 2, number as u32)
}

pub fn refused(code: u8) -> Answer {
    (code, 0, 0)
}

/// A read of a cell that this slot holds.
pub fn read_held(holder: u8) -> Answer {
    (14, 2, holder.into())
}

/// A lock or a reload that needs this cell, held by this slot.
pub fn held_by_another(cell: u8, holder: u8) -> Answer {
    (11, 2, u32::from(cell) * 256 + u32::from(holder))
}

#[derive(Clone)]
pub struct Bench {
    pub machine: Machine,
    pub bytes: Vec<u8>,
}

impl Bench {
    /// A fresh area with these cells.
    pub fn fresh(cells: &[Value]) -> Bench {
        let descriptions = describe(cells);
        let mut bytes = vec![0xee; 1590 + 14 * cells.len()];
        assert_eq!(lay_out_on_bytes(&mut bytes, &descriptions), 0);
        let bench = Bench::of(bytes);
        assert_eq!(Some(&bench.machine), Machine::fresh(cells).as_ref());
        bench
    }

    /// The fresh area of the edges: cells (2, 5), (1, 0).
    pub fn of_the_edges() -> Bench {
        Bench::fresh(&[Value::Whole(5), Value::Truth(false)])
    }

    /// So many cells, all whole, cell c with value c.
    pub fn of_wholes(count: i32) -> Bench {
        let cells: Vec<Value> = (0..count).map(Value::Whole).collect();
        Bench::fresh(&cells)
    }

    pub fn of(bytes: Vec<u8>) -> Bench {
        let machine = Machine::unpack(&bytes).expect("a well-formed area");
        Bench { machine, bytes }
    }

    /// The same area with another clock.
    pub fn at_clock(mut self, clock: u64) -> Bench {
        self.bytes[6..14].copy_from_slice(&clock.to_be_bytes());
        Bench::of(self.bytes)
    }

    pub fn peek(&self) -> Peek<'_> {
        Peek(&self.bytes)
    }

    /// Makes the step that a line of the text form says.
    pub fn make(&mut self, line: &str) -> Answer {
        let sheet = text::assemble(format!("cell whole 0\n{line}").as_bytes());
        self.call(sheet.expect("a line of the text form").calls()[0])
    }

    /// Makes steps that are all answered with code 0.
    pub fn make_all(&mut self, lines: &[&str]) {
        for line in lines {
            assert_eq!(self.make(line).0, 0, "{line}");
        }
    }

    /// The slot takes the cells, in ascending order, and keeps them. It is to
    /// write their own values.
    pub fn hold(&mut self, slot: u8, cells: &[u8]) {
        let value = |cell: &u8| self.machine.cells()[usize::from(*cell)].value;
        let write = |cell: &u8| {
            let (kind, word) = (value(cell).kind().number(), value(cell).word());
            format!("write {slot} {cell} raw {kind} {word}")
        };
        let mut lines = vec![format!("begin {slot}")];
        lines.extend(cells.iter().map(write));
        lines.push(format!("close {slot}"));
        lines.extend(cells.iter().map(|_| format!("lock {slot}")));
        lines.iter().for_each(|line| self.make_all(&[line]));
        assert!(cells.iter().all(|cell| self.machine.holder(*cell) == slot), "{slot}: {cells:?}");
    }

    /// The slot publishes the cell's own value, so that its stamp is newer.
    pub fn renew(&mut self, slot: u8, cell: u8) {
        self.hold(slot, &[cell]);
        let rest = ["enter", "finish", "publish"].map(|step| format!("{step} {slot}"));
        rest.iter().for_each(|line| self.make_all(&[line]));
    }

    pub fn call(&mut self, call: Call) -> Answer {
        let before = self.clone();
        let reply = self.machine.step(call);
        let Call { step, slot, cell, kind, word } = call;
        let number = step_on_bytes(&mut self.bytes, step, slot, cell, kind, word);
        assert_eq!(number, reply.number(), "{call:?}");
        assert_eq!(self.machine.pack(), self.bytes, "{call:?}");
        assert!(peek::well_formed(&self.bytes), "{call:?}");
        let answer = ((number >> 40) as u8, (number >> 32) as u8, number as u32);
        assert_eq!(answer.0, peek::code_of(&before.peek(), call), "{call:?}");
        if ![0, 13].contains(&answer.0) {
            let told = peek::told(&before.peek(), answer.0, call);
            assert_eq!((answer.1, answer.2), told, "{call:?}");
            assert_eq!(before.bytes, self.bytes, "{call:?}");
            assert_eq!(before.machine, self.machine, "{call:?}");
        }
        answer
    }
}
