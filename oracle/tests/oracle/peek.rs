//! A second look at an area, straight at its bytes by the places that the
//! document gives, and a second check of what is well formed and of which
//! code comes first. Nothing here uses the library's own reading of bytes.

use oracle::Call;

pub struct Peek<'a>(pub &'a [u8]);

impl Peek<'_> {
    pub fn number(&self, at: usize, length: usize) -> u64 {
        let bytes = self.0[at..at + length].iter();
        bytes.fold(0, |number, byte| number << 8 | u64::from(*byte))
    }

    pub fn n(&self) -> usize {
        usize::from(self.0[5])
    }

    pub fn clock(&self) -> u64 {
        self.number(6, 8)
    }

    pub fn cell_at(&self, cell: usize) -> usize {
        14 + 14 * cell
    }

    pub fn kind(&self, cell: usize) -> u8 {
        self.0[self.cell_at(cell)]
    }

    pub fn holder(&self, cell: usize) -> u8 {
        self.0[self.cell_at(cell) + 1]
    }

    pub fn word(&self, cell: usize) -> u32 {
        self.number(self.cell_at(cell) + 2, 4) as u32
    }

    pub fn stamp(&self, cell: usize) -> u64 {
        self.number(self.cell_at(cell) + 6, 8)
    }

    pub fn slot_at(&self, slot: u8) -> usize {
        14 + 14 * self.n() + 197 * (usize::from(slot) - 1)
    }

    fn slot_byte(&self, slot: u8, place: usize) -> u8 {
        self.0[self.slot_at(slot) + place]
    }

    pub fn phase(&self, slot: u8) -> u8 {
        self.slot_byte(slot, 0)
    }

    pub fn flag(&self, slot: u8) -> u8 {
        self.slot_byte(slot, 1)
    }

    pub fn taken(&self, slot: u8) -> usize {
        usize::from(self.slot_byte(slot, 2))
    }

    pub fn reads(&self, slot: u8) -> usize {
        usize::from(self.slot_byte(slot, 3))
    }

    pub fn writes(&self, slot: u8) -> usize {
        usize::from(self.slot_byte(slot, 4))
    }

    pub fn start(&self, slot: u8) -> u64 {
        self.number(self.slot_at(slot) + 5, 8)
    }

    pub fn commit(&self, slot: u8) -> u64 {
        self.number(self.slot_at(slot) + 13, 8)
    }

    pub fn read_at(&self, slot: u8, entry: usize) -> usize {
        self.slot_at(slot) + 21 + 6 * entry
    }

    pub fn write_at(&self, slot: u8, entry: usize) -> usize {
        self.slot_at(slot) + 21 + 6 * 16 + 5 * entry
    }

    pub fn read_cells(&self, slot: u8) -> Vec<usize> {
        let entries = 0..self.reads(slot).min(16);
        entries.map(|entry| usize::from(self.0[self.read_at(slot, entry)])).collect()
    }

    pub fn write_cells(&self, slot: u8) -> Vec<usize> {
        let entries = 0..self.writes(slot).min(16);
        entries.map(|entry| usize::from(self.0[self.write_at(slot, entry)])).collect()
    }

    pub fn marks(&self, slot: u8) -> Vec<u8> {
        let entries = 0..self.reads(slot).min(16);
        entries.map(|entry| self.0[self.read_at(slot, entry) + 1]).collect()
    }

    /// The cells of the marked entries, in the order of the read log.
    pub fn marked_cells(&self, slot: u8) -> Vec<usize> {
        let entries = self.read_cells(slot).into_iter().zip(self.marks(slot));
        entries.filter(|(_, mark)| *mark == 1).map(|(cell, _)| cell).collect()
    }

    /// Those of them that are in the write log, too.
    pub fn marked_and_written(&self, slot: u8) -> Vec<usize> {
        let mut cells = self.marked_cells(slot);
        cells.retain(|cell| self.write_cells(slot).contains(cell));
        cells
    }

    fn all_zero(&self, from: usize, to: usize) -> bool {
        self.0[from..to].iter().all(|byte| *byte == 0)
    }

    fn held_by_another(&self, cell: usize, slot: u8) -> bool {
        ![0, slot].contains(&self.holder(cell))
    }

    fn is_newer(&self, cell: usize, slot: u8) -> bool {
        self.stamp(cell) > self.start(slot)
    }
}

pub fn legal(kind: u8, word: u32) -> bool {
    match kind {
        1 => word < 2,
        2 => true,
        3 => word & 0x7f80_0000 != 0x7f80_0000,
        _ => false,
    }
}

pub fn well_formed(bytes: &[u8]) -> bool {
    let peek = Peek(bytes);
    if bytes.len() < 1604 || bytes.len() > 2486 || bytes.len() != 1590 + 14 * peek.n() {
        return false;
    }
    let header = bytes[0] == 1 && peek.number(1, 4) == bytes.len() as u64;
    header
        && (0..peek.n()).all(|cell| cell_is_good(&peek, cell))
        && (1..=8).all(|slot| slot_is_good(&peek, slot))
        && holders_are_good(&peek)
}

fn cell_is_good(peek: &Peek, cell: usize) -> bool {
    legal(peek.kind(cell), peek.word(cell)) && peek.stamp(cell) <= peek.clock()
}

fn slot_is_good(peek: &Peek, slot: u8) -> bool {
    let (taken, writes, commit) = (peek.taken(slot), peek.writes(slot), peek.commit(slot));
    let marks = peek.marks(slot);
    let some_mark = marks.contains(&1);
    let flag = peek.flag(slot);
    let entered = commit > peek.start(slot)
        && commit <= peek.clock()
        && (1..=8).all(|other| other == slot || peek.commit(other) != commit)
        && flag <= u8::from(some_mark)
        && (flag == 0 || peek.marked_and_written(slot).is_empty())
        && marks.iter().all(|mark| *mark <= 1);
    let not_entered = commit == 0 && flag == 0 && marks.iter().all(|mark| *mark == 0);
    let by_phase = match peek.phase(slot) {
        0 => peek.all_zero(peek.slot_at(slot), peek.slot_at(slot) + 197),
        1 => not_entered && taken == 0,
        2 => not_entered && taken <= writes,
        3 => entered && taken == 0,
        4 => entered && taken < writes && flag == u8::from(some_mark),
        _ => false,
    };
    by_phase && peek.start(slot) <= peek.clock() && logs_are_good(peek, slot)
}

fn logs_are_good(peek: &Peek, slot: u8) -> bool {
    let (reads, writes) = (peek.reads(slot), peek.writes(slot));
    if reads > 16 || writes > 16 {
        return false;
    }
    let word_is_good = |cell: usize, at: usize| {
        cell < peek.n() && legal(peek.kind(cell), peek.number(at, 4) as u32)
    };
    let (read_cells, write_cells) = (peek.read_cells(slot), peek.write_cells(slot));
    let read_words = (0..reads).all(|e| word_is_good(read_cells[e], peek.read_at(slot, e) + 2));
    let write_words = (0..writes).all(|e| word_is_good(write_cells[e], peek.write_at(slot, e) + 1));
    let distinct = (0..reads).all(|e| !read_cells[..e].contains(&read_cells[e]));
    read_words
        && write_words
        && distinct
        && (1..writes).all(|e| write_cells[e - 1] < write_cells[e])
        && peek.all_zero(peek.read_at(slot, reads), peek.read_at(slot, 16))
        && peek.all_zero(peek.write_at(slot, writes), peek.write_at(slot, 16))
}

/// Works out all holders from the slots and then compares.
fn holders_are_good(peek: &Peek) -> bool {
    let mut holders = vec![0; peek.n()];
    for slot in 1..=8 {
        let held = match peek.phase(slot) {
            2 => 0..peek.taken(slot),
            3 => 0..peek.writes(slot),
            4 => peek.taken(slot)..peek.writes(slot),
            _ => 0..0,
        };
        for cell in &peek.write_cells(slot)[held] {
            if holders[*cell] != 0 {
                return false;
            }
            holders[*cell] = slot;
        }
    }
    (0..peek.n()).all(|cell| peek.holder(cell) == holders[cell])
}

/// The codes of refusals in the order in which they are tested: 15 comes after
/// 4, and 14 is at the place of 10 and before it.
const TESTED: [u8; 13] = [2, 3, 4, 15, 5, 6, 7, 8, 9, 14, 10, 11, 12];

/// The code of a call on a well-formed area: the first that applies, 13 if
/// the transaction ends without commit, else 0.
pub fn code_of(peek: &Peek, call: Call) -> u8 {
    let refusal = TESTED.into_iter().find(|code| applies(peek, *code, call));
    refusal.unwrap_or_else(|| if ends_without_commit(peek, call) { 13 } else { 0 })
}

/// Kind and word of a refusal with this code: 0 for all but 11 and 14.
pub fn told(peek: &Peek, code: u8, call: Call) -> (u8, u32) {
    let holder = |cell: usize| u32::from(peek.holder(cell));
    match code {
        14 => (2, holder(call.cell.into())),
        11 => {
            let cell = held_in_the_way(peek, call).expect("a held cell");
            (2, cell as u32 * 256 + holder(cell))
        }
        _ => (0, 0),
    }
}

/// The cell that keeps a lock or a reload from being done. A reload looks at
/// the cells in the order of the read log.
fn held_in_the_way(peek: &Peek, call: Call) -> Option<usize> {
    let slot = call.slot;
    let cells = match call.step {
        5 => vec![peek.write_cells(slot)[peek.taken(slot)]],
        10 => peek.read_cells(slot),
        _ => vec![],
    };
    cells.into_iter().find(|cell| peek.held_by_another(*cell, slot))
}

fn ends_without_commit(peek: &Peek, call: Call) -> bool {
    call.step == 12 && peek.marks(call.slot).contains(&1) && peek.flag(call.slot) == 0
}

/// The table of codes, row by row. A row is asked only if no row before it
/// applies.
fn applies(peek: &Peek, code: u8, call: Call) -> bool {
    let (step, slot, cell) = (call.step, call.slot, usize::from(call.cell));
    let brings_value = [3, 8].contains(&step);
    match code {
        2 => step == 0 || step > 14,
        3 => slot == 0 || slot > 8,
        4 => !allowed(peek, step, slot),
        15 => step == 11 && !peek.marked_and_written(slot).is_empty(),
        5 => [2, 3, 7, 8, 9].contains(&step) && cell >= peek.n(),
        6 => brings_value && !legal(call.kind, call.word),
        7 => brings_value && call.kind != peek.kind(cell),
        8 => match step {
            7 | 9 => !peek.read_cells(slot).contains(&cell),
            8 => !peek.write_cells(slot).contains(&cell),
            _ => false,
        },
        9 => match step {
            2 => reads_shared(peek, slot, cell) && peek.reads(slot) == 16,
            3 => !peek.write_cells(slot).contains(&cell) && peek.writes(slot) == 16,
            _ => false,
        },
        14 => step == 2 && reads_shared(peek, slot, cell) && peek.held_by_another(cell, slot),
        10 => step == 2 && reads_shared(peek, slot, cell) && peek.is_newer(cell, slot),
        11 => held_in_the_way(peek, call).is_some(),
        12 => [6, 10].contains(&step) && peek.clock() == u64::MAX,
        _ => false,
    }
}

fn allowed(peek: &Peek, step: u8, slot: u8) -> bool {
    let missing = peek.taken(slot) < peek.writes(slot);
    match peek.phase(slot) {
        0 => step == 1,
        1 => [2, 3, 4, 14].contains(&step),
        2 => step == 14 || step == if missing { 5 } else { 6 },
        3 => (7..=12).contains(&step) || step == 14,
        _ => step == 13,
    }
}

fn reads_shared(peek: &Peek, slot: u8, cell: usize) -> bool {
    !peek.write_cells(slot).contains(&cell) && !peek.read_cells(slot).contains(&cell)
}

pub fn conflicts(peek: &Peek, slot: u8, cell: usize) -> bool {
    peek.held_by_another(cell, slot) || peek.is_newer(cell, slot)
}
