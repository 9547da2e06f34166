//! Where each field of a lent area stands.

use crate::machine::{CELLS_AT_MOST, SLOTS};
use crate::record::length_for;

pub type CellBytes = [u8; 14];
pub type SlotBytes = [u8; 197];
pub type ReadBytes = [u8; 6];
pub type WriteBytes = [u8; 5];

/// Places in a cell.
pub const KIND: usize = 0;
pub const HOLDER: usize = 1;
pub const CELL_WORD: usize = 2;
pub const CELL_STAMP: usize = 6;

/// Places in a slot.
pub const PHASE: usize = 0;
pub const IGNORING: usize = 1;
pub const TAKEN: usize = 2;
pub const READ_COUNT: usize = 3;
pub const WRITE_COUNT: usize = 4;
pub const START: usize = 5;
pub const COMMIT_STAMP: usize = 13;
pub const READS: usize = 21;
pub const WRITES: usize = 117;

/// Places in an entry of a log, which begins with its cell.
pub const MARK: usize = 1;
pub const READ_WORD: usize = 2;
pub const WRITE_WORD: usize = 1;

/// A lent area, taken apart once so that no place in it is worked out twice.
pub struct Area<'a> {
    pub clock: &'a mut [u8; 8],
    pub cells: &'a mut [CellBytes],
    pub slots: &'a mut [SlotBytes; SLOTS],
}

impl<'a> Area<'a> {
    /// None unless version, number of cells and the three lengths are right.
    pub fn lent(bytes: &'a mut [u8]) -> Option<Area<'a>> {
        let length = bytes.len();
        let (header, rest) = bytes.split_first_chunk_mut::<6>()?;
        let n = usize::from(header[5]);
        let lengths_agree = length == length_for(n) && u32_at(header, 1) as usize == length;
        if header[0] != 1 || !lengths_agree || !(1..=CELLS_AT_MOST).contains(&n) {
            return None;
        }
        let (clock, rest) = rest.split_first_chunk_mut()?;
        let (cells, slots) = rest.split_at_mut_checked(n * size_of::<CellBytes>())?;
        let (cells, _) = cells.as_chunks_mut();
        let (slots, _) = slots.as_chunks_mut();
        Some(Area { clock, cells, slots: slots.try_into().ok()? })
    }
}

/// The read log with its unused entries.
pub fn read_entries(slot: &SlotBytes) -> &[ReadBytes] {
    slot[READS..WRITES].as_chunks().0
}

/// The write log with its unused entries.
pub fn write_entries(slot: &SlotBytes) -> &[WriteBytes] {
    slot[WRITES..].as_chunks().0
}

pub fn read_entries_mut(slot: &mut SlotBytes) -> &mut [ReadBytes] {
    slot[READS..WRITES].as_chunks_mut().0
}

pub fn write_entries_mut(slot: &mut SlotBytes) -> &mut [WriteBytes] {
    slot[WRITES..].as_chunks_mut().0
}

pub fn u32_at(bytes: &[u8], at: usize) -> u32 {
    let mut number = [0; 4];
    number.copy_from_slice(&bytes[at..at + 4]);
    u32::from_be_bytes(number)
}

pub fn u64_at(bytes: &[u8], at: usize) -> u64 {
    let mut number = [0; 8];
    number.copy_from_slice(&bytes[at..at + 8]);
    u64::from_be_bytes(number)
}

pub fn put_u32(bytes: &mut [u8], at: usize, number: u32) {
    bytes[at..at + 4].copy_from_slice(&number.to_be_bytes());
}

pub fn put_u64(bytes: &mut [u8], at: usize, number: u64) {
    bytes[at..at + 8].copy_from_slice(&number.to_be_bytes());
}

pub fn legal(kind: u8, word: u32) -> bool {
    match kind {
        1 => word <= 1,
        2 => true,
        3 => f32::from_bits(word).is_finite(),
        _ => false,
    }
}
