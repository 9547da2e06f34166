//! The packed area as plain numbers.
//!
//! A record says where each number stands and nothing about what is well
//! formed: any bytes of the right length have a record, and it gives the same
//! bytes back.

use crate::bytes::Reader;
use crate::machine::{Transaction, SLOTS};

pub(crate) const HEADER_LENGTH: usize = 14;
pub(crate) const CELL_LENGTH: usize = 14;
pub(crate) const SLOT_LENGTH: usize = 197;

/// The length of the area of n cells: 1,590 + 14 × n.
pub(crate) fn length_for(n: usize) -> usize {
    HEADER_LENGTH + CELL_LENGTH * n + SLOT_LENGTH * SLOTS
}

/// How many cells there is room for in an area of this length.
pub(crate) fn cells_in(length: usize) -> usize {
    length.saturating_sub(length_for(0)) / CELL_LENGTH
}

pub(crate) struct AreaRecord {
    pub version: u8,
    pub length: u32,
    pub n: u8,
    pub clock: u64,
    pub cells: Vec<CellRecord>,
    pub slots: [SlotRecord; SLOTS],
}

pub(crate) struct CellRecord {
    pub kind: u8,
    pub holder: u8,
    pub word: u32,
    pub stamp: u64,
}

#[derive(Clone, Copy, Default, PartialEq, Eq)]
pub(crate) struct SlotRecord {
    pub phase: u8,
    pub ignoring: u8,
    pub taken: u8,
    pub read_count: u8,
    pub write_count: u8,
    pub start: u64,
    pub commit_stamp: u64,
    pub reads: [ReadRecord; Transaction::LOG_ROOM],
    pub writes: [WriteRecord; Transaction::LOG_ROOM],
}

#[derive(Clone, Copy, Default, PartialEq, Eq)]
pub(crate) struct ReadRecord {
    pub cell: u8,
    pub mark: u8,
    pub word: u32,
}

#[derive(Clone, Copy, Default, PartialEq, Eq)]
pub(crate) struct WriteRecord {
    pub cell: u8,
    pub word: u32,
}

impl AreaRecord {
    /// None if the length is not the one that byte 5 asks for.
    pub fn decode(bytes: &[u8]) -> Option<AreaRecord> {
        let mut reader = Reader::new(bytes);
        let version = reader.u8()?;
        let length = reader.u32()?;
        let n = reader.u8()?;
        let record = AreaRecord {
            version,
            length,
            n,
            clock: reader.u64()?,
            cells: (0..n).map(|_| CellRecord::decode(&mut reader)).collect::<Option<_>>()?,
            slots: decode_each(&mut reader, SlotRecord::decode)?,
        };
        reader.is_at_end().then_some(record)
    }

    pub fn encode(&self) -> Vec<u8> {
        let mut out = Vec::with_capacity(length_for(self.cells.len()));
        out.push(self.version);
        out.extend(self.length.to_be_bytes());
        out.push(self.n);
        out.extend(self.clock.to_be_bytes());
        for cell in &self.cells {
            cell.encode(&mut out);
        }
        for slot in &self.slots {
            slot.encode(&mut out);
        }
        out
    }
}

impl CellRecord {
    fn decode(reader: &mut Reader) -> Option<CellRecord> {
        Some(CellRecord {
            kind: reader.u8()?,
            holder: reader.u8()?,
            word: reader.u32()?,
            stamp: reader.u64()?,
        })
    }

    fn encode(&self, out: &mut Vec<u8>) {
        out.extend([self.kind, self.holder]);
        out.extend(self.word.to_be_bytes());
        out.extend(self.stamp.to_be_bytes());
    }
}

impl SlotRecord {
    /// The entries of the read log that its count says are used.
    pub fn used_reads(&self) -> impl Iterator<Item = &ReadRecord> {
        self.reads.iter().take(usize::from(self.read_count))
    }

    /// The entries of the write log that its count says are used.
    pub fn used_writes(&self) -> impl Iterator<Item = &WriteRecord> {
        self.writes.iter().take(usize::from(self.write_count))
    }

    fn decode(reader: &mut Reader) -> Option<SlotRecord> {
        Some(SlotRecord {
            phase: reader.u8()?,
            ignoring: reader.u8()?,
            taken: reader.u8()?,
            read_count: reader.u8()?,
            write_count: reader.u8()?,
            start: reader.u64()?,
            commit_stamp: reader.u64()?,
            reads: decode_each(reader, ReadRecord::decode)?,
            writes: decode_each(reader, WriteRecord::decode)?,
        })
    }

    fn encode(&self, out: &mut Vec<u8>) {
        out.extend([self.phase, self.ignoring, self.taken]);
        out.extend([self.read_count, self.write_count]);
        out.extend(self.start.to_be_bytes());
        out.extend(self.commit_stamp.to_be_bytes());
        for read in &self.reads {
            out.extend([read.cell, read.mark]);
            out.extend(read.word.to_be_bytes());
        }
        for write in &self.writes {
            out.push(write.cell);
            out.extend(write.word.to_be_bytes());
        }
    }
}

impl ReadRecord {
    fn decode(reader: &mut Reader) -> Option<ReadRecord> {
        Some(ReadRecord { cell: reader.u8()?, mark: reader.u8()?, word: reader.u32()? })
    }
}

impl WriteRecord {
    fn decode(reader: &mut Reader) -> Option<WriteRecord> {
        Some(WriteRecord { cell: reader.u8()?, word: reader.u32()? })
    }
}

fn decode_each<T: Copy + Default, const N: usize>(
    reader: &mut Reader,
    decode: fn(&mut Reader) -> Option<T>,
) -> Option<[T; N]> {
    let mut all = [T::default(); N];
    for one in &mut all {
        *one = decode(reader)?;
    }
    Some(all)
}
