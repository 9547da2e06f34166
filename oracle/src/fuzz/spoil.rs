//! Bytes that are no well-formed area, or only just one.

use crate::area::area_length;
use crate::inplace::view::*;
use crate::machine::{CELLS_AT_MOST, SLOTS};
use crate::random::Random;
use crate::record::{cells_in, CELL_LENGTH, HEADER_LENGTH, SLOT_LENGTH};

/// Lengths next to those that an area can have, and much greater ones whose
/// low bytes look right.
const EDGE_LENGTHS: [usize; 14] =
    [0, 1, 5, 6, 13, 14, 1590, 1603, 1604, 2486, 2487, 2500, 256 * 7 + 1604, 65536 + 1604];

impl Random {
    /// Changes one to three bytes of an area, and sometimes the holders so that
    /// they agree with the slots again: a fault of a slot would else be found by
    /// the holders, too.
    pub(super) fn damage(&mut self, area: &mut [u8]) {
        let mut place = self.telling_place(area);
        for _ in 0..self.between(1, 3) {
            area[place] = self.other_byte(area, place);
            // The next one close by or anywhere.
            place = match self.up_to(2) {
                0 => (place + self.between(1, 6) as usize).min(area.len() - 1),
                _ => self.telling_place(area),
            };
        }
        if self.one_in(3) {
            mend_holders(area);
        }
    }

    /// Most of an area is unused entries, so other places are chosen more
    /// often than their share.
    fn telling_place(&mut self, area: &[u8]) -> usize {
        let n = cells_in(area.len());
        let slot_at = HEADER_LENGTH + CELL_LENGTH * n + SLOT_LENGTH * self.place(SLOTS);
        let number = slot_at + self.place(START);
        let stamp = slot_at + START + self.place(READS - START);
        let last_of_stamp = slot_at + self.pick(&[COMMIT_STAMP, READS]).unwrap_or(READS) - 1;
        let read = slot_at + READS + self.place(3 * size_of::<ReadBytes>());
        let write = slot_at + WRITES + self.place(3 * size_of::<WriteBytes>());
        let header = self.place(HEADER_LENGTH);
        let cell = HEADER_LENGTH + self.place(CELL_LENGTH * n);
        let any = self.place(area.len());
        let places = [number, number, stamp, last_of_stamp, read, write, header, cell, any];
        self.pick(&places).unwrap_or(any)
    }

    fn other_byte(&mut self, area: &[u8], place: usize) -> u8 {
        let byte = area[place];
        let flipped = byte ^ (1 << self.up_to(7));
        let near = byte.wrapping_add(1 + 254 * self.up_to(1) as u8);
        let small = self.up_to(17) as u8;
        // What another cell or slot has there is likely to make sense.
        let twin = area[self.twin(area, place)];
        self.pick(&[flipped, near, small, twin]).unwrap_or(flipped)
    }

    /// The same place in any cell or in any slot.
    fn twin(&mut self, area: &[u8], place: usize) -> usize {
        let n = cells_in(area.len());
        let slots_at = HEADER_LENGTH + CELL_LENGTH * n;
        if let Some(in_slots) = place.checked_sub(slots_at) {
            return slots_at + SLOT_LENGTH * self.place(SLOTS) + in_slots % SLOT_LENGTH;
        }
        let in_cells = place.saturating_sub(HEADER_LENGTH);
        HEADER_LENGTH + CELL_LENGTH * self.place(n) + in_cells % CELL_LENGTH
    }

    /// Bytes of any length, also none.
    pub(super) fn junk(&mut self) -> Vec<u8> {
        let edge = self.pick(&EDGE_LENGTHS).unwrap_or(0);
        let any = self.up_to(3000) as usize;
        let length = self.pick(&[edge, any]).unwrap_or(0);
        let mut bytes = vec![0; length];
        if self.one_in(2) {
            bytes.fill_with(|| self.byte());
        }
        if self.one_in(2) {
            put_header(&mut bytes, cells_in(length) as u8);
        }
        bytes
    }

    /// An area lent with some bytes too many or too few.
    pub(super) fn cut_or_longer(&mut self, area: &[u8]) -> Vec<u8> {
        let change = self.pick(&[1, CELL_LENGTH, SLOT_LENGTH, 256, 65536]).unwrap_or(1);
        let length = match area.len().checked_sub(change) {
            Some(shorter) if self.one_in(2) => shorter,
            _ => area.len() + change,
        };
        let mut bytes = area.to_vec();
        bytes.resize(length, 0);
        bytes
    }

    /// An area at rest that has no fault but its number of cells.
    pub(super) fn too_few_or_many_cells(&mut self) -> Vec<u8> {
        let n = self.pick(&[0, CELLS_AT_MOST + 1, 128, 255]).unwrap_or(0);
        let mut bytes = vec![0; area_length(n)];
        put_header(&mut bytes, n as u8);
        for cell in bytes[HEADER_LENGTH..].chunks_mut(CELL_LENGTH).take(n) {
            cell[0] = 2;
        }
        bytes
    }
}

/// Each slot holds the cells that its numbers say, be they right or not.
fn mend_holders(area: &mut [u8]) {
    let n = cells_in(area.len());
    let (front, slots) = area.split_at_mut(HEADER_LENGTH + CELL_LENGTH * n);
    let cells: &mut [CellBytes] = front[HEADER_LENGTH..].as_chunks_mut().0;
    cells.iter_mut().for_each(|cell| cell[HOLDER] = 0);
    for (number, slot) in (1..).zip(slots.as_chunks().0) {
        for cell in claimed(slot) {
            cells.get_mut(usize::from(cell)).into_iter().for_each(|cell| cell[HOLDER] = number);
        }
    }
}

fn claimed(slot: &SlotBytes) -> impl Iterator<Item = u8> + '_ {
    let (taken, count) = (usize::from(slot[TAKEN]), usize::from(slot[WRITE_COUNT]));
    let (first, end) = match slot[PHASE] {
        2 => (0, taken),
        3 => (0, count),
        4 => (taken, count),
        _ => (0, 0),
    };
    write_entries(slot).iter().take(end).skip(first).map(|write| write[0])
}

/// Version 1, the length that these bytes have, and n cells.
fn put_header(bytes: &mut [u8], n: u8) {
    let [_, _, _, _, a, b, c, d] = (bytes.len() as u64).to_be_bytes();
    for (byte, right) in bytes.iter_mut().zip([1, a, b, c, d, n]) {
        *byte = right;
    }
}
