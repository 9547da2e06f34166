//! The three functions of the proved libraries, declared, and wrapped so that
//! the rest of the package needs no `unsafe`.

use oracle::fuzz::Library;
use oracle::Call;

mod declared {
    unsafe extern "C" {
        pub fn crocktendril_step(
            area: *mut u8,
            area_len: usize,
            step: u8,
            slot: u8,
            cell: u8,
            kind: u8,
            word: u32,
        ) -> u64;

        pub fn crocktendril_lay_out(
            area: *mut u8,
            area_len: usize,
            descriptions: *const u8,
            descriptions_len: usize,
        ) -> u64;

        pub fn crocktendril_wear(
            area: *mut u8,
            area_len: usize,
            set: *const u8,
            set_len: usize,
            slot: u8,
        ) -> u64;
    }
}

/// All functions.
pub const LIBRARY: Library = Library { step, lay_out, wear };

/// Makes one step on a lent area.
pub fn step(area: &mut [u8], call: Call) -> u64 {
    let Call { step, slot, cell, kind, word } = call;
    // SAFETY: pointer and length are those of bytes that only the function may
    // use while it runs. It asks nothing of them and nothing of the numbers.
    unsafe {
        let (area, length) = (area.as_mut_ptr(), area.len());
        declared::crocktendril_step(area, length, step, slot, cell, kind, word)
    }
}

/// Lays out a fresh area from descriptions.
pub fn lay_out(area: &mut [u8], descriptions: &[u8]) -> u64 {
    // SAFETY: as above; the descriptions are only read, and lie elsewhere.
    unsafe {
        let (area, length) = (area.as_mut_ptr(), area.len());
        declared::crocktendril_lay_out(area, length, descriptions.as_ptr(), descriptions.len())
    }
}

/// Levels on a lent area, with a wear set and in a slot.
pub fn wear(area: &mut [u8], set: &[u8], slot: u8) -> u64 {
    // SAFETY: as above; the set is only read, and lies elsewhere.
    unsafe {
        let (area, length) = (area.as_mut_ptr(), area.len());
        declared::crocktendril_wear(area, length, set.as_ptr(), set.len(), slot)
    }
}
