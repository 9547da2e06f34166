//! Bytes to lend to a library, with guard bytes on both sides.

use std::hint::black_box;

use crate::random::Random;

const GUARD_LENGTH: usize = 64;

/// Both sides are random, so that a library that reads too far can't rely on
/// what it finds there, and the bytes lie at any alignment.
pub struct Guarded {
    all: Vec<u8>,
    before: Vec<u8>,
    from: usize,
    to: usize,
}

impl Guarded {
    pub fn new(bytes: &[u8], random: &mut Random) -> Guarded {
        let from = GUARD_LENGTH + random.up_to(15) as usize;
        let to = from + bytes.len();
        let mut all = vec![0; to + GUARD_LENGTH];
        let (front, back) = all.split_at_mut(from);
        back[..bytes.len()].copy_from_slice(bytes);
        for guard in [front, &mut back[bytes.len()..]] {
            guard.fill_with(|| random.byte());
        }
        Guarded { before: all.clone(), all, from, to }
    }

    pub fn lend(&mut self) -> &mut [u8] {
        &mut self.all[self.from..self.to]
    }

    pub fn bytes(&self) -> &[u8] {
        // What the library did to the rest of the allocation must be seen.
        &black_box(&self.all)[self.from..self.to]
    }

    /// The first guard byte that was changed, as a place in the bytes that
    /// were lent: below 0 or behind the last.
    pub fn changed_guard(&self) -> Option<isize> {
        let now = black_box(&self.all);
        let guards = (0..self.from).chain(self.to..now.len());
        let mut changed = guards.filter(|place| now[*place] != self.before[*place]);
        changed.next().map(|place| place as isize - self.from as isize)
    }
}
