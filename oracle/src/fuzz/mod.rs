//! Random calls at a library with the three functions, each compared with this
//! library: the reply, every byte of the area, and guard bytes around it.
//!
//! The calls come in rounds. A round follows from the seed and its own number
//! alone, so that a failure is repeated by repeating one round.

mod failure;
mod flagged;
mod guarded;
mod levelling;
mod rounds;
mod searching;
mod sets;
mod spoil;
mod tally;
mod wear_tally;

pub use failure::Failure;
pub use tally::Tally;

use crate::call::Call;
use crate::random::Random;
use rounds::{Round, Sort};

/// The three functions that are compared.
#[derive(Clone, Copy)]
pub struct Library {
    /// Makes one step on a lent area.
    pub step: fn(&mut [u8], Call) -> u64,
    /// Lays out a fresh area from descriptions.
    pub lay_out: fn(&mut [u8], &[u8]) -> u64,
    /// Levels on a lent area, with a wear set and in a slot.
    pub wear: fn(&mut [u8], &[u8], u8) -> u64,
}

/// Makes rounds until there were this many calls. Before each round it shows
/// the round's number and what there was so far.
pub fn fuzz(
    library: Library,
    seed: u64,
    calls: u64,
    show: &mut dyn FnMut(u64, &Tally),
) -> Result<Tally, Failure> {
    let mut tally = Tally::default();
    for number in 0.. {
        show(number, &tally);
        if tally.calls() >= calls {
            break;
        }
        one_round(library, seed, number, &mut tally)?;
    }
    Ok(tally)
}

/// Makes the round with this number.
pub fn one_round(
    library: Library,
    seed: u64,
    number: u64,
    tally: &mut Tally,
) -> Result<(), Failure> {
    let calls_before = tally.calls();
    let sort = Sort::of(number);
    let mut round = Round { library, random: Random::of_part(seed, number), tally };
    round.make(sort).map_err(|report| Failure {
        seed,
        round: number,
        sort: sort.name(),
        calls_before: tally.calls() - calls_before,
        report,
    })
}
