//! The wear task of request #101: each row of the table of its codes, and
//! each sentence of the request.

mod ignoring;
mod meetings;
mod order;
mod picks;
mod sets;

use oracle::{wear_in_place, wear_on_bytes, Machine, Value};

use crate::bench::Bench;
use crate::peek;

const LAST_COUNT: i32 = 0x7fff_ffff;

/// Place, code, kind and word.
type Answer = (u64, u64, u64, u64);

fn picked(group: u64) -> Answer {
    (0, 0, 2, group)
}

fn code(code: u64) -> Answer {
    code_at(0, code)
}

fn code_at(place: u64, code: u64) -> Answer {
    (place, code, 0, 0)
}

/// The cell at this place is held by slot 2.
fn held_at(place: u64) -> Answer {
    (place, 14, 2, 2)
}

/// Group g has its truth cell at 2 × g and its erases cell behind it.
fn cells_of(groups: &[(bool, i32)]) -> Vec<Value> {
    let cells =
        groups.iter().map(|(usable, erases)| [Value::Truth(*usable), Value::Whole(*erases)]);
    cells.flatten().collect()
}

/// These groups, and slot 1 open with empty logs.
fn begun(groups: &[(bool, i32)]) -> Bench {
    let mut bench = Bench::fresh(&cells_of(groups));
    bench.make_all(&["begin 1"]);
    bench
}

/// The first cells in order: the set of so many groups.
fn set_of(groups: u8) -> Vec<u8> {
    (0..2 * groups).collect()
}

/// Makes the operation, the one in place likewise, and takes the answer apart.
fn wear(bench: &mut Bench, set: &[u8], slot: u8) -> Answer {
    let mut in_place = bench.bytes.clone();
    let number = wear_on_bytes(&mut bench.bytes, set, slot);
    assert_eq!(wear_in_place(&mut in_place, set, slot), number, "in place, {set:?}");
    assert_eq!(in_place, bench.bytes, "in place, {set:?}");
    assert!(peek::well_formed(&bench.bytes), "{set:?}");
    bench.machine = Machine::unpack(&bench.bytes).expect("a well-formed area");
    (number >> 48, number >> 40 & 0xff, number >> 32 & 0xff, number & 0xffff_ffff)
}

/// Cells and words of a slot's read log.
fn reads(bench: &Bench, slot: u8) -> Vec<(u8, u32)> {
    let own = bench.machine.slot(slot).expect("a transaction");
    own.reads.iter().map(|read| (read.cell, read.value.word())).collect()
}

fn writes(bench: &Bench, slot: u8) -> Vec<(u8, u32)> {
    let own = bench.machine.slot(slot).expect("a transaction");
    own.writes.iter().map(|write| (write.cell, write.value.word())).collect()
}

/// It is refused, and no byte is changed.
fn refuses(bench: &Bench, set: &[u8], slot: u8, wanted: u64) {
    let mut after = bench.clone();
    assert_eq!(wear(&mut after, set, slot), code(wanted), "{set:?}, slot {slot}");
    assert_eq!(after.bytes, bench.bytes, "{set:?}, slot {slot}");
}
