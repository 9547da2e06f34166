//! Request #102: who is in the way. Of every call that is made here the bench
//! sees to it that a refusal changes no byte and that all but 11 and 14 have
//! kind and word 0.

use std::ops::Range;

use oracle::{step_in_place, Refusal, Reply, Value};

use crate::bench::{held_by_another, read_held, refused, whole, Bench, DONE, FALSE, TRUE};

/// The slot is in twilight, having read these cells in this order.
fn entered_with(bench: &mut Bench, slot: u8, cells: &[u8]) {
    bench.make_all(&[&format!("begin {slot}")]);
    for cell in cells {
        bench.make_all(&[&format!("read {slot} {cell}")]);
    }
    bench.make_all(&[&format!("close {slot}")]);
    assert_eq!(bench.make(&format!("enter {slot}")), TRUE);
}

/// Each slot with each of these numbers.
fn slots_with(numbers: Range<u8>) -> impl Iterator<Item = (u8, u8)> {
    (1..=8).flat_map(move |slot| numbers.clone().map(move |number| (slot, number)))
}

#[test]
fn all_refusals_but_two_are_bare() {
    use Refusal::*;
    let bare = [
        (NotWellFormed, 1),
        (NoSuchStep, 2),
        (NoSuchSlot, 3),
        (NotAllowed, 4),
        (NoSuchCell, 5),
        (IllegalValue, 6),
        (OtherKind, 7),
        (NotInLog, 8),
        (LogFull, 9),
        (ReadNewer, 10),
        (ClockAtEnd, 12),
        (MarkedWritten, 15),
    ];
    for (refusal, code) in bare {
        assert_eq!(Reply::Refused(refusal).number(), code << 40, "{refusal:?}");
    }
    // The two codes that are no refusals.
    assert_eq!(Reply::Ended.number(), 13 << 40);
    assert_eq!(Reply::Answer(Value::Whole(14)).number(), (2 << 32) + 14);
}

#[test]
fn kinds_and_words_of_the_two() {
    for (holder, cell) in slots_with(0..64) {
        let number = (14 << 40) + (2 << 32) + u64::from(holder);
        assert_eq!(Reply::Refused(Refusal::ReadHeld { holder }).number(), number);
        let number = (11 << 40) + (2 << 32) + u64::from(cell) * 256 + u64::from(holder);
        assert_eq!(Reply::Refused(Refusal::HeldByAnother { cell, holder }).number(), number);
    }
}

/// Each slot in the way of each other one, at any cell, for the three steps.
#[test]
fn holder_and_cell_are_told_by_their_numbers() {
    for (holder, other) in slots_with(1..9).filter(|(holder, other)| other != holder) {
        let cell = holder * 7 + other - 1;
        read_and_lock_tell_of_it(holder, other, cell);
        reload_tells_of_it(holder, other, cell);
    }
}

fn read_and_lock_tell_of_it(holder: u8, other: u8, cell: u8) {
    let mut bench = Bench::of_wholes(64);
    bench.hold(holder, &[cell]);
    bench.make_all(&[&format!("begin {other}")]);
    assert_eq!(bench.make(&format!("read {other} {cell}")), read_held(holder));
    bench.make_all(&[&format!("write {other} {cell} whole 5"), &format!("close {other}")]);
    assert_eq!(bench.make(&format!("lock {other}")), held_by_another(cell, holder));
}

fn reload_tells_of_it(holder: u8, other: u8, cell: u8) {
    let mut bench = Bench::of_wholes(64);
    entered_with(&mut bench, other, &[cell]);
    bench.hold(holder, &[cell]);
    assert_eq!(bench.make(&format!("reload {other}")), held_by_another(cell, holder));
}

#[test]
fn a_cell_that_is_held_and_newer_is_told_as_held() {
    let mut bench = Bench::of_wholes(2);
    bench.make_all(&["begin 1"]);
    bench.renew(2, 0);
    assert_eq!(bench.make("read 1 0"), refused(10));
    bench.hold(3, &[0]);
    assert_eq!(bench.make("read 1 0"), read_held(3));
    bench.make_all(&["give up 3"]);
    assert_eq!(bench.make("read 1 0"), refused(10));
}

/// Held means wait: it ends in a value if the holder gives up, or if its stamp
/// is not above start, else in 10. Newer means give up: it stays.
#[test]
fn what_waiting_leads_to() {
    let mut bench = Bench::of_wholes(1);
    bench.hold(2, &[0]);
    bench.make_all(&["begin 1"]);
    assert_eq!(bench.make("read 1 0"), read_held(2));
    let mut given_up = bench.clone();
    given_up.make_all(&["give up 2"]);
    assert_eq!(given_up.make("read 1 0"), whole(0));

    bench.make_all(&["enter 2", "update 2 0 whole 9", "begin 3"]);
    assert_eq!(bench.make("read 3 0"), read_held(2));
    bench.make_all(&["finish 2"]);
    assert_eq!(bench.make("read 1 0"), read_held(2));
    bench.make_all(&["publish 2"]);
    assert_eq!(bench.make("read 3 0"), whole(9));
    for _ in 0..3 {
        assert_eq!(bench.make("read 1 0"), refused(10));
    }
    bench.make_all(&["give up 1", "begin 1"]);
    assert_eq!(bench.make("read 1 0"), whole(9));
}

/// Held and newer too, with room in the log and without, then newer alone.
#[test]
fn a_full_log_is_told_before_held_and_before_newer() {
    let mut bench = Bench::of_wholes(17);
    bench.make_all(&["begin 1"]);
    bench.renew(2, 0);
    bench.hold(2, &[0]);
    for cell in 1..=16 {
        assert_eq!(bench.make("read 1 0"), read_held(2));
        bench.make_all(&[&format!("read 1 {cell}")]);
    }
    assert_eq!(bench.make("read 1 0"), refused(9));
    bench.make_all(&["give up 2"]);
    assert_eq!(bench.make("read 1 0"), refused(9));
}

#[test]
fn a_cell_in_a_log_is_read_from_there_whoever_holds_it() {
    let mut bench = Bench::of_wholes(2);
    bench.make_all(&["begin 1", "read 1 0"]);
    bench.hold(2, &[0, 1]);
    assert_eq!(bench.make("read 1 0"), whole(0));
    bench.make_all(&["write 1 1 whole 5"]);
    assert_eq!(bench.make("read 1 1"), whole(5));
}

#[test]
fn codes_below_9_come_before_held() {
    let mut bench = Bench::of_wholes(2);
    bench.hold(2, &[0]);
    assert_eq!(bench.make("read 1 0"), refused(4));
    assert_eq!(bench.make("read 9 0"), refused(3));
    bench.make_all(&["begin 1"]);
    assert_eq!(bench.make("read 1 2"), refused(5));
    assert_eq!(bench.make("read 1 0"), read_held(2));
}

#[test]
fn lock_tells_of_the_cell_that_comes_next() {
    let mut bench = Bench::of_wholes(6);
    bench.hold(3, &[2]);
    bench.hold(4, &[4, 5]);
    bench.make_all(&["begin 1", "write 1 5 whole 5", "write 1 2 whole 5", "write 1 1 whole 5"]);
    bench.make_all(&["write 1 4 whole 5", "close 1", "lock 1"]);
    assert_eq!(bench.make("lock 1"), held_by_another(2, 3));
    bench.make_all(&["give up 3", "lock 1"]);
    assert_eq!(bench.make("lock 1"), held_by_another(4, 4));
    assert_eq!(bench.make("lock 1"), held_by_another(4, 4));
    bench.make_all(&["enter 4", "finish 4", "publish 4", "lock 1"]);
    assert_eq!(bench.make("lock 1"), held_by_another(5, 4));
    bench.make_all(&["publish 4", "lock 1"]);
    assert_eq!(bench.make("enter 1"), TRUE);
}

/// Neither the lowest, the highest nor the last of them, nor the one that was
/// taken first, nor that of the lowest slot.
#[test]
fn reload_tells_of_the_first_held_cell_in_read_log_order() {
    let mut bench = Bench::of_wholes(8);
    entered_with(&mut bench, 1, &[6, 3, 0, 7, 1, 5]);
    bench.hold(2, &[1, 5]);
    bench.hold(5, &[0]);
    bench.hold(4, &[3, 4]);
    bench.hold(3, &[7]);
    assert_eq!(bench.make("reload 1"), held_by_another(3, 4));
    bench.make_all(&["give up 4"]);
    assert_eq!(bench.make("reload 1"), held_by_another(0, 5));
    bench.make_all(&["give up 5"]);
    assert_eq!(bench.make("reload 1"), held_by_another(7, 3));
    bench.make_all(&["give up 3"]);
    assert_eq!(bench.make("reload 1"), held_by_another(1, 2));
    bench.make_all(&["enter 2", "update 2 5 whole 9", "finish 2", "publish 2"]);
    assert_eq!(bench.make("reload 1"), held_by_another(5, 2));
    bench.make_all(&["publish 2"]);
    assert_eq!(bench.make("reload 1"), DONE);
    assert_eq!(bench.make("reread 1 5"), whole(9));
}

/// What the caller itself holds is in nobody's way, wherever it stands.
#[test]
fn reload_passes_over_the_cells_that_it_holds_itself() {
    let mut bench = Bench::of_wholes(4);
    bench.make_all(&["begin 1", "read 1 2", "read 1 3", "read 1 1", "write 1 2 whole 5"]);
    bench.make_all(&["close 1", "lock 1"]);
    assert_eq!(bench.make("enter 1"), TRUE);
    bench.hold(7, &[1, 3]);
    assert_eq!(bench.make("reload 1"), held_by_another(3, 7));
    bench.make_all(&["give up 7"]);
    assert_eq!(bench.make("reload 1"), DONE);
}

/// Marks don't matter to it: a held cell that was marked at enter is told
/// after one that was not, if it was read later.
#[test]
fn reload_looks_at_holders_and_not_at_marks() {
    let mut bench = Bench::of_wholes(3);
    bench.make_all(&["begin 1", "read 1 2", "read 1 0", "close 1"]);
    bench.hold(2, &[0]);
    assert_eq!(bench.make("enter 1"), FALSE);
    assert_eq!(bench.make("ask 1 2"), FALSE);
    assert_eq!(bench.make("reload 1"), held_by_another(0, 2));
    bench.hold(3, &[2]);
    assert_eq!(bench.make("reload 1"), held_by_another(2, 3));
}

/// The step in place tells the same, also where two causes meet.
#[test]
fn in_place_it_is_the_same() {
    let mut bench = Bench::of_wholes(3);
    bench.make_all(&["begin 1"]);
    bench.renew(2, 1);
    let number = |bench: &Bench| step_in_place(&mut bench.bytes.clone(), 2, 1, 1, 0, 0);
    assert_eq!(number(&bench), 10 << 40);
    bench.hold(6, &[1]);
    assert_eq!(number(&bench), (14 << 40) + (2 << 32) + 6);

    let mut bench = Bench::of_wholes(3);
    entered_with(&mut bench, 1, &[2, 0]);
    bench.hold(5, &[0]);
    bench.hold(6, &[2]);
    let number = step_in_place(&mut bench.bytes.clone(), 10, 1, 0, 0, 0);
    assert_eq!(number, (11 << 40) + (2 << 32) + 2 * 256 + 6);
}
