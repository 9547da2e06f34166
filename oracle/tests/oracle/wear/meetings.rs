//! Tasks that meet: a read refused because of another task, and tasks that
//! level on one set.

use super::{begun, code_at, held_at, picked, reads, refuses, set_of, wear, writes, Answer};
use crate::bench::{refused, whole, Bench, DONE, FALSE, TRUE};

#[test]
fn a_read_of_a_held_cell_is_told_with_its_place() {
    for place in 0..16 {
        leaves_the_reads_before(place, |bench| bench.hold(2, &[place]), held_at(place.into()));
    }
}

#[test]
fn a_read_of_a_newer_cell_is_told_with_its_place() {
    for place in 0..16 {
        leaves_the_reads_before(place, |bench| bench.renew(2, place), code_at(place.into(), 10));
    }
}

/// The read at this place is refused, with this answer: those before it stay,
/// and nothing is written.
fn leaves_the_reads_before(place: u8, meet: impl Fn(&mut Bench), answer: Answer) {
    let mut bench = begun(&[(true, 6); 8]);
    meet(&mut bench);
    assert_eq!(wear(&mut bench, &set_of(8), 1), answer);
    let before = (0..place).map(|cell| (cell, if cell % 2 == 0 { 1 } else { 6 }));
    assert_eq!(reads(&bench, 1), before.collect::<Vec<(u8, u32)>>());
    assert_eq!(writes(&bench, 1), []);
}

#[test]
fn the_first_refused_read_is_told() {
    let mut bench = begun(&[(true, 6); 4]);
    bench.renew(2, 6);
    bench.hold(2, &[3]);
    assert_eq!(wear(&mut bench, &set_of(4), 1), held_at(3));
    assert_eq!(reads(&bench, 1).len(), 3);
    // The reads are in the log now, so the logs are not empty any more.
    refuses(&bench, &set_of(4), 1, 4);
}

#[test]
fn a_cell_that_is_held_and_newer_is_told_as_held() {
    let mut bench = begun(&[(true, 6); 4]);
    bench.renew(2, 5);
    bench.hold(2, &[5]);
    assert_eq!(wear(&mut bench, &set_of(4), 1), held_at(5));
    bench.make_all(&["give up 2", "give up 1"]);
    // The stamp is not above a later start.
    bench.make_all(&["begin 1"]);
    assert_eq!(wear(&mut bench, &set_of(4), 1), picked(0));
}

/// Whoever levels, whoever holds: the word is the holder and not the caller.
#[test]
fn the_holder_is_told_by_its_number() {
    for (holder, caller) in [(1, 8), (8, 1), (3, 5), (5, 3)] {
        let mut bench = Bench::fresh(&super::cells_of(&[(true, 6); 2]));
        bench.hold(holder, &[2]);
        bench.make_all(&[&format!("begin {caller}")]);
        assert_eq!(wear(&mut bench, &set_of(2), caller), (2, 14, 2, holder.into()));
    }
}

#[test]
fn a_cell_outside_the_set_is_in_nobodys_way() {
    let mut bench = begun(&[(true, 6); 4]);
    bench.hold(2, &[7]);
    assert_eq!(wear(&mut bench, &set_of(3), 1), picked(0));
}

/// Reads that were made do not count as conflicts with oneself, and what the
/// operation leaves is committed as any other transaction is.
#[test]
fn a_task_that_levels_commits_its_count() {
    let mut bench = begun(&[(true, 6), (true, 5)]);
    assert_eq!(wear(&mut bench, &set_of(2), 1), picked(1));
    bench.make_all(&["close 1", "lock 1"]);
    assert_eq!(bench.make("enter 1"), TRUE);
    bench.make_all(&["finish 1", "publish 1"]);
    let words: Vec<u32> = bench.machine.cells().iter().map(|cell| cell.value.word()).collect();
    assert_eq!(words, [1, 6, 1, 6]);
    // Now both have six, so the lowest number decides.
    bench.make_all(&["begin 1"]);
    assert_eq!(wear(&mut bench, &set_of(2), 1), picked(0));
}

/// Two tasks that level on one set: the later one is not to write the count
/// that it has read over the one that the other has published.
#[test]
fn of_two_tasks_that_pick_one_group_the_later_one_repeats() {
    let mut bench = begun(&[(true, 6)]);
    bench.make_all(&["begin 2"]);
    assert_eq!(wear(&mut bench, &[0, 1], 1), picked(0));
    assert_eq!(wear(&mut bench, &[0, 1], 2), picked(0));
    bench.make_all(&["close 1", "lock 1", "enter 1", "finish 1", "publish 1", "close 2", "lock 2"]);
    assert_eq!(bench.make("enter 2"), FALSE);
    assert_eq!(bench.make("finish 2"), refused(13));
    bench.make_all(&["begin 2"]);
    assert_eq!(wear(&mut bench, &[0, 1], 2), picked(0));
    assert_eq!(writes(&bench, 2), [(1, 8)]);
    bench.make_all(&["close 2", "lock 2", "enter 2", "finish 2"]);
    assert_eq!(bench.make("publish 2"), DONE);
    bench.make_all(&["begin 1"]);
    assert_eq!(bench.make("read 1 1"), whole(8));
}
