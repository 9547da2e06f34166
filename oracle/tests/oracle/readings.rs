//! What two readers of the document might take differently, the slips that
//! look right, and each row of the table of steps.

use oracle::{Phase, Value};

use crate::bench::{held_by_another, read_held, refused, whole, Bench, DONE, FALSE, TRUE};

/// Slot 1 in twilight with cell 0 read and marked: slot 2 has published 9.
/// Slot 1 writes cell 1.
fn marked() -> Bench {
    let mut bench = Bench::of_wholes(3);
    bench.make_all(&["begin 1", "read 1 0", "write 1 1 whole 8"]);
    publish_by_slot_2(&mut bench, "write 2 0 whole 9");
    bench.make_all(&["close 1", "lock 1"]);
    assert_eq!(bench.make("enter 1"), FALSE);
    assert_eq!(bench.make("ask 1 0"), TRUE);
    bench
}

fn publish_by_slot_2(bench: &mut Bench, write: &str) {
    bench.make_all(&["begin 2", write, "close 2", "lock 2", "enter 2", "finish 2", "publish 2"]);
    assert_eq!(bench.machine.slot(2), None);
}

#[test]
fn begin_starts_at_the_clock_with_empty_logs() {
    let mut bench = Bench::of_wholes(1).at_clock(41);
    assert_eq!(bench.make("begin 3"), DONE);
    let own = bench.machine.slot(3).expect("a transaction");
    assert_eq!((own.start, own.phase), (41, Phase::Open));
    assert!(own.reads.is_empty() && own.writes.is_empty());
}

#[test]
fn the_numbers_just_outside_are_refused() {
    let mut bench = Bench::of_wholes(64);
    assert_eq!(bench.make("begin 0"), refused(3));
    assert_eq!(bench.make("step 15 1 0 0 0"), refused(2));
    assert_eq!(bench.make("step 0 0 0 0 0"), refused(2));
    bench.make_all(&["begin 1", "read 1 63"]);
    assert_eq!(bench.make("read 1 64"), refused(5));
    assert_eq!(bench.make("write 1 0 raw 0 0"), refused(6));
    assert_eq!(bench.make("write 1 0 raw 4 0"), refused(6));
}

#[test]
fn read_prefers_the_write_log_then_the_read_log() {
    let mut bench = Bench::of_wholes(2);
    bench.make_all(&["begin 1", "write 1 0 whole 70"]);
    assert_eq!(bench.make("read 1 0"), whole(70));
    assert!(bench.machine.slot(1).expect("open").reads.is_empty());
    assert_eq!(bench.make("read 1 1"), whole(1));
    publish_by_slot_2(&mut bench, "write 2 1 whole 90");
    assert_eq!(bench.make("read 1 1"), whole(1));
    bench.make_all(&["write 1 1 whole 71"]);
    assert_eq!(bench.make("read 1 1"), whole(71));
}

#[test]
fn a_newer_cell_is_not_readable_and_the_transaction_stays_open() {
    let mut bench = Bench::of_wholes(2);
    bench.make_all(&["begin 1"]);
    publish_by_slot_2(&mut bench, "write 2 0 whole 9");
    assert_eq!(bench.make("read 1 0"), refused(10));
    assert_eq!(bench.make("read 1 1"), whole(1));
    bench.make_all(&["begin 3"]);
    assert_eq!(bench.make("read 3 0"), whole(9));
}

#[test]
fn a_held_cell_is_not_readable_whatever_its_holders_phase() {
    let phases: [&[&str]; 3] = [&[], &["enter 2"], &["enter 2", "finish 2"]];
    for more in phases {
        let mut bench = Bench::of_wholes(1);
        bench.hold(2, &[0]);
        bench.make_all(more);
        // Begun after the holder's stamp: the cell's own stamp is low.
        bench.make_all(&["begin 1"]);
        assert_eq!(bench.make("read 1 0"), read_held(2), "{more:?}");
    }
}

#[test]
fn a_held_cell_marks_whatever_its_holders_phase() {
    let phases: [&[&str]; 3] = [&[], &["enter 2"], &["enter 2", "finish 2"]];
    for more in phases {
        let mut bench = Bench::of_wholes(2);
        bench.make_all(&["begin 1", "read 1 1", "read 1 0"]);
        bench.hold(2, &[0]);
        bench.make_all(more);
        bench.make_all(&["close 1"]);
        assert_eq!(bench.make("enter 1"), FALSE, "{more:?}");
        assert_eq!(bench.make("ask 1 0"), TRUE, "{more:?}");
        assert_eq!(bench.make("ask 1 1"), FALSE, "{more:?}");
    }
}

#[test]
fn marks_are_set_at_enter_not_at_close() {
    let mut bench = Bench::of_wholes(2);
    bench.make_all(&["begin 1", "read 1 0", "close 1"]);
    publish_by_slot_2(&mut bench, "write 2 0 whole 9");
    assert_eq!(bench.make("enter 1"), FALSE);
}

#[test]
fn write_replaces_and_keeps_the_log_ascending() {
    let mut bench = Bench::of_wholes(3);
    bench.make_all(&["begin 1", "write 1 2 whole 20", "write 1 0 whole 21", "write 1 2 whole 22"]);
    let own = bench.machine.slot(1).expect("open");
    let writes: Vec<_> = own.writes.iter().map(|write| (write.cell, write.value)).collect();
    assert_eq!(writes, [(0, Value::Whole(21)), (2, Value::Whole(22))]);
}

#[test]
fn the_17th_write_is_refused_but_a_replacement_is_not() {
    let mut bench = Bench::of_wholes(17);
    bench.make_all(&["begin 1"]);
    for cell in 0..16 {
        assert_eq!(bench.make(&format!("write 1 {cell} whole 5")), DONE);
    }
    assert_eq!(bench.make("write 1 16 whole 5"), refused(9));
    assert_eq!(bench.make("write 1 3 whole 6"), DONE);
    // A cell in the write log needs no new entry in the read log.
    assert_eq!(bench.make("read 1 3"), whole(6));
}

#[test]
fn lock_takes_the_lowest_and_enter_waits_for_all() {
    let mut bench = Bench::of_wholes(3);
    bench.make_all(&["begin 1", "write 1 2 whole 5", "write 1 1 whole 6", "close 1"]);
    let holders = |bench: &Bench| [0, 1, 2].map(|cell| bench.machine.holder(cell));
    assert_eq!(holders(&bench), [0, 0, 0]);
    assert_eq!(bench.make("enter 1"), refused(4));
    assert_eq!(bench.make("lock 1"), DONE);
    assert_eq!(holders(&bench), [0, 1, 0]);
    assert_eq!(bench.make("enter 1"), refused(4));
    assert_eq!(bench.make("lock 1"), DONE);
    assert_eq!(holders(&bench), [0, 1, 1]);
    assert_eq!(bench.make("lock 1"), refused(4));
    assert_eq!(bench.make("enter 1"), TRUE);
}

#[test]
fn reread_answers_from_the_read_log_alone() {
    let mut bench = marked();
    assert_eq!(bench.make("reread 1 0"), whole(0));
    assert_eq!(bench.make("reread 1 1"), refused(8));
    assert_eq!(bench.make("ask 1 1"), refused(8));

    let mut bench = Bench::of_wholes(1);
    bench.make_all(&["begin 1", "read 1 0", "write 1 0 whole 70", "close 1", "lock 1", "enter 1"]);
    assert_eq!(bench.make("reread 1 0"), whole(0));
}

#[test]
fn update_replaces_in_the_write_log_only() {
    let mut bench = marked();
    assert_eq!(bench.make("update 1 1 whole 77"), DONE);
    assert_eq!(bench.make("update 1 0 whole 77"), refused(8));
    bench.make_all(&["reload 1", "finish 1", "publish 1"]);
    assert_eq!(bench.machine.cells()[1].value, Value::Whole(77));
}

#[test]
fn update_of_a_wrong_kind_is_told_before_the_missing_entry() {
    let mut bench = marked();
    assert_eq!(bench.make("update 1 0 truth 1"), refused(7));
    assert_eq!(bench.make("update 1 0 raw 1 2"), refused(6));
    assert_eq!(bench.make("update 1 3 raw 1 2"), refused(5));
}

#[test]
fn reload_takes_a_new_stamp_without_marks_and_without_reads() {
    let mut bench = Bench::of_wholes(1);
    bench.make_all(&["begin 1", "close 1", "enter 1"]);
    for stamp in 2..5 {
        assert_eq!(bench.make("reload 1"), DONE);
        let own = bench.machine.slot(1).expect("twilight");
        assert_eq!(own.commit().expect("entered").stamp, stamp);
        assert_eq!((own.start, bench.machine.clock()), (0, stamp));
    }
}

#[test]
fn reload_takes_all_shared_values_and_clears_marks_and_flag() {
    let mut bench = marked();
    bench.make_all(&["ignore 1"]);
    let ignoring = |bench: &Bench| {
        let own = bench.machine.slot(1).expect("twilight");
        own.commit().expect("entered").ignoring
    };
    assert!(ignoring(&bench));
    assert_eq!(bench.make("reload 1"), DONE);
    assert!(!ignoring(&bench));
    assert_eq!(bench.make("ask 1 0"), FALSE);
    assert_eq!(bench.make("reread 1 0"), whole(9));
    bench.make_all(&["finish 1", "publish 1"]);
    // Stamp 1 is slot 2's, 2 was given at enter, 3 at reload.
    let stamps: Vec<u64> = bench.machine.cells().iter().map(|cell| cell.stamp).collect();
    assert_eq!(stamps, [1, 3, 0]);
}

#[test]
fn reload_never_takes_its_own_written_value() {
    let mut bench = Bench::of_wholes(1);
    bench.make_all(&["begin 1", "read 1 0", "write 1 0 whole 70", "close 1", "lock 1", "enter 1"]);
    assert_eq!(bench.make("reload 1"), DONE);
    assert_eq!(bench.make("reread 1 0"), whole(0));
}

#[test]
fn reload_of_a_held_cell_is_told_before_the_end_of_the_clock() {
    let mut bench = Bench::of_wholes(1).at_clock(u64::MAX - 1);
    bench.make_all(&["begin 1", "read 1 0", "close 1", "enter 1"]);
    assert_eq!(bench.make("reload 1"), refused(12));
    bench.hold(2, &[0]);
    assert_eq!(bench.make("reload 1"), held_by_another(0, 2));
    bench.make_all(&["give up 2"]);
    assert_eq!(bench.make("reload 1"), refused(12));
}

#[test]
fn two_slots_that_hold_what_the_other_has_read() {
    let mut bench = Bench::of_wholes(2);
    bench.make_all(&["begin 1", "begin 2", "read 1 0", "read 2 1"]);
    bench.make_all(&["write 1 1 whole 5", "write 2 0 whole 6", "close 1", "close 2"]);
    bench.make_all(&["lock 1", "lock 2"]);
    assert_eq!(bench.make("enter 1"), FALSE);
    assert_eq!(bench.make("enter 2"), FALSE);
    for _ in 0..3 {
        assert_eq!(bench.make("reload 1"), held_by_another(0, 2));
        assert_eq!(bench.make("reload 2"), held_by_another(1, 1));
    }
    assert_eq!(bench.make("finish 2"), refused(13));
    assert_eq!(bench.make("reload 1"), DONE);
}

#[test]
fn ignore_without_a_mark_changes_nothing() {
    let mut bench = Bench::of_wholes(1);
    bench.make_all(&["begin 1", "read 1 0", "close 1", "enter 1"]);
    let before = bench.bytes.clone();
    assert_eq!(bench.make("ignore 1"), DONE);
    assert_eq!(bench.bytes, before);
}

#[test]
fn finish_with_a_mark_ends_without_commit_and_frees() {
    let mut bench = marked();
    let cells = bench.machine.cells().to_vec();
    assert_eq!(bench.machine.holder(1), 1);
    assert_eq!(bench.make("finish 1"), refused(13));
    assert!(bench.machine.at_rest());
    assert_eq!(bench.machine.holder(1), 0);
    assert_eq!(bench.machine.cells(), cells);
}

#[test]
fn finish_commits_with_a_mark_that_is_ignored() {
    let mut bench = marked();
    assert_eq!(bench.make("ignore 1"), DONE);
    assert_eq!(bench.make("ask 1 0"), TRUE);
    assert_eq!(bench.make("finish 1"), DONE);
    let peek = bench.peek();
    assert_eq!((peek.phase(1), peek.flag(1), peek.marks(1)), (4, 1, vec![1]));
    assert_eq!(bench.make("publish 1"), DONE);
    assert_eq!(bench.machine.cells()[1].value, Value::Whole(8));
}

#[test]
fn publish_frees_one_cell_at_a_time() {
    let mut bench = Bench::of_wholes(3);
    bench.make_all(&["begin 4", "write 4 2 whole 72", "write 4 0 whole 70", "close 4"]);
    bench.make_all(&["lock 4", "lock 4", "enter 4", "finish 4"]);
    let cell = |bench: &Bench, number: u8| {
        let cell = bench.machine.cells()[usize::from(number)];
        (cell.value, cell.stamp, bench.machine.holder(number))
    };
    assert_eq!(bench.make("give up 4"), refused(4));
    assert_eq!(bench.make("publish 4"), DONE);
    assert_eq!(cell(&bench, 0), (Value::Whole(70), 1, 0));
    assert_eq!(cell(&bench, 2), (Value::Whole(2), 0, 4));
    assert_eq!(bench.make("give up 4"), refused(4));
    assert_eq!(bench.make("publish 4"), DONE);
    assert_eq!(cell(&bench, 2), (Value::Whole(72), 1, 0));
    assert!(bench.machine.at_rest());
    assert_eq!(bench.make("publish 4"), refused(4));
}

#[test]
fn give_up_frees_in_each_phase_where_it_is_allowed() {
    let lines = ["begin 1", "write 1 0 whole 5", "close 1", "lock 1", "enter 1"];
    for count in 1..=lines.len() {
        let mut bench = Bench::of_wholes(1);
        bench.make_all(&lines[..count]);
        assert_eq!(bench.make("give up 1"), DONE, "{count}");
        assert!(bench.machine.at_rest(), "{count}");
        assert_eq!(bench.machine.holder(0), 0, "{count}");
        assert_eq!(bench.machine.cells()[0].value, Value::Whole(0), "{count}");
        assert_eq!(bench.make("give up 1"), refused(4), "{count}");
    }
}

#[test]
fn both_zeros_are_kept_apart() {
    let mut bench = Bench::fresh(&[Value::Real(-0.0)]);
    bench.make_all(&["begin 1"]);
    assert_eq!(bench.make("read 1 0"), (0, 3, 0x8000_0000));
    bench.make_all(&["write 1 0 real 0.0"]);
    assert_eq!(bench.make("read 1 0"), (0, 3, 0));
    assert_ne!(Value::Real(0.0), Value::Real(-0.0));
}
