//! E1 to E12, each as the document says it.

use oracle::Value;

use crate::bench::{refused, whole, Bench, DONE, FALSE, TRUE};

#[test]
fn e1_step_0_on_slot_9() {
    let mut bench = Bench::of_the_edges();
    assert_eq!(bench.make("step 0 9 0 0 0"), refused(2));
}

#[test]
fn e2_begin_on_slots_9_and_8() {
    let mut bench = Bench::of_the_edges();
    assert_eq!(bench.make("begin 9"), refused(3));
    assert_eq!(bench.make("begin 8"), DONE);
}

#[test]
fn e3_begin_twice() {
    let mut bench = Bench::of_the_edges();
    assert_eq!(bench.make("begin 1"), DONE);
    assert_eq!(bench.make("begin 1"), refused(4));
}

#[test]
fn e4_read_of_cell_2() {
    let mut bench = Bench::of_the_edges();
    bench.make_all(&["begin 1"]);
    assert_eq!(bench.make("read 1 2"), refused(5));
}

#[test]
fn e5_write_of_an_illegal_word() {
    let mut bench = Bench::of_the_edges();
    bench.make_all(&["begin 1"]);
    assert_eq!(bench.make("write 1 1 raw 1 2"), refused(6));
}

#[test]
fn e6_write_of_another_kind() {
    let mut bench = Bench::of_the_edges();
    bench.make_all(&["begin 1"]);
    assert_eq!(bench.make("write 1 1 raw 2 0"), refused(7));
}

#[test]
fn e7_the_largest_real_and_infinity() {
    let mut bench = Bench::fresh(&[Value::Real(0.0)]);
    bench.make_all(&["begin 1"]);
    assert_eq!(bench.make("write 1 0 raw 3 0x7f7fffff"), DONE);
    assert_eq!(bench.make("read 1 0"), (0, 3, 0x7f7f_ffff));
    assert_eq!(bench.make("write 1 0 raw 3 0x7f800000"), refused(6));
    assert_eq!(bench.make("read 1 0"), (0, 3, 0x7f7f_ffff));
}

#[test]
fn e8_the_17th_read() {
    let mut bench = Bench::of_wholes(17);
    bench.make_all(&["begin 1"]);
    for cell in 0..16 {
        assert_eq!(bench.make(&format!("read 1 {cell}")), whole(cell));
    }
    assert_eq!(bench.make("read 1 16"), refused(9));
    assert_eq!(bench.make("read 1 0"), whole(0));
}

#[test]
fn e9_the_clock_at_its_end() {
    let mut bench = Bench::of_the_edges().at_clock(u64::MAX - 1);
    bench.make_all(&["begin 1", "close 1", "begin 2", "close 2"]);
    assert_eq!(bench.make("enter 1"), TRUE);
    assert_eq!(bench.machine.clock(), u64::MAX);
    assert_eq!(bench.make("enter 2"), refused(12));
    assert_eq!(bench.machine.clock(), u64::MAX);
}

#[test]
fn e10_a_transaction_with_empty_logs() {
    let mut bench = Bench::of_the_edges();
    let cells = bench.machine.cells().to_vec();
    assert_eq!(bench.make("begin 1"), DONE);
    assert_eq!(bench.make("close 1"), DONE);
    assert_eq!(bench.make("enter 1"), TRUE);
    assert_eq!(bench.make("finish 1"), DONE);
    assert_eq!(bench.machine.slot(1), None);
    assert!(bench.machine.at_rest());
    assert_eq!(bench.machine.clock(), 1);
    assert_eq!(bench.machine.cells(), cells);
}

#[test]
fn e11_a_cell_that_another_slot_holds() {
    let mut bench = Bench::of_the_edges();
    bench.make_all(&["begin 1", "write 1 0 whole 6", "close 1", "lock 1", "begin 2"]);
    assert_eq!(bench.machine.holder(0), 1);
    assert_eq!(bench.make("read 2 0"), (14, 2, 1));
    assert_eq!(bench.make("write 2 0 whole 7"), DONE);
    assert_eq!(bench.make("close 2"), DONE);
    assert_eq!(bench.make("lock 2"), (11, 2, 1));
}

#[test]
fn e12_ones_own_hold_is_no_conflict() {
    let mut bench = Bench::of_the_edges();
    bench.make_all(&["begin 1", "read 1 0", "write 1 0 whole 6", "close 1", "lock 1"]);
    assert_eq!(bench.machine.holder(0), 1);
    assert_eq!(bench.make("enter 1"), TRUE);
    assert_eq!(bench.make("ask 1 0"), FALSE);
}
