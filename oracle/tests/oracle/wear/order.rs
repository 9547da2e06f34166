//! The order in which the refusals are told.

use oracle::{wear_in_place, wear_on_bytes};

use super::{begun, code, code_at, held_at, reads, refuses, wear, LAST_COUNT};
use crate::bench::Bench;

/// Slot 1 of an area with every later fault: cell 0 is held and is in the set,
/// the count in cell 1 is negative, and no group is left.
fn all_faults() -> Bench {
    let mut bench = begun(&[(false, -1), (true, LAST_COUNT)]);
    bench.hold(2, &[0]);
    bench
}

#[test]
fn an_area_that_is_not_well_formed_is_told_before_all_else() {
    let good = all_faults().bytes;
    let faults: [fn(&mut Vec<u8>); 4] = [
        |area| area[0] = 2,
        |area| area.push(0),
        |area| area.truncate(9),
        |area| *area.last_mut().expect("a byte") = 1,
    ];
    let (whole_set, bad_set): (&[u8], &[u8]) = (&[0, 1, 2, 3], &[1]);
    for fault in faults {
        let mut area = good.clone();
        fault(&mut area);
        let before = area.clone();
        for (set, slot) in
            [(whole_set, 1), (bad_set, 1), (whole_set, 9), (whole_set, 2), (bad_set, 0)]
        {
            assert_eq!(wear_on_bytes(&mut area, set, slot), 1 << 40);
            assert_eq!(wear_in_place(&mut area, set, slot), 1 << 40);
            assert_eq!(area, before);
        }
    }
}

#[test]
fn a_bad_set_is_told_before_all_but_that() {
    let bench = all_faults();
    // The slot does not exist, is idle, is locking, or would meet the rest.
    for slot in [0, 9, 255, 3, 2, 1] {
        refuses(&bench, &[0, 1, 2], slot, 32);
        refuses(&bench, &[0, 1, 2, 4], slot, 32);
    }
}

#[test]
fn the_slot_and_then_its_state_are_told_before_the_reads() {
    let bench = all_faults();
    for slot in [0, 9, 255] {
        refuses(&bench, &[0, 1, 2, 3], slot, 3);
    }
    for slot in [2, 3] {
        refuses(&bench, &[0, 1, 2, 3], slot, 4);
    }
    let mut bench = bench;
    bench.make_all(&["read 1 3"]);
    refuses(&bench, &[0, 1, 2, 3], 1, 4);
}

/// A core code comes before a negative count that was read before it, and a
/// negative count before none left.
#[test]
fn then_core_codes_then_a_negative_count_then_none_left() {
    let mut bench = all_faults();
    assert_eq!(wear(&mut bench, &[0, 1, 2, 3], 1), held_at(0));
    assert_eq!(reads(&bench, 1), []);

    let mut bench = begun(&[(false, -1), (true, LAST_COUNT)]);
    bench.hold(2, &[3]);
    assert_eq!(wear(&mut bench, &[0, 1, 2, 3], 1), held_at(3));
    assert_eq!(reads(&bench, 1), [(0, 0), (1, 0xffff_ffff), (2, 1)]);

    bench.make_all(&["give up 2", "give up 1", "begin 1"]);
    assert_eq!(wear(&mut bench, &[0, 1, 2, 3], 1), code_at(1, 33));
    bench.make_all(&["give up 1", "begin 1"]);
    assert_eq!(wear(&mut bench, &[2, 3], 1), code(34));
}
