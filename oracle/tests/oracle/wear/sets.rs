//! Good and bad sets, and the slots and phases that are refused.

use oracle::Value;

use super::{begun, cells_of, code_at, held_at, picked};
use super::{reads, refuses, set_of, wear, writes};
use crate::bench::Bench;

/// Cells 0 to 17 are nine groups, 18 is a real.
fn nine_groups_and_a_real() -> Bench {
    let mut cells = cells_of(&[(true, 6); 9]);
    cells.push(Value::Real(1.5));
    let mut bench = Bench::fresh(&cells);
    bench.make_all(&["begin 1"]);
    bench
}

/// The place is that of the cell in the set, whatever the cell's own number.
#[test]
fn a_set_may_name_its_cells_in_any_order() {
    let groups = [(true, 5), (true, 3), (true, 4)];
    let mut bench = begun(&groups);
    assert_eq!(wear(&mut bench, &[4, 1, 0, 5], 1), picked(1));
    assert_eq!(reads(&bench, 1), [(4, 1), (1, 5), (0, 1), (5, 4)]);
    assert_eq!(writes(&bench, 1), [(5, 5)]);

    let mut bench = begun(&groups);
    bench.hold(2, &[0]);
    assert_eq!(wear(&mut bench, &[4, 1, 0, 5], 1), held_at(2));

    let mut bench = begun(&[(true, 5), (true, -3)]);
    assert_eq!(wear(&mut bench, &[2, 1, 0, 3], 1), code_at(3, 33));
}

#[test]
fn a_bad_set_is_refused() {
    let bench = nine_groups_and_a_real();
    let sets: [(&str, &[u8]); 19] = [
        ("no group", &[]),
        ("half a group", &[0]),
        ("a group and a half", &[0, 1, 2]),
        ("seven groups and a half", &[0, 1, 2, 3, 4, 5, 6, 7, 8, 9, 10, 11, 12, 13, 14]),
        ("eight and a half", &[0, 1, 2, 3, 4, 5, 6, 7, 8, 9, 10, 11, 12, 13, 14, 15, 16]),
        ("nine", &[0, 1, 2, 3, 4, 5, 6, 7, 8, 9, 10, 11, 12, 13, 14, 15, 16, 17]),
        ("first cell not below n", &[19, 1]),
        ("second cell not below n", &[0, 19]),
        ("cell 64", &[0, 1, 64, 3]),
        ("cell 255", &[0, 1, 2, 255]),
        ("truth cell twice", &[0, 1, 0, 3]),
        ("erases cell twice", &[0, 1, 2, 1]),
        ("twice, with a group between", &[0, 1, 2, 3, 0, 5]),
        ("a group twice", &[0, 1, 2, 3, 0, 1]),
        ("one cell for both", &[0, 0]),
        ("a whole number where a truth value should be", &[1, 3]),
        ("a truth value where a whole number should be", &[0, 2]),
        ("a real where a truth value should be", &[0, 1, 18, 3]),
        ("a real where a whole number should be", &[0, 1, 2, 18]),
    ];
    for (why, set) in sets {
        println!("{why}");
        refuses(&bench, set, 1, 32);
    }
    refuses(&bench, &[1, 0], 1, 32);
    // As long as a good set in the last byte of its length.
    refuses(&bench, &[&set_of(1)[..]; 129].concat(), 1, 32);
}

#[test]
fn each_reason_of_a_bad_set_is_told() {
    let no_byte = "no byte";
    let odd = "an odd number of bytes";
    let long = "more than 16 bytes";
    let not_below_n = "a cell not below n";
    let twice = "a cell twice";
    let kind = "a cell of the wrong kind";
    let sets: [(&[u8], &[&str]); 13] = [
        (&[], &[no_byte]),
        (&[0, 1, 2], &[odd]),
        (&set_of(9), &[long]),
        (&set_of(9)[..17], &[odd, long]),
        (&[0, 19], &[not_below_n]),
        (&[0, 255, 2], &[odd, not_below_n]),
        (&[19, 1, 19, 3], &[not_below_n, twice]),
        (&[0, 1, 0, 3], &[twice]),
        (&[0, 0], &[twice, kind]),
        (&[1, 3], &[kind]),
        (&[0, 18], &[kind]),
        (&[0, 1], &[]),
        (&set_of(8), &[]),
    ];
    let machine = nine_groups_and_a_real().machine;
    for (set, reasons) in sets {
        assert_eq!(machine.wear_set_faults(set), reasons, "{set:?}");
        assert_eq!(machine.is_wear_set(set), reasons.is_empty(), "{set:?}");
    }
}

#[test]
fn eight_groups_are_a_good_set_and_so_is_one() {
    let bench = nine_groups_and_a_real();
    assert_eq!(wear(&mut bench.clone(), &set_of(8), 1), picked(0));
    assert_eq!(wear(&mut bench.clone(), &[16, 17], 1), picked(0));
}

/// Cell n - 1 is below n, for the greatest n there is.
#[test]
fn the_last_of_64_cells_can_be_in_a_set() {
    let mut bench = begun(&[(true, 6); 32]);
    assert_eq!(wear(&mut bench, &[60, 61, 62, 63], 1), picked(0));
    let bench = begun(&[(true, 6); 32]);
    refuses(&bench, &[60, 61, 64, 63], 1, 32);
    refuses(&bench, &[60, 61, 62, 65], 1, 32);
}

#[test]
fn a_slot_outside_1_to_8_is_refused() {
    let mut bench = begun(&[(true, 6)]);
    for slot in [0, 9, 10, 128, 255] {
        refuses(&bench, &[0, 1], slot, 3);
    }
    bench.make_all(&["begin 8"]);
    assert_eq!(wear(&mut bench, &[0, 1], 8), picked(0));
}

#[test]
fn a_transaction_that_is_not_open_with_empty_logs_is_refused() {
    let states: [&[&str]; 8] = [
        &["give up 1"],
        &["read 1 2"],
        &["write 1 2 truth 0"],
        &["read 1 0", "write 1 1 whole 9"],
        &["close 1"],
        &["write 1 2 truth 0", "close 1", "lock 1"],
        &["close 1", "enter 1"],
        &["write 1 2 truth 0", "close 1", "lock 1", "enter 1", "finish 1"],
    ];
    for state in states {
        let mut bench = begun(&[(true, 6), (true, 7)]);
        bench.make_all(state);
        println!("{state:?}");
        refuses(&bench, &[0, 1], 1, 4);
    }
}
