//! Which group is picked, what is left in the logs, and how the number tells
//! it.

use oracle::wear_on_bytes;

use super::{begun, code, code_at, picked, reads, set_of, wear, writes};
use super::{Answer, LAST_COUNT};
use crate::bench::Bench;

/// The answer with a set of all groups, in slot 1.
fn levelled(groups: &[(bool, i32)]) -> (Answer, Bench) {
    let mut bench = begun(groups);
    let answer = wear(&mut bench, &set_of(groups.len() as u8), 1);
    (answer, bench)
}

#[test]
fn the_usable_group_with_the_fewest_erases_is_picked() {
    let (answer, bench) = levelled(&[(true, 5), (true, 3), (true, 4)]);
    assert_eq!(answer, picked(1));
    assert_eq!(reads(&bench, 1), [(0, 1), (1, 5), (2, 1), (3, 3), (4, 1), (5, 4)]);
    assert_eq!(writes(&bench, 1), [(3, 4)]);
    assert_eq!(levelled(&[(true, 0)]).0, picked(0));
    assert_eq!(levelled(&[(true, 1), (true, 0)]).0, picked(1));
}

#[test]
fn it_changes_its_slot_and_nothing_else() {
    let before = begun(&[(true, 5), (false, 3)]);
    let mut after = before.clone();
    assert_eq!(wear(&mut after, &[0, 1, 2, 3], 1), picked(0));
    let slot_1 = 14 + 14 * 4;
    assert_eq!(after.bytes[..slot_1], before.bytes[..slot_1]);
    assert_eq!(after.bytes[slot_1 + 197..], before.bytes[slot_1 + 197..]);
    let slot = &after.bytes[slot_1..slot_1 + 197];
    // Open, no flag, none taken, four reads, one write; start and stamp 0.
    assert_eq!(slot[..5], [1, 0, 0, 4, 1]);
    assert_eq!(slot[5..21], [0; 16]);
    let entries = [[0, 0, 0, 0, 0, 1], [1, 0, 0, 0, 0, 5], [2, 0, 0, 0, 0, 0], [3, 0, 0, 0, 0, 3]];
    assert_eq!(slot[21..45], *entries.as_flattened());
    assert_eq!(slot[45..117], [0; 72]);
    assert_eq!(slot[117..122], [1, 0, 0, 0, 6]);
    assert_eq!(slot[122..], [0; 75]);
}

#[test]
fn the_lowest_number_wins_a_tie() {
    assert_eq!(levelled(&[(true, 3), (true, 3)]).0, picked(0));
    assert_eq!(levelled(&[(true, 4), (true, 3), (true, 3), (true, 3)]).0, picked(1));
    assert_eq!(levelled(&[(false, 3), (true, 9), (true, 3), (true, 3)]).0, picked(2));
    assert_eq!(levelled(&[(true, 0); 8]).0, picked(0));
}

#[test]
fn an_unusable_group_is_not_picked() {
    let (answer, bench) = levelled(&[(false, 0), (true, 7), (false, 1), (true, 8)]);
    assert_eq!(answer, picked(1));
    assert_eq!(writes(&bench, 1), [(3, 8)]);
}

#[test]
fn a_group_at_the_last_count_is_not_picked_and_one_below_it_is() {
    let (answer, bench) = levelled(&[(true, LAST_COUNT), (true, LAST_COUNT - 1)]);
    assert_eq!(answer, picked(1));
    assert_eq!(writes(&bench, 1), [(3, 0x7fff_ffff)]);
    assert_eq!(levelled(&[(true, LAST_COUNT - 1), (true, LAST_COUNT)]).0, picked(0));
    assert_eq!(levelled(&[(true, LAST_COUNT)]).0, code(34));
}

#[test]
fn none_left_leaves_all_reads_and_writes_nothing() {
    let worn: [&[(bool, i32)]; 4] = [
        &[(false, 0)],
        &[(false, 0), (true, LAST_COUNT)],
        &[(true, LAST_COUNT), (true, LAST_COUNT), (false, LAST_COUNT - 1)],
        &[(false, 1); 8],
    ];
    for groups in worn {
        let (answer, bench) = levelled(groups);
        assert_eq!(answer, code(34), "{groups:?}");
        assert_eq!(reads(&bench, 1).len(), 2 * groups.len(), "{groups:?}");
        assert_eq!(writes(&bench, 1), [], "{groups:?}");
    }
}

#[test]
fn a_negative_count_is_told_with_its_cell_whether_usable_or_not() {
    let negative: [(&[(bool, i32)], u64); 6] = [
        (&[(true, -1)], 1),
        (&[(false, -1)], 1),
        (&[(true, 3), (false, i32::MIN)], 3),
        (&[(true, 1), (false, -5), (true, -1)], 3),
        (&[(true, 1), (true, 2), (true, -7), (false, -9)], 5),
        (
            &[
                (true, 0),
                (true, 0),
                (true, 0),
                (true, 0),
                (true, 0),
                (true, 0),
                (true, 0),
                (false, -1),
            ],
            15,
        ),
    ];
    for (groups, place) in negative {
        let (answer, bench) = levelled(groups);
        assert_eq!(answer, code_at(place, 33), "{groups:?}");
        assert_eq!(reads(&bench, 1).len(), 2 * groups.len(), "{groups:?}");
        assert_eq!(writes(&bench, 1), [], "{groups:?}");
    }
}

#[test]
fn the_number_is_put_together_as_the_table_says() {
    let mut bench = begun(&[(true, 6), (true, -6)]);
    assert_eq!(wear_on_bytes(&mut bench.bytes.clone(), &[0, 1], 1), 0x0000_0002_0000_0000);
    assert_eq!(wear_on_bytes(&mut bench.bytes.clone(), &[0, 1, 2, 3], 1), 0x0003_2100_0000_0000);
    assert_eq!(wear_on_bytes(&mut bench.bytes.clone(), &[0], 1), 0x0000_2000_0000_0000);
    assert_eq!(wear_on_bytes(&mut bench.bytes.clone(), &[0, 1], 9), 0x0000_0300_0000_0000);
    assert_eq!(wear_on_bytes(&mut bench.bytes.clone(), &[0, 1], 2), 0x0000_0400_0000_0000);
    assert_eq!(wear_on_bytes(&mut [], &[0, 1], 1), 0x0000_0100_0000_0000);
    bench.hold(2, &[2]);
    assert_eq!(wear_on_bytes(&mut bench.bytes, &[0, 1, 2, 3], 1), 0x0002_0e02_0000_0002);
    bench.make_all(&["give up 1", "begin 1", "enter 2", "finish 2", "publish 2"]);
    assert_eq!(wear_on_bytes(&mut bench.bytes, &[0, 1, 2, 3], 1), 0x0002_0a00_0000_0000);
    let mut bench = begun(&[(true, 6), (true, 5)]);
    assert_eq!(wear_on_bytes(&mut bench.bytes, &[0, 1, 2, 3], 1), 0x0000_0002_0000_0001);
    let mut bench = begun(&[(false, 6)]);
    assert_eq!(wear_on_bytes(&mut bench.bytes, &[0, 1], 1), 0x0000_2200_0000_0000);
}
