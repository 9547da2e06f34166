//! Request #103: ignoring loses no update. Of every call that is made on the
//! bench it is seen to it that a refusal is bare and changes no byte, and that
//! the area stays well formed.

use oracle::{faults, step_in_place, step_on_bytes, Call, Value};

use crate::bench::{held_by_another, refused, whole, Bench, DONE, FALSE, TRUE};
use crate::peek::Peek;
use crate::sentences::NO_UPDATE_LOST;

/// Slot 1 in twilight after these reads and writes. Slot 2 has published the
/// stale cells in between, each with its number and 50 more.
fn entered(reads: &[u8], writes: &[u8], stale: &[u8]) -> Bench {
    let mut bench = Bench::of_wholes(64);
    let lines = |step: &str, cells: &[u8], value: &str| -> Vec<String> {
        cells.iter().map(|cell| format!("{step} {cell}{value}")).collect()
    };
    let mut made = vec!["begin 1".to_string()];
    made.extend(lines("read 1", reads, ""));
    made.extend(lines("write 1", writes, " whole 7"));
    made.push("begin 2".to_string());
    made.extend(stale.iter().map(|cell| format!("write 2 {cell} whole {}", cell + 50)));
    made.push("close 2".to_string());
    made.extend(stale.iter().map(|_| "lock 2".to_string()));
    made.extend(["enter 2", "finish 2"].map(str::to_string));
    made.extend(stale.iter().map(|_| "publish 2".to_string()));
    made.push("close 1".to_string());
    made.extend(writes.iter().map(|_| "lock 1".to_string()));
    made.iter().for_each(|line| bench.make_all(&[line]));
    let nothing_marked = !reads.iter().any(|cell| stale.contains(cell));
    assert_eq!(bench.make("enter 1"), if nothing_marked { TRUE } else { FALSE });
    bench
}

fn flag(bench: &Bench) -> u8 {
    bench.peek().flag(1)
}

/// The document's name of it: two tasks add to one total.
fn totaliser() -> Bench {
    let mut bench = Bench::fresh(&[Value::Whole(100)]);
    bench.make_all(&["begin 1", "begin 2", "read 1 0", "read 2 0"]);
    bench.make_all(&["write 1 0 whole 103", "write 2 0 whole 104", "close 2", "lock 2", "enter 2"]);
    bench.make_all(&["finish 2", "publish 2", "close 1", "lock 1"]);
    assert_eq!(bench.make("enter 1"), FALSE);
    bench
}

#[test]
fn the_totaliser_may_not_ignore() {
    let mut bench = totaliser();
    for _ in 0..2 {
        assert_eq!(bench.make("ignore 1"), refused(15));
        assert_eq!((bench.make("ask 1 0"), flag(&bench)), (TRUE, 0));
    }
}

#[test]
fn repaired_the_totaliser_has_both_increments() {
    let mut bench = totaliser();
    assert_eq!(bench.make("ignore 1"), refused(15));
    assert_eq!(bench.make("reload 1"), DONE);
    assert_eq!(bench.make("reread 1 0"), whole(104));
    assert_eq!(bench.make("ignore 1"), DONE);
    assert_eq!(bench.make("update 1 0 whole 107"), DONE);
    assert_eq!(bench.make("finish 1"), DONE);
    assert_eq!(bench.make("publish 1"), DONE);
    assert_eq!(bench.machine.cells()[0].value, Value::Whole(107));
}

#[test]
fn after_15_it_may_give_up_or_end_without_commit() {
    for (last, answer) in [("give up 1", DONE), ("finish 1", refused(13))] {
        let mut bench = totaliser();
        assert_eq!(bench.make("ignore 1"), refused(15));
        assert_eq!(bench.make(last), answer);
        assert!(bench.machine.at_rest());
        assert_eq!(bench.machine.cells()[0].value, Value::Whole(104));
    }
}

/// The reload that 15 asks for may have to wait.
#[test]
fn a_reload_after_15_may_get_11() {
    let mut bench = Bench::of_wholes(2);
    bench.make_all(&["begin 1", "read 1 0", "read 1 1", "write 1 0 whole 7"]);
    bench.renew(2, 0);
    bench.hold(3, &[1]);
    bench.make_all(&["close 1", "lock 1"]);
    assert_eq!(bench.make("enter 1"), FALSE);
    assert_eq!(bench.make("ignore 1"), refused(15));
    assert_eq!(bench.make("reload 1"), held_by_another(1, 3));
    assert_eq!(bench.make("ignore 1"), refused(15));
    bench.make_all(&["give up 3", "reload 1", "ignore 1", "finish 1"]);
}

#[test]
fn a_marked_cell_that_is_only_read_may_be_ignored() {
    let mut bench = entered(&[0, 1], &[2, 3], &[0, 1]);
    assert_eq!((bench.make("ignore 1"), flag(&bench)), (DONE, 1));
    assert_eq!((bench.make("ignore 1"), flag(&bench)), (DONE, 1));
    assert_eq!(bench.make("finish 1"), DONE);
}

/// What counts is what is marked, not all that was read.
#[test]
fn a_written_cell_that_is_not_marked_is_in_nobodys_way() {
    let mut bench = entered(&[0, 1, 2], &[0, 2], &[1]);
    assert_eq!(bench.make("ask 1 0"), FALSE);
    assert_eq!((bench.make("ignore 1"), flag(&bench)), (DONE, 1));
    bench.make_all(&["finish 1", "publish 1"]);
    assert_eq!((bench.peek().phase(1), bench.peek().taken(1)), (4, 1));
    bench.make_all(&["publish 1"]);
}

#[test]
fn without_a_mark_it_is_done_and_changes_nothing() {
    let mut bench = entered(&[0, 1, 2], &[0, 2], &[3]);
    let before = bench.bytes.clone();
    assert_eq!(bench.make("ignore 1"), DONE);
    assert_eq!(bench.bytes, before);
}

/// At each place of the read log and of the write log, among marks on other
/// cells, the one cell decides; without it the same is done.
#[test]
fn one_marked_and_written_cell_is_enough_wherever_it_stands() {
    for (read_place, write_place) in (0..16).flat_map(|read| (0..16).map(move |w| (read, w))) {
        let writes: Vec<u8> = (20..36).collect();
        let mut reads: Vec<u8> = (0..16).collect();
        reads[read_place] = writes[write_place];
        let mut stale = reads.clone();
        stale.sort_unstable();
        let mut bench = entered(&reads, &writes, &stale);
        assert_eq!(bench.make("ignore 1"), refused(15), "{read_place}, {write_place}");
        stale.retain(|cell| *cell != writes[write_place]);
        let mut bench = entered(&reads, &writes, &stale);
        assert_eq!((bench.make("ignore 1"), flag(&bench)), (DONE, 1));
    }
}

/// A held cell is marked as a newer one is, but who writes it can't enter
/// before it is free. So the one that is marked by a hold is only read.
#[test]
fn a_mark_by_a_hold_may_be_ignored() {
    let mut bench = Bench::of_wholes(3);
    bench.make_all(&["begin 1", "read 1 0", "read 1 1", "write 1 0 whole 7"]);
    bench.hold(2, &[1]);
    bench.make_all(&["close 1", "lock 1"]);
    assert_eq!(bench.make("enter 1"), FALSE);
    assert_eq!(bench.make("ask 1 1"), TRUE);
    assert_eq!(bench.make("ignore 1"), DONE);
}

#[test]
fn codes_up_to_4_come_before_it() {
    let bench = totaliser();
    let number = |step: u8, slot: u8| {
        let mut bench = bench.clone();
        bench.call(Call { step, slot, cell: 200, kind: 9, word: 9 })
    };
    assert_eq!(number(11, 1), refused(15));
    assert_eq!(number(11, 9), refused(3));
    assert_eq!(number(11, 2), refused(4));
    assert_eq!(number(15, 1), refused(2));
    // No other step is refused for it.
    assert_eq!(number(12, 1), refused(13));
    assert_eq!(number(10, 1), DONE);
}

/// In twilight, with the cell not yet published, and with it published.
#[test]
fn an_area_with_the_flag_on_a_written_cell_is_not_well_formed() {
    let twilight = entered(&[0, 1, 2], &[0, 2], &[1]);
    let mut publishing = twilight.clone();
    publishing.make_all(&["ignore 1", "finish 1"]);
    let mut published = publishing.clone();
    published.make_all(&["publish 1"]);
    for (bench, entry) in [(&twilight, 0), (&publishing, 0), (&published, 0), (&published, 2)] {
        let mut area = bench.bytes.clone();
        let (flag, mark) = (bench.peek().slot_at(1) + 1, bench.peek().read_at(1, entry) + 1);
        (area[flag], area[mark]) = (1, 1);
        assert_eq!(faults(&area), [NO_UPDATE_LOST]);
        let before = area.clone();
        for step in 0..=15 {
            assert_eq!(step_on_bytes(&mut area, step, 1, 0, 2, 0), 1 << 40);
            assert_eq!(step_in_place(&mut area, step, 1, 0, 2, 0), 1 << 40);
            assert_eq!(area, before);
        }
    }
}

#[test]
fn in_place_it_is_the_same() {
    let areas = [
        (totaliser().bytes, 15 << 40, 0),
        (entered(&[0, 63], &[62, 63], &[63]).bytes, 15 << 40, 0),
        (entered(&[31, 63], &[32, 62], &[31, 63]).bytes, 0, 1),
        (entered(&[0, 1], &[0], &[1]).bytes, 0, 1),
        (entered(&[0, 1], &[0], &[]).bytes, 0, 0),
    ];
    for (mut area, number, flag) in areas {
        assert_eq!(step_in_place(&mut area, 11, 1, 0, 0, 0), number);
        assert_eq!(Peek(&area).flag(1), flag);
    }
}
