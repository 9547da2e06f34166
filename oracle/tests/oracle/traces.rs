//! Traces: what has a line, and what stands in it.

use oracle::compare::edge_sheets;
use oracle::text;
use oracle::trace::{effects, trace_binary, trace_either, Deed, Effect};

use crate::sheets::{s_binary, S_TEXT};

/// The lines that the request gives for sheet S.
pub const S_TRACE: &str = "\
at 1 1
r 1 1 0
at 2 2
co 2 2 1 0
r 1 1 1
rl 1 1
co 1 1 3 1
";

/// Compares the trace of these steps, on so many cells, with these lines.
#[track_caller]
fn check(cells: usize, steps: &str, lines: &str) {
    let sheet = "cell whole 5\n".repeat(cells) + &steps.replace("; ", "\n");
    let trace = trace_either(sheet.as_bytes()).expect("a good text");
    let expected: String = lines.split_terminator("; ").map(|line| format!("{line}\n")).collect();
    assert_eq!(trace, expected);
}

#[test]
fn sheet_s() {
    assert_eq!(trace_binary(&s_binary()), S_TRACE);
    assert_eq!(trace_either(&s_binary()).as_deref(), Ok(S_TRACE));
    assert_eq!(trace_either(S_TEXT.as_bytes()).as_deref(), Ok(S_TRACE));
    assert_eq!(S_TRACE.lines().count(), 7);
}

#[test]
fn the_effects_of_sheet_s_and_their_places() {
    let sheet = text::assemble(S_TEXT.as_bytes()).expect("a good text");
    let effect = |place, slot, transaction, deed| (place, Effect { slot, transaction, deed });
    let expected = [
        effect(1, 1, 1, Deed::Begun),
        effect(2, 1, 1, Deed::Read { cell: 0 }),
        effect(3, 2, 2, Deed::Begun),
        effect(9, 2, 2, Deed::Committed { stamp: 1, cells: vec![0] }),
        effect(10, 1, 1, Deed::Read { cell: 1 }),
        effect(17, 1, 1, Deed::Reloaded),
        effect(20, 1, 1, Deed::Committed { stamp: 3, cells: vec![1] }),
    ];
    assert_eq!(effects(&sheet).as_deref(), Some(&expected[..]));
}

#[test]
fn a_run_without_effects_prints_no_byte() {
    check(64, "", "");
    check(1, "read 1 0; finish 1; give up 8; begin 0; begin 9; step 0 1 0 0 0", "");
}

#[test]
fn a_bad_sheet() {
    for bad in [&[][..], &[1], &[2, 0], &s_binary()[1..], &s_binary()[..182]] {
        assert_eq!(trace_binary(bad), "bad sheet\n");
        assert_eq!(trace_either(bad).as_deref(), Ok("bad sheet\n"));
    }
    let error = trace_either(b"cell whole 5\nbegin\n").expect_err("a faulty text");
    assert_eq!(error.to_string(), "line 2: the slot is missing");
}

#[test]
fn numbers_count_accepted_begins_of_all_slots() {
    let refused_between = "begin 5; begin 5; begin 9; begin 2; begin 0; give up 5; begin 5; \
        begin 2; give up 2; give up 5";
    check(1, refused_between, "at 5 1; at 2 2; ab 5 1; at 5 3; ab 2 2; ab 5 3");
}

#[test]
fn a_read_from_a_log_has_no_line() {
    check(1, "begin 1; read 1 0; read 1 0", "at 1 1; r 1 1 0");
    check(1, "begin 1; write 1 0 whole 9; read 1 0", "at 1 1");
    check(1, "begin 1; read 1 0; write 1 0 whole 9; read 1 0", "at 1 1; r 1 1 0");
}

#[test]
fn the_log_of_another_slot_or_of_before_has_not_answered() {
    let another = "begin 1; read 1 0; write 1 1 whole 9; begin 2; read 2 1; read 2 0";
    check(2, another, "at 1 1; r 1 1 0; at 2 2; r 2 2 1; r 2 2 0");
    let before = "begin 1; read 1 0; write 1 1 whole 9; give up 1; begin 1; read 1 1; read 1 0";
    check(2, before, "at 1 1; r 1 1 0; ab 1 1; at 1 2; r 1 2 1; r 1 2 0");
}

/// No such cell, then held, then newer.
#[test]
fn a_refused_read_has_no_line() {
    let steps = "begin 1; read 1 2; begin 2; write 2 0 whole 9; close 2; lock 2; read 1 0; \
        enter 2; finish 2; publish 2; read 1 0; read 1 1";
    check(2, steps, "at 1 1; at 2 2; co 2 2 1 0; r 1 1 1");
}

#[test]
fn the_17th_read_has_no_line() {
    let reads: String = (0..17).map(|cell| format!("; read 3 {cell}")).collect();
    let lines = "at 3 1; r 3 1 0; r 3 1 1; r 3 1 2; r 3 1 3; r 3 1 4; r 3 1 5; r 3 1 6; r 3 1 7; \
        r 3 1 8; r 3 1 9; r 3 1 10; r 3 1 11; r 3 1 12; r 3 1 13; r 3 1 14; r 3 1 15";
    check(17, &format!("begin 3{reads}"), lines);
}

#[test]
fn a_commit_of_no_cell_ends_after_its_stamp() {
    let twice = "begin 4; close 4; enter 4; finish 4; begin 4; close 4; enter 4; finish 4";
    check(1, twice, "at 4 1; co 4 1 1; at 4 2; co 4 2 2");
    let with_a_read = "begin 4; read 4 0; close 4; enter 4; finish 4; publish 4";
    check(1, with_a_read, "at 4 1; r 4 1 0; co 4 1 1");
}

#[test]
fn written_cells_ascend_and_publish_is_silent() {
    let steps = "begin 1; write 1 10 whole 1; write 1 2 whole 1; write 1 63 whole 1; \
        write 1 9 whole 1; write 1 2 whole 2; close 1; lock 1; lock 1; lock 1; lock 1; enter 1; \
        update 1 9 whole 3; finish 1; publish 1; publish 1; publish 1; publish 1";
    check(64, steps, "at 1 1; co 1 1 1 2 9 10 63");
}

#[test]
fn a_commit_of_16_cells() {
    let writes: String = (40..56).rev().map(|cell| format!("; write 8 {cell} whole 1")).collect();
    let steps = format!("begin 8{writes}; close 8{}; enter 8; finish 8", "; lock 8".repeat(16));
    check(64, &steps, "at 8 1; co 8 1 1 40 41 42 43 44 45 46 47 48 49 50 51 52 53 54 55");
}

/// Of a slot that has reloaded, and of one whose stamp is no longer the clock.
#[test]
fn the_stamp_and_the_cells_are_the_slots_own() {
    let steps = "begin 2; write 2 0 whole 1; close 2; lock 2; begin 1; write 1 1 whole 1; \
        close 1; lock 1; enter 1; enter 2; reload 1; finish 2; finish 1";
    check(2, steps, "at 2 1; at 1 2; rl 1 2; co 2 1 2 0; co 1 2 3 1");
}

/// Not allowed yet, then in the way of a holder.
#[test]
fn a_refused_reload_has_no_line() {
    let steps = "begin 1; reload 1; read 1 0; close 1; enter 1; begin 2; write 2 0 whole 1; \
        close 2; lock 2; reload 1; give up 2; reload 1; reread 1 0; read 1 0; reload 1; finish 1";
    check(1, steps, "at 1 1; r 1 1 0; at 2 2; ab 2 2; rl 1 1; rl 1 1; co 1 1 3");
}

/// Slot 1 has read cell 0, and slot 2 publishes it before slot 1 enters.
#[test]
fn what_becomes_of_a_mark() {
    let stale = "begin 1; read 1 0; begin 2; write 2 0 whole 1; close 2; lock 2; enter 2; \
        finish 2; publish 2; close 1; enter 1";
    let endings = [
        ("finish 1; finish 1", "ab 1 1"),
        ("ask 1 0; ignore 1; ignore 1; finish 1", "co 1 1 2"),
        ("reload 1; finish 1", "rl 1 1; co 1 1 3"),
        ("give up 1", "ab 1 1"),
    ];
    for (steps, lines) in endings {
        let before = "at 1 1; r 1 1 0; at 2 2; co 2 2 1 0";
        check(1, &format!("{stale}; {steps}"), &format!("{before}; {lines}"));
    }
}

#[test]
fn give_up_is_ab_in_open_locking_and_twilight() {
    let hold = "begin 1; write 1 0 whole 1; close 1; lock 1";
    check(1, "give up 1; begin 1; give up 1; give up 1", "at 1 1; ab 1 1");
    check(1, "begin 1; write 1 0 whole 1; close 1; give up 1", "at 1 1; ab 1 1");
    check(1, &format!("{hold}; give up 1"), "at 1 1; ab 1 1");
    check(1, &format!("{hold}; enter 1; give up 1; finish 1"), "at 1 1; ab 1 1");
    let publishing = format!("{hold}; enter 1; finish 1; give up 1; publish 1; give up 1");
    check(1, &publishing, "at 1 1; co 1 1 1 0");
}

/// The trace of a sheet at the edges.
fn edge(name: &str) -> String {
    let case = edge_sheets().into_iter().find(|case| case.name == name);
    trace_binary(&case.unwrap_or_else(|| panic!("there is no {name:?}")).bytes)
}

#[test]
fn the_sheets_at_the_edges_have_what_they_are_for() {
    assert_eq!(edge("no effect"), "");
    assert_eq!(edge("refused in each phase"), "at 2 1\nco 2 1 1 0\n");
    let each = "at 1 1\nr 1 1 0\nat 2 2\nco 2 2 1 0\nrl 1 1\nco 1 1 3\nat 1 3\nab 1 3\n";
    assert_eq!(edge("each effect"), each);
    assert!(edge("2048 transactions that give up").ends_with("at 8 2048\nab 8 2048\n"));
    assert!(edge("1024 commits of no cell").ends_with("at 8 1024\nco 8 1024 1024\n"));
    assert!(edge("reads of transactions above 999").contains("\nr 8 1000 63\n"));
    let longest = "co 8 1000 1000 48 49 50 51 52 53 54 55 56 57 58 59 60 61 62 63\n";
    assert!(edge("the longest line").ends_with(longest));
    let wide = "co 1 17 17 3 7 11 15 19 23 27 31 35 39 43 47 51 55 59 63\n";
    assert!(edge("commits of 0 to 16 cells").ends_with(wide));
}

/// 316 transactions begin, all but the last 8 are given up, and 217 of them, all
/// with numbers of three digits, read 16 cells of two digits.
#[test]
fn the_length_of_the_longest_trace() {
    let begins = 9 * "at 1 1\n".len() + 90 * "at 1 10\n".len() + 217 * "at 1 100\n".len();
    let ends = 9 * "ab 1 1\n".len() + 90 * "ab 1 10\n".len() + 209 * "ab 1 100\n".len();
    let reads = 217 * 16 * "r 1 100 63\n".len();
    let trace = edge("the longest trace");
    assert_eq!(trace.lines().count(), 4096);
    assert_eq!(trace.len(), begins + ends + reads);
    assert_eq!(trace.len(), 43_592);
    assert!(edge_sheets().iter().all(|case| trace_binary(&case.bytes).len() <= trace.len()));
}
