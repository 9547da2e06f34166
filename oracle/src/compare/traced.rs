//! Sheets for what a trace shows and for what it is silent of. Commits with
//! marks that are ignored and reloads that are refused are in the sheets beside
//! these.

use super::case::Case;
use super::steps::Steps;
use crate::binary::STEPS_AT_MOST;
use crate::call::Step::{self, *};
use crate::machine::{Transaction, CELLS_AT_MOST, SLOTS};

const ROOM: u8 = Transaction::LOG_ROOM as u8;
const ALL_CELLS: u8 = CELLS_AT_MOST as u8;
const ALL_SLOTS: u8 = SLOTS as u8;

/// Every effect, every number that a line may have, and every reason for which
/// a step has none.
pub(super) fn sheets_to_trace() -> Vec<Case> {
    vec![
        each_effect(),
        wide_commits(),
        every_cell_read(),
        every_cell_written(),
        repeated("2048 transactions that give up", &[Begin, GiveUp]),
        repeated("1024 commits of no cell", &[Begin, Close, Enter, Finish]),
        // With 99 the trace is the longest: the numbers have three digits soon.
        many_reads("the longest trace", 99),
        many_reads("reads of transactions above 999", 999),
        longest_line(),
        nothing_begun(),
        refused_in_each_phase(),
        begun_twice(),
        side_by_side(),
        from_the_logs(),
        reloaded(),
        ended(),
    ]
}

fn each_effect() -> Case {
    let mut steps = Steps::default();
    steps.all(&[Begin, Read], 1);
    steps.renew(2, &[0]);
    steps.all(&[Close, Enter, Reload, Finish, Begin, GiveUp], 1);
    steps.on_cells("each effect", 1)
}

/// Commits of 0 to 16 cells, written in no order.
fn wide_commits() -> Case {
    let mut steps = Steps::default();
    for count in 0..=ROOM {
        let cells: Vec<u8> = (0..count).map(|turn| 3 + 4 * (turn * 7 % ROOM)).collect();
        steps.renew(1 + count % ALL_SLOTS, &cells);
    }
    steps.on_cells("commits of 0 to 16 cells", CELLS_AT_MOST)
}

/// Cells that are there and cells that are not.
fn every_cell_read() -> Case {
    let mut steps = Steps::default();
    for cell in 0..=u8::MAX {
        for step in [Begin, Read, Read, GiveUp] {
            steps.add(step, 3, cell);
        }
    }
    steps.on_cells("every cell read twice", CELLS_AT_MOST)
}

fn every_cell_written() -> Case {
    let mut steps = Steps::default();
    let downwards: Vec<u8> = (0..ALL_CELLS).rev().collect();
    for (slot, cells) in (5..).zip(downwards.chunks(Transaction::LOG_ROOM)) {
        steps.renew(slot, cells);
    }
    steps.on_cells("every cell written, the highest first", CELLS_AT_MOST)
}

/// The same steps over and over, with the slots taking turns.
fn repeated(name: &str, round: &[Step]) -> Case {
    let mut steps = Steps::default();
    let rounds = STEPS_AT_MOST / round.len();
    let slots = (1..=ALL_SLOTS).cycle().take(rounds);
    slots.for_each(|slot| steps.all(round, slot));
    steps.on_cells(name, 1)
}

/// So many transactions that do nothing, then such as read all that a log has
/// room for, in cells of two digits. A slot gives up when it is its turn again.
/// What a sheet has no room for is cut off.
fn many_reads(name: &str, idlers: usize) -> Case {
    let mut steps = Steps::default();
    let cells: Vec<u8> = (ALL_CELLS - ROOM..ALL_CELLS).collect();
    for (turn, slot) in (1..=ALL_SLOTS).cycle().take(STEPS_AT_MOST).enumerate() {
        let is_new = turn < SLOTS;
        steps.all(if is_new { &[Begin] } else { &[GiveUp, Begin] }, slot);
        steps.each(Read, slot, if turn < idlers { &[] } else { &cells });
    }
    steps.bytes.truncate(8 * STEPS_AT_MOST);
    steps.on_cells(name, CELLS_AT_MOST)
}

/// Transaction 1000 commits 16 cells of two digits with stamp 1000.
fn longest_line() -> Case {
    let mut steps = Steps::default();
    (1..1000).for_each(|_| steps.all(&[Begin, GiveUp], 8));
    let cells: Vec<u8> = (ALL_CELLS - ROOM..ALL_CELLS).collect();
    steps.hold(8, &cells);
    steps.add(Enter, 8, 0);
    (1..1000).for_each(|_| steps.add(Reload, 8, 0));
    steps.add(Finish, 8, 0);
    steps.on_cells("the longest line", CELLS_AT_MOST)
}

/// Every step of an idle slot but begin, and begins in slots that are none.
fn nothing_begun() -> Case {
    let mut steps = Steps::default();
    for slot in 1..=ALL_SLOTS {
        steps.all(&Step::ALL[1..], slot);
    }
    [0, 9, 255].into_iter().for_each(|slot| steps.all(&Step::ALL, slot));
    steps.on_cells("no effect", 1)
}

/// In each phase all that is not allowed in it, then a step onwards.
fn refused_in_each_phase() -> Case {
    let open: &[Step] = &[Read, Write, Close, GiveUp];
    let stages: [(&[Step], Step); 7] = [
        (&[Begin], Begin),
        (open, Write),
        (open, Close),
        (&[Lock, GiveUp], Lock),
        (&[Enter, GiveUp], Enter),
        (&[Reread, Update, Ask, Reload, Ignore, Finish, GiveUp], Finish),
        (&[Publish], Publish),
    ];
    let mut steps = Steps::default();
    for (allowed, onwards) in stages {
        let refused = Step::ALL.into_iter().filter(|step| !allowed.contains(step));
        refused.for_each(|step| steps.add(step, 2, 0));
        steps.add(onwards, 2, 0);
    }
    steps.on_cells("refused in each phase", 1)
}

/// Refused begins between those that are accepted.
fn begun_twice() -> Case {
    let mut steps = Steps::default();
    for slot in [3, 0, 8, 9, 1, 3] {
        steps.all(&[Begin, Begin, Read], slot);
    }
    steps.all(&[GiveUp, Begin, Begin], 8);
    [1, 3, 8].into_iter().for_each(|slot| steps.add(GiveUp, slot, 0));
    steps.on_cells("begun twice", 1)
}

/// All slots begin, the highest first, and then take turns at each step. They
/// enter in one order and finish in the other, so that the clock is further.
fn side_by_side() -> Case {
    let mut steps = Steps::default();
    let upwards: Vec<u8> = (1..=ALL_SLOTS).collect();
    let downwards: Vec<u8> = upwards.iter().rev().copied().collect();
    for (first, last) in [(&downwards, &upwards), (&upwards, &downwards)] {
        first.iter().for_each(|slot| steps.add(Begin, *slot, 0));
        for step in [Read, Write, Close, Lock, Enter] {
            upwards.iter().for_each(|slot| steps.add(step, *slot, 7 * slot));
        }
        last.iter().for_each(|slot| steps.add(Finish, *slot, 0));
        upwards.iter().for_each(|slot| steps.add(Publish, *slot, 0));
    }
    steps.on_cells("side by side", CELLS_AT_MOST)
}

/// Reads from the read log, from the write log and where both have the cell.
/// The logs of another slot and those of the transaction before are no matter.
fn from_the_logs() -> Case {
    let mut steps = Steps::default();
    for slot in [1, 2, 1] {
        steps.add(Begin, slot, 0);
        steps.each(Read, slot, &[0, 0]);
        steps.add(Write, slot, 1);
        steps.add(Read, slot, 1);
        steps.add(Write, slot, 0);
        steps.each(Read, slot, &[0, 2, 1, 2]);
        // So slot 1 still has its logs in the turn of slot 2.
        steps.add(GiveUp, 3 - slot, 0);
    }
    steps.on_cells("reads from the logs", 3)
}

/// What was read before is in the log after a reload, too; to read is refused.
fn reloaded() -> Case {
    let mut steps = Steps::default();
    steps.add(Begin, 1, 0);
    steps.each(Read, 1, &[1, 0]);
    steps.renew(2, &[0]);
    steps.all(&[Close, Enter, Reload, Reread, Ask, Read, Reload, Finish], 1);
    steps.on_cells("reload and read again", 2)
}

/// By outcome 13, by give up in each of its phases, and not by a give up that is
/// refused.
fn ended() -> Case {
    let mut steps = Steps::default();
    steps.all(&[Begin, Read], 4);
    steps.renew(5, &[0]);
    steps.all(&[Close, Enter, Finish, GiveUp, Finish], 4);
    steps.all(&[Begin, GiveUp, GiveUp], 4);
    steps.hold(4, &[1, 0]);
    steps.add(GiveUp, 4, 0);
    steps.hold(4, &[1]);
    steps.all(&[Enter, GiveUp], 4);
    steps.hold(4, &[0, 1]);
    steps.all(&[Enter, Finish, GiveUp, Publish, GiveUp, Publish, GiveUp], 4);
    steps.on_cells("given up in each phase, and outcome 13", 2)
}
