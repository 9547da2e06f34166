//! Tasks that level and find marks at their end: what they may ignore, and that
//! every commit counts up by one either way.

use oracle::{Call, Random};

use super::{begun, cells_of, picked, set_of, wear, writes};
use crate::bench::{refused, whole, Bench, DONE, FALSE, TRUE};
use crate::ledger::Ledger;

/// The erases of each group.
fn erases(bench: &Bench) -> Vec<u32> {
    let counts = bench.machine.cells().iter().skip(1).step_by(2);
    counts.map(|cell| cell.value.word()).collect()
}

/// Slot 1 has levelled and picked group 0 of two, and then slot 2 did this.
fn levelled_before(lines: &[&str]) -> Bench {
    let mut bench = begun(&[(true, 5), (true, 6)]);
    assert_eq!(wear(&mut bench, &set_of(2), 1), picked(0));
    bench.make_all(lines);
    bench.make_all(&["close 1", "lock 1"]);
    assert_eq!(bench.make("enter 1"), FALSE);
    bench
}

/// Both have picked the same group. The later one counts on from the other.
#[test]
fn a_marked_count_may_not_be_ignored() {
    let mut bench = begun(&[(true, 5), (true, 6)]);
    bench.make_all(&["begin 2"]);
    assert_eq!(wear(&mut bench, &set_of(2), 1), picked(0));
    assert_eq!(wear(&mut bench, &set_of(2), 2), picked(0));
    bench.make_all(&["close 2", "lock 2", "enter 2", "finish 2", "publish 2", "close 1", "lock 1"]);
    assert_eq!(bench.make("enter 1"), FALSE);
    assert_eq!(bench.make("ask 1 1"), TRUE);
    assert_eq!(bench.make("ignore 1"), refused(15));
    assert_eq!(bench.make("reload 1"), DONE);
    assert_eq!(bench.make("reread 1 1"), whole(6));
    bench.make_all(&["update 1 1 whole 7", "finish 1", "publish 1"]);
    assert_eq!(erases(&bench), [7, 6]);
}

/// A group was taken out of use, or another group was counted up.
#[test]
fn marks_on_other_cells_may_be_ignored_and_it_counts_up_by_one() {
    let others = [
        ["begin 2", "write 2 0 truth 0", "close 2", "lock 2", "enter 2", "finish 2", "publish 2"],
        ["begin 2", "write 2 3 whole 7", "close 2", "lock 2", "enter 2", "finish 2", "publish 2"],
    ];
    for (lines, other) in others.iter().zip([6, 7]) {
        let mut bench = levelled_before(lines);
        assert_eq!(bench.make("ask 1 1"), FALSE);
        assert_eq!(bench.make("ignore 1"), DONE);
        bench.make_all(&["finish 1", "publish 1"]);
        assert_eq!(erases(&bench), [6, other]);
    }
}

/// One of the marks is enough.
#[test]
fn a_marked_count_among_other_marks_is_told() {
    let lines = ["begin 2", "write 2 0 truth 0", "write 2 1 whole 9", "close 2", "lock 2"];
    let more = ["lock 2", "enter 2", "finish 2", "publish 2", "publish 2"];
    let mut bench = levelled_before(&[&lines[..], &more].concat());
    assert_eq!(writes(&bench, 1), [(1, 6)]);
    assert_eq!(bench.make("ignore 1"), refused(15));
}

#[derive(Default, Debug)]
struct Reached {
    commits: u32,
    with_marks: u32,
    refused: u32,
}

/// Slots that level and commit, some with a group taken out of use or back in
/// between. All that changes a count is levelling, so at the end the counts have
/// as many more as there were commits.
fn level_at_random(seed: u64, reached: &mut Reached) {
    let mut random = Random::new(seed);
    let mut bench = Bench::fresh(&cells_of(&[(true, 2), (true, 2), (true, 3)]));
    let mut ledger = Ledger::new(&bench.peek());
    for _ in 0..300 {
        let slot = random.between(1, 4) as u8;
        let call = next_call(&mut bench, &mut random, slot);
        let before = bench.clone();
        let code = bench.call(call).0;
        ledger.note(&before.peek(), call, code);
        reached.refused += u32::from(code == 15);
        let levelled = before.peek().write_cells(slot).iter().any(|cell| cell % 2 == 1);
        if call.step == 12 && code == 0 && levelled {
            reached.commits += 1;
            reached.with_marks += u32::from(before.peek().flag(slot));
        }
    }
    for call in (1..=4).flat_map(|slot| [14, 13].map(|step| Call { step, slot, ..Call::default() }))
    {
        bench.call(call);
    }
    let writers: u32 = [1, 3, 5].map(|cell| ledger.writers(cell)).iter().sum();
    assert_eq!(erases(&bench).iter().sum::<u32>(), 7 + writers, "seed {seed}");
    ledger.replay(&bench.peek());
}

/// An open slot levels, or writes a truth cell; then it goes for its commit.
fn next_call(bench: &mut Bench, random: &mut Random, slot: u8) -> Call {
    let bare = |step: u8| Call { step, slot, ..Call::default() };
    match bench.machine.slot(slot).cloned() {
        None => bare(1),
        Some(_) if bench.machine.is_open_and_empty(slot) => {
            if !random.one_in(4) {
                wear(bench, &set_of(3), slot);
                // A call that changes nothing: there is no such step.
                return bare(0);
            }
            let (cell, word) = (2 * random.up_to(2) as u8, random.up_to(3).min(1) as u32);
            Call { cell, kind: 1, word, ..bare(3) }
        }
        // Refused at a read, so there is nothing to commit.
        Some(own) if own.writes.is_empty() => bare(14),
        Some(own) => random.call_to_commit(&own, slot),
    }
}

#[test]
fn every_commit_of_levelling_counts_up_by_one_ignoring_or_not() {
    let mut reached = Reached::default();
    (0..300).for_each(|seed| level_at_random(seed, &mut reached));
    let Reached { commits, with_marks, refused } = reached;
    assert!(commits >= 1000 && with_marks >= 200 && refused >= 300, "{reached:?}");
}
