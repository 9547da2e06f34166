//! Random calls, one after the other, each checked in every way there is.

use oracle::{Call, Random};

use crate::bench::{Answer, Bench};
use crate::effects;
use crate::ledger::Ledger;

/// What the walks have reached, so that they can't test nothing unseen.
#[derive(Default, Debug)]
struct Tally {
    codes: [u64; 16],
    made: [u64; 15],
    commits: u64,
    commits_with_marks_ignored: u64,
    clean_enters: u64,
    marked_enters: u64,
    reloads_of_marks: u64,
    flags_set: u64,
    own_reads_written: u64,
    own_reads_written_beside_marks: u64,
}

impl Tally {
    fn note(&mut self, before: &Bench, call: Call, answer: Answer) {
        self.codes[usize::from(answer.0)] += 1;
        if answer.0 != 0 {
            return;
        }
        self.made[usize::from(call.step)] += 1;
        let own = before.machine.slot(call.slot);
        let marked = own.is_some_and(|own| own.some_mark());
        let commit = own.and_then(|own| own.commit());
        let reads_own_write =
            own.is_some_and(|own| own.reads.iter().any(|read| own.write_of(read.cell).is_some()));
        match call.step {
            6 if answer.2 == 1 => self.clean_enters += 1,
            6 => self.marked_enters += 1,
            10 => self.reloads_of_marks += u64::from(marked),
            11 => self.flags_set += u64::from(marked && commit.is_some_and(|c| !c.ignoring)),
            12 => {
                self.commits += 1;
                self.commits_with_marks_ignored += u64::from(marked);
                self.own_reads_written += u64::from(reads_own_write);
                self.own_reads_written_beside_marks += u64::from(reads_own_write && marked);
            }
            _ => {}
        }
    }

    fn check(&self) {
        for code in [0, 2, 3, 4, 5, 6, 7, 8, 9, 10, 11, 12, 13, 14, 15] {
            assert!(self.codes[code] >= 100, "code {code} in {self:?}");
        }
        assert_eq!(self.codes[1], 0);
        for step in 1..=14 {
            assert!(self.made[step] >= 500, "step {step} in {self:?}");
        }
        assert!(self.commits >= 1000, "{self:?}");
        assert!(self.commits_with_marks_ignored >= 100, "{self:?}");
        assert!(self.clean_enters >= 1000 && self.marked_enters >= 500, "{self:?}");
        assert!(self.reloads_of_marks >= 100 && self.flags_set >= 100, "{self:?}");
        assert!(self.own_reads_written >= 1000, "{self:?}");
        assert!(self.own_reads_written_beside_marks >= 50, "{self:?}");
    }
}

fn step(bench: &mut Bench, call: Call, ledger: &mut Ledger, tally: &mut Tally) {
    let before = bench.clone();
    let answer = bench.call(call);
    if [0, 13].contains(&answer.0) {
        effects::check(&before, bench, call, answer);
    }
    ledger.note(&before.peek(), call, answer.0);
    tally.note(&before, call, answer);
}

/// Publishes or gives up all that is under way.
fn come_to_rest(bench: &mut Bench, ledger: &mut Ledger, tally: &mut Tally) {
    for slot in 1..=8 {
        step(bench, Call { step: 14, slot, ..Call::default() }, ledger, tally);
        while bench.machine.slot(slot).is_some() {
            step(bench, Call { step: 13, slot, ..Call::default() }, ledger, tally);
        }
    }
}

#[test]
fn walks_from_a_fresh_area_keep_every_rule() {
    let mut tally = Tally::default();
    for seed in 0..400 {
        let mut random = Random::new(seed);
        let n = random.cell_count();
        let tasks = random.tasks();
        let mut bench = Bench::fresh(&random.values_for(tasks, n));
        if random.one_in(4) {
            bench = bench.at_clock(u64::MAX - random.up_to(40));
        }
        let mut ledger = Ledger::new(&bench.peek());
        for _ in 0..400 {
            let call = random.call_of(tasks, &bench.machine);
            step(&mut bench, call, &mut ledger, &mut tally);
        }
        come_to_rest(&mut bench, &mut ledger, &mut tally);
        ledger.replay(&bench.peek());
    }
    tally.check();
}

/// Well-formed areas that no steps lead to must be stepped on just as well.
#[test]
fn single_steps_on_any_well_formed_area_keep_every_rule() {
    let mut codes = [0; 16];
    let mut made = [0; 15];
    for seed in 0..12_000 {
        let mut random = Random::new(seed);
        let before = Bench::of(random.machine().pack());
        let mut bench = before.clone();
        let mut call =
            random.likely_call(&bench.machine, oracle::generate::Habit { slots: 8, patience: 4 });
        if random.one_in(3) {
            call.step = random.between(1, 14) as u8;
        }
        let answer = bench.call(call);
        codes[usize::from(answer.0)] += 1;
        if [0, 13].contains(&answer.0) {
            effects::check(&before, &bench, call, answer);
            made[usize::from(call.step)] += 1;
        }
    }
    assert!((2..=15).all(|code| codes[code] >= 20), "{codes:?}");
    assert!((1..=14).all(|step| made[step] >= 40), "{made:?}");
}

#[test]
fn arguments_that_a_step_does_not_use_are_ignored() {
    let mut compared = 0;
    for seed in 0..2000 {
        let mut random = Random::new(seed);
        let machine = random.machine();
        let habit = oracle::generate::Habit { slots: 8, patience: 4 };
        let call = random.likely_call(&machine, habit);
        let Some(step) = oracle::Step::numbered(call.step) else {
            continue;
        };
        let junk = random.junk_call();
        let mut other = call;
        if !step.uses_cell() {
            other.cell = junk.cell;
        }
        if !step.uses_value() {
            (other.kind, other.word) = (junk.kind, junk.word);
        }
        let (mut one, mut two) = (machine.clone(), machine);
        assert_eq!(one.step(call), two.step(other));
        assert_eq!(one, two);
        compared += u64::from(call != other);
    }
    assert!(compared >= 1000, "{compared}");
}

#[test]
fn equal_seeds_make_equal_walks() {
    let make = |seed| {
        let mut random = Random::new(seed);
        (random.machine(), random.junk_call(), random.sheet())
    };
    assert_eq!(make(7), make(7));
    assert_ne!(make(7), make(8));
}
