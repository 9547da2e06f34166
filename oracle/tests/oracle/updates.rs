//! Demand 3's sentence of request #103: every committed transaction, ignoring or
//! not, holds for each cell in both its logs the replay's value just before its
//! stamp. So nobody's increment is lost.

use oracle::counting::Tasks;
use oracle::{describe, lay_out_on_bytes, text, Call, Machine, Random, Sheet, Value};

use crate::examples::FOLDER;
use crate::fuzzing::{step, StepOnBytes};
use crate::ledger::Ledger;
use crate::peek::Peek;
use crate::wrong_ignores::{before_the_request, with_lost_marks_hidden};

/// An area on which a step is made, with the ledger of its commits.
struct Run {
    area: Vec<u8>,
    ledger: Ledger,
    make_step: StepOnBytes,
}

impl Run {
    fn fresh(cells: &[Value], make_step: StepOnBytes) -> Run {
        let mut area = vec![0; 1590 + 14 * cells.len()];
        assert_eq!(lay_out_on_bytes(&mut area, &describe(cells)), 0);
        let ledger = Ledger::new(&Peek(&area));
        Run { area, ledger, make_step }
    }

    fn make(&mut self, call: Call) -> u8 {
        let before = self.area.clone();
        let code = ((self.make_step)(&mut self.area, call) >> 40) as u8;
        self.ledger.note(&Peek(&before), call, code);
        code
    }
}

/// The history of the totaliser: slot 1 ignores its mark and finishes, whatever
/// it is told.
fn totaliser(make_step: StepOnBytes) -> (Run, u8) {
    let bytes = std::fs::read(format!("{FOLDER}/totaliser.txt")).expect("the example");
    let sheet: Sheet = text::assemble(&bytes).expect("a good text");
    let mut run = Run::fresh(sheet.cells(), make_step);
    let ignore = sheet.calls().iter().position(|call| call.step == 11).expect("an ignore");
    sheet.calls()[..ignore].iter().for_each(|call| assert_eq!(run.make(*call), 0));
    let code = run.make(sheet.calls()[ignore]);
    for step in [12, 13] {
        run.make(Call { step, slot: 1, ..Call::default() });
    }
    (run, code)
}

#[test]
fn the_totaliser_loses_nothing() {
    let (run, code) = totaliser(step);
    assert_eq!(code, 15);
    assert_eq!(Peek(&run.area).word(0), 104);
    run.ledger.replay(&Peek(&run.area));
}

/// As it was before the request: the 4 of the other slot is lost, and just this
/// sentence is false.
#[test]
fn before_the_request_the_totaliser_lost_an_increment() {
    let (run, code) = totaliser(before_the_request);
    assert_eq!(code, 0);
    assert_eq!(Peek(&run.area).word(0), 103);
    assert_eq!(run.ledger.updates(), (2, 1));
    let (faults, words) = run.ledger.replayed();
    assert_eq!(faults, ["stamp 2: cell 0 is 104, read 100"]);
    assert_eq!(words, [103]);
}

/// Slots 1 and 2 both lose an update of slot 3, and are told of their marks as
/// ever.
#[test]
fn before_the_request_one_loss_did_not_keep_another_from_being_made() {
    let mut lines = vec!["cell whole 0", "cell whole 1", "begin 1", "read 1 0", "begin 2"];
    lines.extend(["read 2 1", "write 1 0 whole 7", "write 2 1 whole 7", "begin 3"]);
    lines.extend(["write 3 0 whole 8", "write 3 1 whole 8", "close 3", "lock 3", "lock 3"]);
    lines.extend(["enter 3", "finish 3", "publish 3", "publish 3", "close 1", "close 2"]);
    lines.extend(["lock 1", "lock 2", "enter 1", "enter 2", "ignore 1", "ignore 2", "ask 1 0"]);
    lines.extend(["ask 2 1", "ignore 1", "finish 1", "finish 2", "publish 1", "publish 2"]);
    let sheet = text::assemble(lines.join("\n").as_bytes()).expect("a good text");
    let Run { mut area, .. } = Run::fresh(sheet.cells(), before_the_request);
    for call in sheet.calls() {
        let number = before_the_request(&mut area, *call);
        let wanted = match call.step {
            2 => (2 << 32) + u64::from(call.cell),
            // Something is marked for both, and not for slot 3.
            6 => (1 << 32) + u64::from(call.slot == 3),
            9 => (1 << 32) + 1,
            _ => 0,
        };
        assert_eq!(number, wanted, "{call:?}");
    }
}

/// Runs of tasks that count up, brought to rest. Gives the faults of each run,
/// the increments that are missing from its totals, and the commits with a cell
/// in both logs, all of them and those that ignored marks.
fn runs(make_step: StepOnBytes, seeds: u64) -> (Vec<usize>, Vec<u32>, (usize, usize)) {
    let (mut faults, mut missing, mut reached) = (Vec::new(), Vec::new(), (0, 0));
    for seed in 0..seeds {
        let mut random = Random::new(seed);
        let n = random.between(1, 6) as usize;
        let tasks = Tasks::CountUp { slots: random.between(2, 8) as u8 };
        let cells = random.values_for(tasks, n);
        let mut run = Run::fresh(&cells, make_step);
        for _ in 0..300 {
            let machine = Machine::unpack(&with_lost_marks_hidden(&run.area));
            run.make(random.call_of(tasks, &machine.expect("a well-formed area")));
        }
        for slot in 1..=8 {
            (0..17).for_each(|turn| {
                run.make(Call { step: if turn == 0 { 14 } else { 13 }, slot, ..Call::default() });
            });
        }
        let (updates, ignoring) = run.ledger.updates();
        reached = (reached.0 + updates, reached.1 + ignoring);
        let end = Peek(&run.area);
        missing.push((0..n).map(|cell| lost(&run.ledger, &end, &cells, cell)).sum());
        faults.push(run.ledger.replayed().0.len());
    }
    (faults, missing, reached)
}

/// How many increments of a cell are not in its total. Every commit that writes
/// a cell adds one.
fn lost(ledger: &Ledger, end: &Peek, cells: &[Value], cell: usize) -> u32 {
    let first = cells[cell].word();
    first.wrapping_add(ledger.writers(cell)).wrapping_sub(end.word(cell))
}

#[test]
fn no_increment_is_lost_whoever_ignores_what() {
    let (faults, missing, (updates, ignoring)) = runs(step, 400);
    assert_eq!(faults.iter().sum::<usize>(), 0);
    assert_eq!(missing.iter().sum::<u32>(), 0);
    println!("{updates} commits with a cell in both logs, {ignoring} of them ignored marks");
    assert!(updates >= 4000 && ignoring >= 100, "{updates}, {ignoring}");
}

/// So the tasks meet often enough for a loss to be seen.
#[test]
fn before_the_request_increments_were_lost() {
    let (faults, missing, _) = runs(before_the_request, 400);
    let bad = faults.iter().filter(|faults| **faults > 0).count();
    let lossy = missing.iter().filter(|missing| **missing > 0).count();
    println!("{bad} of 400 runs break the sentence, {lossy} have lost an increment");
    assert!(bad >= 50 && lossy >= 50, "{bad}, {lossy}");
}
