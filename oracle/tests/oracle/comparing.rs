//! The comparison of the programs that take sheets passes what is right and
//! catches what is wrong.

use oracle::compare::{bad_sheets, compare, cut_sheets, edge_sheets, long_inputs, random_sheet};
use oracle::compare::{refused_sheets, Case, Ended, Failure, Given, Plan, Program, Stopped, Tally};
use oracle::{describe, lay_out_on_bytes, BadSheet, Sheet};

use crate::fuzzing::{step, StepOnBytes, IGNORED, IN_THE_WAY, SEARCHED, WRONG_STEPS};
use crate::peek::Peek;
use crate::sheets::s_binary;
use crate::tracing::{self, traced};
use crate::wrong_ignores::{STRICT_CHECKS, WRONG_FLAGS, WRONG_IGNORES};
use crate::wrong_obstacles::WRONG_OBSTACLES;
use crate::wrong_readers::{is_bad, WRONG_READERS, WRONG_READERS_OF_REALS};
use crate::wrong_searches::{STRICT_LOOKS, WRONG_LOOKS, WRONG_READS, WRONG_UPDATES, WRONG_WRITES};

/// What is given in place of the right output.
type Printer = fn(&Case, String) -> Given;

/// Wrong in how they take a bad sheet, with the input that shows it.
const WRONG_AT_BAD_SHEETS: [(&str, Printer, &str); 6] = [
    (
        "no newline after bad sheet",
        |_, right| prints(right.replace("sheet\n", "sheet")),
        "version 0",
    ),
    (
        "status 1 for a bad sheet",
        |case, right| ends(case, right, Ended::WithStatus(1)),
        "version 0",
    ),
    ("a signal for a bad sheet", |case, right| ends(case, right, Ended::BySignal), "version 0"),
    ("no end for a bad sheet", |case, right| ends(case, right, Ended::NotInTime), "version 0"),
    ("bad sheet on standard error too", told_twice, "version 0"),
    (
        "a line before bad sheet",
        |_, right| prints(right.replace("bad", "1 0 0 0\nbad")),
        "version 0",
    ),
];

/// Wrong in what they print of a run.
const WRONG_PRINTERS: [(&str, Printer, &str); 6] = [
    (
        "upper-case digits",
        |_, right| prints(right.replace("abcdef", "ABCDEF")),
        "words at the edges",
    ),
    ("no clock", |_, right| prints(up_to(&right, "clock")), "1 cells, no steps"),
    ("a space at the end", |_, right| prints(right.replace('\n', " \n")), "1 cells, no steps"),
    ("places from 0", |_, right| prints(right.replace("\n2 ", "\n1 ")), "words at the edges"),
    ("no steps are bad", |_, right| prints(no_steps_are_bad(right)), "1 cells, no steps"),
    ("stamps in a byte", |_, right| prints(right.replace(" 4090 0", " 250 0")), "4089 reloads"),
];

/// What is told short of a run with few effects.
const TRACED: [&str; 18] = [
    "lines `at`:",
    "lines `r`:",
    "lines `rl`:",
    "lines `co`:",
    "lines `ab`:",
    "lines of a transaction above 99:",
    "`co` of no cell:",
    "`co` of 1 cell:",
    "`co` of 16 cells:",
    "`co` of a cell below 10 and of one above:",
    "`co` with a stamp above 99:",
    "`co` with a stamp below the clock:",
    "`ab` for give up:",
    "`ab` for outcome 13:",
    "begins refused, no line:",
    "reloads refused, no line:",
    "reads from the write log, no line:",
    "reads from the read log, no line:",
];

/// These need areas that no sheet leads to.
const OUT_OF_REACH: [&str; 2] = ["takes version 2", "believes the area's own length"];

pub fn prints(output: impl Into<Vec<u8>>) -> Given {
    Given { output: output.into(), errors: Vec::new(), ended: Ended::WithStatus(0) }
}

fn ends(case: &Case, right: String, ended: Ended) -> Given {
    let ended = if is_bad(case) { ended } else { Ended::WithStatus(0) };
    Given { ended, ..prints(right) }
}

fn told_twice(case: &Case, right: String) -> Given {
    let errors = if is_bad(case) { b"bad sheet\n".to_vec() } else { Vec::new() };
    Given { errors, ..prints(right) }
}

fn up_to(output: &str, word: &str) -> String {
    output.split(word).next().unwrap_or_default().to_string()
}

fn no_steps_are_bad(right: String) -> String {
    if right.starts_with("cell") {
        "bad sheet\n".to_string()
    } else {
        right
    }
}

/// The fresh area of a sheet.
pub fn laid_out(sheet: &Sheet) -> Vec<u8> {
    let mut area = vec![0xee; 1590 + 14 * sheet.cells().len()];
    assert_eq!(lay_out_on_bytes(&mut area, &describe(sheet.cells())), 0);
    area
}

/// The sheet run on an area with this step.
fn run_on_area(case: &Case, make_step: StepOnBytes) -> Given {
    let Ok(sheet) = Sheet::decode(&case.bytes) else {
        return prints("bad sheet\n");
    };
    let mut area = laid_out(&sheet);
    let mut lines = Vec::new();
    for (place, call) in (1..).zip(sheet.calls()) {
        let number = make_step(&mut area, *call);
        let (code, kind, word) = (number >> 40, number >> 32 & 0xff, number & 0xffff_ffff);
        lines.push(format!("{place} {code} {kind} {word:08x}\n"));
    }
    let peek = Peek(&area);
    for cell in 0..peek.n() {
        let (kind, word) = (peek.kind(cell), peek.word(cell));
        let (stamp, holder) = (peek.stamp(cell), peek.holder(cell));
        lines.push(format!("cell {cell} {kind} {word:08x} {stamp} {holder}\n"));
    }
    lines.push(format!("clock {}\n", peek.clock()));
    prints(lines.concat())
}

type Programs<'a> = &'a dyn Fn(Program, &Case) -> Given;

fn right(program: Program, case: &Case) -> Given {
    prints(program.wanted(&case.bytes))
}

/// With one of the programs in place of the right one.
pub fn compared_one(
    which: Program,
    one: &dyn Fn(&Case) -> Given,
    sheets: u64,
) -> Result<Tally, Box<Failure>> {
    let other =
        |program, case: &Case| if program == which { one(case) } else { right(program, case) };
    compared(Vec::new(), &other, sheets)
}

fn compared(examples: Vec<Case>, run: Programs, sheets: u64) -> Result<Tally, Box<Failure>> {
    let plan = Plan { seed: 1, sheets };
    let tally = compare(&mut |program, case| Ok(run(program, case)), examples, plan, &mut |_| {});
    tally.map_err(|stopped| match stopped {
        Stopped::Failed(failure) => failure,
        Stopped::NoProgram(error) => panic!("{error}"),
    })
}

#[test]
fn what_is_right_passes_and_every_least_count_is_reached() {
    let on_area = |program, case: &Case| match program {
        Program::Run => run_on_area(case, step),
        Program::Trace => traced(case, &tracing::effect, tracing::number),
    };
    let tally = compared(Vec::new(), &on_area, 2_000);
    let tally = tally.unwrap_or_else(|failure| panic!("{failure}"));
    assert!(tally.compared() >= 2_831, "{tally}");
    assert_eq!(tally.short(2_000), [""; 0], "{tally}");
}

#[test]
fn a_run_that_reaches_little_is_told_so() {
    let tally = compared(Vec::new(), &right, 20).unwrap_or_else(|fail| panic!("{fail}"));
    let short = tally.short(2_000);
    let others = ["commits", "enters that mark", "reloads", "aborts", "random sheets"];
    let logs = IN_THE_WAY.into_iter().chain(IGNORED).chain(SEARCHED);
    for name in logs.chain(others).chain(TRACED) {
        assert!(short.iter().any(|line| line.starts_with(name)), "{name}: {short:?}");
    }
}

#[test]
fn every_wrong_printer_is_caught_where_it_should_be() {
    let of_run = WRONG_PRINTERS.map(|wrong| (Program::Run, wrong));
    let of_both = WRONG_AT_BAD_SHEETS.iter().flat_map(|wrong| Program::BOTH.map(|of| (of, *wrong)));
    for (which, (name, wrong, input)) in of_both.chain(of_run) {
        caught_at(which, name, &|case| wrong(case, which.wanted(&case.bytes)), input);
    }
}

#[test]
fn every_wrong_reader_is_caught_where_it_should_be() {
    for (name, reader, input) in WRONG_READERS.iter().chain(&WRONG_READERS_OF_REALS) {
        for which in Program::BOTH {
            caught_at(which, name, &|case| prints(which.wanted(&reader(case))), input);
        }
    }
}

fn caught_at(which: Program, name: &str, one: &dyn Fn(&Case) -> Given, input: &str) {
    let failure = compared_one(which, one, 0).expect_err(name);
    assert_eq!((failure.program, &failure.case.name[..]), (which, input), "{name}");
}

#[test]
fn every_wrong_core_is_caught() {
    let mut caught = 0;
    for (name, wrong) in WRONG_STEPS {
        if !OUT_OF_REACH.contains(&name) {
            assert!(compared_run(wrong, 200).is_err(), "{name}");
            caught += 1;
        }
    }
    assert_eq!(caught, WRONG_STEPS.len() - OUT_OF_REACH.len());
}

fn compared_run(step: StepOnBytes, sheets: u64) -> Result<Tally, Box<Failure>> {
    compared_one(Program::Run, &|case| run_on_area(case, step), sheets)
}

/// By the sheets at the edges alone, without a random one.
#[test]
fn every_wrong_word_on_who_is_in_the_way_is_caught() {
    WRONG_OBSTACLES.iter().for_each(caught_at_the_edges);
}

/// Likewise. What only a damaged area shows is out of reach of a sheet.
#[test]
fn every_wrong_ignore_is_caught() {
    let wrong = WRONG_IGNORES.iter().chain(&WRONG_FLAGS).chain(&STRICT_CHECKS);
    wrong.for_each(caught_at_the_edges);
}

/// Likewise.
#[test]
fn every_wrong_search_is_caught() {
    let wrong = [WRONG_READS, WRONG_WRITES, WRONG_UPDATES, WRONG_LOOKS, STRICT_LOOKS];
    wrong.into_iter().flatten().for_each(caught_at_the_edges);
}

fn caught_at_the_edges((name, wrong): &(&str, StepOnBytes)) {
    let failure = compared_run(*wrong, 0).expect_err(name);
    println!("{name}: {}", failure.case.name);
    let is_edge = edge_sheets().iter().any(|case| case.name == failure.case.name);
    assert!(is_edge, "{name}: {}", failure.case.name);
}

#[test]
fn e11_is_among_the_sheets_at_the_edges() {
    let e11 = edge_sheets().into_iter().find(|case| case.name == "E11").expect("the sheet");
    let lines = Program::Run.wanted(&e11.bytes);
    assert!(
        lines.contains("\n6 14 2 00000001\n") && lines.contains("\n9 11 2 00000001\n"),
        "{lines}"
    );
}

/// Of sheet S, with one line written otherwise.
fn failure_with(which: Program, line: &str, wrong: &str) -> Box<Failure> {
    let other = |program: Program, case: &Case| {
        let right = program.wanted(&case.bytes);
        prints(if program == which { right.replacen(line, wrong, 1) } else { right })
    };
    let examples = vec![Case::new("S", s_binary())];
    compared(examples, &other, 0).expect_err("a wrong program")
}

#[test]
fn a_failure_shows_the_program_the_first_line_that_differs_and_its_step() {
    let failure = failure_with(Program::Run, "16 0 1 00000001", "16 0 1 00000000");
    let report = "run of S (183 bytes)\n  \
        line 16: wanted \"16 0 1 00000001\\n\" of step 16 (ask 1 0), given \"16 0 1 00000000\\n\"";
    assert_eq!(failure.to_string(), report);
    assert_eq!(failure.case.bytes, s_binary());
    // The sixth effect is that of step 17.
    let failure = failure_with(Program::Trace, "rl 1 1\n", "");
    let report = "trace of S (183 bytes)\n  \
        line 6: wanted \"rl 1 1\\n\" of step 17 (reload 1), given \"co 1 1 3 1\\n\"";
    assert_eq!(failure.to_string(), report);
    // One line too many: the wanted line is of a later step than the given one.
    let failure = failure_with(Program::Trace, "r 1 1 1\n", "r 1 1 1\nr 1 1 1\n");
    let report = "trace of S (183 bytes)\n  \
        line 6: wanted \"rl 1 1\\n\" of step 17 (reload 1), given \"r 1 1 1\\n\"";
    assert_eq!(failure.to_string(), report);
    let failure = failure_with(Program::Trace, "co 1 1 3 1\n", "co 1 1 3 1\nco 1 1 3 1\n");
    let report = "trace of S (183 bytes)\n  \
        line 8: wanted no such line, given \"co 1 1 3 1\\n\"";
    assert_eq!(failure.to_string(), report);
}

fn fault(case: &Case) -> BadSheet {
    Sheet::decode(&case.bytes).expect_err(&case.name)
}

#[test]
fn every_fault_of_a_sheet_is_there() {
    let bad = [bad_sheets(), cut_sheets(), long_inputs()].concat();
    let bad: Vec<BadSheet> = bad.iter().map(fault).collect();
    let all = [
        BadSheet::Version,
        BadSheet::Missing,
        BadSheet::LeftOver,
        BadSheet::DescriptionsLength,
        BadSheet::StepsLength,
        BadSheet::Cells,
        BadSheet::Description,
        BadSheet::Steps,
    ];
    for fault in all {
        assert!(bad.contains(&fault), "{fault:?}");
    }
}

#[test]
fn sheets_are_cut_at_every_length_and_are_longer_than_any_good_one() {
    let lengths =
        |cases: Vec<Case>| -> Vec<usize> { cases.iter().map(|case| case.bytes.len()).collect() };
    let cut = lengths(cut_sheets());
    assert!((0..s_binary().len()).all(|length| cut.contains(&length)));
    assert!(cut_sheets().iter().all(|case| fault(case) == BadSheet::Missing));
    let long = lengths(long_inputs());
    assert!(long.contains(&33_094) && long.contains(&40_000));
    assert!(edge_sheets().iter().all(|case| !is_bad(case)));
    assert!(lengths(edge_sheets()).contains(&33_093));
}

#[test]
fn a_random_sheet_follows_from_its_seed_and_number() {
    let bytes = |seed, number| random_sheet(seed, number).bytes;
    assert_eq!(bytes(1, 7), bytes(1, 7));
    assert_ne!(bytes(1, 7), bytes(2, 7));
    assert_ne!(bytes(1, 7), bytes(1, 8));
    assert_eq!(bytes(1, 0).len(), 33_093);
}

#[test]
fn sheets_whose_steps_are_all_refused_have_steps_and_no_effect() {
    for seed in 1..=3 {
        let cases = refused_sheets(seed);
        assert_eq!(cases.len(), 50);
        for Case { name, bytes, .. } in cases {
            let sheet = Sheet::decode(&bytes).expect(&name);
            assert!(!sheet.calls().is_empty(), "{name}");
            assert_eq!(Program::Trace.wanted(&bytes), "", "{name}");
        }
    }
}
