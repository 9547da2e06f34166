//! Tracers that are wrong in one way.

use oracle::compare::{edge_sheets, random_sheet, refused_sheets, Case, Given, Program};

use crate::comparing::{compared_one, prints};
use crate::tracing::{effect, number, numbers, traced, Seen, Told};

type Tracer = Box<dyn Fn(&Case) -> Given>;
type Effect = fn(&Seen) -> Told;
type Commit = fn(&Seen) -> Vec<u64>;
type Number = fn(&Seen) -> u64;
type Writer = fn(String) -> String;

/// With a wrong look at one of the steps.
const WRONG_EFFECTS: [(&str, Effect); 29] = [
    ("reads from the read log shown", |seen| also(seen, seen.is_from_the_read_log(), "r")),
    ("reads from the write log shown", |seen| also(seen, seen.is_from_the_write_log(), "r")),
    ("the next slot's log makes a read silent", |seen| {
        but(seen, seen.is_read_in_logs(&seen.before, seen.next_slot()))
    }),
    ("the logs looked at after the read", |seen| {
        but(seen, seen.is_read_in_logs(&seen.after, seen.call.slot))
    }),
    ("refused reads shown", |seen| also(seen, seen.call.step == 2 && seen.code > 3, "r")),
    ("rereads shown", |seen| also(seen, seen.is(7, 0), "r")),
    ("refused begin shown", |seen| also(seen, seen.is(1, 4), "at")),
    ("write shown", |seen| also(seen, seen.is(3, 0), "w")),
    ("enter shown", |seen| also(seen, seen.is(6, 0), "en")),
    ("update shown", |seen| also(seen, seen.is(8, 0), "w")),
    ("ignore shown", |seen| also(seen, seen.is(11, 0), "ig")),
    ("reload silent", |seen| but(seen, seen.is(10, 0))),
    ("refused reload shown", |seen| also(seen, seen.is(10, 11), "rl")),
    ("outcome 13 as co", |seen| also(seen, seen.is(12, 13), "co")),
    ("outcome 13 silent", |seen| but(seen, seen.is(12, 13))),
    ("a commit with marks as ab", |seen| also(seen, seen.commits() && seen.is_ignoring(), "ab")),
    ("a commit of no cell silent", |seen| but(seen, seen.commits() && seen.written().is_empty())),
    ("a commit silent until all is published", |seen| match seen.commits() {
        true => effect(seen).filter(|_| seen.written().is_empty()),
        false => also(seen, seen.is(13, 0) && seen.is_idle_after(), "co"),
    }),
    ("publish as co", |seen| also(seen, seen.is(13, 0), "co")),
    ("refused finish as ab", |seen| also(seen, seen.is(12, 4), "ab")),
    ("give up silent", |seen| but(seen, seen.is(14, 0))),
    ("give up silent in open", |seen| but(seen, seen.is(14, 0) && seen.phase() == 1)),
    ("give up silent in locking", |seen| but(seen, seen.is(14, 0) && seen.phase() == 2)),
    ("give up silent in twilight", |seen| but(seen, seen.is(14, 0) && seen.phase() == 3)),
    ("refused give up shown", |seen| also(seen, seen.is(14, 4), "ab")),
    ("ab told apart", |seen| also(seen, seen.is(14, 0), "gu")),
    ("the reload of a slot as at", |seen| also(seen, seen.is(10, 0), "at")),
    ("all that is accepted", |seen| also(seen, seen.code == 0 && effect(seen).is_none(), "ok")),
    ("nothing", |_| None),
];

/// With something else behind the number of a commit.
const WRONG_COMMITS: [(&str, Commit); 14] = [
    ("the clock for the stamp", |seen| with(seen.after.clock(), seen.written())),
    ("the start for the stamp", |seen| with(seen.before.start(seen.call.slot), seen.written())),
    // It is 0 for no cell, and still there for others.
    ("the stamp after the finish", |seen| with(seen.after.commit(seen.call.slot), seen.written())),
    ("the stamp of enter after a reload", |seen| with(seen.entered(), seen.written())),
    ("the stamp in a byte", |seen| with(seen.stamp() % 256, seen.written())),
    ("no stamp", |seen| seen.written()),
    ("the stamp behind the cells", |seen| [seen.written(), vec![seen.stamp()]].concat()),
    ("the number of cells before them", |seen| {
        with(seen.stamp(), with(seen.written().len() as u64, seen.written()))
    }),
    ("the cells of the next slot's write log", |seen| {
        with(seen.stamp(), numbers(seen.before.write_cells(seen.next_slot())))
    }),
    ("the cells of slot 1's write log", |seen| {
        with(seen.stamp(), numbers(seen.before.write_cells(1)))
    }),
    ("the cells that were read", |seen| {
        with(seen.stamp(), numbers(seen.before.read_cells(seen.call.slot)))
    }),
    ("cells in order of writing", |seen| with(seen.stamp(), seen.in_order_of_writing())),
    ("the highest cell first", |seen| {
        with(seen.stamp(), seen.written().into_iter().rev().collect())
    }),
    ("15 cells at most", |seen| with(seen.stamp(), seen.written().into_iter().take(15).collect())),
];

/// With another number for the transaction.
const WRONG_NUMBERS: [(&str, Number); 7] = [
    ("numbers from 0", |seen| number(seen) - 1),
    ("refused begins counted", |seen| seen.number_by(|_, _| true)),
    ("begins counted that a slot refuses", |seen| seen.number_by(|_, code| [0, 4].contains(&code))),
    ("numbers counted by slot", |seen| {
        seen.number_by(|begin, code| code == 0 && begin.slot == seen.call.slot)
    }),
    ("the last number of all slots", |seen| {
        seen.begins.iter().filter(|(_, code)| *code == 0).count() as u64
    }),
    ("numbers in a byte", |seen| number(seen) % 256),
    ("numbers of three digits", |seen| number(seen) % 1000),
];

/// With a wrong way to write the lines.
const WRONG_WRITERS: [(&str, Writer); 11] = [
    ("a space at the end", |trace| trace.replace('\n', " \n")),
    ("a space behind the stamp of no cell", |trace| {
        each_line(&trace, |fields| match fields {
            ["co", _, _, _] => fields.join(" ") + " ",
            _ => fields.join(" "),
        })
    }),
    ("two spaces", |trace| trace.replace("co ", "co  ")),
    ("no newline at the end", |trace| trace.trim_end().to_string()),
    ("a newline for a run without effects", |trace| {
        if trace.is_empty() {
            "\n".to_string()
        } else {
            trace
        }
    }),
    ("a run without effects is bad", |trace| {
        if trace.is_empty() {
            "bad sheet\n".to_string()
        } else {
            trace
        }
    }),
    ("the number before the slot", |trace| {
        each_line(&trace, |fields| match fields {
            [name, slot, number, more @ ..] => [&[*name, number, slot], more].concat().join(" "),
            _ => fields.join(" "),
        })
    }),
    (
        "upper-case letters",
        |trace| {
            if trace == "bad sheet\n" {
                trace
            } else {
                trace.to_uppercase()
            }
        },
    ),
    ("places before the lines", |trace| {
        let lines = trace.lines().zip(1..);
        let is_bad = trace == "bad sheet\n";
        if is_bad {
            trace
        } else {
            lines.map(|(line, at)| format!("{at} {line}\n")).collect()
        }
    }),
    ("room for 32,768 bytes", |trace| trace.chars().take(32_768).collect()),
    ("room for 10 bytes a step", |trace| trace.chars().take(40_960).collect()),
];

/// These show where there are more transactions, stamps or lines than in the
/// random sheets of the test below.
const BEYOND_THESE_SHEETS: [&str; 5] = [
    "numbers in a byte",
    "numbers of three digits",
    "the stamp in a byte",
    "room for 32,768 bytes",
    "room for 10 bytes a step",
];

/// Something more with this name, told as it would be of the step that has it.
fn also(seen: &Seen, is_such: bool, name: &'static str) -> Told {
    let more = match name {
        _ if !is_such => return effect(seen),
        "r" | "w" => vec![seen.call.cell.into()],
        "co" => with(seen.stamp(), seen.written()),
        _ => Vec::new(),
    };
    Some((name, more))
}

fn but(seen: &Seen, is_such: bool) -> Told {
    effect(seen).filter(|_| !is_such)
}

fn with(stamp: u64, cells: Vec<u64>) -> Vec<u64> {
    [vec![stamp], cells].concat()
}

fn each_line(trace: &str, line: fn(&[&str]) -> String) -> String {
    trace.lines().map(|of| line(&of.split(' ').collect::<Vec<_>>()) + "\n").collect()
}

/// All of them, with their names.
fn wrong_tracers() -> Vec<(&'static str, Tracer)> {
    let effects = WRONG_EFFECTS.map(|(name, wrong)| (name, with_effect(wrong)));
    let commits = WRONG_COMMITS.map(|(name, wrong)| (name, with_commit(wrong)));
    let numbers = WRONG_NUMBERS.map(|(name, wrong)| (name, with_number(wrong)));
    let writers = WRONG_WRITERS.map(|(name, wrong)| (name, with_writer(wrong)));
    effects.into_iter().chain(commits).chain(numbers).chain(writers).collect()
}

fn with_effect(wrong: Effect) -> Tracer {
    Box::new(move |case| traced(case, &wrong, number))
}

fn with_commit(wrong: Commit) -> Tracer {
    let told = move |seen: &Seen| match seen.commits() {
        true => Some(("co", wrong(seen))),
        false => effect(seen),
    };
    Box::new(move |case| traced(case, &told, number))
}

fn with_number(wrong: Number) -> Tracer {
    Box::new(move |case| traced(case, &effect, wrong))
}

fn with_writer(wrong: Writer) -> Tracer {
    Box::new(move |case| prints(wrong(Program::Trace.wanted(&case.bytes))))
}

/// By the sheets at the edges alone, without a random one.
#[test]
fn every_wrong_tracer_is_caught_at_the_edges() {
    for (name, wrong) in wrong_tracers() {
        let failure = compared_one(Program::Trace, &wrong, 0).expect_err(name);
        println!("{name}: {}", failure.case.name);
        assert_eq!(failure.program, Program::Trace, "{name}");
        let is_edge = edge_sheets().iter().any(|case| case.name == failure.case.name);
        assert!(is_edge, "{name}: {}", failure.case.name);
    }
}

#[test]
fn random_sheets_catch_the_wrong_tracers_that_short_ones_show() {
    let drawn = (1..200).map(|number| random_sheet(1, number));
    let sheets: Vec<Case> = drawn.chain(refused_sheets(1)).collect();
    for (name, wrong) in wrong_tracers() {
        let is_wrong =
            |case: &Case| wrong(case).output != Program::Trace.wanted(&case.bytes).as_bytes();
        let found = sheets.iter().find(|case| is_wrong(case)).map(|case| &case.name);
        println!("{name}: {found:?}");
        assert_eq!(found.is_none(), BEYOND_THESE_SHEETS.contains(&name), "{name}: {found:?}");
    }
}
