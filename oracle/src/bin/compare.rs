//! Compares the program that runs step sheets and the one that traces them with
//! the oracle.
//!
//! `compare PROGRAM TRACER EXAMPLES [seed=N] [sheets=N] [keep=FILE]`: PROGRAM and
//! TRACER read a binary sheet from standard input, EXAMPLES is a folder of sheets
//! in either form. The first input that one of them answers otherwise is kept in
//! FILE. What the random sheets have reached is judged from 2,000 of them on,
//! which is how many there are if nothing is said.

use std::env;
use std::fs;
use std::path::Path;
use std::process::ExitCode;

use oracle::compare::{
    compare, Case, Failure, Plan, Process, Program, Stopped, Tally, LEAST_COUNTS_ARE_FOR,
};
use oracle::{forms, text};

const USAGE: &str = "usage: compare PROGRAM TRACER EXAMPLES [seed=N] [sheets=N] [keep=FILE]\n\
    least counts are judged from sheets=2000 on, which is the usual number";
const KEEP: &str = "failed.sheet";

struct Asked {
    program: String,
    tracer: String,
    examples: String,
    plan: Plan,
    keep: String,
}

fn main() -> ExitCode {
    let arguments: Vec<String> = env::args().skip(1).collect();
    let Some(asked) = Asked::read(&arguments) else {
        return misused(USAGE);
    };
    let examples = match examples(Path::new(&asked.examples)) {
        Ok(examples) => examples,
        Err(error) => return misused(&error),
    };
    let Plan { seed, sheets } = asked.plan;
    println!("compare: {} and {}, seed={seed} sheets={sheets}", asked.program, asked.tracer);
    let mut run = |program, case: &Case| Process::new(asked.path_of(program)).run(case);
    let mut say = |what: &str| println!("compare: {what}");
    match compare(&mut run, examples, asked.plan, &mut say) {
        Ok(tally) => report(&asked, &tally),
        Err(Stopped::Failed(failure)) => report_failure(&asked, &failure),
        Err(Stopped::NoProgram(error)) => misused(&error),
    }
}

impl Asked {
    fn read(arguments: &[String]) -> Option<Asked> {
        let [program, tracer, examples, options @ ..] = arguments else {
            return None;
        };
        let mut asked = Asked {
            program: program.clone(),
            tracer: tracer.clone(),
            examples: examples.clone(),
            plan: Plan { seed: 1, sheets: LEAST_COUNTS_ARE_FOR },
            keep: KEEP.to_string(),
        };
        for option in options {
            match option.split_once('=')? {
                ("seed", number) => asked.plan.seed = number.parse().ok()?,
                ("sheets", number) => asked.plan.sheets = number.parse().ok()?,
                ("keep", file) => asked.keep = file.to_string(),
                _ => return None,
            }
        }
        Some(asked)
    }

    fn path_of(&self, program: Program) -> &str {
        match program {
            Program::Run => &self.program,
            Program::Trace => &self.tracer,
        }
    }
}

fn misused(error: &str) -> ExitCode {
    eprintln!("compare: {error}");
    ExitCode::from(2)
}

/// The sheets of the folder, in the order of their names.
fn examples(folder: &Path) -> Result<Vec<Case>, String> {
    let unreadable = |error| format!("can't read {}: {error}", folder.display());
    let mut cases = Vec::new();
    for entry in fs::read_dir(folder).map_err(unreadable)? {
        let file = entry.map_err(unreadable)?.path();
        cases.push(example(&file).map_err(|error| format!("{}: {error}", file.display()))?);
    }
    cases.sort_by(|one, other| one.name.cmp(&other.name));
    if cases.is_empty() {
        return Err(format!("there is no sheet in {}", folder.display()));
    }
    Ok(cases)
}

fn example(file: &Path) -> Result<Case, String> {
    let mut bytes = fs::read(file).map_err(|error| error.to_string())?;
    if forms::looks_like_text(&bytes) {
        let sheet = text::assemble(&bytes).map_err(|error| error.to_string())?;
        bytes = sheet.encode();
    }
    Ok(Case::new(file.display().to_string(), bytes))
}

fn report(asked: &Asked, tally: &Tally) -> ExitCode {
    println!("{tally}");
    let Plan { seed, sheets } = asked.plan;
    let judged = sheets >= LEAST_COUNTS_ARE_FOR;
    if !judged {
        println!("compare: {sheets} random sheets are too few to judge what they have reached");
    }
    let short = if judged { tally.short(sheets) } else { Vec::new() };
    for line in &short {
        println!("compare: FAILED, too few: {line}");
    }
    if !short.is_empty() {
        return ExitCode::FAILURE;
    }
    println!("compare: {} inputs answered alike, seed {seed}", tally.compared());
    ExitCode::SUCCESS
}

fn report_failure(asked: &Asked, failure: &Failure) -> ExitCode {
    let (program, keep) = (asked.path_of(failure.program), &asked.keep);
    println!("compare: FAILED\n{failure}");
    match fs::write(keep, &failure.case.bytes) {
        Ok(()) => println!("compare: repeat with `{program} < {keep}`"),
        Err(error) => println!("compare: can't keep the input in {keep}: {error}"),
    }
    ExitCode::FAILURE
}
