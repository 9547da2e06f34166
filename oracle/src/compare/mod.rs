//! Sheets for the programs that read one from standard input and print what it
//! gives, one its run and one its trace, each compared with this library: every
//! byte of the output, the status, and that nothing goes to standard error.

mod bad;
mod case;
mod draw;
mod edges;
mod effects;
mod failure;
mod ignoring;
mod in_the_way;
mod process;
mod program;
mod searching;
mod steps;
mod tally;
mod traced;

pub use bad::bad_sheets;
pub use case::Case;
pub use draw::{changed_sheets, full_sheet, random_sheet, refused_sheets};
pub use edges::{cut_sheets, edge_sheets, long_inputs, sheets_in_pieces};
pub use failure::Failure;
pub use process::Process;
pub use program::Program;
pub use tally::{Tally, LEAST_COUNTS_ARE_FOR};

use crate::binary::Sheet;

/// What a program gave back.
#[derive(Clone, Debug)]
pub struct Given {
    /// What it wrote to standard output.
    pub output: Vec<u8>,
    /// What it wrote to standard error.
    pub errors: Vec<u8>,
    /// How it ended.
    pub ended: Ended,
}

/// How a program ended.
#[derive(Clone, Copy, Debug, PartialEq, Eq)]
pub enum Ended {
    /// By itself, with this status.
    WithStatus(i32),
    /// By a signal.
    BySignal,
    /// It had to be ended.
    NotInTime,
}

/// Gives a program a sheet. An error means that there is no such program.
pub type Run<'a> = dyn FnMut(Program, &Case) -> Result<Given, String> + 'a;

/// What random sheets are drawn.
#[derive(Clone, Copy, Debug)]
pub struct Plan {
    /// Equal seeds draw equal sheets.
    pub seed: u64,
    /// How many sheets with a commit.
    pub sheets: u64,
}

/// Why a comparison stopped.
#[derive(Debug)]
pub enum Stopped {
    /// A program can't be run.
    NoProgram(String),
    /// One has given something else than what is wanted.
    Failed(Box<Failure>),
}

/// Compares on the examples, on sheets at the edges, good and bad, and on
/// random ones. Before each group it says what comes.
pub fn compare(
    run: &mut Run,
    examples: Vec<Case>,
    plan: Plan,
    say: &mut dyn FnMut(&str),
) -> Result<Tally, Stopped> {
    let groups = [
        ("examples", examples),
        ("good sheets at the edges", edge_sheets()),
        ("bad sheets", bad_sheets()),
        ("sheets cut short", cut_sheets()),
        ("inputs that are too long", long_inputs()),
        ("sheets that arrive in pieces", sheets_in_pieces()),
        ("sheets with a byte changed", changed_sheets(plan.seed)),
        ("sheets whose steps are all refused", refused_sheets(plan.seed)),
    ];
    let mut tally = Tally::default();
    for (what, cases) in groups {
        say(&format!("{} {what}", cases.len()));
        for case in cases {
            tally.note_input(one(run, &case)?.is_some());
        }
    }
    say(&format!("{} random sheets", plan.sheets));
    for number in 0..plan.sheets {
        let sheet = one(run, &random_sheet(plan.seed, number))?;
        tally.note_input(sheet.is_some());
        sheet.iter().for_each(|sheet| tally.note_steps(sheet));
    }
    Ok(tally)
}

/// Compares both programs on one input, and answers the sheet if it is a good
/// one.
fn one(run: &mut Run, case: &Case) -> Result<Option<Sheet>, Stopped> {
    for program in Program::BOTH {
        let given = run(program, case).map_err(Stopped::NoProgram)?;
        failure::compare_with(program, case, &given).map_err(Stopped::Failed)?;
    }
    Ok(Sheet::decode(&case.bytes).ok())
}
