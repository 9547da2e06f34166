//! What is told when a program gives something else.

use std::fmt;

use super::{Case, Ended, Given, Program};
use crate::binary::Sheet;
use crate::text;

/// Bytes of a line that are shown.
const SHOWN: usize = 120;

/// The program, the input, and how what the one gave for the other differs.
#[derive(Clone, Debug)]
pub struct Failure {
    /// The program.
    pub program: Program,
    /// The input.
    pub case: Case,
    /// The differences, a line each.
    pub report: Vec<String>,
}

impl fmt::Display for Failure {
    fn fmt(&self, f: &mut fmt::Formatter) -> fmt::Result {
        let Case { name, bytes, .. } = &self.case;
        write!(f, "{} of {name} ({} bytes)", self.program, bytes.len())?;
        self.report.iter().try_for_each(|line| write!(f, "\n  {line}"))
    }
}

/// An error says how the given differs from the wanted.
pub(super) fn compare_with(
    program: Program,
    case: &Case,
    given: &Given,
) -> Result<(), Box<Failure>> {
    let lines = [ended(given), errors(given), output(program, case, &given.output)];
    let report: Vec<String> = lines.into_iter().flatten().collect();
    if report.is_empty() {
        return Ok(());
    }
    Err(Box::new(Failure { program, case: case.clone(), report }))
}

fn ended(given: &Given) -> Option<String> {
    match given.ended {
        Ended::WithStatus(0) => None,
        Ended::WithStatus(status) => Some(format!("it ended with status {status}, wanted 0")),
        Ended::BySignal => Some("it was ended by a signal".to_string()),
        Ended::NotInTime => Some("it did not end in time".to_string()),
    }
}

fn errors(given: &Given) -> Option<String> {
    let some = !given.errors.is_empty();
    some.then(|| format!("it wrote to standard error: {}", quoted(&given.errors)))
}

/// Lines are compared with their newlines: a missing one is a difference.
fn output(program: Program, case: &Case, given: &[u8]) -> Option<String> {
    let wanted = program.wanted(&case.bytes);
    if wanted.as_bytes() == given {
        return None;
    }
    let mut wanted = wanted.as_bytes().split_inclusive(|byte| *byte == b'\n');
    let mut given = given.split_inclusive(|byte| *byte == b'\n');
    for line in 1.. {
        let (right, wrong) = (wanted.next(), given.next());
        if right != wrong {
            let (right, wrong) = (line_or_none(right), line_or_none(wrong));
            let step = step_at(program, case, line);
            return Some(format!("line {line}: wanted {right}{step}, given {wrong}"));
        }
    }
    None
}

fn line_or_none(line: Option<&[u8]>) -> String {
    line.map_or("no such line".to_string(), quoted)
}

fn quoted(bytes: &[u8]) -> String {
    let more = if bytes.len() > SHOWN { ".." } else { "" };
    format!("\"{}\"{more}", bytes[..bytes.len().min(SHOWN)].escape_ascii())
}

/// The step that a wanted line is about, in the text form. The given line may be
/// about another one.
fn step_at(program: Program, case: &Case, line: usize) -> String {
    let Ok(sheet) = Sheet::decode(&case.bytes) else {
        return " (a bad sheet)".to_string();
    };
    let texts = text::show(&sheet);
    let mut texts = texts.lines().skip(sheet.cells().len());
    let place = program.place_of(&sheet, line);
    let step = place.and_then(|place| Some((place, texts.nth(place - 1)?)));
    step.map_or(String::new(), |(place, step)| format!(" of step {place} ({step})"))
}
