//! The text form of a sheet, that people can write and read.
//!
//! One line per cell, then one line per step; `#` starts a comment. Every
//! binary sheet can be shown in this form and assembled back byte for byte:
//! what has no name is written as `raw` (a value) or `step` (a whole step).

use std::fmt;
use std::str::SplitWhitespace;

use crate::binary::{Sheet, STEPS_AT_MOST};
use crate::call::{Call, Step};
use crate::machine::CELLS_AT_MOST;
use crate::value::{Kind, Value};

/// What some editors put before the first line of a text.
pub const BYTE_ORDER_MARK: &[u8] = "\u{feff}".as_bytes();

/// What is wrong with a text, and where.
#[derive(Clone, Debug, PartialEq, Eq)]
pub struct TextError {
    /// The line, from 1.
    pub line: usize,
    /// What is wrong, in plain words.
    pub what: String,
}

impl fmt::Display for TextError {
    fn fmt(&self, f: &mut fmt::Formatter) -> fmt::Result {
        write!(f, "line {}: {}", self.line, self.what)
    }
}

/// The text of a sheet.
pub fn show(sheet: &Sheet) -> String {
    let mut out = String::new();
    for cell in sheet.cells() {
        add_line(&mut out, &format!("cell {}", value_text(*cell)));
    }
    for call in sheet.calls() {
        let named = named_line(call);
        add_line(&mut out, &named.unwrap_or_else(|| raw_line(call)));
    }
    out
}

fn add_line(out: &mut String, line: &str) {
    out.push_str(line);
    out.push('\n');
}

/// The line of a step by its name, if it has one and the arguments that it
/// doesn't use are 0: a name alone would not bring them back.
fn named_line(call: &Call) -> Option<String> {
    let step = Step::numbered(call.step)?;
    let mut line = format!("{} {}", step.name(), call.slot);
    if step.uses_cell() {
        line += &format!(" {}", call.cell);
    } else if call.cell != 0 {
        return None;
    }
    if step.uses_value() {
        line += &format!(" {}", described_text(call.kind, call.word));
    } else if (call.kind, call.word) != (0, 0) {
        return None;
    }
    Some(line)
}

fn raw_line(call: &Call) -> String {
    let Call { step, slot, cell, kind, word } = call;
    format!("step {step} {slot} {cell} {kind} {word:#010x}")
}

fn described_text(kind: u8, word: u32) -> String {
    let value = Value::described(kind, word);
    value.map_or_else(|| format!("raw {kind} {word:#010x}"), value_text)
}

fn value_text(value: Value) -> String {
    let kind = value.kind().name();
    match value {
        Value::Truth(truth) => format!("{kind} {truth}"),
        Value::Whole(whole) => format!("{kind} {whole}"),
        // The debug form is the shortest that parses back to the same bits.
        Value::Real(real) => format!("{kind} {real:?}"),
    }
}

/// The sheet of a text.
pub fn assemble(bytes: &[u8]) -> Result<Sheet, TextError> {
    let text = utf8(unmarked(bytes))?;
    let mut draft = Draft::default();
    let mut last = 1;
    for (line, words) in (1..).zip(text.lines()) {
        draft.add(words).map_err(|what| TextError { line, what })?;
        last = line;
    }
    let sheet = Sheet::new(draft.cells, draft.calls);
    sheet.map_err(|bad| TextError { line: last, what: format!("the text ends here, but {bad}") })
}

/// A text without the byte order mark before it, if there is one.
pub fn unmarked(bytes: &[u8]) -> &[u8] {
    bytes.strip_prefix(BYTE_ORDER_MARK).unwrap_or(bytes)
}

fn utf8(bytes: &[u8]) -> Result<&str, TextError> {
    std::str::from_utf8(bytes).map_err(|error| {
        let before = bytes.iter().take(error.valid_up_to());
        TextError {
            line: 1 + before.filter(|byte| **byte == b'\n').count(),
            what: "there is a byte here that is not text in UTF-8".to_string(),
        }
    })
}

/// What the lines so far have brought.
#[derive(Default)]
struct Draft {
    cells: Vec<Value>,
    calls: Vec<Call>,
}

impl Draft {
    /// Limits are checked here too, for the line where they are passed.
    fn add(&mut self, line: &str) -> Result<(), String> {
        match parse_line(line)? {
            Line::Empty => Ok(()),
            Line::Cell(_) if !self.calls.is_empty() => {
                Err("a cell comes after a step; all cells come first".to_string())
            }
            Line::Cell(_) if self.cells.len() >= CELLS_AT_MOST => {
                Err(format!("this is one cell too many; a sheet has at most {CELLS_AT_MOST}"))
            }
            Line::Cell(value) => {
                self.cells.push(value);
                Ok(())
            }
            Line::Step(_) if self.cells.is_empty() => {
                Err("a step comes before any cell; a sheet begins with its cells".to_string())
            }
            Line::Step(_) if self.calls.len() >= STEPS_AT_MOST => {
                Err(format!("this is one step too many; a sheet has at most {STEPS_AT_MOST}"))
            }
            Line::Step(call) => {
                self.calls.push(call);
                Ok(())
            }
        }
    }
}

enum Line {
    Empty,
    Cell(Value),
    Step(Call),
}

fn parse_line(line: &str) -> Result<Line, String> {
    let before_comment = line.split('#').next().unwrap_or_default();
    let mut words = Words(before_comment.split_whitespace());
    let parsed = match words.0.next() {
        None => Line::Empty,
        Some("cell") => Line::Cell(parse_cell(&mut words)?),
        Some("step") => Line::Step(parse_raw(&mut words)?),
        Some(name) => {
            let step = parse_name(name, &mut words)?;
            Line::Step(parse_step(step, &mut words)?)
        }
    };
    match words.0.next() {
        None => Ok(parsed),
        Some(word) => Err(format!("the line should end before {word:?}")),
    }
}

fn parse_cell(words: &mut Words) -> Result<Value, String> {
    let (kind, word) = parse_value(words)?;
    Value::described(kind, word)
        .ok_or_else(|| format!("a cell can't have kind {kind} with word {word:#010x}"))
}

fn parse_raw(words: &mut Words) -> Result<Call, String> {
    Ok(Call {
        step: words.byte("the step number")?,
        slot: words.byte("the slot")?,
        cell: words.byte("the cell")?,
        kind: words.byte("the kind")?,
        word: words.number("the word", u32::MAX)?,
    })
}

fn parse_name(name: &str, words: &mut Words) -> Result<Step, String> {
    if name == "giveup" {
        return Ok(Step::GiveUp);
    }
    if name == "give" {
        return match words.0.next() {
            Some("up") => Ok(Step::GiveUp),
            _ => Err("\"give\" should go on with \"up\"".to_string()),
        };
    }
    let mut steps = Step::ALL.into_iter();
    let step = steps.find(|step| step.name() == name);
    step.ok_or_else(|| format!("{name:?} is neither \"cell\" nor the name of a step"))
}

fn parse_step(step: Step, words: &mut Words) -> Result<Call, String> {
    let mut call = Call { step: step.number(), slot: words.byte("the slot")?, ..Call::default() };
    if step.uses_cell() {
        call.cell = words.byte("the cell")?;
    }
    if step.uses_value() {
        (call.kind, call.word) = parse_value(words)?;
    }
    Ok(call)
}

/// Kind and word of a value. With `raw` they may be illegal.
fn parse_value(words: &mut Words) -> Result<(u8, u32), String> {
    let name = words.next("the kind")?;
    if name == "raw" {
        let kind = words.byte("the kind")?;
        return Ok((kind, words.number("the word", u32::MAX)?));
    }
    let kind = Kind::named(name)
        .ok_or_else(|| format!("{name:?} is no kind; the kinds are truth, whole, real and raw"))?;
    let value = match kind {
        Kind::Truth => Value::Truth(parse_truth(words.next("the truth value")?)?),
        Kind::Whole => Value::Whole(parse_whole(words.next("the whole number")?)?),
        Kind::Real => Value::Real(parse_real(words.next("the real")?)?),
    };
    Ok((kind.number(), value.word()))
}

fn parse_truth(word: &str) -> Result<bool, String> {
    match word {
        "false" | "0" => Ok(false),
        "true" | "1" => Ok(true),
        _ => Err(format!("the truth value is {word:?}; it should be true, false, 1 or 0")),
    }
}

/// Hex digits stand for the word itself, so that 0xffffffff is -1.
fn parse_whole(word: &str) -> Result<i32, String> {
    let what = "the whole number";
    if word.starts_with("0x") {
        return Ok(parse_number(what, word, u32::MAX)? as i32);
    }
    let digits = word.strip_prefix('-').unwrap_or(word);
    if !all_digits(digits, 10) {
        return Err(no_number(what, word));
    }
    let (least, most) = (i32::MIN, i32::MAX);
    word.parse().map_err(|_| format!("{what} is {word}; it should be from {least} to {most}"))
}

fn parse_real(word: &str) -> Result<f32, String> {
    let real: f32 = word
        .parse()
        .map_err(|_| format!("the real is {word:?}, which is no number like 2.5 or -1e-3"))?;
    if !real.is_finite() {
        return Err(format!("the real is {word}, which is not finite in 32 bits"));
    }
    Ok(real)
}

fn parse_number(what: &str, word: &str, most: u32) -> Result<u32, String> {
    let (digits, base) = match word.strip_prefix("0x") {
        Some(digits) => (digits, 16),
        None => (word, 10),
    };
    if !all_digits(digits, base) {
        return Err(no_number(what, word));
    }
    // With digits alone, the only way to fail is to be too large.
    let number = u32::from_str_radix(digits, base).ok();
    let in_range = number.filter(|number| *number <= most);
    in_range.ok_or_else(|| format!("{what} is {word}; it should be at most {most}"))
}

fn all_digits(digits: &str, base: u32) -> bool {
    !digits.is_empty() && digits.chars().all(|digit| digit.is_digit(base))
}

fn no_number(what: &str, word: &str) -> String {
    format!("{what} is {word:?}, which is no number in decimal or in hex with 0x")
}

/// The words of a line that are not parsed yet.
struct Words<'a>(SplitWhitespace<'a>);

impl<'a> Words<'a> {
    fn next(&mut self, what: &str) -> Result<&'a str, String> {
        self.0.next().ok_or_else(|| format!("{what} is missing"))
    }

    fn number(&mut self, what: &str, most: u32) -> Result<u32, String> {
        parse_number(what, self.next(what)?, most)
    }

    fn byte(&mut self, what: &str) -> Result<u8, String> {
        Ok(self.number(what, u32::from(u8::MAX))? as u8)
    }
}
