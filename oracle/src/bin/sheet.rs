//! Assembles, shows, runs and traces step sheets.

use std::ffi::{OsStr, OsString};
use std::io::{Read, Write};
use std::path::Path;
use std::process::ExitCode;

use oracle::{forms, run, text, trace, Sheet, TextError, Timeline};

const USAGE: &str = "\
sheet: step sheets for the transaction core

  sheet assemble [FILE]   text to binary; what is binary stays as it is
  sheet show [FILE]       binary to text
  sheet show --timeline [FILE] [--svg OUT]
                          the run of a sheet, in either form: a lane for each
                          slot, a column for each step; with --svg a picture
                          in the file OUT, whose name ends in .svg
  sheet run [FILE]        makes the steps of a sheet, in either form, and prints
                          for each its place, code, kind and word; the word of
                          codes 11 and 14 says who is in the way
  sheet trace [FILE]      makes the steps likewise, and prints the effects of
                          the run, a line each: at for a begin, r for a read of
                          a shared cell (not from a log), rl for a reload, co
                          for a finish that commits, ab for a give up or outcome
                          13; then slot and transaction number, counted from 1;
                          then for r the cell, for co the stamp and the written
                          cells; refused steps and all others have no line

Without FILE the sheet is read from standard input.

The text form has a line for each cell, then a line for each step:

  cell truth true         # also false, 1, 0
  cell whole -5           # also hex: 0xfffffffb is the same word
  cell real 2.5
  cell raw 3 0x40200000   # any kind and word: the same real

  begin SLOT              read SLOT CELL
  close SLOT              reread SLOT CELL
  lock SLOT               ask SLOT CELL
  enter SLOT              write SLOT CELL VALUE
  reload SLOT             update SLOT CELL VALUE
  ignore SLOT
  finish SLOT             with VALUE as after `cell`, for example
  publish SLOT            write 2 0 whole 9
  give up SLOT

  step NUMBER SLOT CELL KIND WORD    any step, also one that has no name

Numbers are decimal or hex (0x1f). A # starts a comment.
A binary sheet begins with byte 1; a text never does.
A picture has at most 400 steps; its title is the comment at the head of a text.
";

/// What goes wrong, with the status to leave with.
struct Failure {
    status: u8,
    what: String,
}

fn main() -> ExitCode {
    let arguments: Vec<OsString> = std::env::args_os().skip(1).collect();
    match answer(&arguments).and_then(|output| write_out(&output)) {
        Ok(()) => ExitCode::SUCCESS,
        Err(failure) => {
            // If even this can't be written, the status still tells.
            let _ = writeln!(std::io::stderr(), "sheet: {}", failure.what);
            ExitCode::from(failure.status)
        }
    }
}

fn answer(arguments: &[OsString]) -> Result<Vec<u8>, Failure> {
    let Some((command, files)) = arguments.split_first() else {
        return Ok(USAGE.into());
    };
    let act: fn(&[u8]) -> Result<Vec<u8>, String> = match command.to_str() {
        Some("show") if files.iter().any(is_option) => return draw(files),
        Some("assemble") => assemble,
        Some("show") => show,
        Some("run") => |input| printed(run::run_either(input)),
        Some("trace") => |input| printed(trace::trace_either(input)),
        Some("help" | "--help" | "-h") => return Ok(USAGE.into()),
        _ => return Err(misused(format!("there is no command {command:?}"))),
    };
    act(&read_input(files)?).map_err(failed)
}

/// The sheet from the one file that is named, or from standard input.
fn read_input(files: &[OsString]) -> Result<Vec<u8>, Failure> {
    match files {
        [] => read_standard_input(),
        [file] => read_file(file),
        [_, more, ..] => Err(misused(format!("{more:?} is one argument too many"))),
    }
}

fn is_option(argument: &OsString) -> bool {
    argument.to_str().is_some_and(|word| word.starts_with("--"))
}

/// Shows the run of a sheet as a timeline, with the options in any order.
fn draw(arguments: &[OsString]) -> Result<Vec<u8>, Failure> {
    let (mut timeline, mut picture, mut files) = (false, None, Vec::new());
    let mut left = arguments.iter();
    while let Some(argument) = left.next() {
        match argument.to_str() {
            Some("--timeline") => timeline = true,
            Some("--svg") => picture = Some(picture_file(left.next())?),
            _ if is_option(argument) => {
                return Err(misused(format!("there is no option {argument:?}")));
            }
            _ => files.push(argument.clone()),
        }
    }
    if !timeline {
        return Err(misused("--svg goes with --timeline".to_string()));
    }
    let drawn = Timeline::read(&read_input(&files)?).map_err(failed)?;
    let Some(out) = picture else {
        return Ok(drawn.plain().into());
    };
    let svg = drawn.svg().map_err(failed)?;
    std::fs::write(&out, svg).map_err(|error| failed(format!("can't write {out:?}: {error}")))?;
    Ok(Vec::new())
}

/// The file of the picture. Without the ending it might be a sheet, named in
/// the wrong place and lost.
fn picture_file(name: Option<&OsString>) -> Result<OsString, Failure> {
    let Some(name) = name else {
        return Err(misused("--svg needs the name of a file".to_string()));
    };
    let ending = Path::new(name).extension().and_then(OsStr::to_str);
    if ending != Some("svg") {
        return Err(misused(format!("{name:?} should end in .svg")));
    }
    Ok(name.clone())
}

/// A bad binary sheet stays as it is too: it is for the program that runs it
/// to say so.
fn assemble(input: &[u8]) -> Result<Vec<u8>, String> {
    if !forms::looks_like_text(input) {
        return Ok(input.to_vec());
    }
    let sheet = text::assemble(input).map_err(|error| error.to_string())?;
    Ok(sheet.encode())
}

fn show(input: &[u8]) -> Result<Vec<u8>, String> {
    let sheet = Sheet::decode(input).map_err(|bad| format!("bad sheet: {bad}"))?;
    Ok(text::show(&sheet).into())
}

fn printed(output: Result<String, TextError>) -> Result<Vec<u8>, String> {
    output.map(String::into_bytes).map_err(|error| error.to_string())
}

fn read_standard_input() -> Result<Vec<u8>, Failure> {
    let mut input = Vec::new();
    let read = std::io::stdin().read_to_end(&mut input);
    read.map_err(|error| failed(format!("can't read standard input: {error}")))?;
    Ok(input)
}

fn read_file(file: &OsString) -> Result<Vec<u8>, Failure> {
    std::fs::read(file).map_err(|error| failed(format!("can't read {file:?}: {error}")))
}

fn write_out(output: &[u8]) -> Result<(), Failure> {
    let mut stdout = std::io::stdout();
    let written = stdout.write_all(output).and_then(|()| stdout.flush());
    written.map_err(|error| failed(format!("can't write the output: {error}")))
}

fn failed(what: String) -> Failure {
    Failure { status: 1, what }
}

fn misused(what: String) -> Failure {
    let what = format!("{what}; sheet alone prints how it is used");
    Failure { status: 2, what }
}
