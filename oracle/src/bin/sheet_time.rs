//! The time of a whole sheet on the program that runs sheets and on the one that
//! traces them, each beside that of the oracle's program `sheet`: all as
//! processes, on the same file.
//!
//! `sheet_time PROGRAM TRACER FOLDER`: the sheets are written to FOLDER. A program
//! that is not there is skipped, which is said and is no failure.

use std::env;
use std::fs::{self, File};
use std::path::Path;
use std::process::{Command, ExitCode, Stdio};
use std::time::{Duration, Instant};

use oracle::binary::STEPS_AT_MOST;
use oracle::compare::{full_sheet, Program};
use oracle::Sheet;

const TIMES: usize = 25;
const SEED: u64 = 1;

/// A program beside the oracle's command, with the best time of each so far.
struct Pair {
    which: Program,
    program: (Command, Duration),
    oracle: (Command, Duration),
}

fn main() -> ExitCode {
    let arguments: Vec<String> = env::args().skip(1).collect();
    let [program, tracer, folder] = &arguments[..] else {
        return misused();
    };
    let both = Program::BOTH.into_iter().zip([program, tracer].map(Path::new));
    let (there, missing): (Vec<_>, Vec<_>) = both.partition(|(_, path)| path.exists());
    for (_, path) in missing {
        let path = path.display();
        println!("time of a sheet: skipped, there is no {path}: `make program` builds it");
    }
    if there.is_empty() {
        return ExitCode::SUCCESS;
    }
    match measure(&there, Path::new(folder)) {
        Ok(()) => ExitCode::SUCCESS,
        Err(error) => {
            eprintln!("sheet_time: {error}");
            ExitCode::FAILURE
        }
    }
}

fn misused() -> ExitCode {
    eprintln!("usage: sheet_time PROGRAM TRACER FOLDER");
    ExitCode::from(2)
}

fn measure(programs: &[(Program, &Path)], folder: &Path) -> Result<(), String> {
    println!("time of a sheet with 64 cells in milliseconds, as a process, the best of {TIMES}:");
    println!("steps  command  program  oracle  ratio");
    let full = full_sheet(SEED);
    let times = measure_on(STEPS_AT_MOST, full.clone(), programs, folder)?;
    // What starting a process takes is in all of them.
    measure_on(0, without_steps(&full)?, programs, folder)?;
    if let [run, trace] = times[..] {
        let ratio = trace / run;
        println!("{STEPS_AT_MOST} steps: the trace takes {ratio:.2} times as long as the run");
    }
    Ok(())
}

/// Writes a line for each program, and answers their milliseconds.
fn measure_on(
    steps: usize,
    sheet: Vec<u8>,
    programs: &[(Program, &Path)],
    folder: &Path,
) -> Result<Vec<f64>, String> {
    let file = folder.join(format!("{steps}-steps.sheet"));
    fs::write(&file, sheet).map_err(|error| format!("{}: {error}", file.display()))?;
    let mut times = Vec::new();
    for Pair { which, program, oracle } in best_times(programs, &file)? {
        let (program, oracle) = (milliseconds(program.1), milliseconds(oracle.1));
        let ratio = program / oracle;
        println!("{steps:5}  {which:7}  {program:7.2}  {oracle:6.2}  {ratio:5.2}");
        times.push(program);
    }
    Ok(times)
}

/// All take turns: what else the machine does is then the same for each.
fn best_times(programs: &[(Program, &Path)], file: &Path) -> Result<Vec<Pair>, String> {
    // It is built into the same folder as this program.
    let here = env::current_exe().map_err(|error| error.to_string())?;
    let oracle = here.with_file_name("sheet");
    let pairs = programs.iter().map(|(which, program)| Pair::new(*which, program, &oracle));
    let mut pairs: Vec<Pair> = pairs.collect();
    for _ in 0..TIMES {
        pairs.iter_mut().try_for_each(|pair| pair.take_turn(file))?;
    }
    Ok(pairs)
}

impl Pair {
    fn new(which: Program, program: &Path, oracle: &Path) -> Pair {
        let mut command = Command::new(oracle);
        command.arg(which.to_string());
        let program = (Command::new(program), Duration::MAX);
        Pair { which, program, oracle: (command, Duration::MAX) }
    }

    /// Of each the best time counts: what else the machine does only adds.
    fn take_turn(&mut self, file: &Path) -> Result<(), String> {
        let (time, given) = timed(&mut self.program.0, file)?;
        let (time_of_oracle, wanted) = timed(&mut self.oracle.0, file)?;
        if given != wanted {
            return Err("the outputs differ: `make sheets-test` shows where".to_string());
        }
        self.program.1 = time.min(self.program.1);
        self.oracle.1 = time_of_oracle.min(self.oracle.1);
        Ok(())
    }
}

fn milliseconds(time: Duration) -> f64 {
    time.as_secs_f64() * 1e3
}

fn without_steps(sheet: &[u8]) -> Result<Vec<u8>, String> {
    let sheet = Sheet::decode(sheet).map_err(|bad| bad.to_string())?;
    let none = Sheet::new(sheet.cells().to_vec(), Vec::new()).map_err(|bad| bad.to_string())?;
    Ok(none.encode())
}

fn timed(command: &mut Command, file: &Path) -> Result<(Duration, Vec<u8>), String> {
    let sheet = File::open(file).map_err(|error| format!("{}: {error}", file.display()))?;
    command.stdin(sheet).stderr(Stdio::inherit());
    let start = Instant::now();
    let output = command.output();
    let time = start.elapsed();
    let output = output.map_err(|error| format!("{:?}: {error}", command.get_program()))?;
    Ok((time, output.stdout))
}
