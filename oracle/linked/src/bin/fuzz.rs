//! Compares the proved library with the oracle on random calls.
//!
//! `fuzz [calls=N] [seed=N] [round=N]`: at least so many calls, or one round.
//! Without a seed, the time is taken for one.
//!
//! The calls are made by a second process, `fuzz work ..`, so that the round
//! is known even if the library brings the process down.

use std::env;
use std::io::{self, BufRead, BufReader};
use std::process::{ChildStdout, Command, ExitCode, Stdio};
use std::time::{Duration, Instant, SystemTime, UNIX_EPOCH};

use linked::library::LIBRARY;
use oracle::fuzz::{fuzz, one_round, Failure, Tally};

const USAGE: &str = "usage: fuzz [calls=N] [seed=N] [round=N]";
const CALLS: u64 = 250_000;
/// The status if the calls were answered alike and reached too little.
const TOO_FEW: u8 = 3;
const BETWEEN_SIGNS_OF_LIFE: Duration = Duration::from_secs(5);

/// How a line begins that is for the first process and not to be printed.
const ROUND: &str = "round ";

#[derive(Clone, Copy)]
struct Plan {
    calls: u64,
    seed: u64,
    round: Option<u64>,
}

fn main() -> ExitCode {
    let mut arguments: Vec<String> = env::args().skip(1).collect();
    let works = arguments.first().is_some_and(|first| first == "work");
    if works {
        arguments.remove(0);
    }
    match Plan::read(&arguments) {
        None => {
            eprintln!("{USAGE}");
            ExitCode::from(2)
        }
        Some(plan) if works => work(plan),
        Some(plan) => watch(plan).unwrap_or_else(|error| {
            eprintln!("fuzz: {error}");
            ExitCode::from(2)
        }),
    }
}

impl Plan {
    fn read(arguments: &[String]) -> Option<Plan> {
        let time = SystemTime::now().duration_since(UNIX_EPOCH).map_or(0, |time| time.as_secs());
        let mut plan = Plan { calls: CALLS, seed: time, round: None };
        for argument in arguments {
            let (name, number) = argument.split_once('=')?;
            let number = number.parse().ok()?;
            match name {
                "calls" => plan.calls = number,
                "seed" => plan.seed = number,
                "round" => plan.round = Some(number),
                _ => return None,
            }
        }
        Some(plan)
    }

    fn words(self) -> Vec<String> {
        let mut words = vec![format!("calls={}", self.calls), format!("seed={}", self.seed)];
        words.extend(self.round.map(|round| format!("round={round}")));
        words
    }
}

/// Starts the second process and says where it was if it does not end well.
fn watch(plan: Plan) -> io::Result<ExitCode> {
    let mut command = Command::new(env::current_exe()?);
    let mut worker = command.arg("work").args(plan.words()).stdout(Stdio::piped()).spawn()?;
    let round = worker.stdout.take().map_or(Ok(0), pass_on)?;
    let status = worker.wait()?;
    match status.code() {
        Some(0) => return Ok(ExitCode::SUCCESS),
        Some(code) if code == i32::from(TOO_FEW) => return Ok(ExitCode::FAILURE),
        Some(_) => {}
        None => println!("fuzz: FAILED, the library brought the process down ({status})"),
    }
    println!("fuzz: repeat with `make fuzz SEED={} ROUND={round}`", plan.seed);
    Ok(ExitCode::FAILURE)
}

/// Prints what the second process says, and answers the last round it began.
fn pass_on(output: ChildStdout) -> io::Result<u64> {
    let mut round = 0;
    for line in BufReader::new(output).lines() {
        let line = line?;
        match line.strip_prefix(ROUND).and_then(|number| number.parse().ok()) {
            Some(number) => round = number,
            None => println!("{line}"),
        }
    }
    Ok(round)
}

fn work(plan: Plan) -> ExitCode {
    println!("fuzz: {}", plan.words().join(" "));
    match run(plan) {
        Ok(tally) => report(plan, &tally),
        Err(failure) => {
            println!("fuzz: FAILED\n{failure}");
            ExitCode::FAILURE
        }
    }
}

fn run(plan: Plan) -> Result<Tally, Failure> {
    if let Some(round) = plan.round {
        println!("{ROUND}{round}");
        let mut tally = Tally::default();
        return one_round(LIBRARY, plan.seed, round, &mut tally).map(|()| tally);
    }
    let mut last_sign = Instant::now();
    fuzz(LIBRARY, plan.seed, plan.calls, &mut |round, tally| {
        println!("{ROUND}{round}");
        if last_sign.elapsed() >= BETWEEN_SIGNS_OF_LIFE {
            println!("fuzz: {} of {} calls, round {round}", tally.calls(), plan.calls);
            last_sign = Instant::now();
        }
    })
}

/// The least counts are for a run, not for one round of it.
fn report(plan: Plan, tally: &Tally) -> ExitCode {
    println!("{tally}");
    let short = if plan.round.is_some() { Vec::new() } else { tally.short() };
    for line in &short {
        println!("fuzz: FAILED, too few: {line}");
    }
    if !short.is_empty() {
        return ExitCode::from(TOO_FEW);
    }
    println!("fuzz: {} calls answered alike, seed {}", tally.calls(), plan.seed);
    ExitCode::SUCCESS
}
