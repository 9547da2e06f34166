//! The time of a step of the proved library, and areas for other measurements.
//!
//! `bench`: the time over busy sheets, beside that of the yardstick in Rust.
//! `bench check`: the last part of it, the time of the check of an area alone. No
//! replies are compared, so that a library of another version can be measured.
//! `bench cases`: the cases in which each step has most to do, and
//! `bench sheet`: each step of a busy sheet with the area before it, on standard
//! output. Each is 2,486 bytes of area and 8 of the step.
//! `bench calls`: the yardstick makes the steps of `bench cases`, and the number
//! and the code of each are printed, for callgrind to count what it takes.
//! `bench rows`: the row that each of them belongs to.
//! `bench wear`: the cases in which the wear task has most to do, on standard
//! output. Each is 2,486 bytes of area, the slot, the length of the set, and 16
//! bytes for the set.
//! `bench wear-calls`: the yardstick makes them, and the number of groups and the
//! code of each are printed, likewise.

use std::env;
use std::hint::black_box;
use std::io::{self, Write};
use std::process::ExitCode;
use std::time::{Duration, Instant};

use linked::busy::BusySheet;
use linked::cases::{self, Case, WearCase};
use linked::library;
use linked::stage::SUBJECT;
use oracle::machine::Transaction;
use oracle::{step_in_place, step_on_bytes, wear_in_place, wear_on_bytes, Call};

const SHEETS: u64 = 9;
const TIMES: usize = 60;

/// A function that makes one step on an area.
type MakeStep = fn(&mut [u8], Call) -> u64;

fn main() -> ExitCode {
    let mode = env::args().nth(1);
    let result = match mode.as_deref() {
        None => measure(),
        Some("check") => check_alone(),
        Some("cases") => worst_cases().and_then(|cases| write(&cases)),
        Some("sheet") => sheet_cases().and_then(|cases| write(&cases)),
        Some("calls") => worst_cases().map(make_in_place),
        Some("rows") => worst_cases().map(print_rows),
        Some("wear") => wear_cases().and_then(|cases| write_wear(&cases)),
        Some("wear-calls") => wear_cases().map(wear_all_in_place),
        Some(_) => Err("usage: bench [check|cases|sheet|calls|rows|wear|wear-calls]".to_string()),
    };
    match result {
        Ok(()) => ExitCode::SUCCESS,
        Err(error) => {
            eprintln!("bench: {error}");
            ExitCode::FAILURE
        }
    }
}

fn in_place(area: &mut [u8], call: Call) -> u64 {
    step_in_place(area, call.step, call.slot, call.cell, call.kind, call.word)
}

fn oracle(area: &mut [u8], call: Call) -> u64 {
    step_on_bytes(area, call.step, call.slot, call.cell, call.kind, call.word)
}

fn measure() -> Result<(), String> {
    println!("time of a step in nanoseconds, 64 cells, sheets of 4096 steps:");
    println!("sheet  busy slots  entries of a slot  library   Rust  ratio");
    let mut ratios = Vec::new();
    for seed in 1..=SHEETS {
        let sheet = BusySheet::of(seed).ok_or("no sheet")?;
        agree(&sheet)?;
        let (library, rust) = compare(&sheet.area, &sheet.calls);
        let ratio = library / rust;
        let BusySheet { busy_slots, entries, .. } = sheet;
        println!(
            "{seed:5}  {busy_slots:10.1}  {entries:17.1}  {library:7.0}  {rust:5.0}  {ratio:5.2}"
        );
        ratios.push(ratio);
    }
    ratios.sort_by(f64::total_cmp);
    let (least, middle, most) = (ratios[0], ratios[ratios.len() / 2], ratios[ratios.len() - 1]);
    println!("ratio: median {middle:.2}, from {least:.2} to {most:.2}");
    check_alone()
}

/// A step number that there is not: what is left is the check of the area. The
/// second area has the flag set in every slot.
fn check_alone() -> Result<(), String> {
    let sheet = BusySheet::of(1).ok_or("no sheet")?;
    let calls = vec![Call::default(); sheet.calls.len()];
    let cases = cases::all().ok_or("no cases")?;
    let flagged = cases.into_iter().find(|case| case.row == cases::ALL_FLAGGED);
    let flagged = flagged.ok_or("no area with flags")?.area;
    for (name, area) in [("the area", sheet.area), ("an area of flags", flagged)] {
        let (library, rust) = compare(&area, &calls);
        let ratio = library / rust;
        println!(
            "the check of {name} alone: library {library:.0}, Rust {rust:.0}, ratio {ratio:.2}"
        );
    }
    Ok(())
}

/// Both make the same of a sheet; else their times are not worth comparing.
fn agree(sheet: &BusySheet) -> Result<(), String> {
    let run = |make_step: MakeStep| {
        let mut area = sheet.area.clone();
        let replies: Vec<u64> =
            sheet.calls.iter().map(|call| make_step(&mut area, *call)).collect();
        (replies, area)
    };
    let wanted = run(oracle);
    if run(library::step) != wanted || run(in_place) != wanted {
        return Err("the steps differ: run the fuzzer".to_string());
    }
    Ok(())
}

/// Nanoseconds for a step of the library and of the yardstick. They take turns,
/// and of each the best time counts: what else the machine does only adds.
fn compare(area: &[u8], calls: &[Call]) -> (f64, f64) {
    let (mut library, mut rust) = (Duration::MAX, Duration::MAX);
    for _ in 0..TIMES {
        library = library.min(time(library::step, area, calls));
        rust = rust.min(time(in_place, area, calls));
    }
    let per_step = |time: Duration| time.as_nanos() as f64 / calls.len() as f64;
    (per_step(library), per_step(rust))
}

fn time(make_step: MakeStep, area: &[u8], calls: &[Call]) -> Duration {
    let mut area = area.to_vec();
    let start = Instant::now();
    for call in calls {
        black_box(make_step(black_box(&mut area), *call));
    }
    start.elapsed()
}

fn worst_cases() -> Result<Vec<Case>, String> {
    let cases = cases::all().ok_or("no cases")?;
    for Case { area, call, code, .. } in &cases {
        let given = oracle(&mut area.clone(), *call) >> 40;
        if given != u64::from(*code) {
            return Err(format!("{call:?} was to get code {code} and gets {given}"));
        }
    }
    Ok(cases)
}

fn make_in_place(cases: Vec<Case>) {
    for Case { mut area, call, .. } in cases {
        println!("{} {}", call.step, in_place(&mut area, call) >> 40);
    }
}

fn print_rows(cases: Vec<Case>) {
    cases.iter().for_each(|case| println!("{}", case.row));
}

fn sheet_cases() -> Result<Vec<Case>, String> {
    let BusySheet { mut area, calls, .. } = BusySheet::of(1).ok_or("no sheet")?;
    let mut cases = Vec::new();
    for call in calls {
        let before = area.clone();
        let code = (oracle(&mut area, call) >> 40) as u8;
        cases.push(Case { row: "a step of a busy sheet".into(), area: before, call, code });
    }
    Ok(cases)
}

fn wear_cases() -> Result<Vec<WearCase>, String> {
    let cases = cases::wear().ok_or("no cases")?;
    for WearCase { area, set, number } in &cases {
        let given = wear_on_bytes(&mut area.clone(), set, SUBJECT);
        if given != *number {
            return Err(format!("the set {set:?} was to get {number:#x} and gets {given:#x}"));
        }
    }
    Ok(cases)
}

fn wear_all_in_place(cases: Vec<WearCase>) {
    for WearCase { mut area, set, .. } in cases {
        let number = wear_in_place(&mut area, &set, SUBJECT);
        println!("{} {}", set.len() / 2, number >> 40 & 0xff);
    }
}

fn write_wear(cases: &[WearCase]) -> Result<(), String> {
    let mut out = io::stdout().lock();
    for WearCase { area, set, .. } in cases {
        let mut room = [0; Transaction::LOG_ROOM];
        room[..set.len()].copy_from_slice(set);
        let bytes = [area, &[SUBJECT, set.len() as u8][..], &room].concat();
        out.write_all(&bytes).map_err(|error| error.to_string())?;
    }
    Ok(())
}

fn write(cases: &[Case]) -> Result<(), String> {
    let mut out = io::stdout().lock();
    for Case { area, call, .. } in cases {
        let numbers = [call.step, call.slot, call.cell, call.kind];
        let bytes = [area, &numbers[..], &call.word.to_be_bytes()].concat();
        out.write_all(&bytes).map_err(|error| error.to_string())?;
    }
    Ok(())
}
