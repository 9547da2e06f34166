//! The programs `compare` and `sheet_time`, from outside, and how another
//! program is run.

use std::fs;
use std::path::{Path, PathBuf};
use std::process::{Command, Output};
use std::sync::atomic::{AtomicUsize, Ordering};
use std::time::Duration;

use oracle::compare::{Case, Ended, Given, Process};

use crate::sheets::s_binary;

const EXAMPLES: &str = concat!(env!("CARGO_MANIFEST_DIR"), "/../examples/sheets");

fn stand_in(name: &str) -> PathBuf {
    [env!("CARGO_MANIFEST_DIR"), "tests", "stand-ins", name].iter().collect()
}

fn run_compare(arguments: &[&str]) -> Output {
    output_of(env!("CARGO_BIN_EXE_compare"), arguments)
}

/// The path of a stand-in as an argument.
fn path(name: &str) -> String {
    stand_in(name).to_string_lossy().to_string()
}

/// Both programs are right.
fn compare_right(options: &[&str]) -> Output {
    let (run, trace) = (path("run"), path("trace"));
    run_compare(&[&[&run, &trace, EXAMPLES], options].concat())
}

/// Each run has a folder of its own: the tests run at once, and each writes its sheets anew.
fn run_sheet_time(program: &str, tracer: &str) -> Output {
    static RUNS: AtomicUsize = AtomicUsize::new(0);
    let run = format!("sheet-time-{}", RUNS.fetch_add(1, Ordering::Relaxed));
    let folder = Path::new(env!("CARGO_TARGET_TMPDIR")).join(run);
    fs::create_dir_all(&folder).expect("the folder is made");
    output_of(env!("CARGO_BIN_EXE_sheet_time"), &[program, tracer, &folder.to_string_lossy()])
}

fn output_of(program: &str, arguments: &[&str]) -> Output {
    let mut command = Command::new(program);
    command.args(arguments).env("SHEET", env!("CARGO_BIN_EXE_sheet"));
    command.output().expect("the program starts")
}

fn lines(output: &[u8]) -> Vec<String> {
    String::from_utf8_lossy(output).lines().map(str::to_string).collect()
}

#[test]
fn what_is_right_passes() {
    let output = compare_right(&["sheets=200", "seed=3"]);
    let lines = lines(&output.stdout);
    let last = lines.last().expect("a line");
    assert!(last.starts_with("compare: ") && last.ends_with(" inputs answered alike, seed 3"));
    assert_eq!(output.status.code(), Some(0), "{lines:?}");
    assert!(lines.contains(&"compare: 15 examples".to_string()), "{lines:?}");
}

/// No code 15 is among these, which is no fault of the program.
#[test]
fn few_sheets_are_not_judged_by_what_they_reach() {
    let output = compare_right(&["sheets=20", "seed=5"]);
    let lines = lines(&output.stdout);
    assert!(lines.iter().any(|line| line.split_whitespace().eq(["0", "code", "15"])), "{lines:?}");
    let told = "compare: 20 random sheets are too few to judge what they have reached";
    assert!(lines.iter().any(|line| line == told), "{lines:?}");
    assert_eq!(output.status.code(), Some(0), "{lines:?}");
}

#[test]
fn what_is_wrong_fails_and_the_sheet_is_kept() {
    let keep = format!("{}/kept.sheet", env!("CARGO_TARGET_TMPDIR"));
    let option = format!("keep={keep}");
    // The first example by name.
    let first = std::fs::read(format!("{EXAMPLES}/blocked.txt")).expect("an example");
    let first = oracle::text::assemble(&first).expect("a good text").encode();
    let (run, trace) = (path("run"), path("trace"));
    for (which, [program, tracer]) in [("run", ["cat", &trace]), ("trace", [&run, "cat"])] {
        let _ = std::fs::remove_file(&keep);
        let output = run_compare(&[program, tracer, EXAMPLES, &option]);
        assert_eq!(output.status.code(), Some(1));
        let lines = lines(&output.stdout);
        let failed = lines.iter().position(|line| line == "compare: FAILED").expect("a failure");
        assert!(lines[failed + 1].starts_with(&format!("{which} of ")), "{lines:?}");
        assert_eq!(lines.last(), Some(&format!("compare: repeat with `cat < {keep}`")));
        assert_eq!(std::fs::read(&keep).expect("the sheet"), first);
    }
}

#[test]
fn misuse_has_its_own_status() {
    let run = path("run");
    let misuses: [&[&str]; 8] = [
        &[],
        &["cat"],
        &["cat", "cat"],
        &["cat", "cat", EXAMPLES, "sheets=many"],
        &["cat", "cat", EXAMPLES, "calls=5"],
        &["cat", "cat", "no/such/folder"],
        &["no/such/program", "cat", EXAMPLES],
        &[&run, "no/such/program", EXAMPLES],
    ];
    for arguments in misuses {
        let output = run_compare(arguments);
        assert_eq!(output.status.code(), Some(2), "{arguments:?}");
        assert!(output.stderr.starts_with(b"compare: "), "{arguments:?}");
    }
}

fn given(program: PathBuf, time: Duration, case: &Case) -> Given {
    let process = Process::new(program).within(time);
    process.run(case).expect("the program starts")
}

#[test]
fn a_program_gets_all_bytes_and_what_it_prints_is_gathered() {
    for in_pieces in [false, true] {
        let longer_than_a_pipe: Vec<u8> = (0..200_000).map(|place| place as u8).collect();
        let case = Case { in_pieces, ..Case::new("", longer_than_a_pipe) };
        let given = given("cat".into(), Duration::from_secs(60), &case);
        assert_eq!(given.output, case.bytes);
        assert_eq!((given.errors.len(), given.ended), (0, Ended::WithStatus(0)));
    }
}

#[test]
fn how_a_program_ended_is_told() {
    let case = Case::new("", s_binary());
    let ended = |program, time| given(program, Duration::from_millis(time), &case).ended;
    assert_eq!(ended("true".into(), 60_000), Ended::WithStatus(0));
    assert_eq!(ended("false".into(), 60_000), Ended::WithStatus(1));
    assert_eq!(ended(stand_in("killed"), 60_000), Ended::BySignal);
    assert_eq!(ended(stand_in("endless"), 200), Ended::NotInTime);
    // Prints for ever, and is cut off.
    assert_eq!(ended("yes".into(), 60_000), Ended::BySignal);
}

#[test]
fn the_time_of_a_sheet() {
    let (run, trace) = (path("run"), path("trace"));
    let output = run_sheet_time(&run, &trace);
    assert_eq!(output.status.code(), Some(0));
    let lines = lines(&output.stdout);
    measures(&lines[2..6], &["4096 run", "4096 trace", "0 run", "0 trace"]);
    assert!(lines[6].starts_with("4096 steps: the trace takes "), "{lines:?}");
    assert_eq!(lines.len(), 7, "{lines:?}");

    for [program, tracer] in [["/bin/cat", &trace], [&run, "/bin/cat"]] {
        assert_eq!(run_sheet_time(program, tracer).status.code(), Some(1));
    }
}

#[test]
fn the_time_of_a_sheet_without_a_program() {
    let (run, trace) = (path("run"), path("trace"));
    let missing = "no/such/program";
    let said = "time of a sheet: skipped, there is no no/such/program: `make program` builds it";
    for (programs, measured) in
        [([missing, &trace], ["4096 trace", "0 trace"]), ([&run, missing], ["4096 run", "0 run"])]
    {
        let output = run_sheet_time(programs[0], programs[1]);
        assert_eq!(output.status.code(), Some(0));
        let lines = lines(&output.stdout);
        assert_eq!(lines[0], said);
        measures(&lines[3..], &measured);
    }
    let output = run_sheet_time(missing, missing);
    assert_eq!(output.status.code(), Some(0));
    assert_eq!(lines(&output.stdout), [said, said]);
}

/// Each line begins with these two words.
fn measures(lines: &[String], words: &[&str]) {
    let begin: Vec<String> = lines
        .iter()
        .map(|line| line.split_whitespace().take(2).collect::<Vec<_>>().join(" "))
        .collect();
    assert_eq!(begin, words, "{lines:?}");
}
