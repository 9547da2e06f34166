//! The program `sheet`, from outside.

use std::io::Write;
use std::process::{Command, Output, Stdio};

use oracle::{text, Timeline};

use crate::sheets::{s_binary, S_OUTPUT, S_TEXT};
use crate::traces::S_TRACE;

const S_FILE: &str = concat!(env!("CARGO_MANIFEST_DIR"), "/../examples/sheets/s.txt");

fn sheet(arguments: &[&str], input: &[u8]) -> Output {
    let mut child = Command::new(env!("CARGO_BIN_EXE_sheet"))
        .args(arguments)
        .stdin(Stdio::piped())
        .stdout(Stdio::piped())
        .stderr(Stdio::piped())
        .spawn()
        .expect("the program starts");
    // A program that reads no input may be gone by now.
    let _ = child.stdin.take().expect("standard input").write_all(input);
    child.wait_with_output().expect("the program ends")
}

fn check(output: &Output, status: i32, stdout: &[u8], stderr: &str) {
    assert_eq!(String::from_utf8_lossy(&output.stderr), stderr);
    assert_eq!(output.stdout, stdout);
    assert_eq!(output.status.code(), Some(status));
}

#[test]
fn run_and_trace_take_a_file_or_standard_input_in_either_form() {
    for (command, output) in [("run", S_OUTPUT), ("trace", S_TRACE)] {
        check(&sheet(&[command, S_FILE], b""), 0, output.as_bytes(), "");
        check(&sheet(&[command], S_TEXT.as_bytes()), 0, output.as_bytes(), "");
        check(&sheet(&[command], &s_binary()), 0, output.as_bytes(), "");
    }
}

#[test]
fn a_trace_without_effects_prints_no_byte() {
    check(&sheet(&["trace"], b"cell whole 5\nclose 1\n"), 0, b"", "");
}

#[test]
fn assemble_and_show() {
    check(&sheet(&["assemble", S_FILE], b""), 0, &s_binary(), "");
    check(&sheet(&["assemble"], S_TEXT.as_bytes()), 0, &s_binary(), "");
    let shown = sheet(&["show"], &s_binary());
    let assembled = text::assemble(&shown.stdout).expect("a good text");
    assert_eq!(assembled.encode(), s_binary());
    let without_comments = S_TEXT.lines().filter(|line| !line.is_empty() && !line.starts_with('#'));
    let expected: String = without_comments.map(|line| format!("{line}\n")).collect();
    check(&shown, 0, expected.as_bytes(), "");
}

#[test]
fn assemble_leaves_what_is_binary_as_it_is() {
    for binary in [&s_binary()[..], &s_binary()[..50], &[2, 0], &[]] {
        check(&sheet(&["assemble"], binary), 0, binary, "");
    }
}

#[test]
fn a_bad_sheet_is_printed_by_run_and_trace_and_refused_by_show() {
    for bad in [&[][..], &[1], &[2, 0], &s_binary()[1..], &s_binary()[..50]] {
        check(&sheet(&["run"], bad), 0, b"bad sheet\n", "");
        check(&sheet(&["trace"], bad), 0, b"bad sheet\n", "");
        let shown = sheet(&["show"], bad);
        assert_eq!((shown.status.code(), shown.stdout.len()), (Some(1), 0));
        assert!(shown.stderr.starts_with(b"sheet: bad sheet: "));
    }
    check(&sheet(&["show"], &[]), 1, b"", "sheet: bad sheet: a byte is missing\n");
}

#[test]
fn an_error_in_a_text_is_told_with_its_line() {
    for command in ["run", "trace", "assemble"] {
        let output = sheet(&[command], b"cell whole 5\nbegin\n");
        check(&output, 1, b"", "sheet: line 2: the slot is missing\n");
    }
}

#[test]
fn no_arguments_print_how_it_is_used() {
    let usage = sheet(&[], b"");
    assert_eq!(usage.status.code(), Some(0));
    let text = String::from_utf8_lossy(&usage.stdout);
    assert!(["assemble", "show", "run", "trace"].iter().all(|command| text.contains(command)));
    check(&sheet(&["--help"], b""), 0, &usage.stdout, "");
}

#[test]
fn misuse_has_its_own_status() {
    let unknown = sheet(&["print"], b"");
    check(
        &unknown,
        2,
        b"",
        "sheet: there is no command \"print\"; sheet alone prints how it is used\n",
    );
    assert_eq!(sheet(&["run", S_FILE, "more"], b"").status.code(), Some(2));
    let missing = sheet(&["run", "no/such/file"], b"");
    assert_eq!((missing.status.code(), missing.stdout.len()), (Some(1), 0));
    assert!(missing.stderr.starts_with(b"sheet: can't read \"no/such/file\": "));
}

#[test]
fn a_timeline_is_shown_of_either_form() {
    let shown = sheet(&["show", "--timeline", S_FILE], b"");
    let timeline = Timeline::read(&std::fs::read(S_FILE).expect("sheet S")).expect("good");
    check(&shown, 0, timeline.plain().as_bytes(), "");
    // A binary sheet has no comment, and is the same from the third line on.
    let binary = sheet(&["show", "--timeline"], &s_binary());
    let lanes = |output: &Output| {
        let text = String::from_utf8_lossy(&output.stdout).to_string();
        text.split_once("\n\n").expect("a title and the rest").1.to_string()
    };
    assert_eq!(lanes(&binary), lanes(&shown));
    check(&sheet(&["show", "--timeline"], &[]), 1, b"", "sheet: bad sheet: a byte is missing\n");
    let output = sheet(&["show", "--timeline"], b"cell whole 5\nbegin\n");
    check(&output, 1, b"", "sheet: line 2: the slot is missing\n");
}

#[test]
fn a_picture_goes_to_its_file_with_the_options_in_any_order() {
    let out = concat!(env!("CARGO_TARGET_TMPDIR"), "/timeline.svg");
    let timeline = Timeline::read(&std::fs::read(S_FILE).expect("sheet S")).expect("good");
    let orders = [
        ["show", "--timeline", S_FILE, "--svg", out],
        ["show", "--svg", out, "--timeline", S_FILE],
    ];
    for arguments in orders {
        let _ = std::fs::remove_file(out);
        check(&sheet(&arguments, b""), 0, b"", "");
        let written = std::fs::read_to_string(out).expect("the picture");
        assert_eq!(Ok(written), timeline.svg());
    }
    let nowhere = sheet(&["show", "--timeline", S_FILE, "--svg", "no/such/folder/a.svg"], b"");
    assert_eq!(nowhere.status.code(), Some(1));
    assert!(nowhere.stderr.starts_with(b"sheet: can't write \"no/such/folder/a.svg\": "));
}

#[test]
fn misuse_of_the_timeline_is_told() {
    let cases: [(&[&str], &str); 5] = [
        (&["show", S_FILE, "--svg", "a.svg"], "--svg goes with --timeline"),
        (&["show", "--timeline", S_FILE, "--svg"], "--svg needs the name of a file"),
        (&["show", "--timeline", "--svg", "s.txt"], "\"s.txt\" should end in .svg"),
        (&["show", "--time", S_FILE], "there is no option \"--time\""),
        (&["show", "--timeline", S_FILE, "b"], "\"b\" is one argument too many"),
    ];
    for (arguments, what) in cases {
        let told = format!("sheet: {what}; sheet alone prints how it is used\n");
        check(&sheet(arguments, b""), 2, b"", &told);
    }
}
