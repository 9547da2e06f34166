//! The text form: what it says, what it refuses, and that nothing is lost.

use oracle::{forms, run, text, Call, Random, Sheet, Value};

fn assembled(lines: &str) -> Sheet {
    text::assemble(lines.as_bytes()).expect("a good text")
}

/// The one step of a line.
fn step(line: &str) -> Call {
    assembled(&format!("cell whole 0\n{line}\n")).calls()[0]
}

fn call(step: u8, slot: u8, cell: u8, kind: u8, word: u32) -> Call {
    Call { step, slot, cell, kind, word }
}

#[test]
fn every_step_by_its_name() {
    let lines = [
        ("begin 1", call(1, 1, 0, 0, 0)),
        ("read 1 0", call(2, 1, 0, 0, 0)),
        ("write 2 0 whole 9", call(3, 2, 0, 2, 9)),
        ("close 2", call(4, 2, 0, 0, 0)),
        ("lock 2", call(5, 2, 0, 0, 0)),
        ("enter 2", call(6, 2, 0, 0, 0)),
        ("reread 1 3", call(7, 1, 3, 0, 0)),
        ("update 1 1 truth true", call(8, 1, 1, 1, 1)),
        ("ask 1 4", call(9, 1, 4, 0, 0)),
        ("reload 1", call(10, 1, 0, 0, 0)),
        ("ignore 1", call(11, 1, 0, 0, 0)),
        ("finish 1", call(12, 1, 0, 0, 0)),
        ("publish 255", call(13, 255, 0, 0, 0)),
        ("give up 8", call(14, 8, 0, 0, 0)),
        ("write 1 3 real 2.5", call(3, 1, 3, 3, 0x4020_0000)),
        ("update 1 3 raw 9 0xffffffff", call(8, 1, 3, 9, 0xffff_ffff)),
        ("step 0 9 0 0 0x00000000", call(0, 9, 0, 0, 0)),
        ("step 1 1 7 0 0x00000000", call(1, 1, 7, 0, 0)),
        ("step 2 1 7 1 0x00000000", call(2, 1, 7, 1, 0)),
        ("step 255 255 255 255 0xffffffff", call(255, 255, 255, 255, u32::MAX)),
    ];
    for (line, expected) in lines {
        assert_eq!(step(line), expected, "{line}");
        let sheet = Sheet::new(vec![Value::Whole(0)], vec![expected]).expect("a sheet");
        assert_eq!(text::show(&sheet), format!("cell whole 0\n{line}\n"));
    }
}

#[test]
fn other_ways_to_write_the_same() {
    assert_eq!(step("giveup 8"), step("give up 8"));
    assert_eq!(
        step("  read\t0x1   0X # the first".replace("0X", "0x0f").as_str()),
        step("read 1 15")
    );
    assert_eq!(step("write 1 0 truth 0"), step("write 1 0 truth false"));
    assert_eq!(step("write 1 0 truth 1"), step("write 1 0 raw 1 1"));
    assert_eq!(step("write 1 0 whole 0xffffffff"), step("write 1 0 whole -1"));
    assert_eq!(step("write 1 0 whole 0x80000000"), step("write 1 0 whole -2147483648"));
    assert_eq!(step("write 1 0 whole 2147483647"), step("write 1 0 whole 0x7FFFFFFF"));
    assert_eq!(step("write 1 0 real 25e-1"), step("write 1 0 raw 3 0x40200000"));
    assert_eq!(step("write 1 0 real -0.0").word, 0x8000_0000);
    assert_eq!(step("write 1 0 real 3.4028235e38").word, 0x7f7f_ffff);
    assert_eq!(step("write 1 0 real 1e-45").word, 1);
    assert_eq!(step("step 0 9 0 0 0"), call(0, 9, 0, 0, 0));
}

#[test]
fn cells_comments_blank_lines_and_line_ends() {
    let sheet = assembled(
        "# top\r\n\r\ncell truth 1\r\n  cell whole -5# five\n\ncell real 0\ncell raw 3 0x7f7fffff",
    );
    let real = Value::Real(f32::MAX);
    assert_eq!(sheet.cells(), [Value::Truth(true), Value::Whole(-5), Value::Real(0.0), real]);
    assert_eq!(sheet.calls(), []);
}

#[test]
fn a_byte_order_mark_may_stand_before_the_first_line_only() {
    let marked = "\u{feff}cell whole 1\r\n";
    assert!(forms::looks_like_text(marked.as_bytes()));
    assert_eq!(assembled(marked).cells(), [Value::Whole(1)]);
    assert_eq!(text::unmarked(marked.as_bytes()), b"cell whole 1\r\n");
    assert!(!forms::looks_like_text(b"\xef\xbb"));
    assert!(text::assemble("cell whole 1\n\u{feff}begin 1".as_bytes()).is_err());
}

/// A wrong text, the line of its error and what is wrong there.
const ERRORS: [(&str, usize, &str); 42] = [
    ("", 1, "the text ends here, but a sheet has 1 to 64 cells"),
    ("# nothing\n\n", 2, "the text ends here, but a sheet has 1 to 64 cells"),
    ("begin 1", 1, "a step comes before any cell; a sheet begins with its cells"),
    ("cell whole 1\nbegin 1\ncell whole 1", 3, "a cell comes after a step; all cells come first"),
    ("cell", 1, "the kind is missing"),
    ("cell whole", 1, "the whole number is missing"),
    ("cell natural 1", 1, "\"natural\" is no kind; the kinds are truth, whole, real and raw"),
    ("cell whole 1 2", 1, "the line should end before \"2\""),
    ("cell raw 3 0x7f800000", 1, "a cell can't have kind 3 with word 0x7f800000"),
    ("cell raw 4 0", 1, "a cell can't have kind 4 with word 0x00000000"),
    ("cell truth 2", 1, "the truth value is \"2\"; it should be true, false, 1 or 0"),
    ("cell truth yes", 1, "the truth value is \"yes\"; it should be true, false, 1 or 0"),
    (
        "cell whole 2147483648",
        1,
        "the whole number is 2147483648; it should be from -2147483648 to 2147483647",
    ),
    (
        "cell whole -2147483649",
        1,
        "the whole number is -2147483649; it should be from -2147483648 to 2147483647",
    ),
    (
        "cell whole +1",
        1,
        "the whole number is \"+1\", which is no number in decimal or in hex with 0x",
    ),
    (
        "cell whole --1",
        1,
        "the whole number is \"--1\", which is no number in decimal or in hex with 0x",
    ),
    (
        "cell whole 0x",
        1,
        "the whole number is \"0x\", which is no number in decimal or in hex with 0x",
    ),
    (
        "cell whole -0x1",
        1,
        "the whole number is \"-0x1\", which is no number in decimal or in hex with 0x",
    ),
    (
        "cell whole 0x100000000",
        1,
        "the whole number is 0x100000000; it should be at most 4294967295",
    ),
    ("cell real inf", 1, "the real is inf, which is not finite in 32 bits"),
    ("cell real NaN", 1, "the real is NaN, which is not finite in 32 bits"),
    ("cell real 1e39", 1, "the real is 1e39, which is not finite in 32 bits"),
    ("cell real two", 1, "the real is \"two\", which is no number like 2.5 or -1e-3"),
    ("cell whole 1\n\nbegn 1", 3, "\"begn\" is neither \"cell\" nor the name of a step"),
    ("cell whole 1\nBegin 1", 2, "\"Begin\" is neither \"cell\" nor the name of a step"),
    ("cell whole 1\nbegin", 2, "the slot is missing"),
    ("cell whole 1\nbegin 256", 2, "the slot is 256; it should be at most 255"),
    (
        "cell whole 1\nbegin 99999999999999999999",
        2,
        "the slot is 99999999999999999999; it should be at most 255",
    ),
    (
        "cell whole 1\nbegin one",
        2,
        "the slot is \"one\", which is no number in decimal or in hex with 0x",
    ),
    (
        "cell whole 1\nbegin -1",
        2,
        "the slot is \"-1\", which is no number in decimal or in hex with 0x",
    ),
    ("cell whole 1\nbegin 1 1", 2, "the line should end before \"1\""),
    ("cell whole 1\nread 1", 2, "the cell is missing"),
    ("cell whole 1\nread 1 0x100", 2, "the cell is 0x100; it should be at most 255"),
    ("cell whole 1\nwrite 1 0", 2, "the kind is missing"),
    ("cell whole 1\nwrite 1 0 9", 2, "\"9\" is no kind; the kinds are truth, whole, real and raw"),
    ("cell whole 1\nwrite 1 0 raw 2", 2, "the word is missing"),
    ("cell whole 1\nwrite 1 0 raw 256 0", 2, "the kind is 256; it should be at most 255"),
    ("cell whole 1\ngive 1", 2, "\"give\" should go on with \"up\""),
    ("cell whole 1\ngive up", 2, "the slot is missing"),
    ("cell whole 1\nstep 0 9 0 0", 2, "the word is missing"),
    ("cell whole 1\nstep 256 9 0 0 0", 2, "the step number is 256; it should be at most 255"),
    ("cell whole 1\nstep 0 9 0 0 0 0", 2, "the line should end before \"0\""),
];

#[test]
fn every_error_has_its_line() {
    for (lines, line, what) in ERRORS {
        let error = text::assemble(lines.as_bytes()).expect_err(lines);
        assert_eq!((error.line, error.what.as_str()), (line, what), "{lines:?}");
        assert_eq!(error.to_string(), format!("line {line}: {what}"));
    }
}

#[test]
fn what_does_not_fit_in_a_sheet_is_refused_at_its_line() {
    let cells = "cell whole 1\n".repeat(64);
    let steps = "begin 1\n".repeat(4096);
    assert_eq!(assembled(&format!("{cells}{steps}")).calls().len(), 4096);
    let error = |text: String| text::assemble(text.as_bytes()).expect_err("too much").to_string();
    let cell_error = "line 65: this is one cell too many; a sheet has at most 64";
    assert_eq!(error(format!("{cells}cell whole 1\n")), cell_error);
    let step_error = "line 4161: this is one step too many; a sheet has at most 4096";
    assert_eq!(error(format!("{cells}{steps}begin 1\n")), step_error);
}

#[test]
fn bytes_that_are_not_text_are_refused_at_their_line() {
    let error = text::assemble(b"cell whole 1\n# \xc3\xa9\nbegin \xff").expect_err("not text");
    assert_eq!(error.to_string(), "line 3: there is a byte here that is not text in UTF-8");
    assert!(text::assemble("cell whole 1 # \u{e9}".as_bytes()).is_ok());
}

#[test]
fn the_first_byte_tells_text_from_binary() {
    for text in ["cell whole 1\n", " cell whole 1\n", "\n", "\t", "\r\n", "#", "begin"] {
        assert!(forms::looks_like_text(text.as_bytes()), "{text:?}");
    }
    for first in [0, 1, 2, 8, 27, 127, 128, 255] {
        assert!(!forms::looks_like_text(&[first, b'\n']), "{first}");
    }
    assert!(!forms::looks_like_text(&[]));
}

#[test]
fn every_sheet_comes_back_from_its_text() {
    let (mut raw_steps, mut raw_values, mut named) = (0, 0, 0);
    for seed in 0..1500 {
        let sheet = Random::new(seed).sheet().expect("a sheet");
        let shown = text::show(&sheet);
        assert_eq!(assembled(&shown).encode(), sheet.encode(), "{shown}");
        assert_eq!(text::show(&assembled(&shown)), shown);
        assert_eq!(run::run_either(shown.as_bytes()), run::run_either(&sheet.encode()));
        for line in shown.lines() {
            raw_steps += u64::from(line.starts_with("step "));
            raw_values += u64::from(line.contains(" raw "));
            named += u64::from(!line.contains(" raw ") && !line.starts_with("step "));
        }
    }
    assert!(raw_steps >= 1000 && raw_values >= 500 && named >= 5000);
}

#[test]
fn every_finite_real_comes_back_from_its_text() {
    let mut random = Random::new(3);
    let edges = [0, 1, 0x007f_ffff, 0x0080_0000, 0x3f80_0000, 0x7f7f_ffff];
    let words = edges.iter().flat_map(|word| [*word, *word | 0x8000_0000]);
    let any: Vec<u32> = (0..20_000).map(|_| random.word()).collect();
    let mut compared = 0;
    for word in words.chain(any) {
        let Some(value) = Value::described(3, word) else {
            continue;
        };
        let sheet = Sheet::new(vec![value], vec![]).expect("a sheet");
        assert_eq!(assembled(&text::show(&sheet)), sheet, "{word:08x}");
        compared += 1;
    }
    assert!(compared > 15_000);
}
