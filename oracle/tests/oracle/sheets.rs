//! Step sheets: sheet S, good ones and bad ones.

use oracle::{run, text, BadSheet, Call, Random, Sheet, Value};

/// Sheet S as the document gives it: step, slot, cell, kind, word.
const S_STEPS: [(u8, u8, u8, u8, u32); 21] = [
    (1, 1, 0, 0, 0),
    (2, 1, 0, 0, 0),
    (1, 2, 0, 0, 0),
    (3, 2, 0, 2, 9),
    (4, 2, 0, 0, 0),
    (5, 2, 0, 0, 0),
    (2, 1, 0, 0, 0),
    (6, 2, 0, 0, 0),
    (12, 2, 0, 0, 0),
    (2, 1, 1, 0, 0),
    (13, 2, 0, 0, 0),
    (3, 1, 1, 2, 8),
    (4, 1, 0, 0, 0),
    (5, 1, 0, 0, 0),
    (6, 1, 0, 0, 0),
    (9, 1, 0, 0, 0),
    (10, 1, 0, 0, 0),
    (7, 1, 0, 0, 0),
    (8, 1, 1, 2, 10),
    (12, 1, 0, 0, 0),
    (13, 1, 0, 0, 0),
];

/// The output that the document gives.
pub const S_OUTPUT: &str = "\
1 0 0 00000000
2 0 2 00000005
3 0 0 00000000
4 0 0 00000000
5 0 0 00000000
6 0 0 00000000
7 0 2 00000005
8 0 1 00000001
9 0 0 00000000
10 0 2 00000007
11 0 0 00000000
12 0 0 00000000
13 0 0 00000000
14 0 0 00000000
15 0 1 00000000
16 0 1 00000001
17 0 0 00000000
18 0 2 00000009
19 0 0 00000000
20 0 0 00000000
21 0 0 00000000
cell 0 2 00000009 1 0
cell 1 2 0000000a 3 0
clock 3
";

pub const S_TEXT: &str = include_str!("../../../examples/sheets/s.txt");

/// Sheet S in binary.
pub fn s_binary() -> Vec<u8> {
    let mut steps = Vec::new();
    for (step, slot, cell, kind, word) in S_STEPS {
        steps.extend([step, slot, cell, kind]);
        steps.extend(word.to_be_bytes());
    }
    binary(1, &[2, 0, 0, 0, 5, 2, 0, 0, 0, 7], &steps)
}

/// A binary sheet, good or bad.
fn binary(version: u8, descriptions: &[u8], steps: &[u8]) -> Vec<u8> {
    let mut sheet = vec![version];
    for part in [descriptions, steps] {
        sheet.extend((part.len() as u16).to_be_bytes());
        sheet.extend(part);
    }
    sheet
}

#[test]
fn sheet_s_in_binary() {
    assert_eq!(run::run_binary(&s_binary()), S_OUTPUT);
    assert_eq!(run::run_either(&s_binary()).as_deref(), Ok(S_OUTPUT));
    assert_eq!(S_OUTPUT.lines().count(), 24);
}

#[test]
fn sheet_s_in_text() {
    assert_eq!(run::run_either(S_TEXT.as_bytes()).as_deref(), Ok(S_OUTPUT));
    let sheet = text::assemble(S_TEXT.as_bytes()).expect("a good text");
    assert_eq!(sheet.encode(), s_binary());
}

#[test]
fn a_sheet_with_no_steps_is_good() {
    let sheet = binary(1, &[3, 0x80, 0, 0, 0], &[]);
    assert_eq!(run::run_binary(&sheet), "cell 0 3 80000000 0 0\nclock 0\n");
}

#[test]
fn wrong_numbers_in_steps_get_codes() {
    let steps = [[0, 9, 0, 0, 0, 0, 0, 0], [15, 1, 0, 0, 0, 0, 0, 0], [1, 9, 0, 0, 0, 0, 0, 0]];
    let sheet = binary(1, &[2, 0, 0, 0, 5], &steps.concat());
    let output = "1 2 0 00000000\n2 2 0 00000000\n3 3 0 00000000\ncell 0 2 00000005 0 0\nclock 0\n";
    assert_eq!(run::run_binary(&sheet), output);
}

#[test]
fn a_held_cell_is_printed_with_its_holder() {
    let lines = "cell whole -1\nbegin 3\nwrite 3 0 whole 1\nclose 3\nlock 3\n";
    let output = run::run_either(lines.as_bytes()).expect("a good text");
    assert!(output.ends_with("4 0 0 00000000\ncell 0 2 ffffffff 0 3\nclock 0\n"), "{output}");
}

#[test]
fn who_is_in_the_way_is_printed_in_kind_and_word() {
    let lines = "cell whole 1\ncell whole 2\nbegin 3\nwrite 3 1 whole 1\nclose 3\nlock 3
        begin 5\nread 5 1\nwrite 5 1 whole 2\nclose 5\nlock 5\n";
    let output = run::run_either(lines.as_bytes()).expect("a good text");
    let [read, lock] = ["\n6 14 2 00000003\n", "\n9 11 2 00000103\n"];
    assert!(output.contains(read) && output.contains(lock), "{output}");
}

#[test]
fn words_are_printed_in_8_lower_case_hex_digits() {
    let lines = "cell whole 0xabcdef\ncell real -0.0\nbegin 1\nread 1 0\nread 1 1\n";
    let output = "1 0 0 00000000\n2 0 2 00abcdef\n3 0 3 80000000\n\
        cell 0 2 00abcdef 0 0\ncell 1 3 80000000 0 0\nclock 0\n";
    assert_eq!(run::run_either(lines.as_bytes()).as_deref(), Ok(output));
}

#[test]
fn an_outcome_is_printed_as_code_13() {
    let lines = "cell whole 0\nbegin 1\nread 1 0\nclose 1\nbegin 2\nwrite 2 0 whole 1\nclose 2
        lock 2\nenter 1\nfinish 1\n";
    let output = run::run_either(lines.as_bytes()).expect("a good text");
    assert!(output.contains("\n8 0 1 00000000\n9 13 0 00000000\n"), "{output}");
}

#[test]
fn each_fault_makes_a_bad_sheet() {
    let cell = [2, 0, 0, 0, 5];
    let step = [1, 1, 0, 0, 0, 0, 0, 0];
    let faults = [
        (binary(0, &cell, &step), BadSheet::Version),
        (binary(2, &cell, &step), BadSheet::Version),
        (binary(1, &cell[..4], &step), BadSheet::DescriptionsLength),
        (binary(1, &cell.repeat(2)[..9], &step), BadSheet::DescriptionsLength),
        (binary(1, &cell, &step[..7]), BadSheet::StepsLength),
        (binary(1, &cell, &step.repeat(2)[..9]), BadSheet::StepsLength),
        (binary(1, &[], &step), BadSheet::Cells),
        (binary(1, &cell.repeat(65), &step), BadSheet::Cells),
        (binary(1, &cell.repeat(13107), &step), BadSheet::Cells),
        (binary(1, &[0, 0, 0, 0, 0], &step), BadSheet::Description),
        (binary(1, &[4, 0, 0, 0, 0], &step), BadSheet::Description),
        (binary(1, &[1, 0, 0, 0, 2], &step), BadSheet::Description),
        (binary(1, &[3, 0x7f, 0x80, 0, 0], &step), BadSheet::Description),
        (binary(1, &cell, &step.repeat(4097)), BadSheet::Steps),
        (binary(1, &cell, &step.repeat(8191)), BadSheet::Steps),
        (vec![], BadSheet::Missing),
    ];
    for (sheet, fault) in faults {
        assert_eq!(Sheet::decode(&sheet), Err(fault));
        assert_eq!(run::run_binary(&sheet), "bad sheet\n", "{fault:?}");
        assert_eq!(run::run_either(&sheet).as_deref(), Ok("bad sheet\n"), "{fault:?}");
    }
}

#[test]
fn the_largest_sheet_is_good() {
    let sheet = binary(1, &[2, 0, 0, 0, 5].repeat(64), &[1, 1, 0, 0, 0, 0, 0, 0].repeat(4096));
    assert_eq!(sheet.len(), 33093);
    assert_eq!(run::run_binary(&sheet).lines().count(), 4096 + 64 + 1);
}

#[test]
fn a_missing_byte_or_one_left_over_makes_a_bad_sheet() {
    let sheet = s_binary();
    for length in 0..sheet.len() {
        assert_eq!(Sheet::decode(&sheet[..length]), Err(BadSheet::Missing), "{length}");
        assert_eq!(run::run_binary(&sheet[..length]), "bad sheet\n", "{length}");
    }
    let more: Vec<u8> = sheet.iter().copied().chain([0]).collect();
    assert_eq!(Sheet::decode(&more), Err(BadSheet::LeftOver));
    assert_eq!(run::run_binary(&more), "bad sheet\n");
}

#[test]
fn a_sheet_can_only_be_made_of_what_fits() {
    let call = Call::default();
    assert_eq!(Sheet::new(vec![], vec![]), Err(BadSheet::Cells));
    assert_eq!(Sheet::new(vec![Value::Whole(1); 65], vec![]), Err(BadSheet::Cells));
    assert_eq!(Sheet::new(vec![Value::Real(f32::NAN)], vec![]), Err(BadSheet::Description));
    assert_eq!(Sheet::new(vec![Value::Whole(1)], vec![call; 4097]), Err(BadSheet::Steps));
    assert!(Sheet::new(vec![Value::Whole(1); 64], vec![call; 4096]).is_ok());
}

#[test]
fn random_bytes_are_decoded_without_loss_or_not_at_all() {
    let mut good = 0;
    for seed in 0..2000 {
        let mut random = Random::new(seed);
        let mut bytes = random.sheet().expect("a sheet").encode();
        let place = random.place(bytes.len());
        bytes[place] = random.byte();
        let output = run::run_binary(&bytes);
        match Sheet::decode(&bytes) {
            Ok(sheet) => {
                assert_eq!(sheet.encode(), bytes);
                assert_ne!(output, "bad sheet\n");
                good += 1;
            }
            Err(_) => assert_eq!(output, "bad sheet\n"),
        }
    }
    assert!((100..1950).contains(&good), "{good}");
}
