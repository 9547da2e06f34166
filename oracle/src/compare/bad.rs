//! Bad sheets with one fault each, for each fault that document 01 lists.

use super::case::{Case, BEGIN, CELL};

/// All of them but missing and left-over bytes, which have functions of their
/// own.
pub fn bad_sheets() -> Vec<Case> {
    [versions(), lengths(), numbers_of_cells(), descriptions(), numbers_of_steps()].concat()
}

/// 49 is the digit 1 as text.
fn versions() -> Vec<Case> {
    let wrong = [0, 2, 49, 129, 255];
    let case =
        |version| Case::of_parts(format!("version {version}"), version, &CELL, &BEGIN.repeat(3));
    wrong.map(case).to_vec()
}

/// No multiples of 5 and of 8, and lengths that reach behind the end or, with
/// the bytes the wrong way round, would fit.
fn lengths() -> Vec<Case> {
    let mut cases = Vec::new();
    for length in [1, 4, 6, 9, 316, 319] {
        let name = format!("descriptions of {length} bytes");
        cases.push(Case::of_parts(name, 1, &CELL.repeat(64)[..length], &BEGIN));
    }
    for length in [1, 7, 9, 12, 15, 32_764] {
        let name = format!("steps of {length} bytes");
        cases.push(Case::of_parts(name, 1, &CELL, &BEGIN.repeat(4096)[..length]));
    }
    for (name, place) in [("descriptions", 1), ("steps", 8)] {
        for length in [[0xff, 0xff], [0x80, 0]] {
            let mut case = Case::of_parts(format!("{name} that reach behind"), 1, &CELL, &BEGIN);
            case.bytes[place..place + 2].copy_from_slice(&length);
            cases.push(case);
        }
        let mut case = Case::of_parts(format!("length of {name} turned"), 1, &CELL, &BEGIN);
        case.bytes.swap(place, place + 1);
        cases.push(case);
    }
    cases
}

/// 257 and 320 would be 1 and 64 in a byte.
fn numbers_of_cells() -> Vec<Case> {
    let case = |n| Case::of_parts(format!("{n} cells"), 1, &CELL.repeat(n), &BEGIN);
    let mut cases = [0, 65, 66, 128, 256, 257, 320, 13_107].map(case).to_vec();
    cases.push(Case::of_parts("no cells and no steps", 1, &[], &[]));
    cases
}

/// Each illegal one alone, and as the first, a middle and the last of many.
fn descriptions() -> Vec<Case> {
    let illegal = [
        ("kind 0", 0, 0),
        ("kind 4", 4, 0),
        ("kind 255", 255, 1),
        ("truth value 2", 1, 2),
        ("truth value with a high bit", 1, 0x8000_0001),
        ("truth value with a bit in the middle", 1, 0x0001_0000),
        ("infinite real", 3, 0x7f80_0000_u32),
        ("infinite real below zero", 3, 0xff80_0000),
        ("NaN", 3, 0x7fc0_0000),
        ("NaN with the lowest bit alone", 3, 0x7f80_0001),
        ("NaN with all bits", 3, 0xffff_ffff),
    ];
    let mut cases = Vec::new();
    for (name, kind, word) in illegal {
        let [a, b, c, d] = word.to_be_bytes();
        let cell = [kind, a, b, c, d];
        cases.push(Case::of_parts(name, 1, &cell, &BEGIN));
        for place in [0, 31, 63] {
            let mut cells = [CELL; 64];
            cells[place] = cell;
            cases.push(Case::of_parts(format!("{name} at {place}"), 1, &cells.concat(), &[]));
        }
    }
    cases
}

fn numbers_of_steps() -> Vec<Case> {
    let mut cases = Vec::new();
    for steps in [4097, 4098, 8191] {
        for cells in [1, 64] {
            let name = format!("{steps} steps on {cells} cells");
            cases.push(Case::of_parts(name, 1, &CELL.repeat(cells), &BEGIN.repeat(steps)));
        }
    }
    cases
}
