//! Programs that take an input for something else: each misses one fault of a
//! sheet, or does not read all of it.

use oracle::compare::Case;
use oracle::Sheet;

/// What the input is taken for.
pub type Reader = fn(&Case) -> Vec<u8>;

/// With the input that shows it. (The first 14 bytes of sheet S and a 0 are a
/// sheet with no steps.)
pub const WRONG_READERS: [(&str, Reader, &str); 15] = [
    ("any version", |case| mends(case, |bytes| set_version(bytes)), "version 0"),
    (
        "reads 33,093 bytes",
        |case| mends(case, |bytes| bytes.truncate(33_093)),
        "the longest sheet and 1 bytes more",
    ),
    ("reads 33,100 bytes", reads_a_little_more, "the longest sheet and 8 bytes more"),
    (
        "counts the input in 16 bits",
        |case| mends(case, |bytes| bytes.truncate(bytes.len() % 65_536)),
        "the longest sheet and 65536 bytes more",
    ),
    ("reads once", reads_once, "sheet S, in pieces"),
    ("a byte is missing", |case| mends(case, |bytes| bytes.push(0)), "14 bytes of sheet S"),
    (
        "a byte is left over",
        |case| mends(case, |bytes| bytes.truncate(bytes.len().saturating_sub(1))),
        "sheet S and 1 bytes more",
    ),
    (
        "descriptions of any length",
        |case| mends_parts(case, |cells, _| cut_to_multiple(cells, 5)),
        "descriptions of 6 bytes",
    ),
    (
        "steps of any length",
        |case| mends_parts(case, |_, steps| cut_to_multiple(steps, 8)),
        "steps of 1 bytes",
    ),
    ("more than 64 cells", |case| mends_parts(case, |cells, _| cells.truncate(320)), "65 cells"),
    (
        "the number of cells in a byte",
        |case| mends_parts(case, |cells, _| cells.truncate(cells.len() % 1280)),
        "257 cells",
    ),
    (
        "no cells",
        |case| {
            mends_parts(case, |cells, _| {
                if cells.is_empty() {
                    cells.extend([2; 5])
                }
            })
        },
        "0 cells",
    ),
    (
        "more than 4,096 steps",
        |case| mends_parts(case, |_, steps| steps.truncate(32_768)),
        "4097 steps on 1 cells",
    ),
    (
        "any kind",
        |case| {
            mends_cells(case, |cell| {
                if !(1..=3).contains(&cell[0]) {
                    cell[0] = 2
                }
            })
        },
        "kind 0",
    ),
    (
        "any truth value",
        |case| {
            mends_cells(case, |cell| {
                if cell[0] == 1 {
                    cell[1..].fill(0)
                }
            })
        },
        "truth value 2",
    ),
];

/// Likewise, with reals.
pub const WRONG_READERS_OF_REALS: [(&str, Reader, &str); 3] = [
    ("infinite reals", |case| mends_reals(case, |word| word & 0x7f_ffff == 0), "infinite real"),
    ("NaNs", |case| mends_reals(case, |word| word & 0x7f_ffff != 0), "NaN"),
    (
        "the NaN next to infinite",
        |case| mends_reals(case, |word| word & 0x7f_ffff == 1),
        "NaN with the lowest bit alone",
    ),
];

pub fn is_bad(case: &Case) -> bool {
    Sheet::decode(&case.bytes).is_err()
}

fn set_version(bytes: &mut [u8]) {
    bytes.iter_mut().take(1).for_each(|version| *version = 1);
}

/// Has room for a little more than the longest sheet, and does not look whether
/// there was still more.
fn reads_a_little_more(case: &Case) -> Vec<u8> {
    let too_long = case.bytes.len() > 33_100;
    case.bytes[..if too_long { 33_093 } else { case.bytes.len() }].to_vec()
}

fn reads_once(case: &Case) -> Vec<u8> {
    let first = if case.in_pieces { case.bytes.len() / 20 } else { case.bytes.len() };
    case.bytes[..first].to_vec()
}

/// A bad sheet after a change to it.
fn mends(case: &Case, mend: fn(&mut Vec<u8>)) -> Vec<u8> {
    let mut bytes = case.bytes.clone();
    if is_bad(case) {
        mend(&mut bytes);
    }
    bytes
}

/// The same, with a change to the descriptions and the steps.
fn mends_parts(case: &Case, mend: impl Fn(&mut Vec<u8>, &mut Vec<u8>)) -> Vec<u8> {
    let Some((mut cells, mut steps)) = parts(&case.bytes).filter(|_| is_bad(case)) else {
        return case.bytes.clone();
    };
    mend(&mut cells, &mut steps);
    let lengths = [cells.len(), steps.len()].map(|length| (length as u16).to_be_bytes());
    [&[1], &lengths[0][..], &cells, &lengths[1], &steps].concat()
}

/// Descriptions and steps, if the version is 1 and the lengths fit.
fn parts(bytes: &[u8]) -> Option<(Vec<u8>, Vec<u8>)> {
    let (cells, rest) = counted(bytes.strip_prefix(&[1])?)?;
    let (steps, rest) = counted(rest)?;
    rest.is_empty().then(|| (cells.to_vec(), steps.to_vec()))
}

fn counted(bytes: &[u8]) -> Option<(&[u8], &[u8])> {
    let (length, rest) = bytes.split_first_chunk()?;
    rest.split_at_checked(usize::from(u16::from_be_bytes(*length)))
}

fn cut_to_multiple(part: &mut Vec<u8>, of: usize) {
    part.truncate(part.len() / of * of);
}

fn mends_cells(case: &Case, mend: fn(&mut [u8])) -> Vec<u8> {
    mends_parts(case, |cells, _| cells.chunks_exact_mut(5).for_each(mend))
}

/// Takes a real that is not finite for 0 if its word is such a one.
fn mends_reals(case: &Case, such: fn(u32) -> bool) -> Vec<u8> {
    mends_parts(case, |cells, _| {
        for cell in cells.chunks_exact_mut(5) {
            let word = cell[1..].iter().fold(0, |word, byte| word << 8 | u32::from(*byte));
            if cell[0] == 3 && word & 0x7f80_0000 == 0x7f80_0000 && such(word) {
                cell[1..].fill(0);
            }
        }
    })
}
