//! One input for a program that runs sheets.

/// An input, good sheet or not, and how it is handed over.
#[derive(Clone, Debug)]
pub struct Case {
    /// What it is, for people.
    pub name: String,
    /// The bytes for standard input.
    pub bytes: Vec<u8>,
    /// Whether they arrive in pieces with pauses between, so that a program is
    /// seen that takes its first read for the whole.
    pub in_pieces: bool,
}

impl Case {
    /// An input that is handed over at once.
    pub fn new(name: impl Into<String>, bytes: Vec<u8>) -> Case {
        Case { name: name.into(), bytes, in_pieces: false }
    }

    /// An input of these three parts, with lengths that fit them.
    pub(super) fn of_parts(
        name: impl Into<String>,
        version: u8,
        descriptions: &[u8],
        steps: &[u8],
    ) -> Case {
        Case::new(name, parts(version, descriptions, steps))
    }
}

/// The description of whole number 5.
pub(super) const CELL: [u8; 5] = [2, 0, 0, 0, 5];

/// Begin in slot 1.
pub(super) const BEGIN: [u8; 8] = [1, 1, 0, 0, 0, 0, 0, 0];

/// Written out here, apart from the encoding of a good sheet: these may be bad.
fn parts(version: u8, descriptions: &[u8], steps: &[u8]) -> Vec<u8> {
    let mut bytes = vec![version];
    for part in [descriptions, steps] {
        bytes.extend((part.len() as u16).to_be_bytes());
        bytes.extend(part);
    }
    bytes
}
