//! The constants of the C header are the document's numbers.

use oracle::{area_length, Kind, Refusal, Reply, Step};

const HEADER: &str = include_str!("../../../include/crocktendril.h");

/// What the header defines a name as.
fn defined(name: &str) -> Option<&'static str> {
    let start = format!("#define CROCKTENDRIL_{name} ");
    HEADER.lines().find_map(|line| line.strip_prefix(start.as_str()))
}

fn check(name: &str, number: u8) {
    assert_eq!(defined(name), Some(number.to_string().as_str()), "{name}");
}

fn names_with(prefix: &str) -> usize {
    let start = format!("#define CROCKTENDRIL_{prefix}_");
    HEADER.lines().filter(|line| line.starts_with(&start)).count()
}

#[test]
fn steps_and_kinds() {
    for step in Step::ALL {
        let name = step.name().to_uppercase().replace(' ', "_");
        check(&format!("STEP_{name}"), step.number());
    }
    assert_eq!(names_with("STEP"), 14);
    for kind in Kind::ALL {
        check(&format!("KIND_{}", kind.name().to_uppercase()), kind.number());
    }
    check("KIND_NONE", Reply::Done.kind());
    assert_eq!(names_with("KIND"), 4);
}

#[test]
fn codes_of_steps() {
    use Refusal::*;
    let refusals = [
        ("NOT_WELL_FORMED", NotWellFormed),
        ("NO_SUCH_STEP", NoSuchStep),
        ("NO_SUCH_SLOT", NoSuchSlot),
        ("NOT_ALLOWED", NotAllowed),
        ("NO_SUCH_CELL", NoSuchCell),
        ("ILLEGAL_VALUE", IllegalValue),
        ("OTHER_KIND", OtherKind),
        ("NOT_IN_LOG", NotInLog),
        ("LOG_FULL", LogFull),
        ("READ_NEWER", ReadNewer),
        ("HELD_BY_ANOTHER", HeldByAnother { cell: 63, holder: 8 }),
        ("LAST_STAMP", ClockAtEnd),
        ("READ_HELD", ReadHeld { holder: 8 }),
        ("MARKED_WRITTEN", MarkedWritten),
    ];
    for (name, refusal) in refusals {
        check(&format!("CODE_{name}"), refusal.code());
    }
    check("CODE_DONE", Reply::Done.code());
    check("CODE_ABORTED", Reply::Ended.code());
    assert_eq!(names_with("CODE"), 16);
}

/// What they make of a word is checked where they are compiled, in
/// `examples/c/header.cpp`.
#[test]
fn macros_for_cell_and_holder() {
    assert!(defined("HOLDER(word)").is_some());
    assert!(defined("HELD_CELL(word)").is_some());
}

#[test]
fn lay_out_and_lengths() {
    check("LAY_OUT_DONE", 0);
    check("LAY_OUT_WRONG_LENGTH", 1);
    check("LAY_OUT_ILLEGAL_VALUE", 6);
    assert_eq!(names_with("LAY_OUT"), 3);
    check("CELLS_MAX", 64);
    check("SLOTS", 8);
    check("LOG_MAX", 16);
    check("DESCRIPTION_LENGTH", 5);
    assert_eq!(defined("AREA_LENGTH(n)"), Some("(1590 + 14 * (n))"));
    assert_eq!(area_length(0), 1590);
}
