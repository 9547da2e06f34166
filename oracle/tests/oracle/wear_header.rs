//! The constants of the C header for levelling wear are the numbers of request
//! #101's readings, and the guide has a row for each of its codes.

const HEADER: &str = include_str!("../../../include/crocktendril_wear.h");
const CORE_HEADER: &str = include_str!("../../../include/crocktendril.h");
const GUIDE: &str = include_str!("../../../docs/GUIDE.md");

/// The codes in the order in which they are tested, with their numbers.
const CODES: [(&str, u8); 9] = [
    ("DONE", 0),
    ("NOT_WELL_FORMED", 1),
    ("BAD_SET", 32),
    ("NO_SUCH_SLOT", 3),
    ("NOT_ALLOWED", 4),
    ("READ_HELD", 14),
    ("READ_NEWER", 10),
    ("NEGATIVE_COUNT", 33),
    ("NONE_LEFT", 34),
];

/// What a header defines a name as.
fn defined(header: &'static str, name: &str) -> Option<&'static str> {
    let start = format!("#define CROCKTENDRIL_{name} ");
    header.lines().find_map(|line| line.strip_prefix(start.as_str()))
}

/// The rows of the header's table of codes: a name, a number, and words.
fn header_rows() -> Vec<(&'static str, u8)> {
    let row = |line: &'static str| {
        let mut words = line.strip_prefix(" *   ")?.split_whitespace();
        Some((words.next()?, words.next()?.parse().ok()?))
    };
    HEADER.lines().filter_map(row).collect()
}

/// The rows of the table in the guide's chapter on wear.
fn guide_rows() -> Vec<(&'static str, u8)> {
    let start = GUIDE.find("\n## Levelling wear\n").expect("the chapter");
    let chapter = &GUIDE[start + 1..];
    let chapter = &chapter[..chapter.find("\n## ").expect("a next chapter")];
    let row = |line: &'static str| {
        let (number, rest) = line.strip_prefix("| ")?.split_once(" | `")?;
        Some((rest.split('`').next()?, number.parse().ok()?))
    };
    chapter.lines().filter_map(row).collect()
}

#[test]
fn codes_of_the_operation() {
    for (name, number) in CODES {
        let header = if number < 32 { CORE_HEADER } else { HEADER };
        let number = number.to_string();
        assert_eq!(defined(header, &format!("CODE_{name}")), Some(number.as_str()), "{name}");
    }
    let own = |line: &&str| line.starts_with("#define CROCKTENDRIL_CODE_");
    assert_eq!(HEADER.lines().filter(own).count(), 3);
}

#[test]
fn tables_of_codes() {
    assert_eq!(header_rows(), CODES);
    assert_eq!(guide_rows(), CODES);
}

#[test]
fn lengths_of_sets() {
    assert_eq!(defined(HEADER, "WEAR_GROUPS_MAX"), Some("8"));
    assert_eq!(defined(HEADER, "WEAR_SET_MAX"), Some("16"));
    assert_eq!(defined(HEADER, "WEAR_SET_LENGTH(g)"), Some("(2 * (g))"));
}
