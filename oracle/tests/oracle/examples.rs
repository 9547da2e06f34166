//! The sheets under `examples/sheets`: each shows what its comment says. What
//! is asked here was worked out by hand from the document.

use oracle::{run, text};

use crate::bench::{held_by_another, read_held, refused, whole, Answer, DONE, FALSE, TRUE};

pub const FOLDER: &str = concat!(env!("CARGO_MANIFEST_DIR"), "/../examples/sheets");

/// Those with a test below, and sheet S, whose output the document gives.
pub const NAMES: [&str; 15] = [
    "blocked",
    "codes",
    "eight-slots",
    "full-log",
    "give-up",
    "held-or-newer",
    "ignore",
    "late-writer",
    "no-steps",
    "one-by-one",
    "race",
    "reload",
    "s",
    "totaliser",
    "zeros",
];

/// What a sheet has printed: the text of each step with its answer, and the
/// lines of the cells and of the clock.
struct Shown {
    steps: Vec<(String, Answer)>,
    rest: Vec<String>,
}

impl Shown {
    fn of(name: &str) -> Shown {
        let lines = std::fs::read(format!("{FOLDER}/{name}.txt")).expect("an example");
        let sheet = text::assemble(&lines).expect("a good text");
        let texts = text::show(&sheet);
        let texts = texts.lines().skip(sheet.cells().len()).map(str::to_string);
        let output = run::run(&sheet);
        let (replies, rest): (Vec<&str>, Vec<&str>) =
            output.lines().partition(|line| line.starts_with(|first: char| first.is_ascii_digit()));
        assert_eq!(replies.len(), sheet.calls().len());
        let steps = texts.zip(replies.into_iter().map(answer)).collect();
        Shown { steps, rest: rest.into_iter().map(str::to_string).collect() }
    }

    /// The answers to all steps that are written so, in their order.
    fn answers(&self, step: &str) -> Vec<Answer> {
        let same = self.steps.iter().filter(|(text, _)| text == step);
        same.map(|(_, answer)| *answer).collect()
    }

    /// The codes other than 0, in the order of the steps.
    fn codes(&self) -> Vec<u8> {
        let codes = self.steps.iter().map(|(_, answer)| answer.0);
        codes.filter(|code| *code != 0).collect()
    }
}

fn answer(line: &str) -> Answer {
    let fields: Vec<&str> = line.split(' ').collect();
    let [_, code, kind, word] = fields[..] else { panic!("{line}") };
    let word = u32::from_str_radix(word, 16).expect("a word");
    (code.parse().expect("a code"), kind.parse().expect("a kind"), word)
}

fn real(word: u32) -> Answer {
    (0, 3, word)
}

#[test]
fn every_example_is_tested_here_and_says_what_it_shows() {
    let files = std::fs::read_dir(FOLDER).expect("the examples");
    let names = files.map(|file| file.expect("a file").file_name().into_string().expect("a name"));
    let mut names: Vec<String> = names.collect();
    names.sort();
    assert_eq!(names, NAMES.map(|name| format!("{name}.txt")));
    for name in names {
        let text = std::fs::read_to_string(format!("{FOLDER}/{name}")).expect("a text");
        let comment = text.lines().take_while(|line| line.starts_with("# "));
        let words: String = comment.collect();
        assert!(words.ends_with('.') && words.len() > 40, "{name}");
    }
}

#[test]
fn a_repair_by_reload() {
    let shown = Shown::of("reload");
    assert_eq!(shown.answers("enter 1"), [FALSE]);
    assert_eq!(shown.answers("ask 1 0"), [TRUE, FALSE]);
    assert_eq!(shown.answers("ask 1 1"), [FALSE]);
    assert_eq!(shown.answers("reload 1"), [held_by_another(0, 2), DONE]);
    assert_eq!(shown.answers("reread 1 0"), [whole(9)]);
    assert_eq!(shown.answers("reread 1 1"), [whole(7)]);
    assert_eq!(shown.answers("finish 1"), [DONE]);
    assert_eq!(shown.codes(), [11]);
    // Stamp 1 is slot 2's; slot 1 has 2 by enter and 3 by reload.
    let rest =
        ["cell 0 2 00000009 1 0", "cell 1 2 00000007 0 0", "cell 2 2 00000010 3 0", "clock 3"];
    assert_eq!(shown.rest, rest);
}

#[test]
fn ignoring() {
    let shown = Shown::of("ignore");
    assert_eq!(shown.answers("enter 2"), [TRUE]);
    assert_eq!(shown.answers("ignore 2"), [DONE]);
    assert_eq!(shown.answers("enter 1"), [FALSE]);
    assert_eq!(shown.answers("ignore 1"), [DONE]);
    assert_eq!(shown.answers("ask 1 0"), [TRUE, TRUE]);
    // 20.5 is 1.01001 in binary times 2^4, 21.25 is 1.010101 times 2^4.
    assert_eq!(shown.answers("reread 1 0"), [real(0x41a4_0000)]);
    assert_eq!(shown.answers("finish 1"), [DONE]);
    assert_eq!(shown.codes(), [0; 0]);
    assert_eq!(shown.rest, ["cell 0 3 41aa0000 1 0", "cell 1 2 00000065 2 0", "clock 2"]);
}

/// The total has both increments: 100, 3 and 4 are 107.
#[test]
fn a_totaliser() {
    let shown = Shown::of("totaliser");
    assert_eq!(shown.answers("enter 1"), [FALSE]);
    assert_eq!(shown.answers("ignore 1"), [refused(15)]);
    assert_eq!(shown.answers("reload 1"), [DONE]);
    assert_eq!(shown.answers("reread 1 0"), [whole(104)]);
    assert_eq!(shown.answers("finish 1"), [DONE]);
    assert_eq!(shown.codes(), [15]);
    // Stamp 1 is slot 2's; slot 1 has 2 by enter and 3 by reload.
    assert_eq!(shown.rest, ["cell 0 2 0000006b 3 0", "clock 3"]);
}

#[test]
fn a_lost_race() {
    let shown = Shown::of("race");
    assert_eq!(shown.answers("lock 1"), [held_by_another(0, 2), DONE, DONE]);
    assert_eq!(shown.answers("enter 1"), [FALSE, TRUE]);
    assert_eq!(shown.answers("finish 1"), [refused(13), DONE]);
    assert_eq!(shown.answers("read 1 0"), [whole(10), whole(11)]);
    assert_eq!(shown.codes(), [11, 13]);
    // Both increments are there: 10 and two more.
    assert_eq!(shown.rest, ["cell 0 2 0000000c 3 0", "clock 3"]);
}

#[test]
fn two_slots_that_block_each_others_reload() {
    let shown = Shown::of("blocked");
    assert_eq!(shown.answers("enter 1"), [FALSE]);
    assert_eq!(shown.answers("enter 2"), [FALSE]);
    let by_slot_2 = held_by_another(0, 2);
    assert_eq!(shown.answers("reload 1"), [by_slot_2, by_slot_2, DONE]);
    assert_eq!(shown.answers("reload 2"), [held_by_another(1, 1); 2]);
    assert_eq!(shown.answers("give up 2"), [DONE]);
    assert_eq!(shown.answers("reread 1 0"), [whole(1)]);
    assert_eq!(shown.rest, ["cell 0 2 00000001 0 0", "cell 1 2 0000000a 3 0", "clock 3"]);
}

#[test]
fn a_full_log() {
    let shown = Shown::of("full-log");
    for cell in 1..=15 {
        assert_eq!(shown.answers(&format!("read 1 {cell}")), [whole(cell)]);
    }
    assert_eq!(shown.answers("read 1 0"), [whole(0), whole(0)]);
    assert_eq!(shown.answers("read 1 16"), [refused(9), whole(200)]);
    assert_eq!(shown.answers("write 1 0 whole 100"), [refused(9)]);
    assert_eq!(shown.answers("write 1 16 whole 200"), [DONE]);
    assert_eq!(shown.answers("lock 1"), [DONE; 16]);
    assert_eq!(shown.answers("publish 1"), [DONE; 16]);
    assert_eq!(shown.codes(), [9, 9]);
    let mut rest = vec!["cell 0 2 00000000 0 0".to_string()];
    rest.extend((1..=15).map(|cell| format!("cell {cell} 2 {:08x} 1 0", 100 + cell)));
    rest.extend(["cell 16 2 000000c8 1 0".to_string(), "clock 1".to_string()]);
    assert_eq!(shown.rest, rest);
}

#[test]
fn every_code_from_2_to_11_with_14_and_15() {
    let shown = Shown::of("codes");
    assert_eq!(shown.codes(), [2, 3, 4, 15, 5, 6, 7, 8, 9, 14, 10, 11]);
    let by_step = [
        ("step 0 9 0 0 0x00000000", 2),
        ("begin 9", 3),
        ("ignore 1", 15),
        ("read 1 17", 5),
        ("write 1 1 raw 1 0x00000002", 6),
        ("write 1 1 whole 0", 7),
        ("reread 1 0", 8),
    ];
    for (step, code) in by_step {
        assert_eq!(shown.answers(step), [refused(code)], "{step}");
    }
    // Idle, to be marked, with a full log, of a held cell, and of one that is
    // newer by then.
    let reads = [refused(4), whole(5), refused(9), read_held(2), refused(10)];
    assert_eq!(shown.answers("read 1 0"), reads);
    assert_eq!(shown.answers("lock 1"), [DONE, held_by_another(3, 2)]);
    assert_eq!(shown.rest[0], "cell 0 2 00000009 4 0");
    assert_eq!(shown.rest[3], "cell 3 2 00000003 0 2");
}

#[test]
fn held_or_newer() {
    let shown = Shown::of("held-or-newer");
    assert_eq!(shown.answers("read 3 0"), [read_held(1), whole(5), whole(5)]);
    assert_eq!(shown.answers("read 3 1"), [read_held(2), read_held(2), refused(10), whole(70)]);
    assert_eq!(shown.answers("begin 3"), [DONE, DONE]);
    let in_the_way = [held_by_another(1, 2), held_by_another(0, 1)];
    assert_eq!(shown.answers("reload 3"), [in_the_way[0], in_the_way[1], DONE]);
    assert_eq!(shown.answers("finish 3"), [DONE]);
    assert_eq!(shown.codes(), [14, 14, 14, 10, 11, 11]);
    assert_eq!(shown.rest, ["cell 0 2 00000005 0 0", "cell 1 2 00000046 1 0", "clock 3"]);
}

/// A comment at a step that begins with a number tells the code, and with it
/// the word if there is one. Every code but 0 is told so.
#[test]
fn comments_at_steps_tell_what_they_get() {
    let told = |line: &str| {
        let (_, comment) = line.split_once('#')?;
        let number = comment.trim().split(':').next()?;
        let (code, word) = number.split_once(", ").unwrap_or((number, "00000000"));
        Some((code.parse::<u8>().ok()?, u32::from_str_radix(word, 16).ok()?))
    };
    for name in NAMES {
        let text = std::fs::read_to_string(format!("{FOLDER}/{name}.txt")).expect("a text");
        let is_step =
            |line: &&str| !line.is_empty() && !line.starts_with('#') && !line.starts_with("cell ");
        let lines: Vec<&str> = text.lines().filter(is_step).collect();
        let steps = Shown::of(name).steps;
        assert_eq!(lines.len(), steps.len(), "{name}");
        for (line, (_, (code, _, word))) in lines.into_iter().zip(steps) {
            assert_eq!(told(line), (code != 0).then_some((code, word)), "{name}: {line}");
        }
    }
}

#[test]
fn reals_with_both_zeros() {
    let shown = Shown::of("zeros");
    let (plus, minus) = (real(0), real(0x8000_0000));
    assert_eq!(shown.answers("read 1 0"), [plus, minus]);
    assert_eq!(shown.answers("read 1 1"), [minus, plus]);
    assert_eq!(shown.answers("read 1 2"), [real(0x7f7f_ffff)]);
    assert_eq!(shown.answers("reread 1 0"), [plus]);
    assert_eq!(shown.answers("reread 1 1"), [minus]);
    assert_eq!(shown.codes(), [6]);
    let rest =
        ["cell 0 3 80000000 1 0", "cell 1 3 00000000 1 0", "cell 2 3 7f7fffff 0 0", "clock 1"];
    assert_eq!(shown.rest, rest);
}

#[test]
fn give_up_in_each_phase() {
    let shown = Shown::of("give-up");
    let (no, yes) = (refused(4), DONE);
    // Idle, open, locking, in twilight, publishing, still publishing.
    assert_eq!(shown.answers("give up 1"), [no, yes, yes, yes, no, no]);
    for reader in 2..=4 {
        assert_eq!(shown.answers(&format!("read {reader} 0")), [whole(5)]);
    }
    assert_eq!(shown.answers("enter 1"), [TRUE, TRUE]);
    assert_eq!(shown.answers("publish 1"), [DONE, DONE]);
    assert_eq!(shown.rest, ["cell 0 2 00000032 2 0", "cell 1 2 00000046 2 0", "clock 2"]);
}

#[test]
fn eight_slots_at_once() {
    let shown = Shown::of("eight-slots");
    assert_eq!(shown.codes(), [0; 0]);
    let place = |step: String| shown.steps.iter().position(|(text, _)| *text == step);
    for slot in 1..=8 {
        // All have begun before any closes, and all have entered before any finishes.
        assert!(place(format!("begin {slot}")) < place("close 1".to_string()));
        assert!(place(format!("enter {slot}")) < place("finish 1".to_string()));
        assert_eq!(shown.answers(&format!("enter {slot}")), [TRUE]);
        assert_eq!(shown.answers(&format!("publish {slot}")), [DONE]);
    }
    let cells = (0..8).map(|cell| format!("cell {cell} 2 {:08x} {} 0", 10 * (cell + 1), 8 - cell));
    let rest: Vec<String> = cells.chain(["clock 8".to_string()]).collect();
    assert_eq!(shown.rest, rest);
}

#[test]
fn a_late_writer() {
    let shown = Shown::of("late-writer");
    assert_eq!(shown.answers("enter 1"), [FALSE]);
    assert_eq!(shown.answers("finish 1"), [refused(13)]);
    assert_eq!(shown.answers("read 3 0"), [read_held(2), whole(9)]);
    assert_eq!(shown.rest, ["cell 0 2 00000009 1 0", "clock 2"]);
}

#[test]
fn publishing_one_by_one() {
    let shown = Shown::of("one-by-one");
    assert_eq!(shown.answers("publish 4"), [DONE]);
    // Slot 5 began after the stamp was given, so what is published is readable.
    assert_eq!(shown.answers("read 5 0"), [whole(-1)]);
    assert_eq!(shown.answers("read 5 1"), [read_held(4)]);
    assert_eq!(shown.answers("lock 5"), [DONE, held_by_another(2, 4)]);
    let rest =
        ["cell 0 2 ffffffff 1 5", "cell 1 1 00000000 0 4", "cell 2 3 3fc00000 0 4", "clock 1"];
    assert_eq!(shown.rest, rest);
}

#[test]
fn no_steps() {
    let shown = Shown::of("no-steps");
    assert!(shown.steps.is_empty());
    let rest =
        ["cell 0 1 00000001 0 0", "cell 1 2 80000000 0 0", "cell 2 3 bf000000 0 0", "clock 0"];
    assert_eq!(shown.rest, rest);
}
