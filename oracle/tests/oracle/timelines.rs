//! Timelines: every slot has its lane, every step its words, and no words meet.

use oracle::timeline::PICTURE_STEPS_AT_MOST;
use oracle::{run, text, Call, Machine, Phase, Random, Reply, Sheet, Step, Timeline, Value};

use crate::drawing::{plain_column, Drawing};
use crate::examples::{FOLDER, NAMES};

const PICTURES: &str = concat!(env!("CARGO_MANIFEST_DIR"), "/../docs/img");

/// Those under `docs/img`.
const COMMITTED: [&str; 5] = ["blocked", "race", "reload", "s", "totaliser"];

fn example(name: &str) -> Vec<u8> {
    std::fs::read(format!("{FOLDER}/{name}.txt")).expect("an example")
}

/// A sheet with both forms of its timeline.
pub struct Case {
    pub name: String,
    pub sheet: Sheet,
    pub plain: String,
    pub svg: String,
}

impl Case {
    fn of(name: String, sheet: Sheet, timeline: &Timeline) -> Case {
        let svg = timeline.svg().expect("not too long");
        Case { name, sheet, plain: timeline.plain(), svg }
    }

    pub fn example(name: &str) -> Case {
        let bytes = example(name);
        let sheet = text::assemble(&bytes).expect("a good text");
        Case::of(name.to_string(), sheet, &Timeline::read(&bytes).expect("a good text"))
    }

    /// Up to 40 random steps.
    fn random(part: u64) -> Case {
        let long = Random::of_part(6, part).sheet().expect("a good sheet");
        let calls = long.calls().iter().copied().take(40).collect();
        let sheet = Sheet::new(long.cells().to_vec(), calls).expect("a good sheet");
        let timeline = Timeline::of(&sheet, "").expect("a good sheet");
        Case::of(format!("random sheet {part}"), sheet, &timeline)
    }

    /// The examples and 200 random sheets.
    pub fn all() -> impl Iterator<Item = Case> {
        NAMES.into_iter().map(Case::example).chain((0..200).map(Case::random))
    }

    /// Each step with its place, the machine before it and the reply.
    pub fn steps(&self) -> Vec<(usize, Call, Machine, Reply)> {
        let mut machine = Machine::fresh(self.sheet.cells()).expect("a good sheet");
        let made = (1..).zip(self.sheet.calls()).map(|(place, &call)| {
            let before = machine.clone();
            (place, call, before, machine.step(call))
        });
        made.collect()
    }

    /// The lanes that its steps ask for.
    fn lanes(&self) -> Vec<String> {
        let used = |slot: &u8| self.sheet.calls().iter().any(|call| call.slot == *slot);
        let mut lanes: Vec<String> =
            (1..=8).filter(used).map(|slot| format!("slot {slot}")).collect();
        if self.sheet.calls().iter().any(|call| !(1..=8).contains(&call.slot)) {
            lanes.push("no slot".to_string());
        }
        lanes
    }

    /// The words at a step, in the picture and in the plain form.
    pub fn both_columns(&self, drawing: &Drawing, place: usize) -> [Vec<String>; 2] {
        let plain = plain_column(&self.plain, place).into_iter().map(|(_, words)| words);
        [drawing.words_at(place), plain.collect()]
    }
}

pub fn has(column: &[String], words: &str) -> bool {
    column.iter().any(|line| line == words)
}

#[test]
fn each_slot_of_the_sheet_has_its_lane() {
    for case in Case::all() {
        assert_eq!(Drawing::of(&case.svg).lanes(), case.lanes(), "{}", case.name);
        for page in case.plain.split("\n\n").filter(|page| page.starts_with("step ")) {
            let names = page.lines().map(|line| line.get(..8).unwrap_or(line).trim());
            let lanes: Vec<&str> = names.filter(|name| name.contains("slot")).collect();
            assert_eq!(lanes, case.lanes(), "{}", case.name);
        }
    }
}

#[test]
fn each_committed_transactions_stamp_appears_where_it_commits() {
    let mut commits = 0;
    for case in Case::all() {
        let drawing = Drawing::of(&case.svg);
        for (place, call, before, reply) in case.steps() {
            if call.step != Step::Finish.number() || reply != Reply::Done {
                continue;
            }
            let own = before.slot(call.slot).expect("a transaction");
            let stamp = format!("stamp {}", own.commit().expect("in twilight").stamp);
            for column in case.both_columns(&drawing, place) {
                assert!(has(&column, "commit") && has(&column, &stamp), "{} {place}", case.name);
            }
            commits += 1;
        }
    }
    assert!(commits > 100, "{commits}");
}

#[test]
fn each_step_has_its_name_and_each_refused_one_its_code() {
    let mut refused = 0;
    for case in Case::all() {
        let drawing = Drawing::of(&case.svg);
        for (place, call, _, reply) in case.steps() {
            let step = Step::numbered(call.step);
            let name = step.map_or(format!("step {}", call.step), |step| step.name().to_string());
            for column in case.both_columns(&drawing, place) {
                assert!(has(&column, &name), "{} {place}", case.name);
                let codes: Vec<&String> =
                    column.iter().filter(|words| words.starts_with("code ")).collect();
                match reply.code() {
                    0 => assert!(codes.is_empty(), "{} {place}", case.name),
                    code => assert_eq!(codes, [&format!("code {code}")], "{} {place}", case.name),
                }
            }
            refused += usize::from(reply.is_refused());
        }
    }
    assert!(refused > 500, "{refused}");
}

#[test]
fn locks_publishes_stamps_and_marks_are_told() {
    for case in Case::all() {
        let drawing = Drawing::of(&case.svg);
        for (place, call, before, reply) in case.steps() {
            let (Some(own), 0) = (before.slot(call.slot), reply.code()) else { continue };
            let next = match own.phase {
                Phase::Locking { taken } => taken,
                Phase::Publishing { published, .. } => published,
                _ => 0,
            };
            let cell = own.writes.get(next).map(|write| format!("cell {}", write.cell));
            let stamp = format!("stamp {}", before.clock() + 1);
            let marked = reply == Reply::Answer(Value::Truth(false));
            for column in case.both_columns(&drawing, place) {
                let is_told = match Step::numbered(call.step) {
                    Some(Step::Lock | Step::Publish) => has(&column, &cell.clone().expect("one")),
                    Some(Step::Reload) => has(&column, &stamp),
                    Some(Step::Enter) => {
                        let mark = column.iter().any(|words| words.starts_with("mark"));
                        has(&column, &stamp) && mark == marked
                    }
                    Some(Step::GiveUp) => has(&column, "no commit"),
                    _ => true,
                };
                assert!(is_told, "{} {place}: {column:?}", case.name);
            }
        }
    }
}

#[test]
fn no_words_of_a_picture_overlap_or_leave_it() {
    for case in Case::all() {
        let drawing = Drawing::of(&case.svg);
        let overlaps = drawing.overlaps();
        assert!(overlaps.is_empty(), "{}: {overlaps:?}", case.name);
        for text in &drawing.texts {
            let (left, top, right, bottom) = text.frame();
            let is_inside =
                left >= 0.0 && top >= 0.0 && right <= drawing.width && bottom <= drawing.height;
            assert!(is_inside && text.size >= 14.0, "{}: {text:?}", case.name);
        }
    }
}

#[test]
fn no_pointer_goes_through_words() {
    let mut pointers = 0;
    for case in Case::all() {
        let drawing = Drawing::of(&case.svg);
        pointers += drawing.pointers.len();
        let struck = drawing.struck_through();
        assert!(struck.is_empty(), "{}: {struck:?}", case.name);
    }
    assert!(pointers > 50, "{pointers}");
}

#[test]
fn the_end_and_a_legend_are_on_the_picture() {
    for case in Case::all() {
        let drawing = Drawing::of(&case.svg);
        let words: Vec<&str> = drawing.texts.iter().map(|text| text.words.as_str()).collect();
        for phase in ["idle", "open", "locking", "twilight", "publishing"] {
            assert!(words.contains(&phase), "{} {phase}", case.name);
        }
        let output = run::run(&case.sheet);
        let clock = output.lines().last().expect("the clock");
        assert!(words.contains(&format!("At the end: {clock}").as_str()), "{}", case.name);
        assert!(case.plain.lines().any(|line| line == clock), "{}", case.name);
    }
}

#[test]
fn the_committed_pictures_are_those_of_today() {
    for name in COMMITTED {
        let svg = std::fs::read_to_string(format!("{PICTURES}/{name}.svg")).expect("a picture");
        let today = Case::example(name).svg;
        assert!(svg == today, "docs/img/{name}.svg is not what `sheet show --timeline` makes");
        let png = std::fs::read(format!("{PICTURES}/{name}.png")).expect("a picture");
        assert!(png.starts_with(b"\x89PNG") && png.len() < 200_000, "{name}.png");
        // Width and height are at bytes 16 and 20 of every PNG.
        let number = |at: usize| u32::from_be_bytes(png[at..at + 4].try_into().expect("4 bytes"));
        let drawing = Drawing::of(&today);
        let size = (f64::from(number(16)), f64::from(number(20)));
        assert_eq!(size, (drawing.width, drawing.height), "{name}.png is of another picture");
    }
}

#[test]
fn sheet_s_at_the_steps_that_matter() {
    let drawing = Drawing::of(&Case::example("s").svg);
    assert_eq!(drawing.words_at(2), ["read", "cell 0", "= 5"]);
    assert_eq!(drawing.words_at(8), ["stamp 1", "enter", "no marks"]);
    assert_eq!(drawing.words_at(15), ["mark 0", "stamp 2", "enter", "cell 0", "is newer"]);
    assert_eq!(drawing.words_at(16), ["ask", "cell 0", "marked"]);
    assert_eq!(drawing.words_at(17), ["stamp 3", "reload", "no marks"]);
    assert_eq!(drawing.words_at(20), ["commit", "finish", "stamp 3"]);
    assert_eq!(drawing.words_at(21), ["publish", "cell 1", ":= 10"]);
}

/// The first cell that is marked and written is told at the step, and what the
/// code means in the legend.
#[test]
fn the_totaliser_at_the_steps_that_matter() {
    let case = Case::example("totaliser");
    let drawing = Drawing::of(&case.svg);
    assert_eq!(drawing.words_at(14), ["mark 0", "stamp 2", "enter", "cell 0", "is newer"]);
    assert_eq!(drawing.words_at(15), ["code 15", "ignore", "cell 0", "is written"]);
    assert_eq!(drawing.words_at(16), ["stamp 3", "reload", "no marks"]);
    assert_eq!(drawing.words_at(18), ["update", "cell 0", ":= 107"]);
    assert_eq!(drawing.words_at(20), ["publish", "cell 0", ":= 107"]);
    let meaning = "some marked cell is also in the slot's write log";
    assert!(drawing.texts.iter().any(|text| text.words == meaning));
    assert!(case.plain.contains(&format!("\ncode 15: {meaning}\n")));
}

#[test]
fn the_plain_form_of_a_short_sheet() {
    let sheet = b"# Two: one loses.\ncell whole 5\nbegin 1\nwrite 1 0 whole 6\nclose 1\nlock 1\n\
        begin 2\nread 2 0\nenter 1\ngive up 1\n";
    let expected = "\
Two
One loses.

step    1       2      3     4      5       6              7        8
slot 1  ooooooo oooooo lllll LLLLLL LLLLLLL LLLLLLLLLLLLLL TTTTTTTT TTTTTTTTT
        begin   write  close lock                          enter    give up
        start 0 cell 0       cell 0                        no marks no commit
                := 6                                       stamp 1
slot 2  ....... ...... ..... ...... ooooooo !ooooooooooooo oooooooo ooooooooo
                                    begin   read
                                    start 0 cell 0
                                            held by slot 1
                                            code 14
clock   0       0      0     0      0       0              1        1

cell  kind   at first  at the end  stamp  holder
0     whole  5         5           0      none
clock 1

phases: . idle, o open, l locking, t twilight, p publishing;
        in capitals while the slot holds a cell, with ! where a step is refused
code 14: another slot holds the cell
";
    let plain = Timeline::read(sheet).expect("a good text").plain();
    assert_eq!(plain, expected);
}

#[test]
fn titles_come_from_the_comment_at_the_head() {
    let titles = [
        ("", "A step sheet"),
        ("#\n", "A step sheet"),
        ("# A race: two run.\n", "A race"),
        ("# One sentence. Another: with a colon.\n", "One sentence"),
        ("# a < b & \"c\" > d\n", "a < b & \"c\" > d"),
        ("# bell \u{7} and escape \u{1b}[2J\n", "bell and escape [2J"),
    ];
    for (comment, title) in titles {
        let bytes = format!("{comment}cell whole 5\nbegin 1\n# Later: no title.\n");
        let timeline = Timeline::read(bytes.as_bytes()).expect("a good text");
        assert_eq!(timeline.plain().lines().next(), Some(title), "{comment}");
        let svg = timeline.svg().expect("not too long");
        assert_eq!(Drawing::of(&svg).texts.iter().filter(|t| t.words == title).count(), 1);
    }
}

#[test]
fn a_long_comment_is_wrapped() {
    let comment = format!("# {} {}\ncell whole 5\n", "word ".repeat(300), "x".repeat(500));
    let timeline = Timeline::read(comment.as_bytes()).expect("a good text");
    assert!(timeline.plain().lines().all(|line| line.len() <= 80));
    let drawing = Drawing::of(&timeline.svg().expect("not too long"));
    assert!(drawing.overlaps().is_empty());
    assert!(drawing.texts.iter().all(|text| text.frame().2 <= drawing.width));
}

/// A sheet of this many sensible steps of up to eight slots.
fn long_sheet(steps: usize) -> Sheet {
    let mut random = Random::new(6);
    let cells = random.values(20);
    let mut machine = Machine::fresh(&cells).expect("legal values");
    let habit = oracle::generate::Habit { slots: 8, patience: 8 };
    let mut calls = Vec::new();
    for _ in 0..steps {
        let call = random.likely_call(&machine, habit);
        machine.step(call);
        calls.push(call);
    }
    Sheet::new(cells, calls).expect("a good sheet")
}

#[test]
fn a_long_sheet_is_paged_and_the_picture_has_a_limit() {
    let longest = Timeline::of(&long_sheet(4096), "").expect("a good sheet");
    let plain = longest.plain();
    assert!(plain.lines().all(|line| line.len() <= 80));
    for place in [1, 2, 2048, 4095, 4096] {
        assert!(!plain_column(&plain, place).is_empty());
    }
    let refusal = longest.svg().expect_err("too long");
    assert!(refusal.starts_with("a picture has at most 400 steps and this sheet has 4096"));
    let most = Timeline::of(&long_sheet(PICTURE_STEPS_AT_MOST), "").expect("a good sheet");
    let drawing = Drawing::of(&most.svg().expect("not too long"));
    assert!(drawing.overlaps().is_empty() && drawing.struck_through().is_empty());
    assert!(drawing.width < 2200.0);
    assert!(!drawing.words_at(PICTURE_STEPS_AT_MOST).is_empty());
    let more = Timeline::of(&long_sheet(PICTURE_STEPS_AT_MOST + 1), "").expect("a good sheet");
    assert!(more.svg().is_err());
}
