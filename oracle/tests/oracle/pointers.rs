//! Timelines: who is in the way, by name and by a pointer.

use oracle::{Machine, Step, Timeline};

use crate::drawing::Drawing;
use crate::timelines::{has, Case};

#[test]
fn conflicts_point_at_the_holder() {
    let blocked = Case::example("blocked");
    let drawing = Drawing::of(&blocked.svg);
    assert_eq!(drawing.words_at(11), ["mark 0", "stamp 1", "enter", "cell 0", "held by slot 2"]);
    assert_eq!(drawing.words_at(13), ["code 11", "reload", "cell 0", "held by slot 2"]);
    assert_eq!(drawing.words_at(14), ["code 11", "reload", "cell 1", "held by slot 1"]);
    assert_eq!(drawing.words_at(17), ["no commit", "give up"]);
    // Four refused reloads, a mark of each enter, and both kinds in the legend.
    assert_eq!(blocked.svg.matches("<circle").count(), 4 + 2 + 2);
    // The cell is free by then and only newer, so there is no one to point at.
    let newer = b"cell whole 5\nbegin 1\nbegin 2\nwrite 2 0 whole 6\nclose 2\nlock 2\nenter 2\n\
        finish 2\npublish 2\nread 1 0\n";
    let svg = Timeline::read(newer).expect("a good text").svg().expect("not too long");
    assert_eq!(Drawing::of(&svg).words_at(9), ["code 10", "read", "cell 0", "is newer"]);
    assert_eq!(svg.matches("<circle").count(), 0);
}

/// By the name of its lane; the reload points at the one that its reply names,
/// though both slots are in its way.
#[test]
fn who_is_in_the_way_is_told_by_name() {
    let case = Case::example("held-or-newer");
    let drawing = Drawing::of(&case.svg);
    let words = |place: usize| drawing.words_at(place);
    assert_eq!(words(6), ["code 14", "read", "cell 0", "held by slot 1"]);
    assert_eq!(words(13), ["code 14", "read", "cell 1", "held by slot 2"]);
    // Newer too, but that is not told.
    assert_eq!(words(21), ["code 14", "read", "cell 1", "held by slot 2"]);
    assert_eq!(words(23), ["code 10", "read", "cell 1", "is newer"]);
    assert_eq!(words(38), ["code 11", "reload", "cell 1", "held by slot 2"]);
    assert_eq!(words(40), ["code 11", "reload", "cell 0", "held by slot 1"]);
    // Three reads, two reloads, and the legend.
    assert_eq!(case.svg.matches("<circle").count(), 3 + 2 + 1);
    let legend = [
        (10, "the cell is newer than the start"),
        (11, "another slot holds a cell to be locked or reloaded"),
        (14, "another slot holds the cell"),
    ];
    for (code, meaning) in legend {
        assert!(drawing.texts.iter().any(|text| text.words == meaning), "{code}");
        assert!(case.plain.contains(&format!("\ncode {code}: {meaning}\n")), "{code}");
    }
}

/// Of every refusal with code 11 or 14, in both forms: the holder in the
/// reply's word is the one that is told, and there is one pointer.
#[test]
fn each_refusal_by_a_holder_tells_of_it() {
    let told: usize = Case::all().map(|case| refusals_told(&case)).sum();
    assert!(told > 30, "{told}");
}

/// How many there are in the sheet. An enter points at holders, too, for what
/// it marks.
fn refusals_told(case: &Case) -> usize {
    let (drawing, steps) = (Drawing::of(&case.svg), case.steps());
    let (mut refused, mut marked) = (0, 0);
    for (place, call, before, reply) in steps {
        match (reply.code(), Step::numbered(call.step)) {
            (0, Some(Step::Enter)) => marked += held_reads(&before, call.slot),
            (11, _) => {
                tells(case, &drawing, place, reply.word() >> 8, reply.word() & 0xff);
                refused += 1;
            }
            (14, _) => {
                tells(case, &drawing, place, call.cell.into(), reply.word());
                refused += 1;
            }
            _ => {}
        }
    }
    // Of each kind that there is, the legend has one more.
    let legend = usize::from(refused > 0) + usize::from(marked > 0);
    assert_eq!(drawing.pointers.len(), refused + marked + legend, "{}", case.name);
    refused
}

fn tells(case: &Case, drawing: &Drawing, place: usize, cell: u32, holder: u32) {
    let (cell, holder) = (format!("cell {cell}"), format!("held by slot {holder}"));
    for column in case.both_columns(drawing, place) {
        let tells = has(&column, &cell) && has(&column, &holder);
        assert!(tells, "{} {place}: {column:?}", case.name);
    }
}

/// The cells that a slot has read and that another slot holds.
fn held_reads(machine: &Machine, slot: u8) -> usize {
    let reads = machine.slot(slot).map_or(&[][..], |own| &own.reads);
    reads.iter().filter(|read| machine.other_holder(read.cell, slot).is_some()).count()
}
