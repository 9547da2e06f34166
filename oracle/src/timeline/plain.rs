//! The plain form: fixed-width text, in pages that fit a terminal.

use super::course::{code_words, Timeline};
use super::moment::{lane_name, Moment, Shade, Showing};
use super::table::cell_table;
use super::title::wrapped;

/// Characters of a line, as many as every terminal has.
const PAGE_WIDTH: usize = 80;

/// Characters of the names at the left, and a space.
const NAMES_WIDTH: usize = 8;

const KEY: &str = "\
phases: . idle, o open, l locking, t twilight, p publishing;
        in capitals while the slot holds a cell, with ! where a step is refused
";

pub(super) fn plain(timeline: &Timeline) -> String {
    let mut out = String::new();
    for words in [&timeline.title.heading, &timeline.title.rest] {
        for line in wrapped(words, PAGE_WIDTH) {
            add_line(&mut out, &line);
        }
    }
    for page in pages(&timeline.moments) {
        out.push('\n');
        add_page(&mut out, timeline, page);
    }
    out.push('\n');
    add_ending(&mut out, timeline);
    out.push('\n');
    out.push_str(KEY);
    for code in timeline.codes() {
        add_line(&mut out, &format!("code {code}: {}", code_words(code)));
    }
    out
}

/// As many steps to a page as fit beside each other.
fn pages(moments: &[Moment]) -> Vec<&[Moment]> {
    let mut pages = Vec::new();
    let (mut first, mut width) = (0, NAMES_WIDTH);
    for (next, moment) in moments.iter().enumerate() {
        let column = column_width(moment);
        if next > first && width + column > PAGE_WIDTH {
            pages.push(&moments[first..next]);
            (first, width) = (next, NAMES_WIDTH);
        }
        width += column;
    }
    if first < moments.len() {
        pages.push(&moments[first..]);
    }
    pages
}

/// The widest word of the column and a space.
fn column_width(moment: &Moment) -> usize {
    let numbers = [moment.place.to_string(), moment.clock.to_string()];
    let words = words_of(moment).into_iter().chain(numbers);
    1 + words.map(|word| word.chars().count()).max().unwrap_or(0)
}

/// What is written below the phase: name, arguments or result, tags.
fn words_of(moment: &Moment) -> Vec<String> {
    let mut words = vec![moment.name.clone()];
    words.extend(moment.lines.iter().cloned());
    words.extend(moment.tags.iter().map(|tag| tag.words.clone()));
    words
}

fn add_page(out: &mut String, timeline: &Timeline, page: &[Moment]) {
    add_columns(out, "step", page, |moment| moment.place.to_string());
    for &lane in &timeline.lanes {
        add_columns(out, &lane_name(lane), page, |moment| phase_letters(moment, lane));
        let own = page.iter().filter(|moment| moment.lane == lane);
        let height = own.map(|moment| words_of(moment).len()).max().unwrap_or(0);
        for line in 0..height {
            add_columns(out, "", page, |moment| match moment.lane == lane {
                true => words_of(moment).get(line).cloned().unwrap_or_default(),
                false => String::new(),
            });
        }
    }
    add_columns(out, "clock", page, |moment| moment.clock.to_string());
}

fn add_columns(out: &mut String, name: &str, page: &[Moment], word: impl Fn(&Moment) -> String) {
    let mut line = format!("{name:<NAMES_WIDTH$}");
    for moment in page {
        line += &format!("{:<width$}", word(moment), width = column_width(moment));
    }
    add_line(out, &line);
}

/// The phase across the whole column, so that a lane can be followed.
fn phase_letters(moment: &Moment, lane: u8) -> String {
    let letter = moment.showing(lane).map_or(' ', letter);
    let mut letters = letter.to_string().repeat(column_width(moment) - 1);
    if moment.lane == lane && moment.is_refused() {
        letters.replace_range(..1, "!");
    }
    letters
}

fn letter(showing: &Showing) -> char {
    let letter = match showing.shade {
        Shade::Idle => '.',
        Shade::Open => 'o',
        Shade::Locking => 'l',
        Shade::Twilight => 't',
        Shade::Publishing => 'p',
    };
    match showing.held.is_empty() {
        true => letter,
        false => letter.to_ascii_uppercase(),
    }
}

fn add_ending(out: &mut String, timeline: &Timeline) {
    let table = cell_table(timeline);
    for row in &table {
        let mut line = String::new();
        for (column, word) in row.iter().enumerate() {
            let widest = table.iter().map(|row| row[column].chars().count()).max().unwrap_or(0);
            line += &format!("{word:<width$}", width = widest + 2);
        }
        add_line(out, &line);
    }
    add_line(out, &format!("clock {}", timeline.end.clock()));
}

fn add_line(out: &mut String, line: &str) {
    out.push_str(line.trim_end());
    out.push('\n');
}
