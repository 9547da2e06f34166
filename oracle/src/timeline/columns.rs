//! How wide the column of each step is, and which columns make a row.

use super::moment::Moment;
use super::signs::{SIZE, SMALL, TAG_AIR};
use super::svg::Words;

/// Room for the names of the lanes.
pub(super) const NAMES: i32 = 84;

/// About the widest row that is still read on a slide.
const ROW_WIDTH: i32 = 1800;
/// Before the first column of a further row: names of the cells still held.
const GUTTER: i32 = 78;
const NARROWEST_COLUMN: i32 = 48;
/// Beside the words of a column, both sides together.
const AIR: i32 = 8;

/// Steps beside each other.
pub(super) struct Row<'a> {
    pub moments: &'a [Moment],
    /// The last step of the row before.
    pub before: Option<&'a Moment>,
    widths: Vec<i32>,
}

impl<'a> Row<'a> {
    fn of(all: &'a [Moment], first: usize, end: usize) -> Row<'a> {
        let before = first.checked_sub(1).map(|last| &all[last]);
        let moments = &all[first..end];
        Row { moments, before, widths: moments.iter().map(column_width).collect() }
    }

    /// With the names of the lanes.
    pub fn width(&self) -> i32 {
        self.left(self.widths.len())
    }

    /// Where a column begins, from the left edge of the names.
    pub fn left(&self, column: usize) -> i32 {
        let gutter = if self.before.is_some() { GUTTER } else { 0 };
        NAMES + gutter + self.widths.iter().take(column).sum::<i32>()
    }

    /// Where the lanes begin.
    pub fn start(&self) -> i32 {
        NAMES
    }

    pub fn middle(&self, column: usize) -> i32 {
        (self.left(column) + self.left(column + 1)) / 2
    }
}

/// All steps in rows of about equal width.
pub(super) fn rows(moments: &[Moment]) -> Vec<Row<'_>> {
    let total: i32 = moments.iter().map(column_width).sum();
    let count = (total + ROW_WIDTH - 1) / ROW_WIDTH;
    let mut rows = Vec::new();
    let (mut first, mut passed) = (0, 0);
    for (next, moment) in moments.iter().enumerate() {
        let width = column_width(moment);
        // The row ends where its share of the whole width does.
        let share = total * (rows.len() as i32 + 1) / count;
        if next > first && passed + width / 2 > share {
            rows.push(Row::of(moments, first, next));
            first = next;
        }
        passed += width;
    }
    if first < moments.len() {
        rows.push(Row::of(moments, first, moments.len()));
    }
    rows
}

fn column_width(moment: &Moment) -> i32 {
    let on_lane = moment.lines.iter().chain([&moment.name]);
    let on_lane = on_lane.map(|line| Words::new(line, SIZE).width());
    let tags = moment.tags.iter().map(|tag| Words::new(&tag.words, SMALL).bold().width() + TAG_AIR);
    // A lock begins a hold, which has the name of the cell on it.
    let locked = moment.lines.iter().filter(|_| moment.name == "lock");
    let hold = locked.map(|line| Words::new(line, SMALL).width() + TAG_AIR);
    let clock = Words::new(&moment.clock.to_string(), SMALL).bold().width() + TAG_AIR;
    let widest = on_lane.chain(tags).chain(hold).max().unwrap_or(0);
    (widest.max(clock) + AIR).max(NARROWEST_COLUMN)
}
