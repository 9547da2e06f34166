//! The cells and the clock at the end of a run.

use super::course::Timeline;
use super::svg::{Anchor, Picture, Words, INK, PALE_INK};
use super::table::{cell_table, TableRow};

const LINE: i32 = 24;
const SIZE: i32 = 15;
/// Rows of a block; further cells go into a block beside it.
const ROWS: usize = 8;
const BETWEEN_COLUMNS: i32 = 18;
const BETWEEN_BLOCKS: i32 = 40;

/// Draws the clock and the cells at the end within this width, and says how
/// far to the right and down they go.
pub(super) fn draw(
    picture: &mut Picture,
    timeline: &Timeline,
    left: i32,
    top: i32,
    width: i32,
) -> (i32, i32) {
    let clock = format!("At the end: clock {}", timeline.end.clock());
    let heading = Words::new(&clock, SIZE + 2).bold();
    picture.words(left, top + LINE - 6, &heading);
    let table = cell_table(timeline);
    let Some((names, cells)) = table.split_first() else {
        return (left + heading.width(), top + LINE);
    };
    let widths = column_widths(&table);
    let block: i32 = widths.iter().map(|column| column + BETWEEN_COLUMNS).sum();
    let (mut x, mut y) = (left, top + LINE + 4);
    let (mut right, mut bottom) = (left + heading.width(), y);
    for rows in cells.chunks(ROWS) {
        if x > left && x + block > left + width {
            (x, y) = (left, bottom + LINE / 2);
        }
        draw_block(picture, (x, y), &widths, names, rows);
        right = right.max(x + block);
        bottom = bottom.max(y + LINE * (rows.len() as i32 + 1));
        x += block + BETWEEN_BLOCKS;
    }
    (right, bottom)
}

fn column_widths(table: &[TableRow]) -> Vec<i32> {
    let widest = |column: usize| {
        let widths = table.iter().map(|row| Words::new(&row[column], SIZE).width());
        widths.max().unwrap_or(0)
    };
    (0..6).map(widest).collect()
}

fn draw_block(
    picture: &mut Picture,
    at: (i32, i32),
    widths: &[i32],
    names: &TableRow,
    rows: &[TableRow],
) {
    let (left, top) = at;
    let block: i32 = widths.iter().map(|column| column + BETWEEN_COLUMNS).sum();
    let right = left + block - BETWEEN_COLUMNS;
    picture.line((left, top + LINE), (right, top + LINE), PALE_INK, 1);
    for (row, words) in (0..).zip(std::iter::once(names).chain(rows)) {
        let baseline = top + LINE * (row + 1) - 7;
        let mut x = left;
        for (column, (word, width)) in words.iter().zip(widths).enumerate() {
            let ink = if row == 0 { PALE_INK } else { INK };
            // Numbers stand at the right, so that their digits do.
            let (place, anchor) = match column {
                0 | 2 | 3 | 4 => (x + width, Anchor::End),
                _ => (x, Anchor::Start),
            };
            picture.words(place, baseline, &Words::new(word, SIZE).ink(ink).anchor(anchor));
            x += width + BETWEEN_COLUMNS;
        }
    }
}
