//! The whole picture: title, rows of lanes, the end, the legend, and how they
//! stand on it.

use super::course::Timeline;
use super::svg::{Picture, Words, PALE_INK};
use super::title::wrapped;
use super::{columns, ending, lanes, legend};

const MARGIN: i32 = 28;
const NARROWEST: i32 = 1040;
/// Narrower than this, a legend has a line for each sign.
const LEGEND_WIDTH: i32 = 840;
const HEADING_SIZE: i32 = 28;
const REST_SIZE: i32 = 17;

pub(super) fn picture(timeline: &Timeline) -> String {
    let mut picture = Picture::default();
    let rows = columns::rows(&timeline.moments);
    let lanes_width = rows.iter().map(columns::Row::width).max().unwrap_or(0);
    let inner = lanes_width.max(NARROWEST - 2 * MARGIN);
    let mut y = draw_title(&mut picture, timeline, inner);
    for row in &rows {
        y = lanes::draw(&mut picture, timeline, row, (MARGIN, y)) + 22;
    }
    let (right, bottom) = ending::draw(&mut picture, timeline, MARGIN, y, inner);
    // Beside a narrow table there is room for the legend; else it goes below.
    let beside = right + 60;
    let (x, top) =
        if beside + LEGEND_WIDTH > MARGIN + inner { (MARGIN, bottom + 20) } else { (beside, y) };
    let legend = legend::draw(&mut picture, timeline, (x, top), MARGIN + inner - x);
    let width = (MARGIN + inner).max(right) + MARGIN;
    picture.file(width, bottom.max(legend) + MARGIN, &timeline.title.heading)
}

/// Draws the title and says where the next thing may begin.
fn draw_title(picture: &mut Picture, timeline: &Timeline, inner: i32) -> i32 {
    let mut y = MARGIN;
    let parts = [(&timeline.title.heading, HEADING_SIZE), (&timeline.title.rest, REST_SIZE)];
    for (words, size) in parts {
        // As many as fit of the mixed letters that sentences have.
        let letters = inner * 100 / (size * if size == HEADING_SIZE { 74 } else { 62 });
        for line in wrapped(words, letters as usize) {
            y += size + 8;
            let line = Words::new(&line, size);
            let heading = size == HEADING_SIZE;
            picture.words(MARGIN, y - 8, &if heading { line.bold() } else { line.ink(PALE_INK) });
        }
    }
    y + 14
}
