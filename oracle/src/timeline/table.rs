//! The cells at the end of a run, as a table.

use super::course::Timeline;
use super::moment::words;

pub(super) type TableRow = [String; 6];

/// A row of names, then a row for each cell.
pub(super) fn cell_table(timeline: &Timeline) -> Vec<TableRow> {
    let names = ["cell", "kind", "at first", "at the end", "stamp", "holder"];
    let mut rows = vec![names.map(str::to_string)];
    let cells = (0..).zip(timeline.first_values.iter().zip(timeline.end.cells()));
    for (number, (first, last)) in cells {
        let holder = match timeline.end.holder(number) {
            0 => "none".to_string(),
            slot => format!("slot {slot}"),
        };
        let kind = first.kind().name().to_string();
        let (first, end) = (words(*first), words(last.value));
        rows.push([number.to_string(), kind, first, end, last.stamp.to_string(), holder]);
    }
    rows
}
