//! A row of the picture: the lanes of all slots over some steps.

use super::columns::{Row, NAMES};
use super::course::Timeline;
use super::moment::{lane_name, Moment, Obstacle, Shade, Showing};
use super::signs::{draw_hold, draw_tag, phase_fill};
use super::signs::{ALARM, HOLD_HEIGHT, LANE_LINE, SIZE, WARNING};
use super::svg::{Anchor, Picture, Words, INK, PALE_INK};

const AXIS: i32 = 30;
const LINE: i32 = 19;
const TAG: i32 = 26;
const HOLD_LINE: i32 = 22;
const BETWEEN_LANES: i32 = 14;
const CLOCK: i32 = 34;
const STRIPE: &str = "#f3f4f6";
const REFUSED_FILL: &str = "#fee2e2";

/// A cell that a slot holds over some columns of the row.
struct Hold {
    cell: u8,
    /// Holds at the same time are drawn below each other.
    track: usize,
    from: usize,
    to: usize,
}

/// A lane with its places from top to bottom.
struct Lane {
    slot: u8,
    top: i32,
    band: i32,
    band_height: i32,
    holds_top: i32,
    bottom: i32,
    holds: Vec<Hold>,
}

impl Lane {
    fn of(row: &Row, slot: u8, top: i32) -> Lane {
        let own = || row.moments.iter().filter(|moment| moment.lane == slot);
        let tags = own().map(|moment| moment.tags.len()).max().unwrap_or(0) as i32;
        let lines = own().map(|moment| moment.lines.len()).max().unwrap_or(0) as i32 + 1;
        let holds = holds(row, slot);
        let tracks = holds.iter().map(|hold| hold.track + 1).max().unwrap_or(0) as i32;
        let band = top + tags * TAG;
        let band_height = lines * LINE + 10;
        let holds_top = band + band_height + 4;
        let bottom = holds_top + tracks * HOLD_LINE;
        Lane { slot, top, band, band_height, holds_top, bottom, holds }
    }

    fn band_middle(&self) -> i32 {
        self.band + self.band_height / 2
    }

    fn hold_top(&self, hold: &Hold) -> i32 {
        self.holds_top + hold.track as i32 * HOLD_LINE
    }
}

/// The holds of a slot within a row; each takes the first free track.
fn holds(row: &Row, slot: u8) -> Vec<Hold> {
    let mut holds: Vec<Hold> = Vec::new();
    for (column, moment) in row.moments.iter().enumerate() {
        let held = moment.showing(slot).map_or(&[][..], |showing| &showing.held);
        for &cell in held {
            let going_on = |hold: &&mut Hold| hold.cell == cell && hold.to + 1 == column;
            if let Some(hold) = holds.iter_mut().find(going_on) {
                hold.to = column;
                continue;
            }
            let taken = |track| {
                let busy = |hold: &Hold| hold.track == track && hold.to + 1 >= column;
                holds.iter().any(busy)
            };
            let track = (0..).find(|&track| !taken(track)).unwrap_or(0);
            holds.push(Hold { cell, track, from: column, to: column });
        }
    }
    holds
}

/// Draws a row and says where it ends.
pub(super) fn draw(picture: &mut Picture, timeline: &Timeline, row: &Row, at: (i32, i32)) -> i32 {
    let (left, top) = at;
    let mut lanes = Vec::new();
    let mut y = top + AXIS + 6;
    for &slot in &timeline.lanes {
        let lane = Lane::of(row, slot, y);
        y = lane.bottom + BETWEEN_LANES;
        lanes.push(lane);
    }
    let bottom = y + CLOCK;
    let drawing = &mut Drawing { picture, row, left };
    drawing.axis(top, bottom);
    for lane in &lanes {
        drawing.lane(lane);
    }
    drawing.pointers(&lanes);
    drawing.clock(y);
    bottom
}

struct Drawing<'a> {
    picture: &'a mut Picture,
    row: &'a Row<'a>,
    left: i32,
}

impl Drawing<'_> {
    fn column(&self, column: usize) -> (i32, i32) {
        let left = self.left + self.row.left(column);
        (left, self.left + self.row.left(column + 1) - left)
    }

    fn middle(&self, column: usize) -> i32 {
        self.left + self.row.middle(column)
    }

    /// The places of the steps, and stripes to follow them down.
    fn axis(&mut self, top: i32, bottom: i32) {
        let baseline = top + AXIS - 10;
        self.picture.words(self.left, baseline, &Words::new("step", SIZE).ink(PALE_INK));
        for (column, moment) in self.row.moments.iter().enumerate() {
            let (left, width) = self.column(column);
            if moment.place % 2 == 1 {
                self.picture.area((left, top), (width, bottom - top), 0, STRIPE);
            }
            let place = moment.place.to_string();
            let words = Words::new(&place, SIZE).ink(PALE_INK).anchor(Anchor::Middle);
            self.picture.words(self.middle(column), baseline, &words);
        }
        let right = self.left + self.row.width();
        self.picture.line((self.left, top + AXIS), (right, top + AXIS), PALE_INK, 1);
    }

    fn lane(&mut self, lane: &Lane) {
        let name = lane_name(lane.slot);
        let words = Words::new(&name, SIZE + 1).bold();
        self.picture.words(self.left, lane.band_middle() + 6, &words);
        let ends = (self.left + self.row.start(), self.left + self.row.width());
        let y = lane.band_middle();
        self.picture.line((ends.0, y), (ends.1, y), LANE_LINE, 2);
        self.bands(lane);
        for hold in &lane.holds {
            self.hold(lane, hold);
        }
        for (column, moment) in self.row.moments.iter().enumerate() {
            if moment.lane == lane.slot {
                self.step(lane, column, moment);
            }
        }
    }

    /// One box for each run of columns with the same phase of the same
    /// transaction, and one in the gutter for the phase of the row before.
    fn bands(&mut self, lane: &Lane) {
        let showing = |moment: &Moment| moment.showing(lane.slot).cloned();
        let before = self.row.before.and_then(showing).filter(|before| before.goes_on);
        if let Some(before) = before {
            // A little further, so that a phase which goes on has no gap.
            self.band(lane, before.shade, self.row.start(), self.row.left(0) + 8);
        }
        let same = |one: &Moment, next: &Moment| match (showing(one), showing(next)) {
            (Some(one), Some(next)) => one.goes_on && one.shade == next.shade,
            _ => true,
        };
        let mut end = 0;
        for run in self.row.moments.chunk_by(same) {
            let first = end;
            end += run.len();
            if let Some(Showing { shade, .. }) = showing(&run[0]) {
                self.band(lane, shade, self.row.left(first), self.row.left(end));
            }
        }
    }

    fn band(&mut self, lane: &Lane, shade: Shade, from: i32, to: i32) {
        if shade != Shade::Idle {
            let size = (to - from, lane.band_height);
            self.picture.area((self.left + from, lane.band), size, 4, phase_fill(shade));
        }
    }

    /// The hold with its cell on it, in the gutter if it goes on from before.
    fn hold(&mut self, lane: &Lane, hold: &Hold) {
        let before = self.row.before.and_then(|moment| moment.showing(lane.slot));
        let goes_on = hold.from == 0 && before.is_some_and(|b| b.held.contains(&hold.cell));
        let left = if goes_on { self.row.start() } else { self.row.left(hold.from) };
        let left = self.left + left + 2;
        let top = lane.hold_top(hold);
        let width = self.left + self.row.left(hold.to + 1) - 2 - left;
        draw_hold(self.picture, &format!("cell {}", hold.cell), (left, top), width);
    }

    fn step(&mut self, lane: &Lane, column: usize, moment: &Moment) {
        let (left, width) = self.column(column);
        if moment.is_refused() {
            let corner = (left + 2, lane.band + 2);
            let size = (width - 4, lane.band_height - 4);
            self.picture.bordered(corner, size, 4, REFUSED_FILL, ALARM);
        }
        let lines = 1 + moment.lines.len() as i32;
        let mut baseline = lane.band_middle() - lines * LINE / 2 + 14;
        for (number, line) in [&moment.name].into_iter().chain(&moment.lines).enumerate() {
            let ink = if number == 0 { INK } else { PALE_INK };
            let words = Words::new(line, SIZE).ink(ink).anchor(Anchor::Middle);
            self.picture.words(self.middle(column), baseline, &words);
            baseline += LINE;
        }
        for (number, tag) in (1..).zip(&moment.tags) {
            draw_tag(self.picture, tag, (self.middle(column), lane.band - number * TAG));
        }
    }

    /// From each step to the hold in its way, and from enter to the holds that
    /// made it mark.
    fn pointers(&mut self, lanes: &[Lane]) {
        for (column, moment) in self.row.moments.iter().enumerate() {
            for obstacle in &moment.obstacles {
                self.pointer(lanes, column, moment, obstacle);
            }
        }
    }

    fn pointer(&mut self, lanes: &[Lane], column: usize, moment: &Moment, obstacle: &Obstacle) {
        let find = |slot: u8| lanes.iter().find(|lane| lane.slot == slot);
        let (Some(own), Some(other)) = (find(moment.lane), find(obstacle.holder)) else {
            return;
        };
        let in_way =
            |hold: &&Hold| hold.cell == obstacle.cell && (hold.from..=hold.to).contains(&column);
        let Some(hold) = other.holds.iter().find(in_way) else {
            return;
        };
        let below = other.top > own.top;
        let tags = moment.tags.len() as i32 * TAG;
        let from = if below { own.band + own.band_height } else { own.band - tags };
        let to = other.hold_top(hold) + HOLD_HEIGHT / 2;
        let ink = if moment.code == 0 { WARNING } else { ALARM };
        let x = self.middle(column);
        self.picture.pointer((x, from), (x, to), ink);
    }

    /// The clock where it changes, and at the beginning of the row.
    fn clock(&mut self, top: i32) {
        let baseline = top + 20;
        self.picture.words(self.left, baseline, &Words::new("clock", SIZE + 1).bold());
        let right = self.left + self.row.width();
        self.picture.line((self.left + NAMES, baseline + 8), (right, baseline + 8), PALE_INK, 1);
        let mut last = None;
        for (column, moment) in self.row.moments.iter().enumerate() {
            if last != Some(moment.clock) {
                let clock = moment.clock.to_string();
                let words = Words::new(&clock, SIZE + 1).bold().anchor(Anchor::Middle);
                self.picture.words(self.middle(column), baseline, &words);
            }
            last = Some(moment.clock);
        }
    }
}
