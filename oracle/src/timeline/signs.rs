//! The signs that the lanes and the legend have in common: sizes and colours
//! of phases, tags and holds.

use super::moment::{Shade, Tag, TagKind};
use super::svg::{Anchor, Picture, Words, INK, PAPER};

/// Size of the words on a lane.
pub(super) const SIZE: i32 = 15;
/// Size of the words in tags and on holds.
pub(super) const SMALL: i32 = 14;
pub(super) const TAG_HEIGHT: i32 = 22;
/// Within a tag or a hold, beside its words, both sides together.
pub(super) const TAG_AIR: i32 = 10;
pub(super) const HOLD_HEIGHT: i32 = 18;

pub(super) const ALARM: &str = "#b91c1c";
pub(super) const WARNING: &str = "#c2410c";
/// The line of a lane, all that an idle slot shows.
pub(super) const LANE_LINE: &str = "#9ca3af";
const HOLD: &str = "#374151";

/// The ground of a phase. Idle has none.
pub(super) fn phase_fill(shade: Shade) -> &'static str {
    match shade {
        Shade::Idle => "none",
        Shade::Open => "#bfdbfe",
        Shade::Locking => "#fde68a",
        Shade::Twilight => "#d8c9fb",
        Shade::Publishing => "#b5ecc5",
    }
}

/// Ground, edge and ink of a tag.
pub(super) fn tag_look(kind: TagKind) -> (&'static str, &'static str, &'static str) {
    match kind {
        TagKind::Stamp => ("#1e3a8a", "#1e3a8a", PAPER),
        TagKind::Mark => ("#fff7ed", WARNING, "#9a3412"),
        TagKind::Commit => ("#166534", "#166534", PAPER),
        TagKind::NoCommit => (PAPER, INK, INK),
        TagKind::Refused => (ALARM, ALARM, PAPER),
    }
}

/// A tag around its words, with its middle and its top there.
pub(super) fn draw_tag(picture: &mut Picture, tag: &Tag, at: (i32, i32)) {
    let (middle, top) = at;
    let (fill, edge, ink) = tag_look(tag.kind);
    let words = Words::new(&tag.words, SMALL).bold().ink(ink).anchor(Anchor::Middle);
    let width = words.width() + TAG_AIR;
    picture.bordered((middle - width / 2, top), (width, TAG_HEIGHT), 6, fill, edge);
    picture.words(middle, top + 16, &words);
}

/// A held cell: a bar with the cell's name on it.
pub(super) fn draw_hold(picture: &mut Picture, cell: &str, corner: (i32, i32), width: i32) {
    let (left, top) = corner;
    picture.area(corner, (width, HOLD_HEIGHT), 9, HOLD);
    picture.words(left + 8, top + 14, &Words::new(cell, SMALL).ink(PAPER));
}
