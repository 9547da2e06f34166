//! What the colours and the signs of a picture mean.

use super::course::{code_words, Timeline};
use super::moment::{Shade, Tag, TagKind};
use super::signs::{draw_hold, draw_tag, phase_fill};
use super::signs::{ALARM, HOLD_HEIGHT, LANE_LINE, SIZE, SMALL, TAG_HEIGHT, WARNING};
use super::svg::{Picture, Words};

const LINE: i32 = 32;
const BETWEEN_ITEMS: i32 = 30;
const BESIDE_SIGN: i32 = 10;

/// A sign and what it means.
struct Item {
    sign: Sign,
    meaning: String,
}

enum Sign {
    Phase(Shade),
    Tag(Tag),
    Hold,
    Pointer(&'static str),
}

impl Item {
    fn tag(kind: TagKind, words: &str, meaning: &str) -> Item {
        let sign = Sign::Tag(Tag { kind, words: words.to_string() });
        Item { sign, meaning: meaning.to_string() }
    }

    fn width(&self) -> i32 {
        self.sign.width() + BESIDE_SIGN + Words::new(&self.meaning, SIZE).width()
    }
}

impl Sign {
    fn width(&self) -> i32 {
        match self {
            Sign::Phase(_) | Sign::Pointer(_) => 40,
            Sign::Hold => 64,
            Sign::Tag(tag) => Words::new(&tag.words, SMALL).bold().width() + 14,
        }
    }

    /// Draws it with its left edge and its middle there.
    fn draw(&self, picture: &mut Picture, left: i32, middle: i32) {
        let width = self.width();
        match self {
            Sign::Phase(Shade::Idle) => {
                picture.line((left, middle), (left + width, middle), LANE_LINE, 2);
            }
            Sign::Phase(shade) => {
                let size = (width, TAG_HEIGHT);
                picture.area((left, middle - TAG_HEIGHT / 2), size, 4, phase_fill(*shade));
            }
            Sign::Tag(tag) => {
                draw_tag(picture, tag, (left + width / 2, middle - TAG_HEIGHT / 2));
            }
            Sign::Hold => {
                draw_hold(picture, "cell c", (left, middle - HOLD_HEIGHT / 2), width);
            }
            Sign::Pointer(ink) => {
                picture.pointer((left, middle), (left + width - 8, middle), ink);
            }
        }
    }
}

/// Draws the legend within this width and says where it ends.
pub(super) fn draw(picture: &mut Picture, timeline: &Timeline, at: (i32, i32), width: i32) -> i32 {
    let (left, mut y) = at;
    let signs = [phases(), tags(timeline), lines(timeline), codes(timeline)];
    for items in signs.iter().filter(|items| !items.is_empty()) {
        let mut x = left;
        for item in items {
            if x > left && x + item.width() > left + width {
                (x, y) = (left, y + LINE);
            }
            let middle = y + LINE / 2;
            item.sign.draw(picture, x, middle);
            let words = x + item.sign.width() + BESIDE_SIGN;
            picture.words(words, middle + 5, &Words::new(&item.meaning, SIZE));
            x += item.width() + BETWEEN_ITEMS;
        }
        y += LINE;
    }
    y
}

fn phases() -> Vec<Item> {
    let item = |shade: Shade| Item { sign: Sign::Phase(shade), meaning: shade.name().to_string() };
    Shade::ALL.map(item).into()
}

/// Of tags and lines there are only those that the picture has.
fn tags(timeline: &Timeline) -> Vec<Item> {
    let items = [
        (TagKind::Stamp, "stamp k", "commit stamp"),
        (TagKind::Mark, "mark c", "cell c was read, now held or newer"),
        (TagKind::Commit, "commit", "committed"),
        (TagKind::NoCommit, "no commit", "ended without commit"),
    ];
    let tags = || timeline.moments.iter().flat_map(|moment| &moment.tags);
    let used = items.into_iter().filter(|(kind, ..)| tags().any(|tag| tag.kind == *kind));
    used.map(|(kind, words, meaning)| Item::tag(kind, words, meaning)).collect()
}

fn lines(timeline: &Timeline) -> Vec<Item> {
    let moments = || timeline.moments.iter();
    let holds = moments().any(|moment| moment.showings.iter().any(|s| !s.held.is_empty()));
    let pointer = |refused: bool| {
        moments().any(|moment| !moment.obstacles.is_empty() && (moment.code != 0) == refused)
    };
    let items = [
        (holds, Sign::Hold, "the slot holds cell c"),
        (pointer(true), Sign::Pointer(ALARM), "refused because of this hold"),
        (pointer(false), Sign::Pointer(WARNING), "marked because of this hold"),
    ];
    let used = items.into_iter().filter(|(is_used, ..)| *is_used);
    used.map(|(_, sign, meaning)| Item { sign, meaning: meaning.to_string() }).collect()
}

/// The codes of this sheet alone: a legend of all would hide them.
fn codes(timeline: &Timeline) -> Vec<Item> {
    let item = |code: u8| {
        let kind = if code == 13 { TagKind::NoCommit } else { TagKind::Refused };
        Item::tag(kind, &format!("code {code}"), code_words(code))
    };
    timeline.codes().into_iter().map(item).collect()
}
