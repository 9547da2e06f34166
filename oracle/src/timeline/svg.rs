//! The canvas: boxes, lines and words. It knows nothing of what is drawn on it.
//!
//! Attributes stand on each element and there is no style sheet: programs that
//! make slides understand no more than that. All places are whole numbers, so
//! the same drawing gives the same bytes everywhere.

pub(super) const INK: &str = "#111827";
pub(super) const PALE_INK: &str = "#4b5563";
pub(super) const PAPER: &str = "#ffffff";

const FONTS: &str = "Helvetica, Arial, 'DejaVu Sans', sans-serif";

/// Where the place of words is on them.
#[derive(Clone, Copy, PartialEq, Eq)]
pub(super) enum Anchor {
    Start,
    Middle,
    End,
}

/// Words to be drawn, with their looks.
#[derive(Clone, Copy)]
pub(super) struct Words<'a> {
    text: &'a str,
    size: i32,
    bold: bool,
    ink: &'a str,
    anchor: Anchor,
}

impl<'a> Words<'a> {
    pub fn new(text: &'a str, size: i32) -> Words<'a> {
        Words { text, size, bold: false, ink: INK, anchor: Anchor::Start }
    }

    pub fn bold(self) -> Words<'a> {
        Words { bold: true, ..self }
    }

    pub fn ink(self, ink: &'a str) -> Words<'a> {
        Words { ink, ..self }
    }

    pub fn anchor(self, anchor: Anchor) -> Words<'a> {
        Words { anchor, ..self }
    }

    /// At most this wide in the usual fonts.
    pub fn width(&self) -> i32 {
        let hundredths: i32 = self.text.chars().map(letter_width).sum();
        let hundredths = if self.bold { hundredths * 113 / 100 } else { hundredths };
        (hundredths * self.size + 99) / 100
    }
}

/// The width of a letter in hundredths of the size. Nothing here can ask a
/// font, and the reader's is not known: this is for the widest of the usual
/// ones, so that in others there is only more room.
fn letter_width(letter: char) -> i32 {
    match letter {
        'f' | 'i' | 'j' | 'l' | 'r' | 't' | 'I' => 46,
        ' ' | '!' | '\'' | '(' | ')' | ',' | '-' | '.' | '/' | ':' | ';' | '[' | ']' | '|' => 46,
        'm' | 'w' | 'M' | 'W' | '%' | '@' => 100,
        'a'..='z' | '0'..='9' => 64,
        ' '..='~' => 84,
        _ => 110,
    }
}

/// Shapes, and the words above all of them.
#[derive(Default)]
pub(super) struct Picture {
    shapes: String,
    words: String,
}

impl Picture {
    /// Words whose baseline is at y.
    pub fn words(&mut self, x: i32, y: i32, words: &Words) {
        let anchor = match words.anchor {
            Anchor::Start => "start",
            Anchor::Middle => "middle",
            Anchor::End => "end",
        };
        let weight = if words.bold { "bold" } else { "normal" };
        let (size, ink) = (words.size, words.ink);
        self.words += &format!(
            "<text x=\"{x}\" y=\"{y}\" font-size=\"{size}\" font-weight=\"{weight}\" \
             text-anchor=\"{anchor}\" fill=\"{ink}\">{}</text>\n",
            escaped(words.text)
        );
    }

    /// A box with its corner, width and height; round is the radius of its
    /// corners.
    pub fn area(&mut self, corner: (i32, i32), size: (i32, i32), round: i32, fill: &str) {
        self.bordered(corner, size, round, fill, "none");
    }

    pub fn bordered(
        &mut self,
        corner: (i32, i32),
        size: (i32, i32),
        round: i32,
        fill: &str,
        edge: &str,
    ) {
        let ((x, y), (width, height)) = (corner, size);
        self.shapes += &format!(
            "<rect x=\"{x}\" y=\"{y}\" width=\"{width}\" height=\"{height}\" rx=\"{round}\" \
             fill=\"{fill}\" stroke=\"{edge}\" stroke-width=\"2\"/>\n"
        );
    }

    pub fn line(&mut self, from: (i32, i32), to: (i32, i32), ink: &str, thick: i32) {
        let ((x1, y1), (x2, y2)) = (from, to);
        self.shapes += &format!(
            "<line x1=\"{x1}\" y1=\"{y1}\" x2=\"{x2}\" y2=\"{y2}\" stroke=\"{ink}\" \
             stroke-width=\"{thick}\"/>\n"
        );
    }

    /// A dashed line that ends in a dot.
    pub fn pointer(&mut self, from: (i32, i32), to: (i32, i32), ink: &str) {
        let ((x1, y1), (x2, y2)) = (from, to);
        self.shapes += &format!(
            "<line x1=\"{x1}\" y1=\"{y1}\" x2=\"{x2}\" y2=\"{y2}\" stroke=\"{ink}\" \
             stroke-width=\"3\" stroke-dasharray=\"6 4\"/>\n\
             <circle cx=\"{x2}\" cy=\"{y2}\" r=\"6\" fill=\"{ink}\" stroke=\"{PAPER}\" \
             stroke-width=\"2\"/>\n"
        );
    }

    /// The file. The picture has a ground of its own: it is read as well on a
    /// dark page as on a light one.
    pub fn file(self, width: i32, height: i32, title: &str) -> String {
        let Picture { shapes, words } = self;
        let title = escaped(title);
        format!(
            "<svg xmlns=\"http://www.w3.org/2000/svg\" viewBox=\"0 0 {width} {height}\" \
             width=\"{width}\" height=\"{height}\" role=\"img\" font-family=\"{FONTS}\">\n\
             <title>{title}</title>\n\
             <rect width=\"{width}\" height=\"{height}\" fill=\"{PAPER}\"/>\n\
             {shapes}{words}</svg>\n"
        )
    }
}

fn escaped(words: &str) -> String {
    words.replace('&', "&amp;").replace('<', "&lt;").replace('>', "&gt;").replace('"', "&quot;")
}
