//! Reads a timeline back, from its SVG and from its plain form: what words
//! there are, where they stand, and which are in the column of a step.

/// Words of a picture with their place.
#[derive(Clone, Debug)]
pub struct Text {
    pub words: String,
    pub x: f64,
    pub y: f64,
    pub size: f64,
    pub anchor: String,
    bold: bool,
}

/// A box: left, top, right, bottom.
pub type Frame = (f64, f64, f64, f64);

impl Text {
    fn of(element: &str) -> Text {
        let (attributes, rest) = element.split_once('>').expect("a tag that ends");
        let (words, _) = rest.split_once("</text>").expect("an element that ends");
        let number = |name| attribute(attributes, name).parse().expect("a number");
        Text {
            words: plain_words(words),
            x: number("x"),
            y: number("y"),
            size: number("font-size"),
            anchor: attribute(attributes, "text-anchor"),
            bold: attribute(attributes, "font-weight") == "bold",
        }
    }

    /// The box that the words take in a wide font, DejaVu Sans.
    pub fn frame(&self) -> Frame {
        let weight = if self.bold { 1.12 } else { 1.0 };
        let width = self.words.chars().map(advance).sum::<f64>() * self.size * weight;
        let left = match self.anchor.as_str() {
            "start" => self.x,
            "middle" => self.x - width / 2.0,
            "end" => self.x - width,
            other => panic!("{other}"),
        };
        (left, self.y - 0.76 * self.size, left + width, self.y + 0.24 * self.size)
    }
}

/// The width of a letter of size 1, rounded up.
fn advance(letter: char) -> f64 {
    match letter {
        'i' | 'j' | 'l' | 'I' | '\'' => 0.30,
        ' ' | '.' | ',' | ':' | ';' | '-' | '/' | '(' | ')' | '|' => 0.40,
        'f' | 't' | 'r' => 0.42,
        'm' | 'w' | 'M' | 'W' => 0.99,
        '=' | '+' | '<' | '>' | '&' => 0.84,
        'A'..='Z' => 0.79,
        _ => 0.64,
    }
}

fn attribute(attributes: &str, name: &str) -> String {
    let (_, rest) = attributes.split_once(&format!(" {name}=\"")).expect("the attribute");
    rest.split('"').next().expect("its value").to_string()
}

/// The box of a pointer, as thick as it is drawn.
fn pointer(line: &str) -> Frame {
    let number = |name| attribute(line, name).parse::<f64>().expect("a number");
    let ((x1, y1), (x2, y2)) = ((number("x1"), number("y1")), (number("x2"), number("y2")));
    (x1.min(x2) - 1.5, y1.min(y2), x1.max(x2) + 1.5, y1.max(y2))
}

/// Whether two boxes have a point in common.
fn meet(a: Frame, b: Frame) -> bool {
    a.0 < b.2 && b.0 < a.2 && a.1 < b.3 && b.1 < a.3
}

fn plain_words(escaped: &str) -> String {
    assert!(!escaped.contains('<'), "{escaped}");
    let words = escaped.replace("&lt;", "<").replace("&gt;", ">").replace("&quot;", "\"");
    words.replace("&amp;", "&")
}

/// All words of a picture, and its pointers.
pub struct Drawing {
    pub texts: Vec<Text>,
    pub pointers: Vec<Frame>,
    pub width: f64,
    pub height: f64,
}

impl Drawing {
    pub fn of(svg: &str) -> Drawing {
        let view = attribute(svg.lines().next().expect("a first line"), "viewBox");
        let numbers: Vec<f64> = view.split(' ').map(|n| n.parse().expect("a number")).collect();
        let [0.0, 0.0, width, height] = numbers[..] else { panic!("{view}") };
        let texts = svg.split("<text").skip(1).map(Text::of).collect();
        let lines = svg.lines().filter(|line| line.contains("stroke-dasharray"));
        Drawing { texts, pointers: lines.map(pointer).collect(), width, height }
    }

    /// The pairs of words whose boxes have a point in common.
    pub fn overlaps(&self) -> Vec<(&Text, &Text)> {
        let mut found = Vec::new();
        for (number, one) in self.texts.iter().enumerate() {
            for other in &self.texts[number + 1..] {
                if meet(one.frame(), other.frame()) {
                    found.push((one, other));
                }
            }
        }
        found
    }

    /// The words that a pointer goes through.
    pub fn struck_through(&self) -> Vec<&Text> {
        let is_struck = |text: &&Text| self.pointers.iter().any(|line| meet(*line, text.frame()));
        self.texts.iter().filter(is_struck).collect()
    }

    /// The names at the left of the lanes, each once, from top to bottom.
    pub fn lanes(&self) -> Vec<String> {
        let mut names: Vec<String> = Vec::new();
        for text in self.texts.iter().filter(|text| text.bold && text.size == 16.0) {
            let is_lane = text.words.starts_with("slot ") || text.words == "no slot";
            if is_lane && !names.contains(&text.words) {
                names.push(text.words.clone());
            }
        }
        names
    }

    /// What stands in the column of a step, from top to bottom, without the
    /// place itself and the clock.
    pub fn words_at(&self, place: usize) -> Vec<String> {
        let left = |words: &'static str| {
            let found = self.texts.iter().filter(move |text| text.words == words);
            found.filter(|text| text.anchor == "start").map(|text| text.y)
        };
        let is_place = |text: &&Text| {
            text.words == place.to_string() && left("step").any(|axis| axis == text.y)
        };
        let axis = self.texts.iter().find(is_place).expect("the place on an axis");
        let end = left("clock").find(|clock| *clock > axis.y).expect("the clock of the row");
        let in_column = |text: &&Text| {
            text.anchor == "middle" && text.x == axis.x && axis.y < text.y && text.y < end
        };
        let mut texts: Vec<&Text> = self.texts.iter().filter(in_column).collect();
        texts.sort_by(|one, other| one.y.total_cmp(&other.y));
        texts.iter().map(|text| text.words.clone()).collect()
    }
}

/// What stands in the column of a step in the plain form: from each line of
/// the page the words of that column, with the name of the line.
pub fn plain_column(plain: &str, place: usize) -> Vec<(String, String)> {
    for page in plain.split("\n\n").filter(|page| page.starts_with("step ")) {
        let axis = page.lines().next().expect("a first line");
        let places: Vec<&str> = axis.split_whitespace().skip(1).collect();
        let Some(column) = places.iter().position(|word| *word == place.to_string()) else {
            continue;
        };
        let starts: Vec<usize> = word_starts(axis);
        let (from, to) = (starts[column + 1], starts.get(column + 2).copied());
        let cut = |line: &str, from: usize, to: Option<usize>| {
            let end = to.unwrap_or(line.len()).min(line.len());
            line.get(from..end).unwrap_or_default().trim().to_string()
        };
        let lines = page.lines().skip(1);
        return lines.map(|line| (cut(line, 0, Some(starts[1])), cut(line, from, to))).collect();
    }
    panic!("step {place} is on no page")
}

fn word_starts(line: &str) -> Vec<usize> {
    let bytes = line.as_bytes();
    let starts = |at: &usize| bytes[*at] != b' ' && (*at == 0 || bytes[*at - 1] == b' ');
    (0..bytes.len()).filter(starts).collect()
}
