//! The title of a picture, from the comment at the head of the text.

const UNTITLED: &str = "A step sheet";

/// The comment, parted for a heading and the smaller lines below it.
pub(super) struct Title {
    pub heading: String,
    pub rest: String,
}

impl Title {
    /// The heading ends at the first colon or at the first full stop.
    pub fn of(text: &str) -> Title {
        let comment = first_comment(text);
        let (heading, rest) = match (comment.split_once(": "), comment.split_once(". ")) {
            (Some(colon), Some(stop)) if stop.0.len() < colon.0.len() => stop,
            (Some(colon), _) => colon,
            (None, Some(stop)) => stop,
            (None, None) => (comment.as_str(), ""),
        };
        let heading = heading.trim_end_matches('.');
        let heading = if heading.is_empty() { UNTITLED } else { heading };
        Title { heading: heading.to_string(), rest: capitalised(rest) }
    }
}

/// The comment before all else, as one line of printable words. A later one
/// is about its place in the sheet.
fn first_comment(text: &str) -> String {
    let lines = text.lines().map(str::trim);
    let from_first = lines.skip_while(|line| line.is_empty());
    let comment = from_first.take_while(|line| line.starts_with('#'));
    let words = comment.map(|line| line.trim_start_matches('#')).collect::<Vec<_>>().join(" ");
    // A terminal would obey control characters, and XML has no room for them.
    let printable = words.replace(|letter: char| letter.is_control() || !is_xml(letter), " ");
    printable.split_whitespace().collect::<Vec<_>>().join(" ")
}

fn is_xml(letter: char) -> bool {
    !matches!(letter, '\u{fffe}' | '\u{ffff}')
}

fn capitalised(words: &str) -> String {
    let mut letters = words.chars();
    let first = letters.next().map(|letter| letter.to_uppercase().collect::<String>());
    first.unwrap_or_default() + letters.as_str()
}

/// The words in lines of at most so many characters; a longer word is cut.
pub(super) fn wrapped(words: &str, most: usize) -> Vec<String> {
    let mut lines: Vec<String> = Vec::new();
    for word in words.split_whitespace() {
        let letters: Vec<char> = word.chars().collect();
        for piece in letters.chunks(most.max(1)) {
            let piece: String = piece.iter().collect();
            let room = lines.last().map_or(0, |line| most.saturating_sub(line.chars().count()));
            match lines.last_mut() {
                Some(line) if piece.chars().count() < room => *line += &format!(" {piece}"),
                _ => lines.push(piece),
            }
        }
    }
    lines
}
