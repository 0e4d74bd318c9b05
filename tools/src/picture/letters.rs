//! How much room words take. They are all in a fixed-width font, so this is
//! known without the font: in the widest of the common ones a letter advances
//! by 0.602 of the size.

/// The advance of a letter, as a part of the size.
pub const ADVANCE: f64 = 0.61;
/// Letters outside ASCII, except the two that the pictures use, may come from
/// any font.
const FOREIGN: f64 = 2.0;
/// How far letters reach above their line, as a part of the size.
pub const ABOVE: f64 = 0.8;
pub const BELOW: f64 = 0.25;

/// The sizes in `style.css`.
pub const TITLE: f64 = 12.0;
pub const WORDS: f64 = 10.0;
pub const VALUE: f64 = 9.0;
pub const LABEL: f64 = 8.5;

pub fn width(words: &str, size: f64) -> f64 {
    words.chars().map(|c| advance(c) * size).sum()
}

fn advance(c: char) -> f64 {
    match c {
        ' '..='~' | '…' => ADVANCE,
        _ => FOREIGN,
    }
}

/// Returns what fits, with a sign that there is more.
pub fn cut(words: &str, room: f64, size: f64) -> String {
    let mut kept = words.to_string();
    if width(words, size) > room {
        while !kept.is_empty() && width(&kept, size) + advance('…') * size > room {
            kept.pop();
        }
        kept.push('…');
    }
    kept
}
