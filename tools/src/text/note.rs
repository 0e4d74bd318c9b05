//! Note lines, read and written. A note may hold any bytes: printable text is
//! quoted, line by line; anything else is in hex. The lines of a note are
//! joined without a gap.

use super::words::{quoted, Words, Wrong};

/// The most characters on a quoted line, and bytes on a hex line.
const CHARACTERS: usize = 100;
const BYTES: usize = 32;

const A_NOTE: &str = "text in quotes, or `hex` and bytes";
const A_BYTE: &str = "two hex digits";
const AN_ESCAPE: &str = r#"\n, \r, \t, \" or \\"#;

pub fn lines(note: &[u8]) -> Vec<String> {
    match std::str::from_utf8(note) {
        Ok(text) if text.chars().all(printable) => quoted_lines(text),
        _ => note.chunks(BYTES).map(hex_line).collect(),
    }
}

/// Returns the note's first line as a title: plain text, or bytes in hex if
/// they are not text. Nothing if there is nothing to read.
pub fn title(note: &[u8]) -> Option<String> {
    match std::str::from_utf8(note) {
        Ok(text) if text.chars().all(printable) => {
            text.lines().map(|line| line.trim().replace('\t', " ")).find(|line| !line.is_empty())
        }
        _ => note.chunks(BYTES).map(hex).next(),
    }
}

/// Returns whether a quoted note may hold the character. What `escape_debug`
/// leaves alone is visible; a mark that joins the character before it is not
/// visible by itself.
fn printable(c: char) -> bool {
    "\n\r\t\"\\'".contains(c) || c.escape_debug().count() == 1
}

fn quoted_lines(text: &str) -> Vec<String> {
    let mut lines = Vec::new();
    let mut line = String::new();
    let mut count = 0;
    for c in text.chars() {
        line.push_str(&escaped(c));
        count += 1;
        if c == '\n' || count == CHARACTERS {
            lines.push(format!("note \"{line}\""));
            (line, count) = (String::new(), 0);
        }
    }
    if count > 0 {
        lines.push(format!("note \"{line}\""));
    }
    lines
}

fn escaped(c: char) -> String {
    match c {
        '\n' => r"\n".into(),
        '\r' => r"\r".into(),
        '\t' => r"\t".into(),
        '"' | '\\' => format!("\\{c}"),
        _ => c.into(),
    }
}

fn hex_line(bytes: &[u8]) -> String {
    format!("note hex {}", hex(bytes))
}

fn hex(bytes: &[u8]) -> String {
    let hex: Vec<String> = bytes.iter().map(|byte| format!("{byte:02x}")).collect();
    hex.join(" ")
}

/// Reads what follows the word `note` and adds it to the note's bytes.
pub fn parse(rest: &str, note: &mut Vec<u8>) -> Result<(), Wrong> {
    let rest = rest.trim_start();
    match rest.strip_prefix('"') {
        Some(text) => parse_quoted(text, note),
        None => parse_hex(rest, note),
    }
}

fn parse_hex(rest: &str, note: &mut Vec<u8>) -> Result<(), Wrong> {
    let mut words = Words::new(rest);
    let first = words.next(A_NOTE)?;
    if first != "hex" {
        return Err(Wrong::new(quoted(first), A_NOTE));
    }
    while words.peek().is_some() {
        let digits = words.next(A_BYTE)?;
        let right = digits.len() == 2 && digits.bytes().all(|digit| digit.is_ascii_hexdigit());
        match u8::from_str_radix(digits, 16) {
            Ok(byte) if right => note.push(byte),
            _ => return Err(Wrong::new(quoted(digits), A_BYTE)),
        }
    }
    Ok(())
}

fn parse_quoted(text: &str, note: &mut Vec<u8>) -> Result<(), Wrong> {
    let mut characters = text.chars();
    loop {
        match characters.next() {
            None => return Err(Wrong::new("the end of the line", "a closing `\"`")),
            Some('"') => return Words::new(characters.as_str()).end(),
            Some('\\') => note.push(unescaped(characters.next())?),
            Some(c) => note.extend_from_slice(c.encode_utf8(&mut [0; 4]).as_bytes()),
        }
    }
}

fn unescaped(after: Option<char>) -> Result<u8, Wrong> {
    match after {
        Some('n') => Ok(b'\n'),
        Some('r') => Ok(b'\r'),
        Some('t') => Ok(b'\t'),
        Some('"') => Ok(b'"'),
        Some('\\') => Ok(b'\\'),
        Some(other) => Err(Wrong::new(quoted(&format!("\\{other}")), AN_ESCAPE)),
        None => Err(Wrong::new("`\\` at the end of the line", AN_ESCAPE)),
    }
}
