//! The words of a line, read one after another.

use std::collections::VecDeque;
use std::fmt;

use crate::vocabulary::{plain, Vocabulary};

/// A bad place in a line.
#[derive(Clone, Debug, PartialEq, Eq)]
pub struct Wrong {
    pub found: String,
    pub expected: String,
}

impl Wrong {
    pub fn new(found: impl Into<String>, expected: impl Into<String>) -> Wrong {
        Wrong { found: found.into(), expected: expected.into() }
    }

    /// Returns the same in the user's words, except for what is quoted from the
    /// text.
    fn said(&self, words: Vocabulary) -> Wrong {
        let parts = self.found.split('`').enumerate();
        let found = parts.map(|(place, part)| if place % 2 == 1 { part.into() } else { words.said(part) });
        Wrong::new(found.collect::<Vec<_>>().join("`"), words.said(&self.expected))
    }
}

impl fmt::Display for Wrong {
    fn fmt(&self, f: &mut fmt::Formatter) -> fmt::Result {
        write!(f, "found {}, expected {}", self.found, self.expected)
    }
}

/// A bad place with the line's number, from 1.
#[derive(Clone, Debug, PartialEq, Eq)]
pub struct Trouble {
    pub line: usize,
    pub wrong: Wrong,
}

impl Trouble {
    /// Returns the trouble with what is written on the line.
    pub fn at(&self, written: &str) -> String {
        format!("line {}, {written}: {}", self.line, self.wrong)
    }

    /// Returns the same in the user's words.
    pub fn said(&self, words: Vocabulary) -> Trouble {
        Trouble { line: self.line, wrong: self.wrong.said(words) }
    }
}

impl fmt::Display for Trouble {
    fn fmt(&self, f: &mut fmt::Formatter) -> fmt::Result {
        write!(f, "line {}: {}", self.line, self.wrong)
    }
}

/// Separates a step from what is expected of it.
pub const ARROW: &str = "=>";

#[derive(Clone)]
pub struct Words<'a> {
    rest: VecDeque<&'a str>,
}

impl<'a> Words<'a> {
    /// Splits a line into the words before its comment. An arrow is always a
    /// word of its own.
    pub fn new(line: &'a str) -> Words<'a> {
        let before = line.split('#').next().unwrap_or("");
        let mut rest = VecDeque::new();
        for (place, part) in before.split(ARROW).enumerate() {
            rest.extend((place > 0).then_some(ARROW));
            rest.extend(part.split_whitespace());
        }
        Words { rest }
    }

    pub fn peek(&self) -> Option<&'a str> {
        self.rest.front().copied()
    }

    /// Returns the word after the next one.
    pub fn second(&self) -> Option<&'a str> {
        self.rest.get(1).copied()
    }

    /// Returns the first result that `of` gives for a word.
    pub fn find<T>(&self, of: impl Fn(&str) -> Option<T>) -> Option<T> {
        self.rest.iter().find_map(|word| of(word))
    }

    pub fn next(&mut self, expected: &str) -> Result<&'a str, Wrong> {
        self.rest.pop_front().ok_or_else(|| Wrong::new("the end of the line", expected))
    }

    pub fn word(&mut self, word: &str) -> Result<(), Wrong> {
        let expected = format!("`{word}`");
        let found = self.next(&expected)?;
        if plain(found) == word {
            Ok(())
        } else {
            Err(Wrong::new(quoted(found), expected))
        }
    }

    /// Reads a number of decimal digits only, from `least` to `most`.
    pub fn number(&mut self, what: &str, least: u64, most: u64) -> Result<u64, Wrong> {
        let expected = format!("{what} from {least} to {most}");
        let found = self.next(&expected)?;
        let digits = found.bytes().all(|byte| byte.is_ascii_digit());
        match found.parse() {
            Ok(number) if digits && (least..=most).contains(&number) => Ok(number),
            _ => Err(Wrong::new(quoted(found), expected)),
        }
    }

    pub fn byte(&mut self, what: &str) -> Result<u8, Wrong> {
        Ok(self.number(what, 0, u8::MAX.into())? as u8)
    }

    /// Reads a field: its name, then a number.
    pub fn named_byte(&mut self, name: &str) -> Result<u8, Wrong> {
        self.word(name)?;
        self.byte(&format!("a number of the {name}"))
    }

    pub fn end(&mut self) -> Result<(), Wrong> {
        match self.rest.pop_front() {
            None => Ok(()),
            Some(found) => Err(Wrong::new(quoted(found), "the end of the line")),
        }
    }
}

/// Returns a word of the input as an error shows it, cut if it is long.
pub fn quoted(found: &str) -> String {
    const MOST: usize = 40;
    let shown: String = found.chars().take(MOST).flat_map(char::escape_debug).collect();
    let more = if found.chars().count() > MOST { "..." } else { "" };
    format!("`{shown}{more}`")
}
