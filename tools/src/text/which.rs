//! Which of several messages with the same name is meant: `second`, `11th`,
//! `last`, read and written. Without such a word it is the first.

use model::limits::QUEUE;

const WORDS: [&str; 10] =
    ["first", "second", "third", "fourth", "fifth", "sixth", "seventh", "eighth", "ninth", "tenth"];
const LAST: &str = "last";

#[derive(Clone, Copy, Debug, PartialEq, Eq)]
pub enum Which {
    /// By place, counted from 1.
    Nth(usize),
    Last,
}

impl Which {
    pub const FIRST: Which = Which::Nth(1);

    /// Returns which message the word means, if it is such a word.
    pub fn of(word: &str) -> Option<Which> {
        let nth = || (1..=QUEUE).find(|&nth| ordinal(nth) == word || numeral(nth) == word);
        if word == LAST {
            Some(Which::Last)
        } else {
            nth().map(Which::Nth)
        }
    }

    /// Returns the word followed by a space; nothing for the first.
    pub fn prefix(self) -> String {
        match self {
            Which::FIRST => String::new(),
            Which::Nth(nth) => ordinal(nth) + " ",
            Which::Last => format!("{LAST} "),
        }
    }

    /// Returns the one meant.
    pub fn pick<T>(self, mut all: impl Iterator<Item = T>) -> Option<T> {
        match self {
            Which::Nth(nth) => all.nth(nth - 1),
            Which::Last => all.last(),
        }
    }
}

fn ordinal(nth: usize) -> String {
    WORDS.get(nth - 1).map_or_else(|| numeral(nth), |word| word.to_string())
}

fn numeral(nth: usize) -> String {
    let ending = match (nth % 10, nth % 100) {
        (1, rest) if rest != 11 => "st",
        (2, rest) if rest != 12 => "nd",
        (3, rest) if rest != 13 => "rd",
        _ => "th",
    };
    format!("{nth}{ending}")
}

#[cfg(test)]
mod tests {
    use super::*;

    #[test]
    fn every_place_has_its_word() {
        for nth in 1..=QUEUE {
            let which = Which::Nth(nth);
            assert_eq!((Which::of(&ordinal(nth)), Which::of(&numeral(nth))), (Some(which), Some(which)));
        }
        let words = [2, 10, 11, 12, 13, 21, 22, 23, 64].map(|nth| Which::Nth(nth).prefix());
        let expected = ["second", "tenth", "11th", "12th", "13th", "21st", "22nd", "23rd", "64th"];
        assert!(words.iter().zip(expected).all(|(word, expected)| word.trim_end() == expected));
        assert_eq!((Which::of("last"), Which::Last.prefix()), (Some(Which::Last), "last ".into()));
        for none in ["65th", "0th", "2", "2th", "Second", ""] {
            assert_eq!(Which::of(none), None);
        }
    }
}
