//! The length of a tick, if a text gives it: `one tick is 250 ms`, read and
//! written. It changes no step; it is there for whoever reads the run.

use crate::text::words::{quoted, Words, Wrong};

/// Each unit with its length in milliseconds.
const UNITS: [(&str, u64); 4] = [("ms", 1), ("s", 1_000), ("min", 60_000), ("h", 3_600_000)];

pub const TICK: &str = "`one tick is N s`";

#[derive(Clone, Copy, Debug, PartialEq, Eq)]
pub struct Tick {
    count: u32,
    /// The unit's index in the table.
    unit: usize,
}

impl Tick {
    pub fn parse(words: &mut Words) -> Result<Tick, Wrong> {
        ["one", "tick", "is"].iter().try_for_each(|word| words.word(word))?;
        let count = words.number("a number of units", 1, u32::MAX.into())? as u32;
        let expected = "`ms`, `s`, `min` or `h`";
        let found = words.next(expected)?;
        let unit = UNITS.iter().position(|(name, _)| *name == found);
        let unit = unit.ok_or_else(|| Wrong::new(quoted(found), expected))?;
        words.end()?;
        Ok(Tick { count, unit })
    }

    /// Returns the line in canonical form.
    pub fn line(&self) -> String {
        format!("one tick is {} {}", self.count, UNITS[self.unit].0)
    }

    /// Returns this many ticks as a time: "1 h 2 min 3.5 s".
    pub fn time(&self, ticks: u32) -> String {
        let milliseconds = u128::from(ticks) * u128::from(self.count) * u128::from(UNITS[self.unit].1);
        let (minutes, rest) = (milliseconds / 60_000, milliseconds % 60_000);
        let (hours, minutes) = (minutes / 60, minutes % 60);
        let mut parts = Vec::new();
        if hours > 0 {
            parts.push(format!("{hours} h"));
        }
        if minutes > 0 {
            parts.push(format!("{minutes} min"));
        }
        if rest > 0 || parts.is_empty() {
            parts.push(format!("{} s", seconds(rest as u64)));
        }
        parts.join(" ")
    }
}

/// Returns milliseconds as seconds, without trailing zeros.
fn seconds(milliseconds: u64) -> String {
    let text = format!("{}.{:03}", milliseconds / 1_000, milliseconds % 1_000);
    text.trim_end_matches('0').trim_end_matches('.').into()
}

#[cfg(test)]
mod tests {
    use super::*;

    fn tick(line: &str) -> Tick {
        Tick::parse(&mut Words::new(line)).unwrap()
    }

    #[test]
    fn times_are_told_in_their_units() {
        for (line, ticks, time) in [
            ("one tick is 1 s", 0, "0 s"),
            ("one tick is 1 s", 59, "59 s"),
            ("one tick is 1 s", 3_600, "1 h"),
            ("one tick is 1 s", 3_723, "1 h 2 min 3 s"),
            ("one tick is 250 ms", 10, "2.5 s"),
            ("one tick is 5 ms", 1, "0.005 s"),
            ("one tick is 10 min", 7, "1 h 10 min"),
            ("one tick is 4294967295 h", u32::MAX, "18446744065119617025 h"),
        ] {
            assert_eq!(tick(line).time(ticks), time);
            assert_eq!(tick(line).line(), line);
        }
    }
}
