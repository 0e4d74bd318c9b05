//! Takes a command's arguments apart: options first; what is left are files.

use std::fmt::Display;
use std::ops::RangeInclusive;
use std::str::FromStr;

use crate::command::Failure;

pub struct Arguments {
    /// The arguments not taken out yet.
    pub rest: Vec<String>,
}

impl Arguments {
    pub fn new(arguments: &[String]) -> Arguments {
        Arguments { rest: arguments.to_vec() }
    }

    /// Takes out `name VALUE` and returns the value. Another option is not
    /// accepted as a value.
    pub fn option(&mut self, name: &str, value: &str) -> Result<Option<String>, Failure> {
        let Some(place) = self.rest.iter().position(|word| word == name) else {
            return Ok(None);
        };
        let wrong = |found: &str| Err(Failure::Usage(format!("{name}: found {found}, expected {value}")));
        match self.rest.get(place + 1) {
            None => return wrong("nothing after it"),
            Some(found) if is_option(found) => return wrong(&format!("{found:?}")),
            Some(_) => self.rest.remove(place),
        };
        let found = self.rest.remove(place);
        if self.rest.iter().any(|word| word == name) {
            return Err(Failure::Usage(format!("{name}: found twice, expected once")));
        }
        Ok(Some(found))
    }

    /// Takes out `name NUMBER` and returns the number, which must be digits
    /// only.
    pub fn number<N: FromStr>(&mut self, name: &str, value: &str) -> Result<Option<N>, Failure> {
        let Some(found) = self.option(name, value)? else {
            return Ok(None);
        };
        match found.parse() {
            Ok(number) if found.bytes().all(|byte| byte.is_ascii_digit()) => Ok(Some(number)),
            _ => Err(Failure::Usage(format!("{name}: found {found:?}, expected {value}"))),
        }
    }

    /// Takes out `name NUMBER` and returns the number, which must be there and
    /// in this range.
    pub fn needed(&mut self, name: &str, range: RangeInclusive<u32>) -> Result<u32, Failure> {
        let expected = format!("a number from {} to {}", range.start(), range.end());
        let wrong =
            |found: &dyn Display| Failure::Usage(format!("{name}: found {found}, expected {expected}"));
        match self.number(name, &expected)? {
            None => Err(wrong(&"nothing")),
            Some(number) if range.contains(&number) => Ok(number),
            Some(number) => Err(wrong(&number)),
        }
    }

    pub fn flag(&mut self, name: &str) -> bool {
        let before = self.rest.len();
        self.rest.retain(|word| word != name);
        self.rest.len() < before
    }

    /// Returns the arguments left, which must be files; `-` is standard input.
    pub fn files(self) -> Result<Vec<String>, Failure> {
        match self.rest.iter().find(|word| is_option(word)) {
            None => Ok(self.rest),
            Some(unknown) => Err(Failure::Usage(format!("unknown option {unknown:?}"))),
        }
    }

    /// Returns the only file, or nothing for standard input.
    pub fn file(self) -> Result<Option<String>, Failure> {
        let files = self.files()?;
        match files.len() {
            0 | 1 => Ok(files.into_iter().next()),
            count => Err(Failure::Usage(format!("found {count} files, expected one or standard input"))),
        }
    }
}

fn is_option(word: &str) -> bool {
    word.starts_with('-') && word != "-"
}
