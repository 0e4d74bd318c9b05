//! Reads the numbers in a text. Anything that is not a digit separates them.

pub struct Numbers<'a> {
    parts: Box<dyn Iterator<Item = u64> + 'a>,
}

impl<'a> Numbers<'a> {
    pub fn of(text: &'a str) -> Numbers<'a> {
        let digits = text.split(|c: char| !c.is_ascii_digit()).filter(|digits| !digits.is_empty());
        Numbers { parts: Box::new(digits.map(|digits| digits.parse().expect("at most 64 bits"))) }
    }

    /// Returns the next number, which must be there.
    pub fn need(&mut self) -> u64 {
        self.next().expect("a number")
    }
}

impl Iterator for Numbers<'_> {
    type Item = u64;

    fn next(&mut self) -> Option<u64> {
        self.parts.next()
    }
}
