//! Answers as a listing shows them, and listings read back.

use model::answer::Answer;

/// The two numbers of a line of the listing.
#[derive(Clone, Copy, Debug, PartialEq, Eq)]
pub struct Listed {
    pub answer: u8,
    pub value: u64,
}

impl Listed {
    pub const DONE: Listed = Listed { answer: 0, value: 0 };
    pub const ASK_FIRST: Listed = Listed { answer: 2, value: 0 };

    pub fn shown(value: u64) -> Listed {
        Listed { answer: 1, value }
    }

    pub fn completed(count: u64) -> Listed {
        Listed { answer: 3, value: count }
    }

    pub fn refused(number: u64) -> Listed {
        Listed { answer: 4, value: number }
    }

    pub fn of(answer: &Answer) -> Listed {
        let (answer, value) = answer.numbers();
        Listed { answer, value }
    }

    /// Returns the refusal's number, if this is one.
    pub fn refusal(&self) -> Option<u64> {
        (self.answer == 4).then_some(self.value)
    }

    pub fn words(&self) -> String {
        let Listed { answer, value } = self;
        match answer {
            0 => "done".into(),
            1 => format!("shown {value}"),
            2 => "ask first".into(),
            3 if *value == 1 => "completed 1 write".into(),
            3 => format!("completed {value} writes"),
            _ => format!("refused {value}"),
        }
    }
}

/// Returns the step number and answer of a line, if it is a line of a listing.
pub fn line(line: &str) -> Option<(usize, Listed)> {
    let numbers: Vec<u64> = line.split(' ').map(|word| word.parse().ok()).collect::<Option<_>>()?;
    let [number, answer, value] = numbers[..] else {
        return None;
    };
    let right = format!("{number} {answer} {value}") == line && answer <= 4;
    right.then_some((number as usize, Listed { answer: answer as u8, value }))
}
