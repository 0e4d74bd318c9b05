//! What a step answers.

use crate::message::Message;

#[derive(Clone, Copy, Debug, PartialEq, Eq)]
pub enum Answer {
    Done,
    Shown(u64),
    AskFirst,
    /// A clock or write step in which this many writes completed.
    Completed(u32),
    /// A delivery: the message delivered, and how many writes it completed.
    Delivered {
        message: Message,
        completed: u32,
    },
    Refused(u8),
}

impl Answer {
    /// Returns the answer of a step in which this many writes completed.
    pub fn after(completed: u32) -> Answer {
        match completed {
            0 => Answer::Done,
            _ => Answer::Completed(completed),
        }
    }

    /// Returns the two numbers of a listing line: answer and value (01, Frame,
    /// run file and listing).
    pub fn numbers(&self) -> (u8, u64) {
        match *self {
            Answer::Done | Answer::Delivered { completed: 0, .. } => (0, 0),
            Answer::Shown(value) => (1, value),
            Answer::AskFirst => (2, 0),
            Answer::Completed(count) | Answer::Delivered { completed: count, .. } => (3, count.into()),
            Answer::Refused(number) => (4, number.into()),
        }
    }
}
