//! What a line asks for, read and written: a step as a run file has it, or
//! short words that stand for steps.

use model::message::Message;
use model::step_record::{Step, DELIVER, DOUBLE, LOSE};

use super::steps;
use super::which::Which;
use super::words::{quoted, Words, Wrong};
use crate::names::{self, way, KINDS};
use crate::vocabulary::plain;

pub const FIRST_WORDS: [&str; 12] = [
    "clock", "read", "ask", "write", "deliver", "lose", "double", "restart", "save", "return", "kind", "join",
];

#[derive(Clone, Copy, Debug, PartialEq, Eq)]
pub enum Action {
    Step(Step),
    Named(Named),
    /// Whatever it takes until the client holds the object.
    Join {
        client: u8,
        object: u8,
    },
}

/// A step on one of the messages of a kind under way to or from a client.
#[derive(Clone, Copy, Debug, PartialEq, Eq)]
pub struct Named {
    /// The step's kind.
    pub step: u8,
    /// Which of the messages that match.
    pub which: Which,
    /// The message's kind.
    pub message: &'static str,
    pub client: u8,
    /// The object or volume that the message is about; none matches all.
    pub item: Option<u8>,
}

const STEPS: [(&str, u8); 3] = [("deliver", DELIVER), ("lose", LOSE), ("double", DOUBLE)];

impl Named {
    /// Returns the name as in the text form: "second GRANT to client 0 object
    /// 1".
    pub fn what(&self) -> String {
        let Named { which, message, client, item, .. } = self;
        let item = item.map_or(String::new(), |item| format!(" {} {item}", names::about(message)));
        format!("{}{message} {} client {client}{item}", which.prefix(), way(message))
    }

    fn fits(&self, message: &Message) -> bool {
        let item = self.item.is_none_or(|item| item == names::item(message));
        names::kind(&message.kind) == self.message && message.client == self.client && item
    }

    /// Returns the place of the message meant.
    pub fn place(&self, under_way: &[Message]) -> Option<usize> {
        let fitting = under_way.iter().enumerate().filter(|(_, message)| self.fits(message));
        self.which.pick(fitting).map(|(place, _)| place)
    }
}

pub fn line(action: &Action) -> String {
    match action {
        Action::Step(step) => steps::line(step),
        Action::Join { client, object } => format!("join client {client} object {object}"),
        Action::Named(named) => {
            let (word, _) = STEPS.iter().find(|(_, step)| *step == named.step).expect("one of the three");
            format!("{word} {}", named.what())
        }
    }
}

pub fn parse(words: &mut Words) -> Result<Action, Wrong> {
    let step = STEPS.iter().find(|(word, _)| words.peek() == Some(word));
    let by_name = |word: &str| KINDS.contains(&word) || Which::of(word).is_some();
    match (words.peek(), step) {
        (Some("join"), _) => {
            words.word("join")?;
            Ok(Action::Join { client: words.named_byte("client")?, object: words.named_byte("object")? })
        }
        (_, Some((word, step))) if words.second().is_some_and(by_name) => {
            words.word(word)?;
            named(*step, words).map(Action::Named)
        }
        _ => steps::parse(words).map(Action::Step),
    }
}

fn named(step: u8, words: &mut Words) -> Result<Named, Wrong> {
    let which = words.peek().and_then(Which::of);
    if which.is_some() {
        words.next("which message")?;
    }
    let expected = format!("a message: {}", KINDS.join(", "));
    let found = words.next(&expected)?;
    let message = KINDS.iter().find(|kind| **kind == found);
    let message = message.ok_or_else(|| Wrong::new(quoted(found), expected))?;
    words.word(way(message))?;
    let client = words.named_byte("client")?;
    let told = words.peek().is_some_and(|word| ["object", "volume"].contains(&plain(word)));
    let item = if told { Some(words.named_byte(names::about(message))?) } else { None };
    Ok(Named { step, which: which.unwrap_or(Which::FIRST), message, client, item })
}
