//! What a text expects of a step, `=> shown 7`, read and written.

use model::limits::{NO_NUMBER_LEFT, NO_SUCH_NAME, OBJECTS, UNSOUND};

use super::words::{quoted, Words, Wrong, ARROW};
use crate::listed::Listed;

const AN_ANSWER: &str = "`done`, `shown V`, `ask first`, `completed N` or `refused N`";

/// Returns what follows a step on its line.
pub fn suffix(expected: &Option<Listed>) -> String {
    match expected {
        None => String::new(),
        Some(Listed { answer: 3, value }) => format!(" {ARROW} completed {value}"),
        Some(expected) => format!(" {ARROW} {}", expected.words()),
    }
}

/// Reads the rest of a line after its step.
pub fn parse(words: &mut Words) -> Result<Option<Listed>, Wrong> {
    let Some(first) = words.peek() else {
        return Ok(None);
    };
    if first != ARROW {
        return Err(Wrong::new(quoted(first), format!("`{ARROW}` or the end of the line")));
    }
    words.word(ARROW)?;
    let answer = words.next(AN_ANSWER)?;
    let expected = match answer {
        "done" => Listed::DONE,
        "shown" => Listed::shown(words.number("a value", 0, u64::MAX)?),
        "ask" => words.word("first").map(|()| Listed::ASK_FIRST)?,
        "completed" => Listed::completed(words.number("a number of writes", 1, OBJECTS as u64)?),
        "refused" => refused(words)?,
        _ => return Err(Wrong::new(quoted(answer), AN_ANSWER)),
    };
    words.end()?;
    Ok(Some(expected))
}

/// Reads the number of a question that is asked of a step.
fn refused(words: &mut Words) -> Result<Listed, Wrong> {
    let expected = format!("a refusal's number: {UNSOUND} to {NO_NUMBER_LEFT}, or {NO_SUCH_NAME}");
    let found = words.peek().map_or("the end of the line".into(), quoted);
    let asked = |&number: &u64| number <= NO_NUMBER_LEFT.into() || number == NO_SUCH_NAME.into();
    let number = words.number(&expected, UNSOUND.into(), NO_SUCH_NAME.into()).ok().filter(asked);
    number.map(Listed::refused).ok_or(Wrong::new(found, expected))
}
