//! Step lines, read and written.

use model::step_record::*;

use super::words::{quoted, Words, Wrong};
use crate::vocabulary::plain;

pub const A_STEP: &str =
    "a step: clock, read, ask, write, deliver, lose, double, restart, save, return, kind or join";

/// Returns the line of a step without unused fields, as in any accepted run
/// file. An unknown kind shows all its fields.
pub fn line(step: &Step) -> String {
    let Step { kind, client, object, place, clock, value } = *step;
    match kind {
        CLOCK => format!("clock {clock}"),
        READ => format!("read client {client} object {object}"),
        ASK => format!("ask client {client} object {object}"),
        WRITE => format!("write object {object} value {value}"),
        DELIVER => format!("deliver {place}"),
        LOSE => format!("lose {place}"),
        DOUBLE => format!("double {place}"),
        RESTART_SERVER => "restart server".into(),
        RESTART_CLIENT => format!("restart client {client}"),
        SAVE => format!("save {place}"),
        RETURN => format!("return {place}"),
        _ => format!("kind {kind} client {client} object {object} place {place} clock {clock} value {value}"),
    }
}

pub fn parse(words: &mut Words) -> Result<Step, Wrong> {
    match words.next(A_STEP)? {
        "clock" => Ok(Step::clock(time(words)?)),
        "read" => Ok(Step::read(words.named_byte("client")?, words.named_byte("object")?)),
        "ask" => Ok(Step::ask(words.named_byte("client")?, words.named_byte("object")?)),
        "write" => Ok(Step::write(words.named_byte("object")?, value(words)?)),
        "deliver" => Ok(Step::deliver(place(words)?)),
        "lose" => Ok(Step::lose(place(words)?)),
        "double" => Ok(Step::double(place(words)?)),
        "restart" => restart(words),
        "save" => Ok(Step::save(name(words)?)),
        "return" => Ok(Step::return_to(name(words)?)),
        "kind" => unknown(words),
        first => Err(Wrong::new(quoted(first), A_STEP)),
    }
}

fn time(words: &mut Words) -> Result<u32, Wrong> {
    Ok(words.number("a time", 0, u32::MAX.into())? as u32)
}

fn value(words: &mut Words) -> Result<u64, Wrong> {
    words.word("value")?;
    words.number("a value", 0, u64::MAX)
}

fn place(words: &mut Words) -> Result<u8, Wrong> {
    words.byte("a message as `GRANT to client 0`, or a place in the queue")
}

/// Reads the name of a saved state. One above 3 is a step that is refused.
fn name(words: &mut Words) -> Result<u8, Wrong> {
    words.byte("a number of the saved state")
}

fn restart(words: &mut Words) -> Result<Step, Wrong> {
    const WHO: &str = "`server` or `client`";
    let who = words.next(WHO)?;
    match plain(who) {
        "server" => Ok(Step::restart_server()),
        "client" => Ok(Step::restart_client(words.byte("a number of the client")?)),
        _ => Err(Wrong::new(quoted(who), WHO)),
    }
}

/// Reads a step of an unknown kind. Known kinds have lines of their own and are
/// rejected here, since with an unused field set the run file would be refused.
fn unknown(words: &mut Words) -> Result<Step, Wrong> {
    let kind = words.byte("a kind")?;
    if (CLOCK..=RETURN).contains(&kind) {
        return Err(Wrong::new(format!("`kind {kind}`"), "an unknown kind: 0, or 12 to 255"));
    }
    let (client, object) = (words.named_byte("client")?, words.named_byte("object")?);
    let place = words.named_byte("place")?;
    words.word("clock")?;
    Ok(Step { kind, client, object, place, clock: time(words)?, value: value(words)? })
}
