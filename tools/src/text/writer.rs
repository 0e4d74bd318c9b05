//! Writes lines out as exact steps, in the state that the steps before them
//! have led to.

use model::limits::{FILE_BYTES, STEPS};
use model::message::Kind;
use model::runfile::distance;
use model::setup::Setup;
use model::step_record::Step;

use super::actions::{Action, Named};
use super::script::{Line, Written};
use super::words::Wrong;
use crate::explain;
use crate::listed::Listed;
use crate::names::placed;
use crate::trace::{Moment, Walk};
use crate::voice::Voice;

pub struct Writer<'a> {
    walk: Walk<'a>,
    note_len: usize,
    pub steps: Vec<Written>,
}

impl<'a> Writer<'a> {
    pub fn new(setup: &'a Setup, voice: Voice, note_len: usize) -> Writer<'a> {
        Writer { walk: Walk::fresh(setup, voice), note_len, steps: Vec::new() }
    }

    /// Takes the steps of the line at this index of the script.
    pub fn write(&mut self, at: usize, line: &Line) -> Result<(), Wrong> {
        let expected = line.expected;
        match line.action {
            Action::Step(step) => self.take(at, expected, step, |_| ()),
            Action::Named(named) => {
                let place = self.place(&named)?;
                self.take(at, expected, Step { kind: named.step, place, ..Step::default() }, |_| ())
            }
            Action::Join { client, object } => self.join(at, Step::ask(client, object)),
        }
    }

    fn take<T>(
        &mut self,
        line: usize,
        expected: Option<Listed>,
        step: Step,
        seen: impl FnOnce(&Moment) -> T,
    ) -> Result<T, Wrong> {
        self.has_room()?;
        let (answer, seen) = self.walk.take(step, |moment| (Listed::of(&moment.answer), seen(moment)));
        self.steps.push(Written { step, line, expected, answer });
        Ok(seen)
    }

    /// Checks that there is room for one more step: a run file has limits on
    /// its steps and, with the note, on its bytes.
    fn has_room(&self) -> Result<(), Wrong> {
        let count = self.steps.len() + 1;
        if count > STEPS {
            return Err(Wrong::new(format!("step {count}"), format!("at most {STEPS} steps")));
        }
        if self.note_len + distance(count) > FILE_BYTES {
            let room = FILE_BYTES - distance(count);
            return Err(Wrong::new(
                format!("step {count} after a note of {} bytes", self.note_len),
                format!("a note of at most {room} bytes with so many steps"),
            ));
        }
        Ok(())
    }

    fn place(&self, named: &Named) -> Result<u8, Wrong> {
        let under_way = self.walk.under_way();
        if let Some(place) = named.place(under_way) {
            return Ok(place as u8);
        }
        let messages: Vec<String> =
            under_way.iter().enumerate().map(|(place, message)| placed(place, message)).collect();
        let expected = match messages.len() {
            0 => "one, but no message is under way".into(),
            _ => format!("one that is: {}", messages.join(", ")),
        };
        Err(Wrong::new(format!("no {} under way", named.what()), expected))
    }

    /// Asks, and delivers each answer from the place where it was put.
    fn join(&mut self, line: usize, ask: Step) -> Result<(), Wrong> {
        let mut next = Some(ask);
        while let Some(step) = next {
            next = self.take(line, None, step, |moment| following(moment, ask))??;
        }
        Ok(())
    }
}

/// Returns the next step of a join. A client that drops its leases, or erases
/// what was noted for it, asks once more; a GRANT ends the join.
fn following(moment: &Moment, ask: Step) -> Result<Option<Step>, Wrong> {
    let sent = moment.sent().first().map(|message| message.kind);
    match (moment.taken().map(|message| message.kind), sent) {
        (None, Some(Kind::Renew { .. }))
        | (Some(Kind::Renew { .. }), Some(Kind::Grant(_) | Kind::Offer { .. } | Kind::Batch(_)))
        | (Some(Kind::Offer { .. }), Some(Kind::Dropped { .. }))
        | (Some(Kind::Batch(_)), Some(Kind::Cleared(_))) => {
            Ok(Some(Step::deliver((moment.after.tables.queue.len - 1) as u8)))
        }
        (Some(Kind::Dropped { .. } | Kind::Cleared(_)), None) => Ok(Some(ask)),
        (Some(Kind::Grant(_)), None) => Ok(None),
        _ => {
            let stopped = format!("the join stopped at step {}", explain::line(moment));
            Err(Wrong::new(stopped, "a step that leads to a GRANT"))
        }
    }
}
