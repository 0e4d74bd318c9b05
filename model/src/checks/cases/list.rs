//! The message list as a step gets it: one row per place, of which those below
//! the list's length are in use. The others are free, whatever they hold.

use crate::cases::rows::Row;
use crate::cases::state::CaseState;
use crate::limits::QUEUE;
use crate::message::{Kind, Message};
use crate::mistakes::Mistakes;
use crate::queue::Queue;
use crate::step_record::Step;

/// Stands in for a row that is no message where nobody asks about it.
const SOME_RENEW: Message =
    Message { client: 0, kind: Kind::Renew { object: 0, number: 0, epoch: 0, version: 0 } };

impl CaseState {
    /// Reads the rows as messages. Returns the refusal if a row asked about is
    /// no message.
    pub(super) fn list(&self, rules: Mistakes, step: &Step, asked: bool) -> Result<Queue, u8> {
        let len = self.tables.queue.len;
        let mut places = [SOME_RENEW; QUEUE];
        for (place, row) in self.rows.iter().enumerate() {
            match rules.rows.message(row) {
                Some(message) => places[place] = message,
                None if asked && rules.rows.asks_about(len, place, step) => {
                    return Err(rules.rows.unsound(step))
                }
                None => (),
            }
        }
        Ok(Queue { len, places })
    }

    /// Stores the list that an accepted step left as rows.
    pub(super) fn keep_list(&mut self) {
        for (row, message) in self.rows.iter_mut().zip(self.tables.queue.messages()) {
            *row = Row::of(message);
        }
    }
}
