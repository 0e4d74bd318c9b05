//! The rules for what is handed over: a message list as rows (docs/DECISIONS.md,
//! "What of a live row that is no message?"), and saved states that may be there
//! or not.

use crate::cases::rows::Row;
use crate::cases::tables::CaseTables;
use crate::limits::UNSOUND;
use crate::message::Message;
use crate::rules::Papers;
use crate::step_record::Step;

pub trait RowRules {
    /// Reads a row as a message, if it is one.
    fn message(&self, row: &Row) -> Option<Message> {
        row.message()
    }

    /// Returns whether a row is asked about: every one in use is, whatever the
    /// step.
    fn asks_about(&self, len: usize, place: usize, _step: &Step) -> bool {
        place < len
    }

    /// Returns whether a saved state is asked about: one that is there.
    fn asks_about_saved(&self, there: bool) -> bool {
        there
    }

    /// Returns whether its rows are asked about, too.
    fn asks_about_saved_rows(&self) -> bool {
        true
    }

    /// Returns the refusal for tables, rows or saved states that are not sound.
    /// That is question 1, so it comes before all others.
    fn unsound(&self, _step: &Step) -> u8 {
        UNSOUND
    }

    /// Leaves a refused step's tables and rows as they were.
    fn refused(&self, _case: &mut CaseTables) {}
}

impl RowRules for Papers {}
