//! Mistakes about what is handed over: rows of the message list that are no
//! message, and saved states that are not there.

use crate::cases::rows::{
    Row, CLIENT, ITEM, KIND, NUMBER, OBJECT_EXPIRY, PRESENT, VALUE, VERSION, VOLUME_EXPIRY,
};
use crate::cases::CaseTables;
use crate::limits::{NAMES, NO_SUCH_NAME, UNKNOWN_KIND};
use crate::message::Message;
use crate::rules::{is_known, Papers};
use crate::step_record::{Step, DELIVER, DOUBLE, LOSE, RETURN, SAVE};

const RENEW: u64 = 1;
const GRANT: u64 = 2;

mistakes_about! { RowRules:
    /// Reads a row of kind 0 as a RENEW.
    row_of_kind_0 {
        fn message(&self, row: &Row) -> Option<Message> {
            let kind = if row.fields[KIND] == 0 { RENEW } else { row.fields[KIND] };
            row.with(KIND, kind).message()
        }
    }

    /// Reads a row of a kind above 8 as a RENEW.
    row_of_kind_above_8 {
        fn message(&self, row: &Row) -> Option<Message> {
            let above = (9..=255).contains(&row.fields[KIND]);
            row.with(KIND, if above { RENEW } else { row.fields[KIND] }).message()
        }
    }

    /// Reads only the low byte of a row's kind.
    row_kind_low_byte {
        fn message(&self, row: &Row) -> Option<Message> {
            low_byte(row, KIND).message()
        }
    }

    /// Reads only the low byte of a row's client.
    row_client_low_byte {
        fn message(&self, row: &Row) -> Option<Message> {
            low_byte(row, CLIENT).message()
        }
    }

    /// Reads only the low byte of a row's object or volume.
    row_object_low_byte {
        fn message(&self, row: &Row) -> Option<Message> {
            low_byte(row, ITEM).message()
        }
    }

    /// Reads only the low byte of a row's presence.
    row_presence_low_byte {
        fn message(&self, row: &Row) -> Option<Message> {
            low_byte(row, PRESENT).message()
        }
    }

    /// Takes a GRANT's presence above 1 as 1.
    row_any_presence {
        fn message(&self, row: &Row) -> Option<Message> {
            let above = row.fields[KIND] == GRANT && (2..=255).contains(&row.fields[PRESENT]);
            row.with(PRESENT, if above { 1 } else { row.fields[PRESENT] }).message()
        }
    }

    /// Lets a GRANT without a value carry one.
    row_value_without_presence {
        fn message(&self, row: &Row) -> Option<Message> {
            let without = row.fields[KIND] == GRANT && row.fields[PRESENT] == 0;
            row.with(VALUE, if without { 0 } else { row.fields[VALUE] }).message()
        }
    }

    /// Lets a kind that has no presence carry one.
    row_stray_presence {
        fn message(&self, row: &Row) -> Option<Message> {
            let byte = row.fields[PRESENT] <= 255;
            if byte { without_stray(row, PRESENT).message() } else { None }
        }
    }

    /// The same for a number.
    row_stray_number {
        fn message(&self, row: &Row) -> Option<Message> {
            without_stray(row, NUMBER).message()
        }
    }

    /// The same for a volume expiry.
    row_stray_volume_expiry {
        fn message(&self, row: &Row) -> Option<Message> {
            without_stray(row, VOLUME_EXPIRY).message()
        }
    }

    /// The same for a version.
    row_stray_version {
        fn message(&self, row: &Row) -> Option<Message> {
            without_stray(row, VERSION).message()
        }
    }

    /// The same for an object expiry.
    row_stray_object_expiry {
        fn message(&self, row: &Row) -> Option<Message> {
            without_stray(row, OBJECT_EXPIRY).message()
        }
    }

    /// The same for a value.
    row_stray_value {
        fn message(&self, row: &Row) -> Option<Message> {
            without_stray(row, VALUE).message()
        }
    }

    /// Does not ask about the first row.
    rows_without_first {
        fn asks_about(&self, len: usize, place: usize, step: &Step) -> bool {
            place != 0 && Papers.asks_about(len, place, step)
        }
    }

    /// Does not ask about the last row in use.
    rows_without_last {
        fn asks_about(&self, len: usize, place: usize, step: &Step) -> bool {
            place + 1 != len && Papers.asks_about(len, place, step)
        }
    }

    /// Asks about the row after the last one, too.
    rows_past_length {
        fn asks_about(&self, len: usize, place: usize, step: &Step) -> bool {
            place == len || Papers.asks_about(len, place, step)
        }
    }

    /// Asks only about the row that a step delivers, loses or doubles.
    rows_when_used {
        fn asks_about(&self, len: usize, place: usize, step: &Step) -> bool {
            let used = [DELIVER, LOSE, DOUBLE].contains(&step.kind) && usize::from(step.place) == place;
            used && Papers.asks_about(len, place, step)
        }
    }

    /// First asks whether the kind of the step is known.
    rows_after_kind {
        fn unsound(&self, step: &Step) -> u8 {
            if is_known(step.kind) { Papers.unsound(step) } else { UNKNOWN_KIND }
        }
    }

    /// Asks about a saved state that is not there, too.
    never_saved_asked {
        fn asks_about_saved(&self, _: bool) -> bool {
            true
        }
    }

    /// Does not ask about the rows of a saved state.
    saved_rows_not_asked {
        fn asks_about_saved_rows(&self) -> bool {
            false
        }
    }

    /// First asks whether the name exists.
    name_before_sound {
        fn unsound(&self, step: &Step) -> u8 {
            let named = step.kind == SAVE || step.kind == RETURN;
            if named && usize::from(step.place) >= NAMES { NO_SUCH_NAME } else { Papers.unsound(step) }
        }
    }

    /// Answers 11 for every return where something is not sound.
    never_saved_before_sound {
        fn unsound(&self, step: &Step) -> u8 {
            if step.kind == RETURN { NO_SUCH_NAME } else { Papers.unsound(step) }
        }
    }

    /// Answers 1 and blanks the row.
    row_blanked {
        fn refused(&self, case: &mut CaseTables) {
            let wrong = case.present.rows.iter_mut().filter(|row| row.message().is_none());
            wrong.for_each(|row| *row = Row::BLANK);
        }
    }
}

fn low_byte(row: &Row, field: usize) -> Row {
    row.with(field, row.fields[field] & 255)
}

/// Returns the row with 0 in a field that its kind lacks.
fn without_stray(row: &Row, field: usize) -> Row {
    row.with(field, if row.lacks(field) { 0 } else { row.fields[field] })
}
