//! Which message a row is, if it is one (docs/DECISIONS.md, "What of a live row
//! that is no message?").

use crate::cases::rows::{Row, KIND, NUMBER, OBJECT_EXPIRY, PRESENT, VALUE, VERSION, VOLUME_EXPIRY};
use crate::message::{Batch, Grant, Kind, Message};

const RENEW: u64 = 1;
const GRANT: u64 = 2;
const INVALIDATE: u64 = 3;
const ACK: u64 = 4;
const OFFER: u64 = 5;
const DROPPED: u64 = 6;
const BATCH: u64 = 7;
const CLEARED: u64 = 8;

/// The fields that not every kind has, and the kinds that have them
/// (01, Frame, run file and listing; 02, A6).
const FIELDS_OF_SOME: [(usize, &[u64]); 6] = [
    (PRESENT, &[GRANT]),
    (NUMBER, &[RENEW, GRANT, OFFER, DROPPED, BATCH, CLEARED]),
    (VOLUME_EXPIRY, &[GRANT]),
    (VERSION, &[RENEW, GRANT, INVALIDATE, ACK, BATCH, CLEARED]),
    (OBJECT_EXPIRY, &[GRANT]),
    (VALUE, &[GRANT]),
];

impl Row {
    /// Reads the row as a message. Returns none if a word is too large, the
    /// kind is unknown or the fields are wrong for it.
    pub fn message(&self) -> Option<Message> {
        let right = self.has_bytes() && self.is_of_known_kind() && !self.has_stray() && self.presence_right();
        right.then(|| self.read())
    }

    /// Returns whether the first four words, which are bytes in a frame, are at
    /// most 255.
    fn has_bytes(&self) -> bool {
        self.fields[..=PRESENT].iter().all(|&word| word <= 255)
    }

    /// Returns whether the kind is 1 to 8.
    fn is_of_known_kind(&self) -> bool {
        (RENEW..=CLEARED).contains(&self.fields[KIND])
    }

    /// Returns whether a field that the kind lacks is not 0.
    fn has_stray(&self) -> bool {
        FIELDS_OF_SOME.iter().any(|&(field, _)| self.lacks(field) && self.fields[field] != 0)
    }

    /// Returns whether the kind lacks this field.
    pub fn lacks(&self, field: usize) -> bool {
        let kinds = FIELDS_OF_SOME.iter().find(|(some, _)| *some == field);
        kinds.is_some_and(|(_, kinds)| !kinds.contains(&self.fields[KIND]))
    }

    /// Returns whether a GRANT's presence is 0 or 1, and its value 0 if it has
    /// none.
    fn presence_right(&self) -> bool {
        self.fields[KIND] != GRANT
            || match self.fields[PRESENT] {
                0 => self.fields[VALUE] == 0,
                1 => true,
                _ => false,
            }
    }

    /// Reads the fields that the kind has.
    fn read(&self) -> Message {
        let [kind, client, item, present, number, volume_expiry, epoch, version, object_expiry, value] =
            self.fields;
        let item = item as u8;
        let [number, volume_expiry, epoch, version, object_expiry] =
            [number, volume_expiry, epoch, version, object_expiry].map(|number| number as u32);
        let kind = match kind {
            RENEW => Kind::Renew { object: item, number, epoch, version },
            GRANT => Kind::Grant(Grant {
                object: item,
                number,
                volume_expiry,
                epoch,
                version,
                object_expiry,
                value: (present != 0).then_some(value),
            }),
            INVALIDATE => Kind::Invalidate { object: item, epoch, version },
            ACK => Kind::Ack { object: item, epoch, version },
            OFFER => Kind::Offer { volume: item, number, epoch },
            DROPPED => Kind::Dropped { volume: item, number, epoch },
            BATCH => Kind::Batch(Batch { volume: item, number, epoch, set: version }),
            CLEARED => Kind::Cleared(Batch { volume: item, number, epoch, set: version }),
            _ => unreachable!("message kind {kind}"),
        };
        Message { client: client as u8, kind }
    }
}

#[cfg(test)]
mod tests {
    use super::*;
    use crate::frame::decode;

    const NUMBERS: [u64; 7] = [0, 1, 2, 255, 256, 257, u32::MAX as u64];

    /// Returns the row as a frame, if its first four words are bytes.
    fn frame(row: &Row) -> Option<Vec<u8>> {
        let (head, words) = row.fields[..VALUE].split_at(4);
        let head = head.iter().map(|&word| word.try_into().ok()).collect::<Option<Vec<u8>>>()?;
        let words = words.iter().flat_map(|&word| (word as u32).to_le_bytes());
        Some(head.into_iter().chain(words).chain(row.fields[VALUE].to_le_bytes()).collect())
    }

    /// Returns rows of each kind, with up to two nonzero fields.
    fn rows() -> impl Iterator<Item = Row> {
        let fields = || (1..10).flat_map(|field| NUMBERS.map(|number| (field, number)));
        let pairs = move || fields().flat_map(move |first| fields().map(move |second| [first, second]));
        (0..=12).chain([255, 256, 257, 258, 65_537]).flat_map(move |kind| {
            pairs().map(move |pair| {
                let mut row = Row { fields: [kind, 0, 0, 0, 0, 0, 0, 0, 0, 0] };
                pair.iter().for_each(|&(field, number)| row.fields[field] = number);
                row
            })
        })
    }

    #[test]
    fn a_row_is_the_message_of_its_frame() {
        for row in rows() {
            let message = frame(&row).and_then(|frame| decode(&frame).ok());
            assert_eq!(row.message(), message, "{row}");
        }
    }

    #[test]
    fn a_message_is_the_message_of_its_row() {
        let messages: Vec<_> = rows().filter_map(|row| row.message()).collect();
        let kinds: Vec<_> =
            (1..=8).filter(|&kind| messages.iter().any(|message| message.kind.code() == kind)).collect();
        assert_eq!(kinds, [1, 2, 3, 4, 5, 6, 7, 8]);
        for message in messages {
            assert_eq!(Row::of(&message).message(), Some(message));
        }
    }

    #[test]
    fn a_fresh_row_is_none_and_a_blank_one_is_a_renew() {
        assert_eq!(Row::FRESH.message(), None);
        let renew = Kind::Renew { object: 0, number: 0, epoch: 0, version: 0 };
        assert_eq!(Row::BLANK.message(), Some(Message { client: 0, kind: renew }));
    }
}
