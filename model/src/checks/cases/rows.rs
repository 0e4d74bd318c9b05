//! A row of the message list: ten numbers in the frame's order, nine words and
//! a value.

use std::fmt::{Display, Formatter, Result};

use crate::message::{Batch, Grant, Kind, Message};

/// The index of each field in a row.
pub const KIND: usize = 0;
pub const CLIENT: usize = 1;
/// The object or volume.
pub const ITEM: usize = 2;
pub const PRESENT: usize = 3;
pub const NUMBER: usize = 4;
pub const VOLUME_EXPIRY: usize = 5;
pub const VERSION: usize = 7;
pub const OBJECT_EXPIRY: usize = 8;
pub const VALUE: usize = 9;

/// A row of any numbers: even one in use may be no message.
#[derive(Clone, Copy, Debug, PartialEq, Eq)]
pub struct Row {
    pub fields: [u64; 10],
}

impl Row {
    /// The initial row of a place, which is no message.
    pub const FRESH: Row = Row { fields: [0; 10] };

    /// The row shown for a place past the list's length: a RENEW of zeros.
    pub const BLANK: Row = Row { fields: [1, 0, 0, 0, 0, 0, 0, 0, 0, 0] };

    /// Returns the row with another number in this field.
    pub fn with(mut self, field: usize, number: u64) -> Row {
        self.fields[field] = number;
        self
    }

    pub fn of(message: &Message) -> Row {
        let fields = match message.kind {
            Kind::Renew { object, number, epoch, version } => {
                [object.into(), 0, number, 0, epoch, version, 0]
            }
            Kind::Grant(grant) => [
                grant.object.into(),
                grant.value.is_some().into(),
                grant.number,
                grant.volume_expiry,
                grant.epoch,
                grant.version,
                grant.object_expiry,
            ],
            Kind::Invalidate { object, epoch, version } | Kind::Ack { object, epoch, version } => {
                [object.into(), 0, 0, 0, epoch, version, 0]
            }
            Kind::Offer { volume, number, epoch } | Kind::Dropped { volume, number, epoch } => {
                [volume.into(), 0, number, 0, epoch, 0, 0]
            }
            Kind::Batch(Batch { volume, number, epoch, set })
            | Kind::Cleared(Batch { volume, number, epoch, set }) => {
                [volume.into(), 0, number, 0, epoch, set, 0]
            }
        };
        let [item, present, number, volume_expiry, epoch, version, object_expiry] = fields.map(u64::from);
        let (kind, client) = (message.kind.code().into(), message.client.into());
        let value = match message.kind {
            Kind::Grant(Grant { value: Some(value), .. }) => value,
            _ => 0,
        };
        Row {
            fields: [
                kind,
                client,
                item,
                present,
                number,
                volume_expiry,
                epoch,
                version,
                object_expiry,
                value,
            ],
        }
    }
}

impl Display for Row {
    fn fmt(&self, f: &mut Formatter) -> Result {
        write!(f, "{}", self.fields.map(|field| field.to_string()).join(" "))
    }
}
