//! Frames of 32 bytes, little endian (01, Frame, run file and listing; 02, A6).

use crate::limits::{BAD_FRAME, FRAME_BYTES};
use crate::message::{Batch, Grant, Kind, Message};

/// All fields of a frame; those that a kind lacks are 0.
#[derive(Clone, Copy, Default)]
struct Fields {
    item: u8,
    present: u8,
    number: u32,
    volume_expiry: u32,
    epoch: u32,
    version: u32,
    object_expiry: u32,
    value: u64,
}

/// Writes the frame into the first 32 bytes and leaves the rest.
pub fn encode(message: &Message, output: &mut [u8]) -> Result<(), u8> {
    let frame = output.get_mut(..FRAME_BYTES).ok_or(BAD_FRAME)?;
    let fields = fields_of(&message.kind);
    frame[0] = message.kind.code();
    frame[1] = message.client;
    frame[2] = fields.item;
    frame[3] = fields.present;
    frame[4..8].copy_from_slice(&fields.number.to_le_bytes());
    frame[8..12].copy_from_slice(&fields.volume_expiry.to_le_bytes());
    frame[12..16].copy_from_slice(&fields.epoch.to_le_bytes());
    frame[16..20].copy_from_slice(&fields.version.to_le_bytes());
    frame[20..24].copy_from_slice(&fields.object_expiry.to_le_bytes());
    frame[24..32].copy_from_slice(&fields.value.to_le_bytes());
    Ok(())
}

/// Reads a frame of exactly 32 bytes. Every message has exactly one frame, so
/// encoding what was read must give the same bytes.
pub fn decode(frame: &[u8]) -> Result<Message, u8> {
    let frame: &[u8; FRAME_BYTES] = frame.try_into().map_err(|_| BAD_FRAME)?;
    let kind = kind_of(frame[0], &read_fields(frame)).ok_or(BAD_FRAME)?;
    let message = Message { client: frame[1], kind };
    let mut again = [0; FRAME_BYTES];
    encode(&message, &mut again)?;
    if again == *frame {
        Ok(message)
    } else {
        Err(BAD_FRAME)
    }
}

fn read_fields(frame: &[u8; FRAME_BYTES]) -> Fields {
    let word = |at: usize| u32::from_le_bytes([frame[at], frame[at + 1], frame[at + 2], frame[at + 3]]);
    Fields {
        item: frame[2],
        present: frame[3],
        number: word(4),
        volume_expiry: word(8),
        epoch: word(12),
        version: word(16),
        object_expiry: word(20),
        value: u64::from(word(24)) | u64::from(word(28)) << 32,
    }
}

fn fields_of(kind: &Kind) -> Fields {
    let none = Fields::default();
    match *kind {
        Kind::Renew { object, number, epoch, version } => {
            Fields { item: object, number, epoch, version, ..none }
        }
        Kind::Grant(grant) => Fields {
            item: grant.object,
            present: grant.value.is_some().into(),
            number: grant.number,
            volume_expiry: grant.volume_expiry,
            epoch: grant.epoch,
            version: grant.version,
            object_expiry: grant.object_expiry,
            value: grant.value.unwrap_or(0),
        },
        Kind::Invalidate { object, epoch, version } | Kind::Ack { object, epoch, version } => {
            Fields { item: object, epoch, version, ..none }
        }
        Kind::Offer { volume, number, epoch } | Kind::Dropped { volume, number, epoch } => {
            Fields { item: volume, number, epoch, ..none }
        }
        Kind::Batch(Batch { volume, number, epoch, set })
        | Kind::Cleared(Batch { volume, number, epoch, set }) => {
            Fields { item: volume, number, epoch, version: set, ..none }
        }
    }
}

fn kind_of(code: u8, fields: &Fields) -> Option<Kind> {
    let Fields { item, number, epoch, version, .. } = *fields;
    Some(match code {
        1 => Kind::Renew { object: item, number, epoch, version },
        2 => Kind::Grant(Grant {
            object: item,
            number,
            volume_expiry: fields.volume_expiry,
            epoch,
            version,
            object_expiry: fields.object_expiry,
            value: (fields.present != 0).then_some(fields.value),
        }),
        3 => Kind::Invalidate { object: item, epoch, version },
        4 => Kind::Ack { object: item, epoch, version },
        5 => Kind::Offer { volume: item, number, epoch },
        6 => Kind::Dropped { volume: item, number, epoch },
        7 => Kind::Batch(Batch { volume: item, number, epoch, set: version }),
        8 => Kind::Cleared(Batch { volume: item, number, epoch, set: version }),
        _ => return None,
    })
}
