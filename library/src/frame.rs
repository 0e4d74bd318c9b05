//! Converts messages to and from frames.

use crate::message::{Fields, Message};
use crate::{exports, Refused};

/// The length of a frame.
pub const FRAME_BYTES: usize = 32;

/// Writes the message's frame to the first 32 bytes of `output`. The other
/// bytes do not change.
///
/// # Errors
///
/// 8 if `output` is shorter than a frame. A refused call writes nothing.
pub fn encode(message: &Message, output: &mut [u8]) -> Result<(), Refused> {
    exports::encode(&Fields::of(message), output)
}

/// Returns the message in a frame.
///
/// # Errors
///
/// 8 if the bytes are not a frame: the length is wrong, the kind is unknown,
/// value present is neither 0 nor 1, or a field that the message lacks is not 0.
pub fn decode(frame: &[u8]) -> Result<Message, Refused> {
    exports::decode(frame).map(|fields| fields.message())
}
