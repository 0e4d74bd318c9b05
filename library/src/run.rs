//! Lists whole runs.

use crate::{exports, Refused};

/// The most bytes that a run file can have.
pub const FILE_BYTES: usize = 65_536;

/// Bytes enough for the listing of any run file.
pub const LISTING_BYTES: usize = 112_640;

/// The most stack that [`list`] needs.
pub const LIST_STACK_BYTES: usize = 221_184;

/// Writes the listing of a run file to the start of `output` and returns its
/// length. The bytes of `output` past the listing do not change.
///
/// # Errors
///
/// 9 if `file` is not a run file, whatever the length of `output`; also if it is
/// one from before version 0.6.0, whose delay is 0. Else 8 if `output` is shorter
/// than the listing. A refused call writes nothing.
pub fn list(file: &[u8], output: &mut [u8]) -> Result<usize, Refused> {
    exports::list(file, output)
}
