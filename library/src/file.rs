//! Writes run files, from their parts or from a seed.

use crate::{exports, Refused};

/// The most steps that a run file can have.
pub const STEPS: usize = 4_000;

/// The most stack that [`write()`] and [`workload`] need.
pub const WRITE_STACK_BYTES: usize = 278_528;

/// Writes the run file of this note, setup and these steps to the start of
/// `output` and returns its length. It is the only file with this note that has
/// these parts. The bytes of `output` past the file do not change.
///
/// `setup` comes from [`Setup::bytes`](crate::Setup::bytes), and `records` is
/// the steps' [`Step::record`](crate::Step::record), one after the other.
///
/// # Errors
///
/// 7 if `setup` is not 48 bytes long, its fourth byte is not 0 or a field is
/// out of range; also if it is from before version 0.6.0, since its delay is 0.
/// Then 10 if the length of `records` is not a multiple of 16, there are more
/// than [`STEPS`] steps, a step of a known kind has an unused field that is not
/// 0, the file would be longer than [`FILE_BYTES`](crate::FILE_BYTES), or
/// `output` is shorter than the file. A refused call writes nothing.
pub fn write(note: &[u8], setup: &[u8], records: &[u8], output: &mut [u8]) -> Result<usize, Refused> {
    exports::write(note, setup, records, output)
}

/// Does the same with the first `count` steps of this seed's workload, which
/// are the same every time.
///
/// # What it does not reach
///
/// Choose an odd number of clients or of objects, such as 3 and 4. If 2^e is
/// the greatest power of two that divides both counts, then object and 13 ×
/// client + 15 are equal modulo 2^e in every read and ask: with 4 and 4, no two
/// clients ask for the same object. A count that is a power of two is gone
/// through in a fixed order: each of 4 objects is drawn every 4th step, each
/// place every 64th.
///
/// Hardly any lease is granted: the server restarts every 9 steps on average,
/// and a delivery hits a given message once in 64 times. So a workload
/// exercises the message list, restarts, offers and refusals.
///
/// # Errors
///
/// 7 as for [`write()`]. Then 10 if `count` is above [`STEPS`], the file would
/// be longer than [`FILE_BYTES`](crate::FILE_BYTES), or `output` is shorter
/// than the file. A refused call writes nothing.
pub fn workload(
    seed: u32,
    note: &[u8],
    setup: &[u8],
    count: u32,
    output: &mut [u8],
) -> Result<usize, Refused> {
    exports::workload(seed, note, setup, count, output)
}
