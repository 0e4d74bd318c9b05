//! The one writer of run files, with its refusals 7 and 10 (02, A5).

use crate::limits::{BAD_SETUP, FILE_BYTES, NOT_WRITTEN, SETUP_BYTES, STEPS, STEP_BYTES};
use crate::runfile::{distance, read_setup, read_step};
use crate::setup::Setup;
use crate::step_record::Step;
use crate::unchecked_writer::write;
use crate::workload;

/// Returns the file, for an output of `room` bytes, or the refusal.
pub fn write_checked(note: &[u8], setup: &Setup, steps: &[Step], room: usize) -> Result<Vec<u8>, u8> {
    setup.check()?;
    let len = note.len() + distance(steps.len());
    let fits = steps.len() <= STEPS && len <= FILE_BYTES && len <= room;
    if !fits || steps.iter().any(|step| *step != step.used_fields()) {
        return Err(NOT_WRITTEN);
    }
    Ok(write(note, setup, steps))
}

/// Does the same with the setup and steps as bytes of a run file, which is how
/// a caller in C lends them.
pub fn written(note: &[u8], setup: &[u8], records: &[u8], room: usize) -> Result<Vec<u8>, u8> {
    let setup = lent_setup(setup)?;
    let (records, []) = records.as_chunks::<STEP_BYTES>() else {
        return Err(NOT_WRITTEN);
    };
    let steps: Vec<Step> = records.iter().map(read_step).collect();
    write_checked(note, &setup, &steps, room)
}

/// Returns the file of a workload, with the setup lent in the same way.
pub fn workload_file(seed: u32, note: &[u8], setup: &[u8], count: u32, room: usize) -> Result<Vec<u8>, u8> {
    let setup = lent_setup(setup)?;
    let steps = workload::steps(seed, &setup, count as usize)?;
    write_checked(note, &setup, &steps, room)
}

/// Reads a lent setup. Bytes of another length, or with a fourth byte other
/// than 0, are not a setup.
fn lent_setup(bytes: &[u8]) -> Result<Setup, u8> {
    if bytes.len() != SETUP_BYTES {
        return Err(BAD_SETUP);
    }
    read_setup(bytes).map_err(|_| BAD_SETUP)
}
