//! Rewrites a run file from before delayed invalidations, which has no delay.

use std::ops::RangeInclusive;

use model::limits::DELAY;
use model::runfile::{parts, Fault, RunFile};
use model::setup::{Field, OutOfRange};

use crate::refused_file::{has_too_many_objects, told};
use crate::text::{from_file, to_file};

pub const DELAYS: RangeInclusive<u32> = 1..=DELAY;

/// Where the delay is in a setup. Before, these were the volumes of objects 28
/// to 31.
const DELAY_PLACE: usize = 44;

/// Returns the file with this delay and the same note, setup and steps, written
/// by the proved library; or why it cannot be rewritten. The delay must be in
/// range.
pub fn upgraded(file: &[u8], delay: u32) -> Result<Vec<u8>, String> {
    match parts(file) {
        Ok(RunFile { setup, .. }) => Err(format!("the file has a delay already: {}", setup.delay)),
        Err(Fault::Setup(OutOfRange { field: Field::Delay, found: 0, .. })) => with_delay(file, delay),
        Err(Fault::Setup(OutOfRange { field: Field::Objects, found, .. })) if has_too_many_objects(found) => {
            Err(format!(
                "the file has {found} objects: files with 29 to 32 cannot be rewritten, since the delay takes the place of \
                 the volumes of objects 28 to 31"
            ))
        }
        Err(_) if !file.contains(&0) => Err(format!(
            "this is not a run file; if it is a text without a delay, add the line `delay {delay}` after the line with \
             `timeout`"
        )),
        Err(fault) => Err(told(&fault)),
    }
}

/// Writes a file again whose only known fault is its delay. So its trailer is
/// right, and its last four bytes tell where the setup begins.
fn with_delay(file: &[u8], delay: u32) -> Result<Vec<u8>, String> {
    let mut file = file.to_vec();
    let (_, distance) = file.split_last_chunk().expect("it has a trailer");
    let place = file.len() - u32::from_le_bytes(*distance) as usize + DELAY_PLACE;
    file[place..place + 4].copy_from_slice(&delay.to_le_bytes());
    from_file(&file).map(|run| to_file(&run)).map_err(|fault| told(&fault))
}
