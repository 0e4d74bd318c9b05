//! Run files: read as the model sees them, written by the proved library, which
//! is the only writer.

use gevtsomi::{workload, write, Refused, FILE_BYTES, SETUP_BYTES, STEP_BYTES};
use model::gen::runs::Run;
use model::runfile::{self, Fault};
use model::setup::Setup;
use model::step_record::Step;

/// Returns the run in a file's bytes.
pub fn from_file(file: &[u8]) -> Result<Run, Fault> {
    let parts = runfile::parts(file)?;
    Ok(Run { note: parts.note.to_vec(), setup: parts.setup, steps: parts.steps().collect() })
}

/// Returns the run file of a run. The tools make no run that has none.
pub fn to_file(run: &Run) -> Vec<u8> {
    let records: Vec<u8> = run.steps.iter().flat_map(record).collect();
    let file = written(|output| write(&run.note, &setup_bytes(&run.setup), &records, output));
    file.expect("a run in range, and room for any file")
}

/// Returns the run file of the first steps of a seed's workload, if it has one.
pub fn workload_file(seed: u32, note: &[u8], setup: &Setup, count: u32) -> Result<Vec<u8>, Refused> {
    written(|output| workload(seed, note, &setup_bytes(setup), count, output))
}

fn written(call: impl FnOnce(&mut [u8]) -> Result<usize, Refused>) -> Result<Vec<u8>, Refused> {
    let mut file = vec![0; FILE_BYTES];
    let len = call(&mut file)?;
    file.truncate(len);
    Ok(file)
}

fn setup_bytes(setup: &Setup) -> [u8; SETUP_BYTES] {
    let Setup { clients, volumes, objects, volume_lease, object_lease, timeout, delay, volume_of } = *setup;
    gevtsomi::Setup { clients, volumes, objects, volume_lease, object_lease, timeout, delay, volume_of }
        .bytes()
}

fn record(step: &Step) -> [u8; STEP_BYTES] {
    let Step { kind, client, object, place, clock, value } = *step;
    gevtsomi::Step { kind, client, object, place, clock, value }.record()
}
