//! Makes run files for tests. It writes whatever it is given, in range or not,
//! so it can make refused files, too. The writer that refuses is
//! `checked_writer`.

use crate::limits::STEP_BYTES;
use crate::runfile::distance;
use crate::setup::Setup;
use crate::step_record::Step;

pub fn write(note: &[u8], setup: &Setup, steps: &[Step]) -> Vec<u8> {
    let mut file = Vec::with_capacity(note.len() + distance(steps.len()));
    file.extend_from_slice(note);
    file.extend_from_slice(&setup_bytes(setup));
    steps.iter().for_each(|step| file.extend_from_slice(&record(step)));
    file.extend_from_slice(&(steps.len() as u32).to_le_bytes());
    file.extend_from_slice(&(distance(steps.len()) as u32).to_le_bytes());
    file
}

pub fn setup_bytes(setup: &Setup) -> Vec<u8> {
    let mut bytes = vec![setup.clients, setup.volumes, setup.objects, 0];
    for ticks in [setup.volume_lease, setup.object_lease, setup.timeout] {
        bytes.extend_from_slice(&ticks.to_le_bytes());
    }
    bytes.extend_from_slice(&setup.volume_of);
    bytes.extend_from_slice(&setup.delay.to_le_bytes());
    bytes
}

pub fn record(step: &Step) -> [u8; STEP_BYTES] {
    let mut bytes = [0; STEP_BYTES];
    bytes[..4].copy_from_slice(&[step.kind, step.client, step.object, step.place]);
    bytes[4..8].copy_from_slice(&step.clock.to_le_bytes());
    bytes[8..].copy_from_slice(&step.value.to_le_bytes());
    bytes
}
