//! What callers ask of a workload's file (02, A5): seeds, setups and counts,
//! aimed at the edges.

use crate::checked_writer::workload_file;
use crate::gen::rng::Rng;
use crate::gen::setups::sized;
use crate::gen::writer_calls::{bytes, rooms};
use crate::gen::{lent_setups, notes};
use crate::limits::{CLIENTS, FILE_BYTES, OBJECTS, STEPS};
use crate::runfile::distance;
use crate::unchecked_writer::setup_bytes;

#[derive(Clone, Debug, PartialEq, Eq)]
pub struct WorkloadCall {
    pub seed: u32,
    pub note: Vec<u8>,
    /// The bytes lent.
    pub setup: Vec<u8>,
    pub count: u32,
    /// The bytes of the output.
    pub room: usize,
}

impl WorkloadCall {
    /// Makes a call with exactly the room that the file takes; past the most
    /// steps, with room for some more.
    fn new(seed: u32, note: &[u8], setup: &[u8], count: u32) -> WorkloadCall {
        let room = note.len() + distance((count as usize).min(STEPS + 10));
        WorkloadCall { seed, note: note.to_vec(), setup: setup.to_vec(), count, room }
    }

    /// Returns the file to be written, or the refusal.
    pub fn file(&self) -> Result<Vec<u8>, u8> {
        workload_file(self.seed, &self.note, &self.setup, self.count, self.room)
    }
}

const SEEDS: [u32; 8] = [0, 1, 2, 0x7fff_ffff, 0x8000_0000, 0xffff_fffe, u32::MAX, 1_013_904_223];

/// In 16 bits some of them are small, and 16 times some of them is in 32.
const COUNTS: [u32; 14] = [
    0,
    1,
    2,
    3_999,
    4_000,
    4_001,
    4_002,
    0xffff,
    0x1_0000,
    0x1_0001,
    0x1000_0000,
    0x1000_0001,
    0x8000_0000,
    u32::MAX,
];

pub fn calls(seed: u64) -> Vec<WorkloadCall> {
    let mut rng = Rng::new(seed);
    let mut calls = Vec::new();
    seeds(&mut rng, &mut calls);
    client_and_object_counts(&mut rng, &mut calls);
    step_counts(&mut rng, &mut calls);
    sizes(&mut rng, &mut calls);
    bad_setups(&mut rng, &mut calls);
    calls
}

fn with_rooms(call: WorkloadCall, calls: &mut Vec<WorkloadCall>) {
    calls.extend(rooms(call.room).map(|room| WorkloadCall { room, ..call.clone() }));
}

/// Adds seeds at the edges and others, in random setups.
fn seeds(rng: &mut Rng, calls: &mut Vec<WorkloadCall>) {
    for number in 0..40 {
        let seed = SEEDS.get(number).copied().unwrap_or(rng.draw() as u32);
        let count = rng.range(0, 200);
        let (note, setup) = (notes::any(rng, count as usize), lent_setups::good(rng));
        calls.push(WorkloadCall::new(seed, b"", &setup_bytes(&sized(3, 2, 4)), 10));
        with_rooms(WorkloadCall::new(seed, &note, &setup, count), calls);
    }
}

/// Adds every pair of counts that steps are drawn by.
fn client_and_object_counts(rng: &mut Rng, calls: &mut Vec<WorkloadCall>) {
    for clients in 1..=CLIENTS as u8 {
        for objects in 1..=OBJECTS as u8 {
            let setup = setup_bytes(&sized(clients, 1, objects));
            calls.push(WorkloadCall::new(rng.draw() as u32, b"", &setup, 40));
        }
    }
}

fn step_counts(rng: &mut Rng, calls: &mut Vec<WorkloadCall>) {
    for count in COUNTS {
        with_rooms(WorkloadCall::new(rng.draw() as u32, b"load", &lent_setups::good(rng), count), calls);
    }
    for setup in lent_setups::ends() {
        with_rooms(WorkloadCall::new(rng.draw() as u32, b"ends", &setup, STEPS as u32), calls);
    }
}

/// Adds files at and past the most bytes.
fn sizes(rng: &mut Rng, calls: &mut Vec<WorkloadCall>) {
    for count in [0, 1, 3_999, 4_000] {
        for len in [FILE_BYTES - 1, FILE_BYTES, FILE_BYTES + 1] {
            let note = bytes(rng, len - distance(count as usize));
            with_rooms(WorkloadCall::new(rng.draw() as u32, &note, &lent_setups::good(rng), count), calls);
        }
    }
}

/// Adds bad setups with all else right, then with each reason for 10, and with
/// all of them.
fn bad_setups(rng: &mut Rng, calls: &mut Vec<WorkloadCall>) {
    let good = lent_setups::good(rng);
    for setup in lent_setups::bad(rng).into_iter().chain([good]) {
        let call = |note: usize, count| WorkloadCall::new(5, &vec![b'n'; note], &setup, count);
        calls.extend([call(3, 0), call(3, 2), call(3, 4_001), call(3, u32::MAX), call(FILE_BYTES, 2)]);
        calls.push(WorkloadCall { room: 0, ..call(3, 2) });
        calls.push(WorkloadCall { room: 0, ..call(FILE_BYTES, 4_001) });
    }
}
