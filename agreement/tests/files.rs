//! Compares run files with the model's in one process: the same bytes and
//! refusals, from parts that callers lend and from workloads.

use gevtsomi::{list, workload, write, Refused, LISTING_BYTES};
use model::checked_writer::workload_file;
use model::gen::{workload_calls, writer_calls};
use model::limits::{BAD_SETUP, NOT_WRITTEN};
use model::listing::listing;

const SEEDS: std::ops::Range<u64> = 1..41;

/// The number of calls answered with 0, 7 and 10.
#[derive(Default)]
struct Answered {
    done: usize,
    bad_setup: usize,
    not_written: usize,
}

impl Answered {
    fn count(&mut self, file: &Result<Vec<u8>, u8>) {
        *match file {
            Ok(_) => &mut self.done,
            Err(BAD_SETUP) => &mut self.bad_setup,
            Err(NOT_WRITTEN) => &mut self.not_written,
            Err(other) => panic!("{other} is no refusal of these calls"),
        } += 1;
    }

    /// Returns whether each answer came often. A comparison that never meets
    /// one of them is worth little.
    fn all(&self) -> bool {
        [self.done, self.bad_setup, self.not_written].iter().all(|&count| count > 500)
    }
}

/// Returns whether a call answers like the model and leaves, in an output of
/// `room` bytes, the file at the start, if there is one, and all else as it
/// was.
fn leaves(
    room: usize,
    file: &Result<Vec<u8>, u8>,
    call: impl FnOnce(&mut [u8]) -> Result<usize, Refused>,
) -> bool {
    let before: Vec<u8> = (0..room).map(|place| (place % 251) as u8).collect();
    let (mut output, mut expected) = (before.clone(), before);
    if let Ok(file) = file {
        expected[..file.len()].copy_from_slice(file);
    }
    let len = file.as_ref().map(Vec::len);
    call(&mut output) == len.map_err(|&number| Refused { number }) && output == expected
}

#[test]
fn files_of_parts_are_the_models() {
    let mut answered = Answered::default();
    for seed in SEEDS {
        for (place, call) in writer_calls::calls(seed).iter().enumerate() {
            let file = call.file();
            answered.count(&file);
            let written = |output: &mut [u8]| write(&call.note, &call.setup, &call.records, output);
            assert!(leaves(call.room, &file, written), "seed {seed}, call {place}");
        }
    }
    assert!(answered.all());
}

/// The library also lists each file as the model does.
#[test]
fn files_of_workloads_are_the_models() {
    let mut answered = Answered::default();
    let mut output = vec![0; LISTING_BYTES];
    for seed in SEEDS {
        for (place, call) in workload_calls::calls(seed).iter().enumerate() {
            let file = call.file();
            answered.count(&file);
            let drawn = |output: &mut [u8]| workload(call.seed, &call.note, &call.setup, call.count, output);
            assert!(leaves(call.room, &file, drawn), "seed {seed}, call {place}");
            if let Ok(file) = file {
                let len = list(&file, &mut output).expect("an accepted file");
                assert!(output[..len] == listing(&file), "seed {seed}, call {place}");
            }
        }
    }
    assert!(answered.all());
}

/// The listing beside the library's C example is checked against the model
/// alone.
#[test]
fn the_examples_listing_is_the_models() {
    let mut setup = [0; 48];
    setup[..13].copy_from_slice(&[3, 2, 4, 0, 10, 0, 0, 0, 100, 0, 0, 0, 3]);
    setup[18..20].copy_from_slice(&[1, 1]);
    setup[44] = 1;
    let file = workload_file(1, &[], &setup, 20, 56 + 20 * 16).expect("a file");
    assert_eq!(listing(&file), include_bytes!("../../library/examples/workload.txt"));
}
