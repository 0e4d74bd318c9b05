//! Measures the time to read a file and to write one, and the stack that
//! writing takes.

use std::io;

use gevtsomi::FILE_BYTES;
use model::checked_writer::{workload_file, written};
use model::limits::{SETUP_BYTES, STEPS, TRAILER_BYTES};
use model::runfile::read;

use crate::files::{load_file, refused_at_its_end, runs, SEED};
use crate::memory;
use crate::timing::{medians, Effort};

pub fn reading(effort: Effort) {
    let file = refused_at_its_end(&runs()[0].file);
    assert_eq!(proved_refusal(&file), model_refusal(&file));
    println!("a file of {} bytes and {STEPS} steps read to its end, then refused", file.len());
    print(&medians(effort, &file, &[&proved_refusal, &model_refusal]));
}

/// Returns the library's refusal. A refused file needs no output.
fn proved_refusal(file: &[u8]) -> usize {
    gevtsomi::list(file, &mut []).expect_err("no run file").number.into()
}

fn model_refusal(file: &[u8]) -> usize {
    read(file).expect_err("no run file").into()
}

/// Times writing the workload's file from its seed, and the same file from its
/// step records.
pub fn writing(effort: Effort) {
    let file = load_file();
    let (setup, records) = parts(&file);
    println!("a workload's file of {} bytes and {STEPS} steps written from its seed", file.len());
    let by_library = |setup: &[u8]| from_seed(setup, &mut [0; FILE_BYTES]);
    let by_model = |setup: &[u8]| model_from_seed(setup).len();
    assert!(model_from_seed(setup) == file);
    print(&medians(effort, setup, &[&by_library, &by_model]));
    println!("the same file written from its steps");
    let by_library = |records: &[u8]| from_steps(setup, records, &mut [0; FILE_BYTES]);
    let by_model = |records: &[u8]| model_from_steps(setup, records).len();
    assert!(model_from_steps(setup, records) == file);
    print(&medians(effort, records, &[&by_library, &by_model]));
}

/// Returns the stack in KiB, from the seed and from the steps.
pub fn stack_of_writing() -> io::Result<[u64; 2]> {
    let file = load_file();
    let (setup, records) = parts(&file);
    let mut output = vec![0; FILE_BYTES];
    let seed = memory::stack(|| assert_eq!(from_seed(setup, &mut output), file.len()))?;
    let steps = memory::stack(|| assert_eq!(from_steps(setup, records, &mut output), file.len()))?;
    Ok([seed, steps])
}

/// Returns the setup and the step records of a file without a note.
fn parts(file: &[u8]) -> (&[u8], &[u8]) {
    file[..file.len() - TRAILER_BYTES].split_at(SETUP_BYTES)
}

fn from_seed(setup: &[u8], output: &mut [u8]) -> usize {
    gevtsomi::workload(SEED, &[], setup, STEPS as u32, output).expect("room for any file")
}

fn from_steps(setup: &[u8], records: &[u8], output: &mut [u8]) -> usize {
    gevtsomi::write(&[], setup, records, output).expect("room for any file")
}

fn model_from_seed(setup: &[u8]) -> Vec<u8> {
    workload_file(SEED, &[], setup, STEPS as u32, FILE_BYTES).expect("room for any file")
}

fn model_from_steps(setup: &[u8], records: &[u8]) -> Vec<u8> {
    written(&[], setup, records, FILE_BYTES).expect("room for any file")
}

fn print(times: &[f64]) {
    println!("  proved library {:6.1} us", times[0] / 1000.0);
    println!("  model          {:6.1} us, ratio {:.2}", times[1] / 1000.0, times[0] / times[1]);
}
