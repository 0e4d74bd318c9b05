//! A run file's numbers, read without the model's reader.

use model::step_record::Step;

fn number(bytes: &[u8]) -> u64 {
    bytes.iter().rev().fold(0, |number, &byte| number << 8 | u64::from(byte))
}

/// Returns the step count that the trailer gives.
pub fn step_count(file: &[u8]) -> usize {
    number(&file[file.len() - 8..file.len() - 4]) as usize
}

/// Returns where the setup begins, by the trailer's distance.
pub fn setup_place(file: &[u8]) -> usize {
    file.len() - number(&file[file.len() - 4..]) as usize
}

pub fn step_in(record: &[u8]) -> Step {
    Step {
        kind: record[0],
        client: record[1],
        object: record[2],
        place: record[3],
        clock: number(&record[4..8]) as u32,
        value: number(&record[8..]),
    }
}
