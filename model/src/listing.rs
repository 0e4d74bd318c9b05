//! The listing that roadrun prints (01, Frame, run file and listing).

use std::io::Write;

use crate::answer::Answer;
use crate::mistakes::Mistakes;
use crate::run_steps::{run_asking, run_trusting, run_under};
use crate::runfile::{read, RunFile};

const HEADER: &[u8] = b"step answer value\n";
const REFUSED_FILE: &[u8] = b"0 4 9\n";

/// Returns the listing of a file's bytes. Asks question 1 before every step.
pub fn listing(file: &[u8]) -> Vec<u8> {
    list(file, |run, each| run_asking(&run.setup, run.steps(), each))
}

/// Returns the same without asking question 1 again.
pub fn listing_trusting(file: &[u8]) -> Vec<u8> {
    list(file, |run, each| run_trusting(&run.setup, run.steps(), each))
}

/// Returns the listing of a model that makes these mistakes.
pub fn listing_with(mistakes: Mistakes, file: &[u8]) -> Vec<u8> {
    list(file, |run, each| run_under(mistakes, &run.setup, run.steps(), each))
}

fn list(file: &[u8], run: impl FnOnce(&RunFile, &mut dyn FnMut(Answer))) -> Vec<u8> {
    let mut lines = HEADER.to_vec();
    match read(file) {
        Err(_) => lines.extend_from_slice(REFUSED_FILE),
        Ok(parts) => {
            let mut place = 0;
            run(&parts, &mut |answer| {
                place += 1;
                let (number, value) = answer.numbers();
                writeln!(lines, "{place} {number} {value}").expect("a vector takes every byte");
            });
        }
    }
    lines
}
