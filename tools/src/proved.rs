//! Runs executed by the proved library.

use gevtsomi::{list, Why, LISTING_BYTES};
use model::gen::runs::Run;

use crate::listed::{line, Listed};
use crate::text::to_file;

/// Returns the library's listing of a run.
pub fn listing(run: &Run) -> Vec<u8> {
    listing_of(&to_file(run))
}

/// Returns the answer to each step.
pub fn answers(run: &Run) -> Vec<Listed> {
    answers_of(&to_file(run))
}

/// Returns why the run's last step was answered "ask first", if it is a read
/// answered so.
pub fn why(run: &Run) -> Option<Why> {
    let last = run.steps.len() as u32;
    gevtsomi::why(&to_file(run), last).expect("a run file")
}

/// Returns the listing of a file that the library wrote, which it never
/// refuses.
fn listing_of(file: &[u8]) -> Vec<u8> {
    let mut lines = vec![0; LISTING_BYTES];
    let len = list(file, &mut lines).expect("a run file, and room for any listing");
    lines.truncate(len);
    lines
}

pub fn answers_of(file: &[u8]) -> Vec<Listed> {
    let lines = String::from_utf8(listing_of(file)).expect("a listing is text");
    let answer = |text| line(text).expect("a line of a listing").1;
    lines.lines().skip(1).map(answer).collect()
}
