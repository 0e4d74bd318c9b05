//! Takes medians of interleaved rounds.

use std::hint::black_box;
use std::time::{Duration, Instant};

use crate::subjects::Subject;

/// How much is measured. Rounds of the subjects alternate, so that other load
/// on the machine affects them alike.
#[derive(Clone, Copy)]
pub struct Effort {
    rounds: usize,
    /// The least time that a round of one subject should take.
    round: Duration,
}

/// The effort behind the numbers in docs/PERFORMANCE.md.
pub const FULL: Effort = Effort { rounds: 41, round: Duration::from_millis(20) };

/// Enough to see that everything runs.
pub const BRIEF: Effort = Effort { rounds: 3, round: Duration::from_millis(2) };

/// Returns the nanoseconds that each subject takes for the file, as the median
/// over the rounds.
pub fn medians(effort: Effort, file: &[u8], subjects: &[Subject]) -> Vec<f64> {
    let repeats: Vec<usize> = subjects.iter().map(|subject| repeats(effort, file, *subject)).collect();
    let mut times = vec![Vec::new(); subjects.len()];
    for _ in 0..effort.rounds {
        for ((subject, repeats), times) in subjects.iter().zip(&repeats).zip(&mut times) {
            times.push(round(file, *subject, *repeats).as_nanos() as f64 / *repeats as f64);
        }
    }
    times.into_iter().map(median).collect()
}

fn repeats(effort: Effort, file: &[u8], subject: Subject) -> usize {
    round(file, subject, 1);
    let once = round(file, subject, 1);
    1 + (effort.round.as_nanos() / once.as_nanos().max(1)) as usize
}

fn round(file: &[u8], subject: Subject, repeats: usize) -> Duration {
    let start = Instant::now();
    for _ in 0..repeats {
        black_box(subject(black_box(file)));
    }
    start.elapsed()
}

fn median(mut times: Vec<f64>) -> f64 {
    times.sort_by(f64::total_cmp);
    times[times.len() / 2]
}
