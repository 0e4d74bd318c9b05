//! Compares why reads were answered "ask first" with the model's in one process:
//! the same reason and event for every step.

use gevtsomi::Refused;
use model::examples;
use model::gen::{damage, runs};
use model::mistakes::reasons;
use model::runfile::read;
use model::why::{whys, whys_with, Why};

const SEEDS: [u64; 2] = [1, 2];
const RUNS: usize = 500;

extern "C" {
    fn gevtsomi_why(file: *const u8, file_len: usize, step: u32, reason: *mut u8, event: *mut u32) -> u8;
}

/// Returns the library's answer about a step, in numbers.
fn answered(file: &[u8], step: u32) -> Why {
    let why = gevtsomi::why(file, step).expect("a run file");
    why.map_or(Why::NONE, |why| Why { reason: why.reason as u8, event: why.event })
}

/// Checks the library's answer about every step of a run, and about some that are
/// not in it. Returns the answers.
fn compare(file: &[u8], what: &str) -> Vec<Why> {
    let expected = whys(file).expect("a run file");
    for (step, why) in (1..).zip(&expected) {
        assert_eq!(answered(file, step), *why, "{what}, step {step}");
    }
    for step in [0, expected.len() as u32 + 1, u32::MAX] {
        assert_eq!(answered(file, step), Why::NONE, "{what}, step {step}");
    }
    expected
}

#[test]
fn examples_are_the_models() {
    for example in examples::all() {
        compare(&example.run.file(), example.name);
    }
}

/// Every reason is met often; and many runs return to a saved state, so that
/// other events would decide if those left behind counted.
#[test]
fn generated_runs_are_the_models() {
    let (mut met, mut returned) = ([0; 7], 0);
    let keeps = |(name, _): &&(&str, _)| *name == "return_keeps_events";
    let (_, left_behind_counts) = reasons::EACH.iter().find(keeps).expect("a mistake's name");
    for seed in SEEDS {
        for number in 0..RUNS {
            let file = runs::run(seed, number).file();
            let found = compare(&file, &format!("seed {seed}, run {number}"));
            found.iter().for_each(|why| met[usize::from(why.reason)] += 1);
            returned += usize::from(whys_with(*left_behind_counts, &file) != Ok(found));
        }
    }
    assert!(met.iter().all(|&count| count > 1_000), "{met:?}");
    assert!(returned > 100, "{returned}");
}

/// The outputs keep what they held before if the file is refused, and are both
/// written if it is not.
#[test]
fn damaged_files_are_refused_where_the_model_refuses_them() {
    let (mut refused, mut answered) = (0, 0);
    for seed in SEEDS {
        for (number, file) in damage::files(seed).iter().enumerate() {
            for step in [0, 1, 6, u32::MAX] {
                let (mut reason, mut event) = (77, 88);
                // SAFETY: the slice is valid for its length while the call
                // lasts; `reason` and `event` are locals.
                let refusal =
                    unsafe { gevtsomi_why(file.as_ptr(), file.len(), step, &mut reason, &mut event) };
                let expected = match model::why::why(file, step) {
                    Ok(why) => (0, why.reason, why.event),
                    Err(number) => (number, 77, 88),
                };
                assert_eq!((refusal, reason, event), expected, "seed {seed}, file {number}, step {step}");
            }
            match read(file) {
                Ok(_) => answered += 1,
                Err(number) => {
                    refused += 1;
                    assert_eq!(gevtsomi::why(file, 1), Err(Refused { number }));
                }
            }
        }
    }
    assert!(refused > 500 && answered > 100, "{refused} and {answered}");
}

/// The lines beside the library's C example are checked against the model alone:
/// each begins with a read's step and ends with the event's.
#[test]
fn the_examples_lines_are_the_models() {
    let examples = examples::all();
    let example = examples.iter().find(|example| example.name == "1-one-lease-alone").expect("the example");
    let numbered = (1..).zip(whys(&example.run.file()).expect("a run file"));
    let expected: Vec<[u32; 2]> =
        numbered.filter(|(_, why)| why.reason != 0).map(|(step, why)| [step, why.event]).collect();
    let numbers = |line: &str| {
        let words = line.split(|c: char| !c.is_ascii_digit()).filter(|word| !word.is_empty());
        words.map(|word| word.parse().expect("a step")).collect::<Vec<u32>>()
    };
    let lines = include_str!("../../library/examples/why.txt").lines();
    assert_eq!(lines.map(numbers).collect::<Vec<_>>(), expected);
}
