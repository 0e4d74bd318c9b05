//! Compares whole runs with the model's in one process: the same listings.

use gevtsomi::{list, Refused, LISTING_BYTES};
use model::examples;
use model::gen::{damage, runs};
use model::listing::{listing, listing_with};
use model::mistakes::Mistakes;
use model::runfile::read;

const SEEDS: [u64; 2] = [1, 2];
const RUNS: usize = 1_000;

/// Returns the listing that the library writes. Checks that it writes nothing
/// past it.
fn listed(file: &[u8]) -> Vec<u8> {
    let mut output = vec![0xaa; LISTING_BYTES + 16];
    let len = list(file, &mut output).expect("room for any listing");
    assert!(output[len..].iter().all(|&byte| byte == 0xaa), "bytes past the listing stay");
    output.truncate(len);
    output
}

#[test]
fn examples_are_the_models() {
    for example in examples::all() {
        let file = example.run.file();
        assert_eq!(listed(&file), listing(&file), "{}", example.name);
    }
}

/// The library's package has a copy of one example, so that it can be tested
/// without the model.
#[test]
fn the_librarys_copy_is_the_document() {
    let document = &examples::all()[0];
    let file = document.run.file();
    assert_eq!(document.name, "0-document");
    assert_eq!(include_bytes!("../../library/tests/data/document.run")[..], file);
    assert_eq!(include_bytes!("../../library/tests/data/document.listing")[..], listing(&file));
}

/// Many of these runs have a parked client at a write, so the rule before 02's
/// A6 would list them otherwise; and many return to a saved state, so a return
/// that restores no clock would.
#[test]
fn generated_runs_are_the_models() {
    let (mut parked, mut returned) = (0, 0);
    let rule_before_a6 = Mistakes::named("waits_for_parked");
    let clock_kept = Mistakes::named("return_keeps_clock");
    for seed in SEEDS {
        for number in 0..RUNS {
            let file = runs::run(seed, number).file();
            let lines = listing(&file);
            assert!(listed(&file) == lines, "seed {seed}, run {number}");
            parked += usize::from(listing_with(rule_before_a6, &file) != lines);
            returned += usize::from(listing_with(clock_kept, &file) != lines);
        }
    }
    assert!(parked > 400, "{parked}");
    assert!(returned > 200, "{returned}");
}

/// Refusals are the model's, even where the output has no room for a listing.
#[test]
fn damaged_files_are_refused_where_the_model_refuses_them() {
    let mut refused = 0;
    for seed in SEEDS {
        for (number, file) in damage::files(seed).iter().enumerate() {
            let Err(refusal) = read(file) else {
                assert!(listed(file) == listing(file), "seed {seed}, file {number}");
                continue;
            };
            refused += 1;
            for room in [0, 18, LISTING_BYTES] {
                let mut output = vec![0xaa; room];
                assert_eq!(list(file, &mut output), Err(Refused { number: refusal }));
                assert!(output.iter().all(|&byte| byte == 0xaa), "seed {seed}, file {number}");
            }
        }
    }
    assert!(refused > 0);
}

/// Lists a run with the longest lines possible: reads that show 20 digits.
#[test]
fn the_longest_listing_fits() {
    use model::gen::setups::sized;
    use model::step_record::Step;
    use model::unchecked_writer::write;

    let mut steps = vec![Step::write(0, u64::MAX)];
    for _ in 0..2 {
        steps.extend([Step::ask(0, 0), Step::deliver(0), Step::deliver(0)]);
        steps.push(Step::deliver(0));
    }
    steps.resize(4_000, Step::read(0, 0));
    let file = write(&[], &sized(1, 1, 1), &steps);
    let lines = listed(&file);
    assert!(lines == listing(&file));
    assert!(lines.ends_with(b"4000 1 18446744073709551615\n"));
    assert!(lines.len() <= LISTING_BYTES);
}
