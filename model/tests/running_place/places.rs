//! The place before each record and after the last, and the records found.

use model::gen::damage;
use model::gen::runs::run;
use model::limits::{FILE_BYTES, STEPS};
use model::runfile::{distance, parts, read, Fault};
use model::step_record::Step;
use model::unchecked_writer::write;

use crate::bytes::{setup_place, step_count, step_in};
use crate::common;

/// Checks that the place before record k is the setup's place + 48 + 16 × k,
/// and after the last record the trailer's, also if another record is asked
/// for.
fn assert_places(file: &[u8]) {
    let run = read(file).expect("an accepted file");
    let (setup, count) = (setup_place(file), step_count(file));
    assert_eq!((run.setup_place(), run.len()), (setup, count));
    let mut steps = run.steps();
    for k in 0..count {
        assert_eq!(steps.place(), setup + 48 + 16 * k, "record {k} of {count}");
        assert_eq!(steps.len(), count - k);
        assert!(steps.next().is_some());
    }
    for _ in 0..2 {
        assert_eq!((steps.place(), steps.len()), (file.len() - 8, 0));
        assert_eq!(steps.next(), None);
    }
}

/// Returns the records counted back from the trailer, without the setup's
/// place.
fn records_from_behind(file: &[u8]) -> Vec<Step> {
    let body = &file[..file.len() - 8];
    let mut steps: Vec<Step> = body.rchunks_exact(16).take(step_count(file)).map(step_in).collect();
    steps.reverse();
    steps
}

/// Returns steps that are all different, so that none passes for its neighbour.
fn different(count: usize) -> Vec<Step> {
    (0..count).map(|k| Step::write(k as u8, !(k as u64))).collect()
}

#[test]
fn every_step_count_with_no_note_and_the_longest() {
    for count in 0..=STEPS {
        let room = FILE_BYTES - distance(count);
        let file = write(&vec![b'n'; room], &common::setup(), &different(count));
        assert_places(&file);
        assert_places(&file[room..]);
    }
}

#[test]
fn every_note_length_with_no_steps_and_a_few() {
    for count in [0, 1, 3] {
        let room = FILE_BYTES - distance(count);
        let file = write(&vec![b'n'; room], &common::setup(), &different(count));
        (0..=room).for_each(|cut| assert_places(&file[cut..]));
    }
}

#[test]
fn records_are_those_counted_back_from_the_trailer() {
    let generated = (0..1_000).map(|number| run(1, number).file());
    let damaged = damage::files(1).into_iter().filter(|file| read(file).is_ok());
    let most = write(&[b'n'; 1_480], &common::setup(), &different(STEPS));
    for file in generated.chain(damaged).chain([most]) {
        assert_places(&file);
        let run = read(&file).expect("an accepted file");
        assert_eq!(run.steps().collect::<Vec<_>>(), records_from_behind(&file));
    }
}

/// The shape check goes over the same places: it finds a field that should be 0
/// in any record, and reports the first one.
#[test]
fn an_unused_field_is_found_in_every_record() {
    let odd = |place| Step { place, ..Step::clock(0) };
    for first in 0..12 {
        for second in first..12 {
            let mut steps = vec![Step::clock(0); 12];
            (steps[second], steps[first]) = (odd(2), odd(1));
            let file = write(&vec![b'n'; second], &common::setup(), &steps);
            assert_eq!(parts(&file), Err(Fault::Unused { number: first + 1, step: odd(1) }));
        }
    }
}
