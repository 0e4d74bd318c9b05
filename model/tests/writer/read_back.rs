//! Each written file is read back with the same parts, and is what the
//! unchecked writer makes.

use model::checked_writer::{workload_file, write_checked, written};
use model::gen::rng::Rng;
use model::gen::{damage, runs, setups};
use model::limits::STEPS;
use model::runfile::{distance, read};
use model::setup::Setup;
use model::step_record::Step;
use model::unchecked_writer::{record, setup_bytes};
use model::workload;

use crate::common;

fn assert_parts(file: &[u8], note: &[u8], setup: &Setup, steps: &[Step]) {
    let run = read(file).expect("an accepted file");
    assert_eq!((run.note, run.setup), (note, *setup));
    assert!(run.steps().eq(steps.iter().copied()));
    assert_eq!(file.len(), note.len() + distance(steps.len()));
}

#[test]
fn generated_runs_come_back() {
    for number in 0..1_000 {
        let run = runs::run(1, number);
        let room = run.file().len() + number % 3;
        let file = write_checked(&run.note, &run.setup, &run.steps, room).expect("room for the file");
        assert_eq!(file, run.file());
        assert_parts(&file, &run.note, &run.setup, &run.steps);
    }
}

#[test]
fn lent_bytes_give_the_same_file() {
    for number in 0..200 {
        let run = runs::run(2, number);
        let records: Vec<u8> = run.steps.iter().flat_map(record).collect();
        let lent = written(&run.note, &setup_bytes(&run.setup), &records, run.file().len());
        assert_eq!(lent, Ok(run.file()));
    }
}

#[test]
fn workloads_come_back() {
    let mut rng = Rng::new(3);
    for count in [0, 1, 2, 100, 3_999, STEPS] {
        let (seed, setup) = (rng.draw() as u32, setups::any(&mut rng));
        let (note, room) = (b"ride".as_slice(), 4 + distance(count));
        let file = workload_file(seed, note, &setup_bytes(&setup), count as u32, room).expect("room");
        assert_parts(&file, note, &setup, &workload::steps(seed, &setup, count).unwrap());
    }
}

/// Every accepted file is the one written from its parts, so no two files with
/// the same note have the same parts.
#[test]
fn no_other_file_of_the_note_has_those_parts() {
    let generated = (0..200).map(|number| runs::run(3, number).file());
    let accepted = generated.chain(damage::files(3)).chain(one_byte_changed());
    let mut count = 0;
    for file in accepted {
        if let Ok(run) = read(&file) {
            let steps: Vec<_> = run.steps().collect();
            let again = write_checked(run.note, &run.setup, &steps, file.len());
            assert!(again == Ok(file.clone()), "{file:?}");
            count += 1;
        }
    }
    println!("{count} files");
    assert!(count > 1_000);
}

/// Returns a small file with each of its bytes changed in every way.
fn one_byte_changed() -> impl Iterator<Item = Vec<u8>> {
    let unknown = Step { kind: 12, client: 1, object: 2, place: 3, clock: 4, value: 5 };
    let steps = [Step::clock(7), Step::write(2, 9), Step::save(2), unknown, Step::read(1, 3)];
    let file = write_checked(b"note", &common::setup(), &steps, 200).expect("room for the file");
    (0..file.len()).flat_map(move |place| {
        let file = file.clone();
        (0..=255).map(move |byte| {
            let mut other = file.clone();
            other[place] = byte;
            other
        })
    })
}
