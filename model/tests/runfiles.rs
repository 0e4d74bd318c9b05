//! The run file's shape: what is read back, and every refusal 9.

mod common;

use model::gen::damage;
use model::runfile::{parts, read, read_step, Fault};
use model::setup::Field;
use model::step_record::*;
use model::unchecked_writer::write;

fn steps(count: usize) -> Vec<Step> {
    (0..count).map(|place| Step::read(place as u8, (place >> 8) as u8)).collect()
}

fn accepted(file: &[u8]) -> bool {
    match read(file) {
        Ok(_) => true,
        Err(number) => {
            assert_eq!(number, 9);
            false
        }
    }
}

#[test]
fn parts_come_back_and_the_note_is_part_of_the_file() {
    for (note_len, count) in [(0, 0), (1, 0), (0, 1), (7, 3), (1_480, 4_000), (65_480, 0)] {
        let note: Vec<u8> = (0..note_len).map(|place| place as u8).collect();
        let file = write(&note, &common::setup(), &steps(count));
        let run = read(&file).expect("a good file");
        assert_eq!((run.note, run.setup), (&note[..], common::setup()));
        assert_eq!(run.note.as_ptr(), file.as_ptr());
        assert_eq!(run.steps().collect::<Vec<_>>(), steps(count));
        assert_eq!((run.len(), run.is_empty()), (count, count == 0));
    }
}

#[test]
fn most_bytes_and_most_steps() {
    let setup = common::setup();
    assert!(accepted(&write(&vec![0; 65_536 - 56], &setup, &[])));
    assert!(!accepted(&write(&vec![0; 65_537 - 56], &setup, &[])));
    assert!(accepted(&write(&[], &setup, &steps(4_000))));
    assert!(!accepted(&write(&[], &setup, &steps(4_001))));
}

#[test]
fn every_cut_is_refused() {
    let file = write(b"note", &common::setup(), &steps(2));
    for end in 0..file.len() {
        assert!(!accepted(&file[..end]), "cut to {end}");
    }
    for begin in 0..file.len() {
        assert_eq!(accepted(&file[begin..]), begin <= 4, "without {begin}");
    }
}

#[test]
fn trailer_fields_must_agree() {
    let file = write(b"a note of some length to reach into", &common::setup(), &steps(3));
    for place in file.len() - 8..file.len() {
        for byte in (0..=255).filter(|&byte| byte != file[place]) {
            let mut file = file.clone();
            file[place] = byte;
            assert!(!accepted(&file), "byte {place} as {byte}");
        }
    }
}

#[test]
fn setup_must_be_in_range() {
    let file = write(&[], &common::setup(), &[]);
    for (place, byte) in
        [(0, 0), (0, 17), (1, 9), (2, 29), (3, 1), (4, 0), (11, 1), (12, 61), (17, 2), (20, 1)]
    {
        let mut file = file.clone();
        file[place] = byte;
        assert!(!accepted(&file), "byte {place} as {byte}");
    }
}

#[test]
fn unused_fields_of_a_known_kind_must_be_0() {
    let full = Step { kind: 0, client: 1, object: 1, place: 1, clock: 1, value: 1 };
    for kind in 0..=255 {
        let with = |step: Step| accepted(&write(&[], &common::setup(), &[Step { kind, ..step }]));
        let zero = Step::default();
        let unknown = !(1..=11).contains(&kind);
        assert!(with(zero), "kind {kind}");
        assert_eq!(with(full), unknown, "kind {kind}");
        assert_eq!(with(Step { client: 9, ..zero }), unknown || [2, 3, 9].contains(&kind));
        assert_eq!(with(Step { object: 99, ..zero }), unknown || [2, 3, 4].contains(&kind));
        assert_eq!(with(Step { place: 64, ..zero }), unknown || [5, 6, 7, 10, 11].contains(&kind));
        assert_eq!(with(Step { clock: 1 << 31, ..zero }), unknown || kind == 1);
        assert_eq!(with(Step { value: 1 << 63, ..zero }), unknown || kind == 4);
    }
}

/// What a reader might ask of a step's fields instead. The first three are about
/// saves and returns (02, A7).
const WRONG: [(&str, fn(&Step) -> bool); 5] = [
    ("nothing of a save or a return", |step| is_named(step) || has_right_fields(step)),
    ("that a name exists", |step| has_right_fields(step) && !(is_named(step) && step.place > 3)),
    ("that a name is 0", |step| has_right_fields(step) && !(is_named(step) && step.place > 0)),
    ("nothing", |_| true),
    ("that an unknown kind has fields of 0", |step| {
        has_right_fields(step) && ((1..=11).contains(&step.kind) || *step == of_kind(step.kind))
    }),
];

fn is_named(step: &Step) -> bool {
    step.kind == SAVE || step.kind == RETURN
}

fn has_right_fields(step: &Step) -> bool {
    *step == step.used_fields()
}

fn of_kind(kind: u8) -> Step {
    Step { kind, ..Step::default() }
}

/// Returns the steps of a file of which only they may be wrong.
fn steps_of(file: &[u8]) -> Option<Vec<Step>> {
    match parts(file) {
        Ok(run) => Some(run.steps().collect()),
        Err(Fault::Unused { .. }) => {
            let (body, trailer) = file.split_at(file.len() - 8);
            let count = usize::from(u16::from_le_bytes([trailer[0], trailer[1]]));
            let (records, _) = body[body.len() - 16 * count..].as_chunks();
            Some(records.iter().map(read_step).collect())
        }
        Err(_) => None,
    }
}

#[test]
fn the_damaged_files_find_every_mistake_about_fields() {
    let files = damage::files(1);
    for (name, accepts) in WRONG {
        let mut shaped = files.iter().filter_map(|file| Some((accepted(file), steps_of(file)?)));
        assert!(shaped.any(|(right, steps)| steps.iter().all(accepts) != right), "{name}");
    }
    for (right, steps) in files.iter().filter_map(|file| Some((accepted(file), steps_of(file)?))) {
        assert_eq!(steps.iter().all(has_right_fields), right);
    }
}

/// Each file has one thing wrong, and that is the reason given.
#[test]
fn the_reason_is_the_first_thing_wrong() {
    let file = write(b"a note", &common::setup(), &steps(2));
    let fault = |change: &dyn Fn(&mut Vec<u8>)| {
        let mut file = file.clone();
        change(&mut file);
        parts(&file).unwrap_err()
    };
    let end = file.len();
    assert_eq!(fault(&|file| file.resize(65_537, 0)), Fault::TooLong(65_537));
    assert_eq!(fault(&|file| file.truncate(55)), Fault::TooShort(55));
    assert_eq!(fault(&|file| file[end - 6] = 1), Fault::Count(65_538));
    assert_eq!(fault(&|file| file[end - 4] += 1), Fault::Distance { count: 2, found: 89 });
    assert_eq!(fault(&|file| drop(file.drain(..7))), Fault::Missing { count: 2, len: 87 });
    assert_eq!(fault(&|file| file[6 + 3] = 5), Fault::Spare(5));
    let unused = Step { client: 1, ..Step::clock(0) };
    let odd = write(b"", &common::setup(), &[Step::clock(3), unused]);
    assert_eq!(parts(&odd).unwrap_err(), Fault::Unused { number: 2, step: unused });
}

#[test]
fn the_field_out_of_range_is_told_with_its_range() {
    let file = write(b"", &common::setup(), &[]);
    for (place, byte, field, range) in [
        (0, 17, Field::Clients, (17, 1, 16)),
        (1, 0, Field::Volumes, (0, 1, 8)),
        (2, 29, Field::Objects, (29, 1, 28)),
        (5, 16, Field::VolumeLease, (4_106, 1, 3_600)),
        (11, 1, Field::ObjectLease, (16_777_316, 1, 1_000_000)),
        (12, 61, Field::Timeout, (61, 1, 60)),
        (44, 0, Field::Delay, (0, 1, 65_535)),
        (46, 1, Field::Delay, (65_541, 1, 65_535)),
        (17, 2, Field::VolumeOf(1), (2, 0, 1)),
        (20, 1, Field::VolumeOf(4), (1, 0, 0)),
    ] {
        let mut file = file.clone();
        file[place] = byte;
        let Err(Fault::Setup(out)) = parts(&file) else {
            panic!("byte {place} as {byte}");
        };
        assert_eq!((out.field, (out.found, out.least, out.most)), (field, range));
    }
}
