//! Each reason for 10, its edge, and 7 before all of them.

use model::checked_writer::{workload_file, write_checked, written};
use model::limits::FILE_BYTES;
use model::runfile::distance;
use model::setup::Setup;
use model::step_record::Step;
use model::unchecked_writer::setup_bytes;

use crate::common;

const ROOM: usize = 2 * FILE_BYTES;

/// Returns the length of the file, or the refusal.
fn len(note: usize, steps: &[Step], room: usize) -> Result<usize, u8> {
    write_checked(&vec![b'n'; note], &common::setup(), steps, room).map(|file| file.len())
}

#[test]
fn more_than_4_000_steps() {
    assert_eq!(len(0, &vec![Step::ask(0, 0); 4_000], ROOM), Ok(64_056));
    assert_eq!(len(0, &vec![Step::ask(0, 0); 4_001], ROOM), Err(10));
}

#[test]
fn a_file_past_65_536_bytes() {
    for (count, most) in [(0, 65_480), (1, 65_464), (4_000, 1_480)] {
        let steps = vec![Step::read(0, 0); count];
        assert_eq!(len(most - 1, &steps, ROOM), Ok(65_535));
        assert_eq!(len(most, &steps, ROOM), Ok(65_536));
        assert_eq!(len(most + 1, &steps, ROOM), Err(10));
    }
}

#[test]
fn an_output_too_short() {
    let steps = [Step::read(0, 0); 3];
    for note in [0, 1, 17] {
        let need = note + 56 + 48;
        assert_eq!(len(note, &steps, need), Ok(need));
        assert_eq!(len(note, &steps, need + 1), Ok(need));
        for room in [0, 56, need - 1] {
            assert_eq!(len(note, &steps, room), Err(10));
        }
    }
}

/// In the first, a middle and the last step. What a step names need not exist,
/// and nothing is asked of an unknown kind.
#[test]
fn an_unused_field_of_a_known_kind() {
    for kind in 0..=255 {
        let zero = Step { kind, ..Step::default() };
        let known = (1..=11).contains(&kind);
        for (field, users) in [
            (Step { client: 255, ..zero }, &[2, 3, 9][..]),
            (Step { object: 255, ..zero }, &[2, 3, 4]),
            (Step { place: 255, ..zero }, &[5, 6, 7, 10, 11]),
            (Step { clock: 1 << 31, ..zero }, &[1]),
            (Step { value: 1 << 63, ..zero }, &[4]),
        ] {
            for place in [0, 2, 4] {
                let mut steps = [Step::clock(0); 5];
                steps[place] = field;
                let accepted = !known || users.contains(&kind);
                assert_eq!(len(0, &steps, ROOM), if accepted { Ok(136) } else { Err(10) }, "{field:?}");
            }
        }
    }
}

/// Everything that gives 10 at once, and the setup, too.
#[test]
fn the_setup_is_asked_about_first() {
    let good = common::setup();
    let odd = [Step { place: 1, ..Step::clock(0) }; 4_001];
    for bad in
        [Setup { volumes: 0, ..good }, Setup { clients: 17, ..good }, Setup { object_lease: 0, ..good }]
    {
        assert_eq!(write_checked(&[0; 70_000], &bad, &odd, 0), Err(7));
        assert_eq!(write_checked(&[], &bad, &[], ROOM), Err(7));
    }
    assert_eq!(write_checked(&[0; 70_000], &good, &odd, 0), Err(10));
}

/// As a caller lends them: a setup of another length is none, and neither is
/// one whose fourth byte is not 0.
#[test]
fn lent_bytes_of_another_length() {
    let setup = setup_bytes(&common::setup());
    let call = |setup: &[u8], records: &[u8]| written(b"n", setup, records, ROOM).map(|file| file.len());
    assert_eq!(call(&setup, &[0; 32]), Ok(89));
    for records in (1..32).filter(|&len| len != 16) {
        assert_eq!(call(&setup, &vec![0; records]), Err(10));
    }
    let mut spare = setup.clone();
    spare[3] = 1;
    let longer = [&setup[..], &[0]].concat();
    for bad in [&setup[..0], &setup[..47], &longer, &spare] {
        assert_eq!(call(bad, &[]), Err(7));
        assert_eq!(call(bad, &[0; 17]), Err(7));
        assert_eq!(workload_file(0, b"n", bad, u32::MAX, 0), Err(7));
    }
}

#[test]
fn a_workload_that_is_not_written() {
    let setup = setup_bytes(&common::setup());
    let call = |note: usize, count, room| workload_file(9, &vec![0; note], &setup, count, room);
    assert!(call(1_480, 4_000, FILE_BYTES).is_ok());
    assert_eq!(call(1_481, 4_000, ROOM), Err(10));
    assert_eq!(call(1_480, 4_000, FILE_BYTES - 1), Err(10));
    for count in [4_001, 1 << 16, 1 << 28, u32::MAX] {
        assert_eq!(call(0, count, ROOM), Err(10));
    }
    assert_eq!(call(0, 0, distance(0)).map(|file| file.len()), Ok(56));
    assert_eq!(call(0, 0, distance(0) - 1), Err(10));
}
