//! Run files from before delayed invalidations, rewritten with a delay.

mod common;

use std::fs;

use common::{example, run_program, Ended};
use model::gen::runs::Run;
use model::limits::OBJECTS;
use model::setup::Setup;
use model::step_record::Step;
use model::unchecked_writer::write;
use tools::text::from_file;

const RUNTEXT: &str = env!("CARGO_BIN_EXE_runtext");

/// A setup from before delayed invalidations.
const OLD: Setup = Setup {
    clients: 2,
    volumes: 2,
    objects: 28,
    volume_lease: 10,
    object_lease: 100,
    timeout: 3,
    delay: 0,
    volume_of: [1; OBJECTS],
};

fn upgrade(delay: &str, file: &[u8]) -> Ended {
    run_program(RUNTEXT, &["upgrade", "--delay", delay], file)
}

/// Returns what is told about a file that cannot be rewritten.
fn reason(file: &[u8]) -> String {
    let ended = upgrade("1", file);
    assert_eq!((ended.status, ended.output.len()), (1, 0));
    ended.errors
}

#[test]
fn only_the_delay_is_new() {
    let old = example("formats/run-file-of-01.run");
    assert!(from_file(&old).is_err());
    let place = old.len() - usize::from(old[old.len() - 4]) - 256 * usize::from(old[old.len() - 3]) + 44;
    for (delay, bytes) in [("1", [1, 0, 0, 0]), ("258", [2, 1, 0, 0]), ("65535", [255, 255, 0, 0])] {
        let ended = upgrade(delay, &old);
        assert_eq!((ended.status, ended.errors.as_str()), (0, ""));
        let mut expected = old.clone();
        expected[place..place + 4].copy_from_slice(&bytes);
        assert_eq!(ended.output, expected);
    }
}

/// Any bytes in the note, and the most objects.
#[test]
fn note_setup_and_steps_remain() {
    let note: Vec<u8> = (0..=255).rev().chain(*b"note").collect();
    let steps = [Step::ask(1, 27), Step::clock(9), Step { kind: 77, place: 5, ..Step::default() }];
    let ended = upgrade("9", &write(&note, &OLD, &steps));
    let Run { note: noted, setup, steps: taken } = from_file(&ended.output).expect("a run file");
    assert_eq!((noted, setup, &taken[..]), (note, Setup { delay: 9, ..OLD }, &steps[..]));
}

#[test]
fn it_goes_to_the_file_that_is_named() {
    let folder = std::env::temp_dir().join(format!("upgrade-{}", std::process::id()));
    fs::create_dir_all(&folder).expect("a folder");
    let [old, new] = ["old.run", "new.run"].map(|name| folder.join(name).display().to_string());
    fs::write(&old, write(b"", &OLD, &[])).expect("a file");
    let ended = run_program(RUNTEXT, &["upgrade", "--delay", "5", &old, "-o", &new], b"");
    assert_eq!((ended.status, ended.output.len()), (0, 0));
    assert_eq!(from_file(&fs::read(&new).expect("the new file")).unwrap().setup.delay, 5);
    fs::remove_dir_all(&folder).expect("it is there");
}

#[test]
fn a_delay_out_of_range_is_a_wrong_call() {
    let old = write(b"", &OLD, &[]);
    for (delay, found) in [("0", "0"), ("65536", "65536"), ("-1", "\"-1\""), ("one", "\"one\"")] {
        let ended = upgrade(delay, &old);
        assert_eq!((ended.status, ended.output.len()), (2, 0));
        let told = format!("--delay: found {found}, expected a number from 1 to 65535");
        assert_eq!(ended.errors.lines().next(), Some(&*told));
    }
    let without = run_program(RUNTEXT, &["upgrade"], &old);
    assert_eq!(
        (without.status, without.errors.lines().next()),
        (2, Some("--delay: found nothing, expected a number from 1 to 65535"))
    );
}

#[test]
fn a_file_with_a_delay_is_left_alone() {
    let today = write(b"", &Setup { delay: 12, ..OLD }, &[]);
    assert_eq!(reason(&today), "the file has a delay already: 12\n");
    let too_long = write(b"", &Setup { delay: 65_536, ..OLD }, &[]);
    assert!(reason(&too_long).contains("ticks of the delay: found 65536, expected 1 to 65535"));
}

#[test]
fn more_than_28_objects_cannot_be_rewritten() {
    for objects in 29..=32 {
        let told = reason(&write(b"", &Setup { objects, ..OLD }, &[]));
        let expected =
            format!("the file has {objects} objects: files with 29 to 32 cannot be rewritten, since ");
        assert!(told.starts_with(&expected), "{told}");
    }
    let told = reason(&write(b"", &Setup { objects: 33, ..OLD }, &[]));
    assert_eq!(told, "run file refused (9): setup, number of objects: found 33, expected 1 to 28\n");
}

#[test]
fn what_is_no_run_file_is_told() {
    let text = example("formats/text-of-exact-steps.runtext");
    let no_run_file =
        "this is not a run file; if it is a text without a delay, add the line `delay 1` after the line \
                       with `timeout`\n";
    for other in [text, example("7-parked.runtext"), Vec::new()] {
        assert_eq!(reason(&other), no_run_file);
    }
    let old = write(b"", &OLD, &[Step::clock(1)]);
    assert!(reason(&old[1..]).starts_with("run file refused (9): trailer: found 1 steps, "));
    let unused = write(b"", &OLD, &[Step { value: 3, ..Step::clock(1) }]);
    assert_eq!(
        reason(&unused),
        "run file refused (9): step 1, value: found 3, expected 0, as `clock 1` has none\n"
    );
    let misplaced = write(b"", &Setup { volume_of: [2; OBJECTS], ..OLD }, &[]);
    assert!(reason(&misplaced).ends_with("setup, volume of object 0: found 2, expected 0 to 1\n"));
}
