//! What is told about a refused run file.

mod common;

use common::{example, run_program};
use model::gen::damage;
use model::runfile::parts;
use model::step_record::Step;
use model::unchecked_writer::write;
use tools::refused_file::told;
use tools::text::from_file;

fn reason(file: &[u8]) -> String {
    told(&parts(file).expect_err("a refused file"))
}

#[test]
fn each_reason_in_words() {
    let file = example("4-client-switched-off.run");
    let (start, end) = (b"line 4 of the sheet".len(), file.len());
    for (place, byte, words) in [
        (end - 7, 16, "trailer: found 4117 steps, expected at most 4000"),
        (end - 4, 0, "trailer: found distance 256 back to the setup, expected 392 with 21 steps"),
        (start, 0, "setup, number of clients: found 0, expected 1 to 16"),
        (start + 1, 9, "setup, number of volumes: found 9, expected 1 to 8"),
        (start + 2, 0, "setup, number of objects: found 0, expected 1 to 28"),
        (
            start + 2,
            29,
            "setup, number of objects: found 29, expected 1 to 28; more were allowed before delayed invalidations",
        ),
        (
            start + 2,
            32,
            "setup, number of objects: found 32, expected 1 to 28; more were allowed before delayed invalidations",
        ),
        (start + 2, 33, "setup, number of objects: found 33, expected 1 to 28"),
        (start + 3, 1, "setup, byte 3: found 1, expected 0"),
        (start + 6, 1, "setup, ticks of a volume lease: found 65546, expected 1 to 3600"),
        (start + 11, 1, "setup, ticks of an object lease: found 16777316, expected 1 to 1000000"),
        (start + 12, 0, "setup, ticks of the timeout: found 0, expected 1 to 60"),
        (
            start + 44,
            0,
            "setup, delay is 0: a file from before delayed invalidations; `runtext upgrade --delay D OLD -o NEW` \
             rewrites it",
        ),
        (start + 46, 1, "setup, ticks of the delay: found 65537, expected 1 to 65535"),
        (start + 16 + 5, 1, "setup, volume of object 5: found 1, expected 0"),
        (start + 48 + 3, 2, "step 1, place: found 2, expected 0, as `ask client 0 object 0` has none"),
        (start + 48 + 16 + 1, 9, "step 2, client: found 9, expected 0, as `deliver 0` has none"),
    ] {
        let mut file = file.clone();
        file[place] = byte;
        assert_eq!(reason(&file), format!("run file refused (9): {words}"));
    }
    let two = {
        let mut setup = from_file(&file).unwrap().setup;
        (setup.volumes, setup.volume_of[0]) = (2, 7);
        setup
    };
    assert!(reason(&write(b"", &two, &[])).ends_with("setup, volume of object 0: found 7, expected 0 to 1"));
}

#[test]
fn a_save_and_a_return_have_only_a_name() {
    let setup = from_file(&example("0-document.run")).unwrap().setup;
    for (step, words) in [
        (Step { client: 1, ..Step::save(2) }, "client: found 1, expected 0, as `save 2` has none"),
        (Step { object: 1, ..Step::return_to(9) }, "object: found 1, expected 0, as `return 9` has none"),
        (Step { clock: 5, ..Step::save(0) }, "clock: found 5, expected 0, as `save 0` has none"),
        (Step { value: 7, ..Step::return_to(3) }, "value: found 7, expected 0, as `return 3` has none"),
    ] {
        let file = write(b"", &setup, &[Step::save(4), step]);
        assert_eq!(reason(&file), format!("run file refused (9): step 2, {words}"));
    }
}

#[test]
fn lengths_in_words() {
    let file = example("0-document.run");
    assert!(reason(&file[..55]).ends_with(": found 55 bytes, expected at least 56, setup and trailer"));
    assert!(reason(&[]).contains(": found 0 bytes, "));
    assert!(reason(&[&vec![0; 65_536][..], &file].concat())
        .ends_with("found 65832 bytes, expected at most 65536"));
    let missing =
        "trailer: found 15 steps, for which the file needs 296 bytes, expected at most the 295 it has";
    assert!(reason(&file[1..]).ends_with(missing), "{}", reason(&file[1..]));
}

/// Every damaged file that is refused has a reason, and the program tells it.
#[test]
fn every_refused_file_has_a_reason() {
    const RUNTEXT: &str = env!("CARGO_BIN_EXE_runtext");
    let refused: Vec<Vec<u8>> =
        (1..4).flat_map(damage::files).filter(|file| from_file(file).is_err()).collect();
    assert!(refused.len() > 150);
    for file in refused.iter().step_by(40) {
        let ended = run_program(RUNTEXT, &["decode"], file);
        assert_eq!((ended.status, ended.output.len(), ended.errors), (1, 0, reason(file) + "\n"));
    }
    let unused = write(
        b"",
        &from_file(&example("0-document.run")).unwrap().setup,
        &[Step { value: 3, ..Step::clock(1) }],
    );
    assert!(reason(&unused).ends_with("step 1, value: found 3, expected 0, as `clock 1` has none"));
}
