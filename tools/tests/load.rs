//! Run files of workloads, made from a setup as text.

mod common;

use common::{run_program, Ended};
use model::checked_writer::workload_file;
use model::gen::workload_calls::calls;
use model::limits::{FILE_BYTES, SETUP_BYTES};
use model::listing::listing;
use model::runfile::read_setup;
use tools::text::{self, from_file, parse};

const RUNTEXT: &str = env!("CARGO_BIN_EXE_runtext");

const TEXT: &str = "\
note \"the long ride\"
clients 3 volumes 2 objects 4
volume lease 10 object lease 100 timeout 3
delay 1
volume 0 objects 0 1
volume 1 objects 2 3
";

fn load(words: &[&str], text: &str) -> Ended {
    run_program(RUNTEXT, &[&["load"], words].concat(), text.as_bytes())
}

/// Except for the note, this is the file of the library's example in C.
#[test]
fn the_file_has_note_setup_and_the_steps_of_the_seed() {
    let ended = load(&["--seed", "1", "--steps", "20"], TEXT);
    let told = "20 steps, 7 refused: 7 with 3 (no such client, object or place)\n";
    assert_eq!((ended.status, ended.errors.as_str()), (0, told));
    assert_eq!(listing(&ended.output), include_bytes!("../../library/examples/workload.txt"));
    let run = from_file(&ended.output).unwrap();
    let parts = parse(TEXT.as_bytes()).unwrap();
    assert_eq!((run.note, run.setup), (parts.note, parts.setup));
    let none = load(&["--steps", "0", "--seed", "4294967295", "-"], TEXT);
    assert_eq!((none.status, none.errors.as_str()), (0, ""));
    assert!(from_file(&none.output).unwrap().steps.is_empty());
    let most = load(&["--seed", "0", "--steps", "4000"], TEXT);
    assert!(most.errors.starts_with("4000 steps, "), "{}", most.errors);
}

/// For every call whose setup a text can have.
#[test]
fn files_and_refusals_are_the_models() {
    let (mut written, mut refused) = (0, 0);
    for call in calls(3).iter().filter(|call| call.setup.len() == SETUP_BYTES) {
        let Ok(setup) = read_setup(&call.setup) else {
            continue;
        };
        let file = text::workload_file(call.seed, &call.note, &setup, call.count);
        let model = workload_file(call.seed, &call.note, &call.setup, call.count, FILE_BYTES);
        assert_eq!(file.as_ref().map_err(|refused| refused.number), model.as_ref().map_err(|&number| number));
        *(if file.is_ok() { &mut written } else { &mut refused }) += 1;
    }
    assert!(written > 100 && refused > 10, "{written} written, {refused} refused");
}

#[test]
fn a_step_is_a_bad_line_beside_others() {
    let text =
        TEXT.replace("timeout 3", "timeout 61") + "\nclock 1\n# no step\nrestart server => done\nvolume 2\n";
    let bad = load(&["--seed", "1", "--steps", "20"], &text);
    assert_eq!((bad.status, bad.output.len()), (1, 0));
    assert_eq!(
        bad.errors,
        "line 3: found `61`, expected ticks from 1 to 60\n\
         line 8: found `clock`, expected no step: the seed gives the steps\n\
         line 10: found `restart`, expected no step: the seed gives the steps\n\
         line 11: found `2`, expected a volume from 0 to 1\n"
    );
    let unknown = load(&["--seed", "1", "--steps", "20"], &(TEXT.to_string() + "x\n"));
    assert_eq!(unknown.errors, "line 7: found `x`, expected `volume V objects O ...`\n");
    let empty = load(&["--seed", "1", "--steps", "20"], "");
    assert_eq!(empty.errors, "line 1: found no such line before, expected `clients C volumes V objects O`\n");
}

#[test]
fn what_has_no_file_is_told_with_10() {
    for count in ["4001", "4294967295"] {
        let ended = load(&["--seed", "1", "--steps", count], TEXT);
        assert_eq!((ended.status, ended.output.len()), (1, 0));
        let told = format!("workload refused (10): found {count} steps, expected at most 4000\n");
        assert_eq!(ended.errors, told);
    }
    let noted = |len: usize| TEXT.replace("the long ride", &"n".repeat(len));
    let most = load(&["--seed", "1", "--steps", "4000"], &noted(1_480));
    assert_eq!((most.status, most.output.len()), (0, 65_536));
    let more = load(&["--seed", "1", "--steps", "4000"], &noted(1_481));
    assert_eq!((more.status, more.output.len()), (1, 0));
    assert_eq!(
        more.errors,
        "workload refused (10): found a note of 1481 bytes, expected at most 1480 with 4000 steps\n"
    );
}

#[test]
fn wrong_calls() {
    let number = "a number from 0 to 4294967295";
    for (words, told) in [
        (&["--steps", "1"][..], "--seed: found nothing, expected "),
        (&["--seed", "1"], "--steps: found nothing, expected "),
        (&["--seed", "1", "--steps"], "--steps: found nothing after it, expected "),
        (&["--seed", "4294967296", "--steps", "1"], "--seed: found \"4294967296\", expected "),
        (&["--seed", "-1", "--steps", "1"], "--seed: found \"-1\", expected "),
        (&["--seed", "+1", "--steps", "1"], "--seed: found \"+1\", expected "),
        (&["--seed", "", "--steps", "1"], "--seed: found \"\", expected "),
        (&["--seed", "0x1", "--steps", "1"], "--seed: found \"0x1\", expected "),
        (&["--seed", "1", "--steps", "4294967296"], "--steps: found \"4294967296\", expected "),
    ] {
        let wrong = load(words, TEXT);
        assert_eq!((wrong.status, wrong.output.len()), (2, 0), "{words:?}");
        assert_eq!(wrong.errors.lines().next(), Some(&*format!("{told}{number}")));
    }
    let twice = load(&["--seed", "1", "--steps", "1", "--seed", "2"], TEXT);
    assert_eq!((twice.status, twice.errors.lines().next()), (2, Some("--seed: found twice, expected once")));
}
