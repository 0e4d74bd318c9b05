//! One stored file of each format that there has been, and what becomes of it
//! today. A landing that changes a format changes what is expected here, and
//! no stored file.

mod common;

use std::fs;

use common::{example, example_path, run_program, Ended};
use gevtsomi::{decode, encode, list, Kind, Message, FRAME_BYTES, LISTING_BYTES};

const RUNTEXT: &str = env!("CARGO_BIN_EXE_runtext");

fn stored(name: &str) -> Vec<u8> {
    example(&format!("formats/{name}"))
}

/// Has `runtext` encode or decode a stored file.
fn taken(form: &str, name: &str) -> Ended {
    run_program(RUNTEXT, &[form], &stored(name))
}

/// What a text without a delay is told, after the number of a line.
const ADD_THE_DELAY: &str =
    "found no line `delay D` after it, expected one: add `delay 1` (1 to 65535 ticks)\n";

/// The gate holds `roadrun` to the same listing.
#[test]
fn the_run_file_with_a_delay_is_read() {
    let mut lines = vec![0; LISTING_BYTES];
    let len = list(&stored("run-file-with-delay.run"), &mut lines).expect("a run file");
    assert_eq!(lines[..len], stored("run-file-with-delay.listing"));
    let text = taken("decode", "run-file-with-delay.run");
    assert_eq!((text.status, text.errors.as_str()), (0, ""));
    let back = run_program(RUNTEXT, &["encode"], &text.output);
    assert_eq!(back.output, stored("run-file-with-delay.run"));
}

/// It has no delay. The library's refusal is the listing's.
#[test]
fn the_run_file_of_01_is_refused() {
    let mut lines = vec![0; LISTING_BYTES];
    let refused = list(&stored("run-file-of-01.run"), &mut lines).expect_err("a refusal");
    let listing = format!("step answer value\n0 4 {}\n", refused.number);
    assert_eq!(listing.as_bytes(), stored("run-file-of-01.listing"));
    let ended = taken("decode", "run-file-of-01.run");
    assert_eq!((ended.status, ended.output.len()), (1, 0));
    assert_eq!(
        ended.errors,
        "run file refused (9): setup, delay is 0: a file from before delayed invalidations; `runtext upgrade --delay D OLD \
         -o NEW` rewrites it\n"
    );
}

/// The result is the file of the same run today.
#[test]
fn the_run_file_of_01_can_be_rewritten() {
    let new = run_program(RUNTEXT, &["upgrade", "--delay", "1"], &stored("run-file-of-01.run"));
    assert_eq!((new.status, new.output), (0, example("4-client-switched-off.run")));
}

#[test]
fn the_frame_of_01_is_read() {
    let kind = Kind::Grant {
        object: 5,
        number: 7,
        volume_expiry: 110,
        epoch: 1,
        version: 3,
        object_expiry: 400,
        value: Some(1_234_567_890_123),
    };
    let (message, frame) = (Message { client: 2, kind }, stored("frame-of-01.frame"));
    assert_eq!(decode(&frame), Ok(message));
    let mut back = [0; FRAME_BYTES];
    assert_eq!((encode(&message, &mut back), &back[..]), (Ok(()), &frame[..]));
}

#[test]
fn the_frame_of_a_batch_is_read() {
    // Objects 0, 5 and 27.
    let kind = Kind::Batch { volume: 3, number: 7, epoch: 4, objects: 1 | 1 << 5 | 1 << 27 };
    let (message, frame) = (Message { client: 2, kind }, stored("frame-of-batch.frame"));
    assert_eq!(decode(&frame), Ok(message));
    let mut back = [0; FRAME_BYTES];
    assert_eq!((encode(&message, &mut back), &back[..]), (Ok(()), &frame[..]));
}

#[test]
fn the_text_with_a_delay_is_read() {
    let file = taken("encode", "text-with-delay.runtext");
    assert_eq!((file.status, file.errors.as_str()), (0, "23 steps, none refused\n"));
    assert_eq!(file.output, stored("run-file-with-delay.run"));
    let checked = taken("check", "text-with-delay.runtext");
    assert_eq!(checked.output, b"standard input: all 8 expectations hold\n");
}

/// Each is told the line to add, and the line that it belongs after.
#[test]
fn texts_without_a_delay_are_told_the_line() {
    for (name, line) in
        [("text-of-exact-steps.runtext", 3), ("text-with-names.runtext", 3), ("text-with-ticks.runtext", 6)]
    {
        let ended = taken("encode", name);
        assert_eq!((ended.status, ended.output.len()), (1, 0), "{name}");
        assert_eq!(ended.errors, format!("line {line}: {ADD_THE_DELAY}"), "{name}");
    }
}

/// Returns a stored text with the line that it is told to add.
fn with_the_line(name: &str) -> Vec<u8> {
    let text = String::from_utf8(stored(name)).expect("text");
    text.replace("timeout 3\n", "timeout 3\ndelay 1\n").into_bytes()
}

/// With that line, the first two are the same run as today's example.
#[test]
fn texts_with_the_line_are_read() {
    for name in ["text-of-exact-steps.runtext", "text-with-names.runtext"] {
        let file = run_program(RUNTEXT, &["encode"], &with_the_line(name));
        assert_eq!((file.status, file.errors.as_str()), (0, "21 steps, none refused\n"), "{name}");
        assert_eq!(file.output, example("4-client-switched-off.run"), "{name}");
    }
    // Its line 23, now 24, could never be met.
    let file = run_program(RUNTEXT, &["encode"], &with_the_line("text-with-ticks.runtext"));
    assert_eq!((file.status, file.output.len()), (1, 0));
    assert_eq!(
        file.errors,
        "line 24: found no GRANT to dash 1 under way, expected one that is: 0 ACK notice 0 version 2 from dash 0\n"
    );
}

#[test]
fn the_readme_names_each_file() {
    let readme = String::from_utf8(stored("README.md")).expect("text");
    for entry in fs::read_dir(example_path("formats")).expect("the folder") {
        let name = entry.expect("a file").file_name().into_string().expect("a name");
        assert!(name == "README.md" || readme.contains(&format!("`{name}`")), "{name}");
    }
}
