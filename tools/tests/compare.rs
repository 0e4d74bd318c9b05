//! The comparison of a program with the model, for programs that are right and
//! wrong.

mod common;

use std::io;

use common::run_program;
use model::listing::{listing, listing_with};
use model::mistakes::Mistakes;
use model::runfile::read;
use tools::compare::{compare, Ended};
use tools::text::parse;

fn different(runs: usize, mut printed: impl FnMut(&[u8]) -> Vec<u8>) -> String {
    match compare(1, runs, |file| Ok(printed(file))).unwrap() {
        Ended::Different(words) => words,
        Ended::Same(words) => panic!("{words}"),
    }
}

#[test]
fn the_model_itself_is_the_same() {
    match compare(1, 1_000, |file| Ok(listing(file))).unwrap() {
        Ended::Same(words) => {
            assert!(words.starts_with("seed 1: 1000 runs, "), "{words}");
            assert!(words.ends_with(" mistakes found, 0 differences"), "{words}");
        }
        Ended::Different(words) => panic!("{words}"),
    }
    // Too few runs to find every mistake are reported, too.
    assert!(different(3, listing).starts_with("seed 1: no run finds the mistake "));
}

/// The text is of a run that has the difference reported.
#[test]
fn a_difference_is_a_text() {
    let mistakes = Mistakes::named("ends_at_latest_end");
    let words = different(1_000, |file| listing_with(mistakes, file));
    assert!(words.starts_with("seed 1, run "), "{words}");
    let (_, rest) = words.split_once(" differs; the smallest such run:\n\n").expect(&words);
    let (text, difference) = rest.split_once("\nfirst difference at line ").expect(&words);
    let run = parse(text.as_bytes()).unwrap();
    assert!(run.steps.len() <= 12, "{words}");
    let file = run.file();
    assert_ne!(listing_with(mistakes, &file), listing(&file));
    assert!(
        difference.contains("\ntheirs: ") && difference.contains(" completed 1 write\nours:   "),
        "{words}"
    );
}

/// A file that is no run file has no text: its bytes are shown, and the reason.
#[test]
fn a_difference_in_a_refused_file_is_told_with_the_reason() {
    let words = different(400, |file| match read(file) {
        Ok(_) => listing(file),
        Err(_) => b"what?\n".to_vec(),
    });
    assert!(words.starts_with("seed 1, damaged file "), "{words}");
    let first = "theirs: `what?\\n`, which is no line of step 0\nours:   `step answer value\\n`";
    assert!(
        words.contains(" differs; the smallest such file, in hex:\n\n") && words.ends_with(first),
        "{words}"
    );
    let words = different(400, |file| match read(file) {
        Ok(_) => listing(file),
        Err(_) => b"step answer value\n".to_vec(),
    });
    assert!(words.contains("theirs: the listing ends\nours:   run file refused (9): "), "{words}");
}

#[test]
fn the_program_tells_a_difference_with_1() {
    const COMPARE: &str = env!("CARGO_BIN_EXE_compare");
    let ended = run_program(COMPARE, &["true", "--runs", "1", "--seed", "3"], b"");
    assert_eq!(ended.status, 1);
    let output = String::from_utf8(ended.output).unwrap();
    assert!(
        output.starts_with("compare: seed 3, run 0 differs; the smallest such run:\n\nclients 1 "),
        "{output}"
    );
    assert!(output.ends_with("theirs: the listing ends\nours:   `step answer value\\n`\n"), "{output}");
    let nowhere = run_program(COMPARE, &["./nowhere"], b"");
    assert_eq!((nowhere.status, nowhere.output.len()), (1, 0));
    assert!(nowhere.errors.starts_with("cannot run ./nowhere: "), "{}", nowhere.errors);
    for wrong in [&[][..], &["one", "two"], &["one", "--seed", "x"]] {
        assert_eq!(run_program(COMPARE, wrong, b"").status, 2);
    }
    assert!(compare(1, 1, |_| Err(io::Error::other("no"))).is_err());
}
