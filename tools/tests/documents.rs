//! The runs that help and READMEs show do what these say about them.

mod common;

use std::fs;
use std::path::Path;

use common::{example, run_program};
use tools::explain::listing;
use tools::text::{actions, from_file, parse, script};

const EXPLAIN: &str = env!("CARGO_BIN_EXE_explain");
const RUNTEXT: &str = env!("CARGO_BIN_EXE_runtext");

fn document(name: &str) -> String {
    fs::read_to_string(Path::new(env!("CARGO_MANIFEST_DIR")).join(name)).unwrap()
}

/// Returns the lines of help from the note on, up to the prose.
fn example_of_help() -> String {
    let help = String::from_utf8(run_program(RUNTEXT, &["--help"], b"").output).unwrap();
    let from_note = help.lines().skip_while(|line| !line.starts_with("  note"));
    let lines = from_note.take_while(|line| line.is_empty() || line.starts_with("  "));
    lines.map(|line| format!("{line}\n")).collect()
}

/// It shows every kind of step except an unknown one, which would be refused.
#[test]
fn the_example_of_help_runs() {
    let example = example_of_help();
    let checked = run_program(RUNTEXT, &["check"], example.as_bytes());
    assert_eq!(checked.output, b"standard input: all 4 expectations hold\n", "{}", checked.errors);
    assert_eq!((checked.status, checked.errors.as_str()), (0, "22 steps, none refused\n"));
    for first in actions::FIRST_WORDS.iter().filter(|first| **first != "kind") {
        assert!(example.lines().any(|line| line.trim_start().starts_with(first)), "{first}");
    }
}

/// Every line that help mentions in its prose is a line, too.
#[test]
fn the_unknown_kind_of_help_is_a_line() {
    let help = String::from_utf8(run_program(RUNTEXT, &["--help"], b"").output).unwrap();
    let line = "kind 12 client 0 object 0 place 0 clock 0 value 0";
    assert!(help.contains(line));
    assert!(script(format!("{}{line}\n", example_of_help()).as_bytes()).is_ok());
}

/// Returns the text of the five minutes in the top README.
fn first_run() -> String {
    let readme = document("../README.md");
    readme.split("<<'END'\n").nth(1).unwrap().split("END\n").next().unwrap().into()
}

/// Every name of a message and every length of a tick that help or README
/// mentions can be written like that.
#[test]
fn the_short_lines_of_documents_are_lines() {
    let help = String::from_utf8(run_program(RUNTEXT, &["--help"], b"").output).unwrap();
    let documents = help + &document("README.md");
    let quoted = documents.split('`').skip(1).step_by(2);
    let begins = |line: &&str| ["one tick", "deliver ", "lose "].iter().any(|begin| line.starts_with(begin));
    let lines: Vec<&str> = quoted.filter(begins).collect();
    assert!(lines.len() >= 4, "{lines:?}");
    let setup: String = first_run().lines().take(5).map(|line| format!("{line}\n")).collect();
    for line in lines.iter().filter(|line| !line.ends_with(" P")) {
        assert!(script(format!("{setup}{line}\n").as_bytes()).is_ok(), "{line}");
    }
}

#[test]
fn the_readmes_first_run_is_as_it_says() {
    let (readme, text) = (document("../README.md"), first_run());
    let checked = run_program(RUNTEXT, &["check"], text.as_bytes());
    let verdict = String::from_utf8(checked.output).unwrap();
    assert_eq!((checked.status, checked.errors.as_str()), (0, "22 steps, none refused\n"));
    assert!(readme.contains(&verdict.replace("standard input", "# first.runtext")), "{verdict}");
    let changed = run_program(RUNTEXT, &["check"], text.replace("shown 0", "shown 7").as_bytes());
    assert_eq!(changed.status, 1);
    let verdict = String::from_utf8(changed.output).unwrap().replace("standard input", "second.runtext");
    assert!(document("README.md").contains(&verdict), "{verdict}");
}

/// With the comment that stands there.
#[test]
fn the_failed_line_is_of_the_first_run() {
    let explained = run_program(EXPLAIN, &[], first_run().replace("shown 0", "shown 7").as_bytes());
    let explained = String::from_utf8(explained.output).unwrap();
    let readme = document("README.md");
    let block = readme
        .split("```\n")
        .skip(1)
        .step_by(2)
        .find(|block| block.contains("FAILED: ") && block.contains('#'));
    assert!(explained.contains(block.unwrap()), "{explained}");
}

/// Returns the explained listing of a run that notes an object.
fn with_a_note() -> String {
    let steps = "join client 0 object 0\nread client 0 object 0\nclock 5\nclock 10\nclock 12\nwrite object 0 value 7\n";
    let setup: String = first_run().lines().take(5).map(|line| format!("{line}\n")).collect();
    listing(&parse(format!("{setup}{steps}").as_bytes()).unwrap())
}

/// The lines that begin with a step's number are from 01's own example, except
/// for the one with a note.
#[test]
fn the_explained_lines_are_of_an_example() {
    let explained = listing(&from_file(&example("0-document.run")).unwrap());
    let help = String::from_utf8(run_program(EXPLAIN, &["--help"], b"").output).unwrap();
    let readme = document("README.md");
    let noted = readme.lines().find(|line| line.contains("whose volume lease ended"));
    assert!(with_a_note().lines().any(|line| Some(line) == noted), "{noted:?}");
    let block =
        readme.split("```\n").skip(1).step_by(2).find(|block| block.starts_with("10 (clock 0) write"));
    let of_help = help.lines().filter_map(|line| line.strip_prefix("  1"));
    let shown: Vec<String> =
        block.unwrap().lines().map(String::from).chain(of_help.map(|line| format!("1{line}"))).collect();
    assert_eq!(shown.len(), 6 + 2);
    for line in shown {
        assert!(explained.lines().any(|other| other == line), "{line}\n{explained}");
    }
}

/// The blocks of tools/README.md that begin like a text are texts.
#[test]
fn the_tools_readme_shows_right_texts() {
    let readme = document("README.md");
    let blocks = readme.split("```\n").skip(1).step_by(2);
    let texts: Vec<&str> = blocks.filter(|block| block.starts_with("note ")).collect();
    assert!(!texts.is_empty());
    for text in texts {
        let checked = run_program(RUNTEXT, &["check"], text.as_bytes());
        assert_eq!(checked.status, 0, "{}", checked.errors);
        assert!(checked.errors.ends_with(" steps, none refused\n"), "{}", checked.errors);
        assert!(String::from_utf8(checked.output).unwrap().contains("hold"));
    }
}
