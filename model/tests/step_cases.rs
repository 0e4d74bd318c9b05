//! The program `test_step_cases` prints what the model answers and leaves for
//! the same cases, and the cases would show each mistake.

use std::fs;
use std::path::Path;

use model::cases::{lines, lines_under};
use model::mistakes::Mistakes;

fn stored(name: &str) -> String {
    let folder = Path::new(env!("CARGO_MANIFEST_DIR")).join("../crates/test_step_cases");
    fs::read_to_string(folder.join(name)).unwrap_or_else(|error| panic!("{name}: {error}"))
}

#[test]
fn stored_lines_are_the_models() {
    assert_eq!(stored("stdout"), lines(&stored("stdin")));
}

#[test]
fn every_mistake_changes_the_lines() {
    let text = stored("stdin");
    let honest = lines(&text);
    let missed = Mistakes::EACH.iter().filter(|(_, mistakes)| lines_under(*mistakes, &text) == honest);
    let missed: Vec<_> = missed.map(|(name, _)| name).collect();
    assert!(missed.is_empty(), "not found: {missed:?}");
}

/// Returns whether a row in use is no message: the first, the last or another
/// one.
fn has_wrong_row(case: u32) -> bool {
    (1501..=1536).contains(&case) || (1601..=1653).contains(&case)
}

/// Returns whether such a row is past the list's length.
fn has_wrong_free_row(case: u32) -> bool {
    (1541..=1556).contains(&case) || (1654..=1657).contains(&case)
}

#[test]
fn a_row_that_is_no_message_is_unsound_where_it_is_in_use() {
    let (mut case, mut refused, mut free) = (0, 0, 0);
    for line in stored("stdout").lines() {
        case = line.split(' ').next().and_then(|word| word.parse().ok()).unwrap_or(case);
        let unsound = format!("{case} 4 1");
        if has_wrong_row(case) {
            assert_eq!(line, unsound, "nothing else is answered, and nothing changed");
            refused += 1;
        }
        if has_wrong_free_row(case) {
            assert_ne!(line, unsound);
            free += 1;
        }
    }
    assert!(refused > 150 && free > 50, "{refused} {free}");
}
