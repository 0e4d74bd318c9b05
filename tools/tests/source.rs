//! From the output back to the text: each line of explain and each failure has
//! its line of the text, what is written there, its comments and what was
//! expected.

mod common;

use common::run_program;
use tools::explain::{answered, told};
use tools::listed::Listed;
use tools::scenario::{Expectation, Scenario};
use tools::text::script;

const EXPLAIN: &str = env!("CARGO_BIN_EXE_explain");
const PICTURE: &str = env!("CARGO_BIN_EXE_picture");

const TEXT: &str = "\
# A silent client.
note \"a # in a note\"   # no comment of a step
clients 2 volumes 1 objects 1
# About the leases.
volume lease 10 object lease 100 timeout 3
delay 1
volume 0 objects 0

# Both hold it:

# client 0
join  client 0   object 0   # first
write object 0 value 7=>done
#
# Lost on the way.
lose\tINVALIDATE to client 0
read client 0 object 0 => shown 7 # not yet
clock 11 =>completed 1
ask client 1 object 0
# The end.
";

fn scenario(text: &str) -> Scenario {
    script(text.as_bytes()).unwrap().into()
}

#[test]
fn explain_keeps_lines_words_and_comments() {
    let expected = "\
# A silent client.
# About the leases.
# Both hold it:
# client 0
1 (line 12, clock 0) join client 0 object 0, ask client 0 object 0: done: sends RENEW 1 from client 0 (object 0, \
epoch 0, version 0) at place 0 # first
2 (line 12, clock 0) join client 0 object 0, deliver 0: done: RENEW 1";
    let explained = told(&scenario(TEXT));
    assert!(explained.starts_with(expected), "{explained}");
    let expected = "\
8 (line 13, clock 0) write object 0 value 7: done, as expected: stands, latest end 10 by the volume lease of client \
0; waits for client 0; sends INVALIDATE object 0 version 2 to client 0 at place 0
#
# Lost on the way.
9 (line 16, clock 0) lose INVALIDATE to client 0 at place 0: done: INVALIDATE object 0 version 2 to client 0 (epoch \
1) is lost
10 (line 17, clock 0) read client 0 object 0: FAILED: expected shown 7, found shown 0: version 1; volume lease to \
10; object lease to 100 # not yet
11 (line 18, clock 11) clock 11: completed 1 write, as expected: object 0 becomes 7, version 2, latest end 10 \
passed, client 0 marked unreachable
12 (line 19, clock 11) ask client 1 object 0: done: sends RENEW 1 from client 1 (object 0, epoch 0, version 0) at \
place 0
# The end.
still under way: 0 RENEW 1 from client 1 object 0
";
    assert!(explained.ends_with(expected), "{explained}");
}

/// The steps of a join come from one line, and every step from some line.
#[test]
fn each_step_knows_its_line() {
    let scenario = scenario(TEXT);
    let numbers: Vec<usize> = (1..=12).map(|step| scenario.line(step).unwrap().number).collect();
    assert_eq!(numbers, [12, 12, 12, 12, 12, 12, 12, 13, 16, 17, 18, 19]);
    assert_eq!((scenario.together(1), scenario.together(7), scenario.together(9)), (1..=7, 1..=7, 9..=9));
    assert_eq!((1..=12).filter(|&step| scenario.joins(step)).collect::<Vec<_>>(), [1, 2, 3, 4, 5, 6, 7]);
    let expected: Vec<(usize, bool)> =
        scenario.expectations().map(|(step, expectation)| (step, expectation.holds())).collect();
    assert_eq!(expected, [(8, true), (10, false), (11, true)]);
    let source = scenario.source.unwrap();
    assert_eq!(source.lines[2].written, "lose INVALIDATE to client 0");
    assert_eq!(source.lines[2].before, ["", "Lost on the way."]);
    assert_eq!((&source.lines[0].behind, &source.lines[2].behind), (&Some("first".into()), &None));
}

/// A run file has no lines: every step is by itself.
#[test]
fn a_run_file_has_no_source() {
    let scenario = Scenario::from(scenario(TEXT).run);
    assert!(scenario.source.is_none() && scenario.line(1).is_none() && scenario.expectation(10).is_none());
    assert_eq!((scenario.together(2), scenario.joins(2)), (2..=2, false));
    let explained = told(&scenario);
    assert!(!explained.contains("line ") && !explained.contains('#') && !explained.contains("expected"));
    assert!(explained.starts_with("1 (clock 0) ask client 0 object 0: done: "), "{explained}");
}

/// Reasons come from the model: it says nothing about an answer that it did not
/// give.
#[test]
fn reasons_are_told_of_the_models_answer_alone() {
    scenario(TEXT).walk(|moment| {
        let answer = Listed::of(&moment.answer);
        let told = |found| answered(moment, Some(Expectation { expected: Listed::shown(9), found }));
        let other = Listed::refused(6);
        assert_eq!(told(other), "FAILED: expected shown 9, found refused 6");
        let same = format!("FAILED: expected shown 9, found {}: ", answer.words());
        assert!(told(answer).starts_with(&same), "{}", told(answer));
    });
}

/// The run is shown all the same, so the exit status is 0.
#[test]
fn failed_expectations_are_told_wherever_a_run_is_shown() {
    let failed = "1 of 3 expectations failed\n";
    let explained = run_program(EXPLAIN, &[], TEXT.as_bytes());
    assert_eq!((explained.status, explained.errors), (0, format!("{failed}12 steps, none refused\n")));
    for form in ["svg", "html"] {
        let drawn = run_program(PICTURE, &[form], TEXT.as_bytes());
        assert_eq!((drawn.status, drawn.errors.as_str()), (0, failed));
        assert!(!drawn.output.is_empty());
    }
    let right = run_program(PICTURE, &["svg"], TEXT.replace("shown 7", "shown 0").as_bytes());
    assert_eq!((right.status, right.errors.as_str()), (0, ""));
}
