//! Expectations, checked against the proved library.

mod common;

use common::{example, example_path, run_program};
use model::examples::all;
use model::gen::runs::run;
use tools::scenario::Scenario;
use tools::text::script;
use tools::{check, proved, text};

const RUNTEXT: &str = env!("CARGO_BIN_EXE_runtext");

const TEXT: &str = "\
clients 1 volumes 1 objects 1
volume lease 10 object lease 100 timeout 3
delay 1
volume 0 objects 0

join client 0 object 0
read client 0 object 0 => shown 0
write object 0 value 7 => done
deliver 5 => refused 3
clock 10
read client 0 object 0 => ask first
clock 11 => completed 1
";

/// Returns how many hold, and each one that fails.
fn verdict(text: &str) -> (String, Vec<String>) {
    let verdict = check::verdict(&script(text.as_bytes()).unwrap().into());
    (verdict.words, verdict.failures)
}

fn holds(text: &str, words: &str) {
    assert_eq!(verdict(text), (words.into(), vec![]));
}

#[test]
fn verdicts() {
    holds(TEXT, "all 5 expectations hold");
    let one = TEXT.replace(" => done", "").replace(" => ask first", "").replace(" => completed 1", "");
    holds(&one.replace(" => refused 3", ""), "the 1 expectation holds");
    let none = one.replace(" => refused 3", "").replace(" => shown 0", "");
    holds(&none, "no expectations");
}

/// Each expectation, changed into each other answer, fails by itself.
#[test]
fn every_wrong_expectation_is_found() {
    let answers =
        ["done", "shown 0", "shown 1", "ask first", "completed 1", "completed 2", "refused 3", "refused 5"];
    for (number, line) in TEXT.lines().enumerate().filter(|(_, line)| line.contains("=>")) {
        let (step, right) = line.split_once(" => ").unwrap();
        for wrong in answers.iter().filter(|wrong| **wrong != right) {
            let (words, failures) = verdict(&TEXT.replace(line, &format!("{step} => {wrong}")));
            assert_eq!((words.as_str(), failures.len()), ("1 of 5 expectations failed", 1));
            assert!(failures[0].starts_with(&format!("line {}, step ", number + 1)), "{failures:?}");
            let told = failures[0].contains(&format!(", {step}: FAILED: expected "))
                && failures[0].contains(&format!(", found {right}"));
            assert!(told, "{failures:?}");
        }
    }
}

#[test]
fn every_failure_is_told_in_words() {
    let text = TEXT.replace("ask first", "shown 7").replace("completed 1", "done");
    let failures = [
        "line 11, step 12, clock 10, read client 0 object 0: FAILED: expected shown 7, found ask first: volume \
         lease ran out at 10; granted in step 7 (clock 0)",
        "line 12, step 13, clock 11, clock 11: FAILED: expected done, found completed 1 write: object 0 becomes 7, \
         version 2, latest end 10 passed, client 0 marked unreachable",
    ];
    let told = failures.map(String::from).to_vec();
    assert_eq!(verdict(&text), ("2 of 5 expectations failed".into(), told));
}

/// The library's answers are those of the listing, for runs of all kinds.
#[test]
fn answers_are_the_models() {
    for number in 0..100 {
        let run = run(31, number);
        let model = String::from_utf8(model::listing::listing(&text::to_file(&run))).unwrap();
        let lines = proved::answers(&run)
            .iter()
            .enumerate()
            .map(|(place, listed)| format!("{} {} {}\n", place + 1, listed.answer, listed.value))
            .collect::<String>();
        assert_eq!(format!("step answer value\n{lines}"), model, "run {number}");
    }
}

#[test]
fn the_program_gives_a_verdict_for_each_text() {
    let names =
        ["0-document.runtext", "5-old-messages.runtext"].map(|name| example_path(name).display().to_string());
    let right = run_program(RUNTEXT, &["check", &names[0], &names[1]], b"");
    assert_eq!(right.status, 0, "{}", right.errors);
    let lines: Vec<String> = String::from_utf8(right.output).unwrap().lines().map(String::from).collect();
    assert_eq!(lines.len(), 2);
    assert!(lines.iter().zip(&names).all(|(line, name)| line.starts_with(&format!("{name}: all "))));
    assert_eq!(right.errors, "70 steps, 1 refused: 1 with 4 (a time out of range)\n");

    let wrong = run_program(
        RUNTEXT,
        &["check", "-", "nowhere", &names[0]],
        TEXT.replace("shown 0", "shown 1").as_bytes(),
    );
    assert_eq!(wrong.status, 1);
    let output = String::from_utf8(wrong.output).unwrap();
    assert!(
        output.starts_with(
            "standard input: 1 of 5 expectations failed\nstandard input: line 7, step 8, clock 0, "
        ),
        "{output}"
    );
    assert!(output.lines().nth(2).unwrap().starts_with(&names[0]));
    assert!(wrong.errors.starts_with("cannot read nowhere: "), "{}", wrong.errors);
    assert!(wrong.errors.ends_with("28 steps, 2 refused: 1 with 3 (no such client, object or place), 1 with 4 (a time out of range)\n"), "{}", wrong.errors);
}

/// If nothing ran, nothing is counted.
#[test]
fn no_steps_are_not_counted() {
    let none = run_program(RUNTEXT, &["check", "nowhere"], b"");
    assert!(none.errors.starts_with("cannot read nowhere: ") && none.errors.lines().count() == 1);
    let setup: String = TEXT.lines().take(4).map(|line| format!("{line}\n")).collect();
    let empty = run_program(RUNTEXT, &["check"], setup.as_bytes());
    assert_eq!((empty.status, empty.errors.as_str()), (0, ""));
    assert_eq!(run_program(RUNTEXT, &["encode"], setup.as_bytes()).errors, "");
}

/// Reads, writes, and whatever completes or is refused: the purpose of a run.
#[test]
fn examples_expect_what_they_are_for() {
    for example in all() {
        let text = self::example(&format!("{}.runtext", example.name));
        let scenario = Scenario::from(script(&text).unwrap());
        let verdict = check::verdict(&scenario);
        assert!(verdict.holds(), "{}: {:?}", example.name, verdict.failures);
        assert!(scenario.stopped().is_none());
        for (place, answer) in proved::answers(&scenario.run).iter().enumerate() {
            let kind = scenario.run.steps[place].kind;
            let told = [model::step_record::READ, model::step_record::WRITE].contains(&kind);
            let wanted = told || answer.answer > 2;
            let expected = scenario.expectation(place + 1).is_some();
            assert!(!wanted || expected, "{}, step {}", example.name, place + 1);
        }
    }
}
