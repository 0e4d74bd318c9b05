//! Why a read was answered "ask first": the library's reason, in words, wherever
//! it is told.

mod common;

use common::{example_path, run_program, with_returns, SETUP};
use gevtsomi::{why, Reason};
use model::gen::runs::run;
use tools::check;
use tools::explain::{self, told};
use tools::picture::layout::Window;
use tools::picture::page;
use tools::scenario::Scenario;
use tools::text::{script, to_file};
use tools::trace::walk;

const EXPLAIN: &str = env!("CARGO_BIN_EXE_explain");
const RUNTEXT: &str = env!("CARGO_BIN_EXE_runtext");

/// What happens after client 0 has joined object 0 in steps 1 to 7, up to a read
/// of it, and why that is answered "ask first".
const REASONS: [(&str, &str); 8] = [
    ("write object 0 value 7\ndeliver INVALIDATE to client 0\n", "copy invalidated in step 9 (clock 0)"),
    (
        "restart server\nask client 0 object 1\ndeliver 0\ndeliver OFFER to client 0\nclock 3\n",
        "leases dropped on an OFFER in step 11 (clock 0)",
    ),
    (
        "clock 12\nwrite object 0 value 7\nask client 0 object 0\ndeliver 0\ndeliver BATCH to client 0\n",
        "leases dropped on a BATCH in step 12 (clock 12)",
    ),
    ("clock 4\nrestart client 0\nclock 9\n", "client restarted in step 9 (clock 4)"),
    ("clock 10\n", "volume lease ran out at 10; granted in step 7 (clock 0)"),
    (
        "clock 95\nask client 0 object 1\ndeliver 0\ndeliver 0\nclock 100\n",
        "object lease ran out at 100; granted in step 7 (clock 0)",
    ),
    // The volume lease is renewed through another object, and ends once more.
    (
        "clock 5\nask client 0 object 1\ndeliver 0\ndeliver 0\nclock 15\n",
        "volume lease ran out at 15; granted in step 7 (clock 0)",
    ),
    // What a return leaves behind does not count.
    (
        "save 0\nrestart client 0\nreturn 0\nclock 10\n",
        "volume lease ran out at 10; granted in step 7 (clock 0)",
    ),
];

fn text(lines: &str, expected: &str) -> String {
    format!("{SETUP}join client 0 object 0\n{lines}read client 0 object 0{expected}\n")
}

fn scenario(text: &str) -> Scenario {
    script(text.as_bytes()).unwrap().into()
}

#[test]
fn each_reason_is_told_in_words() {
    let never = told(&scenario(&format!("{SETUP}read client 0 object 0\n")));
    assert_eq!(never, "1 (line 5, clock 0) read client 0 object 0: ask first: never granted\n");
    for (lines, reason) in REASONS {
        let told = told(&scenario(&text(lines, "")));
        let last = told.lines().rfind(|line| !line.starts_with("still under way")).unwrap();
        let told = last.split_once(" read client 0 object 0: ask first: ").map(|(_, reason)| reason);
        assert_eq!(told, Some(reason), "{last}");
    }
}

/// A failed expectation of a read has it too.
#[test]
fn check_tells_the_reason() {
    for (lines, reason) in REASONS {
        let failures = check::verdict(&scenario(&text(lines, " => shown 0"))).failures;
        let told = format!("read client 0 object 0: FAILED: expected shown 0, found ask first: {reason}");
        assert_eq!(failures.len(), 1, "{failures:?}");
        assert!(failures[0].ends_with(&told), "{failures:?}");
    }
    let checked = run_program(RUNTEXT, &["check"], text("clock 10\n", " => shown 0").as_bytes());
    assert_eq!(checked.status, 1);
    let failure =
        "standard input: line 7, step 9, clock 10, read client 0 object 0: FAILED: expected shown 0, \
                   found ask first: volume lease ran out at 10; granted in step 7 (clock 0)\n";
    assert!(String::from_utf8(checked.output).unwrap().ends_with(failure));
}

/// The mark of the read on its lane, its words at the top and its line in the
/// listing all have it.
#[test]
fn the_page_tells_the_reason_of_a_read_pointed_at() {
    for (lines, reason) in REASONS {
        let scenario = scenario(&text(lines, ""));
        let to = scenario.run.steps.len();
        let page = page(&scenario, Window { from: 1, to });
        let told = format!("read client 0 object 0: ask first: {reason}<");
        let titles =
            page.split("<title>").skip(1).filter(|title| title.split('\n').next().unwrap().contains(&told));
        assert_eq!(titles.count(), 2, "{reason}");
        let line = page.lines().find(|line| line.starts_with(&format!("<p data-step=\"{to}\"")));
        assert!(line.unwrap().contains(&told), "{line:?}");
    }
}

/// The read's line, and the line of the event below it.
#[test]
fn the_program_tells_why() {
    for (lines, reason) in REASONS {
        let text = text(lines, "");
        let (scenario, told) = (scenario(&text), told(&scenario(&text)));
        let line = |step: usize| told.lines().find(|line| line.starts_with(&format!("{step} "))).unwrap();
        let read = scenario.run.steps.len();
        let event = reason.rsplit_once("in step ").unwrap().1.split(' ').next().unwrap().parse().unwrap();
        let ended = run_program(EXPLAIN, &["--why", &read.to_string()], text.as_bytes());
        assert_eq!(ended.status, 0, "{}", ended.errors);
        let expected = format!("{}\n{}\n", line(read), line(event));
        assert_eq!(String::from_utf8(ended.output).unwrap(), expected);
    }
    let document = example_path("0-document.run").display().to_string();
    let never = run_program(EXPLAIN, &["--why", "1", &document], b"");
    assert_eq!(never.output, b"1 (clock 0) read client 0 object 0: ask first: never granted\n");
}

#[test]
fn a_step_without_a_reason_is_told() {
    let document = example_path("0-document.run").display().to_string();
    for (step, told) in [
        ("0", "--why: found 0, expected a step from 1 to 15"),
        ("16", "--why: found 16, expected a step from 1 to 15"),
        ("9", "--why: found step 9, expected a read answered \"ask first\""),
        ("15", "--why: found step 15, expected a read answered \"ask first\""),
    ] {
        let ended = run_program(EXPLAIN, &["--why", step, &document], b"");
        assert_eq!((ended.status, ended.output.len()), (1, 0));
        assert_eq!(ended.errors.lines().next(), Some(format!("{document}: {told}").as_str()));
    }
    let shown = run_program(EXPLAIN, &["--why", "9", &document], b"");
    let line =
        "9 (clock 0) read client 0 object 0: shown 0: version 1; volume lease to 10; object lease to 100\n";
    assert!(shown.errors.ends_with(line), "{}", shown.errors);
}

#[test]
fn wrong_calls_are_told() {
    for (arguments, told) in [
        (&["--why"][..], "--why: found nothing after it, expected the number of a step"),
        (&["--why", "-1"], "--why: found \"-1\", expected the number of a step"),
        (&["--why", "one"], "--why: found \"one\", expected the number of a step"),
        (&["--why", "1", "--tables", "1"], "found several of --why, --tables and --listing, expected one"),
    ] {
        let wrong = run_program(EXPLAIN, arguments, b"");
        assert_eq!((wrong.status, wrong.output.len()), (2, 0), "{arguments:?}");
        assert_eq!(wrong.errors.lines().next(), Some(told));
    }
    assert_eq!(run_program(EXPLAIN, &["--why", "1"], b"\0").status, 1);
}

/// Returns the words with which the reason begins.
fn begins(reason: Reason) -> &'static str {
    match reason {
        Reason::NeverGranted => "never granted",
        Reason::CopyInvalidated => "copy invalidated in step ",
        Reason::LeasesDropped => "leases dropped on ",
        Reason::ClientRestarted => "client restarted in step ",
        Reason::VolumeLeaseRanOut => "volume lease ran out at ",
        Reason::ObjectLeaseRanOut => "object lease ran out at ",
    }
}

/// Of every read of generated runs, reason and step are those that the library
/// gives of the whole file.
#[test]
fn generated_reads_have_the_librarys_reasons() {
    let mut met = [0; 6];
    for number in 0..200 {
        let run = with_returns(run(51, number));
        let file = to_file(&run);
        walk(&run, |moment| {
            if moment.answer.numbers().0 != 2 {
                return;
            }
            let library = why(&file, moment.number as u32).unwrap().expect("a reason");
            let told = explain::reasons(moment).join("; ");
            assert!(told.starts_with(begins(library.reason)), "run {number}: {told}");
            let event =
                told.rsplit_once(" in step ").map_or("0", |(_, rest)| rest.split(' ').next().unwrap());
            assert_eq!(event, library.event.to_string(), "run {number}: {told}");
            met[library.reason as usize - 1] += 1;
        });
    }
    assert!(met.iter().all(|&count| count > 20), "{met:?}");
}
