//! Texts with a line that cannot be written out: the run is shown up to there,
//! and nothing is encoded.

mod common;

use common::{run_program, Ended};
use tools::scenario::Scenario;
use tools::text::{script, words::Trouble};

const EXPLAIN: &str = env!("CARGO_BIN_EXE_explain");
const PICTURE: &str = env!("CARGO_BIN_EXE_picture");
const RUNTEXT: &str = env!("CARGO_BIN_EXE_runtext");

const BEFORE: &str = "\
clients 2 volumes 1 objects 1
volume lease 10 object lease 100 timeout 3
delay 1
volume 0 objects 0
join client 0 object 0
write object 0 value 7 => done
";
const AFTER: &str = "read client 0 object 0 => shown 0\n# The end.\n";
const NAME: &str = "# No such message.\ndeliver GRANT to client 1\n";
const JOIN: &str = "# The write stands.\njoin client 1 object 0 # why\n";
const NO_GRANT: &str =
    "found no GRANT to client 1 under way, expected one that is: 0 INVALIDATE object 0 version 2 to client 0";

fn run_on(program: &str, arguments: &[&str], line: &str) -> Ended {
    run_program(program, arguments, format!("{BEFORE}{line}{AFTER}").as_bytes())
}

fn output(ended: &Ended) -> String {
    String::from_utf8(ended.output.clone()).unwrap()
}

#[test]
fn explain_goes_up_to_a_name_that_cannot_be_met() {
    let ended = run_on(EXPLAIN, &[], NAME);
    assert_eq!(ended.status, 1);
    assert_eq!(ended.errors, format!("line 8: {NO_GRANT}\n8 steps, none refused\n"));
    let explained = output(&ended);
    let lines: Vec<&str> = explained.lines().collect();
    assert_eq!(lines.len(), 8 + 3);
    assert!(lines[7].starts_with("8 (line 6, clock 0) write object 0 value 7: done, as expected: "));
    assert_eq!(
        lines[8..],
        [
            "# No such message.",
            "still under way: 0 INVALIDATE object 0 version 2 to client 0",
            &format!("stopped at line 8, deliver GRANT to client 1: {NO_GRANT}"),
        ]
    );
}

/// The steps that the join took are shown, with its comments.
#[test]
fn explain_goes_up_to_where_a_join_stops() {
    let ended = run_on(EXPLAIN, &[], JOIN);
    assert_eq!(ended.status, 1);
    let explained = output(&ended);
    let lines: Vec<&str> = explained.lines().skip(8).collect();
    assert_eq!(lines[0], "# The write stands.");
    assert!(lines[1].starts_with("9 (line 8, clock 0) join client 1 object 0, ask client 1 object 0: done: "));
    assert!(lines[1].ends_with(" at place 1 # why"), "{explained}");
    assert!(lines[6].starts_with("14 (line 8, clock 0) join client 1 object 0, deliver 1: done: RENEW 2 "));
    assert!(lines[7].starts_with("still under way: 0 INVALIDATE "));
    let stopped =
        "stopped at line 8, join client 1 object 0: found the join stopped at step 14 (clock 0) deliver 1: ";
    assert!(lines[8].starts_with(stopped), "{explained}");
    assert_eq!(lines.len(), 9);
    assert!(
        ended.errors.starts_with("line 8: found the join stopped at step 14 ") && !explained.contains("end.")
    );
}

#[test]
fn pictures_go_up_to_there() {
    for form in ["svg", "html"] {
        for (line, last) in [(NAME, "write object 0 value 7"), (JOIN, "ask client 1 object 0")] {
            let ended = run_on(PICTURE, &[form], line);
            assert_eq!(ended.status, 1);
            assert!(ended.errors.starts_with("line 8: found "), "{}", ended.errors);
            let drawn = output(&ended);
            assert!(drawn.contains(last) && !drawn.contains("read client 0 object 0"), "{form}, {last}");
        }
    }
}

/// A step that was not reached is reported with the reason.
#[test]
fn a_step_after_it_is_told_with_the_reason() {
    let tables = run_on(EXPLAIN, &["--tables", "9"], NAME);
    let told = "--tables: found 9, expected a step from 0 to 8";
    assert_eq!((tables.status, tables.errors), (1, format!("{told}\nline 8: {NO_GRANT}\n")));
    let drawn = run_on(PICTURE, &["svg", "--from", "9"], NAME);
    let told = "no steps from 9 to 8: the run has 8";
    assert_eq!((drawn.status, drawn.errors), (1, format!("{told}\nline 8: {NO_GRANT}\n")));
    let reached = run_on(EXPLAIN, &["--tables", "8"], NAME);
    assert!(reached.status == 1 && reached.output.starts_with(b"after step 8 (line 6, clock 0) write"));
}

#[test]
fn check_counts_what_was_not_reached() {
    for (before, verdict) in [
        (BEFORE.to_string(), "1 of 2 expectations held, 1 not reached, stopped at line 8\n"),
        (BEFORE.replace(" => done", ""), "0 of 1 expectations held, 1 not reached, stopped at line 8\n"),
        (
            BEFORE.replace("=> done", "=> shown 1"),
            "1 of 2 expectations failed, 1 not reached, stopped at line 8\nstandard input: line 6, step 8, clock 0, write object 0 value 7: FAILED: \
             expected shown 1, found done: stands, latest end 10 by the volume lease of client 0; waits for client 0; \
             sends INVALIDATE object 0 version 2 to client 0 at place 0\n",
        ),
    ] {
        let ended = run_program(RUNTEXT, &["check"], format!("{before}{NAME}{AFTER}").as_bytes());
        assert_eq!(ended.status, 1);
        assert_eq!(output(&ended), format!("standard input: {verdict}"));
        assert_eq!(ended.errors, format!("line 8: {NO_GRANT}\n8 steps, none refused\n"));
    }
}

/// Also if all expectations were reached, or there are none.
#[test]
fn check_tells_that_it_stopped() {
    for (lines, verdict) in [
        (format!("{BEFORE}{NAME}"), "1 of 1 expectations held, stopped at line 8\n"),
        (format!("{}{NAME}", BEFORE.replace(" => done", "")), "no expectations, stopped at line 8\n"),
    ] {
        let ended = run_program(RUNTEXT, &["check"], lines.as_bytes());
        assert_eq!((ended.status, output(&ended)), (1, format!("standard input: {verdict}")));
    }
}

/// A run file or a text that ends early could be taken for the whole.
#[test]
fn nothing_is_written_of_it() {
    for arguments in [&["encode"][..], &["format", "--expand"]] {
        let ended = run_on(RUNTEXT, arguments, NAME);
        assert_eq!((ended.status, ended.output.len()), (1, 0));
        assert_eq!(ended.errors, format!("line 8: {NO_GRANT}\n"));
    }
    let theirs = common::example_path("0-document.listing").display().to_string();
    let compared = run_on(EXPLAIN, &["--listing", &theirs], NAME);
    assert_eq!(
        (compared.status, compared.output.len(), compared.errors),
        (1, 0, format!("line 8: {NO_GRANT}\n"))
    );
    assert_eq!(run_on(RUNTEXT, &["format"], NAME).status, 0);
}

#[test]
fn a_run_that_is_too_long_stops_too() {
    let text = format!("{BEFORE}{}", "clock 0\n".repeat(4_000));
    let scenario = Scenario::from(script(text.as_bytes()).unwrap());
    assert_eq!(scenario.run.steps.len(), 4_000);
    let told = scenario.stopped().map(Trouble::to_string);
    assert_eq!(told.unwrap(), "line 3999: found step 4001, expected at most 4000 steps");
}

/// The first line cannot be met.
#[test]
fn a_run_of_no_steps_is_shown() {
    let setup: String = BEFORE.lines().take(4).map(|line| format!("{line}\n")).collect();
    let text = format!("{setup}deliver ACK from client 0\n");
    let ended = run_program(EXPLAIN, &[], text.as_bytes());
    let trouble = "found no ACK from client 0 under way, expected one, but no message is under way\n";
    assert_eq!(output(&ended), format!("stopped at line 5, deliver ACK from client 0: {trouble}"));
    assert_eq!((ended.status, ended.errors), (1, format!("line 5: {trouble}")));
    assert_eq!(run_program(PICTURE, &["html"], text.as_bytes()).status, 1);
}
