//! The programs themselves: what they print, and their exit status.

mod common;

use common::{example, run_program};

const RUNTEXT: &str = env!("CARGO_BIN_EXE_runtext");

#[test]
fn runtext_goes_both_ways() {
    let file = example("2-renew-while-waiting.run");
    let text = run_program(RUNTEXT, &["decode"], &file);
    assert_eq!((text.status, text.errors.as_str()), (0, ""));
    let back = run_program(RUNTEXT, &["encode"], &text.output);
    assert_eq!((back.status, back.output, back.errors.as_str()), (0, file, "20 steps, none refused\n"));
    let formatted = run_program(RUNTEXT, &["format"], &[b"# a comment\n", &text.output[..]].concat());
    assert_eq!(formatted.output, text.output);
}

/// Short forms and expectations are kept or written out; a run file has exact
/// steps only.
#[test]
fn runtext_formats_and_expands() {
    let text = example("3-restart-inside-write.runtext");
    let kept = run_program(RUNTEXT, &["format"], &text).output;
    let expanded = run_program(RUNTEXT, &["format", "--expand"], &text).output;
    let (kept, expanded) = (String::from_utf8(kept).unwrap(), String::from_utf8(expanded).unwrap());
    assert!(
        kept.contains("\njoin client 0 object 0\n") && kept.contains("\ndeliver ACK from client 0 => done\n")
    );
    assert!(expanded.ends_with(
        "\nwrite object 0 value 8 => done\ndeliver 0 => done\nread client 0 object 0 => shown 0\n"
    ));
    let exact = run_program(RUNTEXT, &["decode"], &example("3-restart-inside-write.run")).output;
    let plain: String =
        expanded.lines().map(|line| line.split(" =>").next().unwrap().to_string() + "\n").collect();
    assert_eq!(plain.as_bytes(), exact);
    for text in [&kept, &expanded] {
        let file = run_program(RUNTEXT, &["encode"], text.as_bytes()).output;
        assert_eq!(file, example("3-restart-inside-write.run"));
    }
}

#[test]
fn a_bad_line_leaves_nothing_written() {
    let text = run_program(RUNTEXT, &["decode"], &example("0-document.run")).output;
    let bad = run_program(RUNTEXT, &["encode"], &[&text[..], b"deliver it\n"].concat());
    assert_eq!((bad.status, bad.output.len()), (1, 0));
    assert_eq!(
        bad.errors,
        "line 21: found `it`, expected a message as `GRANT to client 0`, or a place in the queue from 0 to 255\n"
    );
}

#[test]
fn a_refused_file_leaves_nothing_written() {
    let file = example("0-document.run");
    let bad = run_program(RUNTEXT, &["decode"], &file[1..]);
    assert_eq!((bad.status, bad.output.len()), (1, 0));
    assert!(bad.errors.starts_with("run file refused (9): trailer: "), "{}", bad.errors);
}

#[test]
fn help_and_wrong_calls() {
    let help = run_program(RUNTEXT, &["--help"], b"");
    assert_eq!(help.status, 0);
    assert!(help.output.starts_with(b"runtext: "));
    for (arguments, told) in [
        (&[][..], "found no argument, expected encode, check, format, decode, load or upgrade"),
        (&["code"], "found \"code\", expected encode, check, format, decode, load or upgrade"),
        (&["encode", "one", "two"], "found 2 files, expected one or standard input"),
        (&["encode", "--expand"], "unknown option \"--expand\""),
        (&["encode", "-o"], "-o: found nothing after it, expected a file to write"),
        (&["encode", "-o", "--expand"], "-o: found \"--expand\", expected a file to write"),
        (&["encode", "-o", "one", "-o", "two"], "-o: found twice, expected once"),
    ] {
        let wrong = run_program(RUNTEXT, arguments, b"");
        assert_eq!((wrong.status, wrong.output.len()), (2, 0), "{arguments:?}");
        assert_eq!(wrong.errors.lines().next(), Some(told));
        assert!(wrong.errors.contains("\n\nruntext: the text form of runs\n"));
    }
}
