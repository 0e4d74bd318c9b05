//! Somebody else's listing, compared with ours.

mod common;

use common::{example, example_path, run_program};
use tools::difference::first;
use tools::scenario::Scenario;
use tools::text::from_file;

/// Returns the first difference if the listing of the document's run is changed
/// like this.
fn changed(change: impl Fn(&str) -> String) -> Option<String> {
    let run = from_file(&example("0-document.run")).map(Scenario::from);
    let ours = String::from_utf8(example("0-document.listing")).unwrap();
    first(&run, ours.as_bytes(), change(&ours).as_bytes())
}

fn differs(from: &str, to: &str) -> String {
    changed(|ours| ours.replacen(from, to, 1)).expect("a difference")
}

#[test]
fn the_same_bytes_have_none() {
    assert_eq!(changed(|ours| ours.into()), None);
}

#[test]
fn an_answer_is_told_with_the_step() {
    let step = "first difference at line 14 of the listing\ntheirs: 13 shown 0\n\
        ours:   13 (clock 10) read client 0 object 0: ask first: volume lease ran out at 10; granted in step 8 (clock 0)";
    assert_eq!(differs("\n13 2 0\n", "\n13 1 0\n"), step);
    // Only the first one counts.
    let both = changed(|ours| ours.replace("\n13 2 0\n", "\n13 1 0\n").replace("\n14 3 1\n", "\n14 0 0\n"));
    assert_eq!(both.unwrap(), step);
}

#[test]
fn lines_that_are_none_are_told_as_they_are() {
    for (from, to, theirs) in [
        ("\n3 0 0\n", "\n3 0\n", "`3 0\\n`, which is no line of step 3"),
        ("\n3 0 0\n", "\n3 0 0\r\r\n", "`3 0 0\\r\\n`, which is no line of step 3"),
        ("\n3 0 0\n", "\n03 0 0\n", "`03 0 0\\n`, which is no line of step 3"),
        ("\n3 0 0\n", "\n", "`4 0 0\\n`, which is no line of step 3"),
        ("\n3 0 0\n", "\n3 5 0\n", "`3 5 0\\n`, which is no line of step 3"),
    ] {
        let words = differs(from, to);
        assert!(
            words.contains(&format!(
                "line 4 of the listing\ntheirs: {theirs}\nours:   3 (clock 0) deliver 0: done: "
            )),
            "{words}"
        );
    }
}

/// Any other difference is reported after it.
#[test]
fn line_ends_of_another_system_are_told_as_such() {
    let line_ends = |number: usize, rest: &str| {
        format!(
            "line {number} of their listing ends in CR LF, where ours has LF\nbut for such line ends: {rest}"
        )
    };
    assert_eq!(changed(|ours| ours.replace('\n', "\r\n")).unwrap(), line_ends(1, "no difference"));
    assert_eq!(differs("\n3 0 0\n", "\n3 0 0\r\n"), line_ends(4, "no difference"));
    let both = changed(|ours| ours.replace("\n13 2 0\n", "\n13 1 0\n").replace('\n', "\r\n"));
    let step = "first difference at line 14 of the listing\ntheirs: 13 shown 0\nours:   13 (clock 10) read client 0 ";
    assert!(both.unwrap().starts_with(&line_ends(1, step)));
}

#[test]
fn header_length_and_refused_files() {
    assert_eq!(
        differs("step answer", "Step answer"),
        "first difference at line 1 of the listing\ntheirs: `Step answer value\\n`, which is no line of step 0\n\
         ours:   `step answer value\\n`"
    );
    let cut = changed(|ours| ours.replace("15 4 4\n", "")).unwrap();
    assert!(
        cut.contains(
            "line 16 of the listing\ntheirs: the listing ends\nours:   15 (clock 11) clock 4: refused 4: "
        ),
        "{cut}"
    );
    let longer = changed(|ours| format!("{ours}16 0 0\n")).unwrap();
    assert!(longer.ends_with("theirs: 16 done\nours:   the listing ends"), "{longer}");
    assert!(changed(|ours| ours.trim_end().into()).unwrap().contains("theirs: `15 4 4`, which is no line"));
    let refused = changed(|_| "step answer value\n0 4 9\n".into()).unwrap();
    assert!(refused
        .contains("theirs: the file is refused (9)\nours:   1 (clock 0) read client 0 object 0: ask first"));
    assert!(changed(|_| String::new())
        .unwrap()
        .contains("theirs: the listing ends\nours:   `step answer value\\n`"));
}

/// A file that we refuse, too, is no difference; shown as a run, it is one.
#[test]
fn a_refused_file_has_a_listing_too() {
    const EXPLAIN: &str = env!("CARGO_BIN_EXE_explain");
    let file = &example("0-document.run")[1..];
    let listing = |lines: &str| {
        let path = std::path::Path::new(env!("CARGO_TARGET_TMPDIR")).join("refused.listing");
        std::fs::write(&path, format!("step answer value\n{lines}")).unwrap();
        run_program(EXPLAIN, &["--listing", &path.display().to_string()], file)
    };
    let same = listing("0 4 9\n");
    assert_eq!((same.status, &same.output[..]), (0, &b"no difference\n"[..]));
    assert!(same.errors.starts_with("run file refused (9): trailer: "), "{}", same.errors);
    let differs = listing("1 2 0\n");
    assert_eq!(differs.status, 1);
    let expected =
        "first difference at line 2 of the listing\ntheirs: 1 ask first\nours:   run file refused (9): ";
    assert!(String::from_utf8(differs.output).unwrap().starts_with(expected));
}

#[test]
fn the_program_ends_with_1_at_a_difference() {
    const EXPLAIN: &str = env!("CARGO_BIN_EXE_explain");
    let path = |name: &str| example_path(name).display().to_string();
    let (run, other) = (path("0-document.run"), path("1-one-lease-alone.listing"));
    let same = run_program(EXPLAIN, &["--listing", &path("0-document.listing"), &run], b"");
    assert_eq!((same.status, &same.output[..]), (0, &b"no difference\n"[..]));
    let differs = run_program(EXPLAIN, &["--listing", &other, &run], b"");
    assert_eq!(differs.status, 1);
    assert!(differs.output.starts_with(b"first difference at line 2 of the listing\ntheirs: 1 done\n"));
    let both = run_program(EXPLAIN, &["--listing", &other, "--tables", "1", &run], b"");
    assert_eq!((both.status, both.output.len()), (2, 0));
}
