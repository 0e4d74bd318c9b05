//! The text form line by line, and what is reported about bad lines.

use model::step_record::Step;
use tools::text::words::Trouble;
use tools::text::{note, parse, print, script, steps, to_file};

const SETUP: &str = "\
clients 2 volumes 3 objects 4
volume lease 10 object lease 100 timeout 3
delay 1
volume 0 objects 0 3
volume 2 objects 1 2
";

fn troubles(text: &str) -> Vec<String> {
    parse(text.as_bytes()).unwrap_err().iter().map(Trouble::to_string).collect()
}

/// Returns the only trouble of a text whose setup is right and takes five
/// lines.
fn trouble(line: &str) -> String {
    let troubles = troubles(&format!("{SETUP}{line}\n"));
    assert_eq!(troubles.len(), 1, "{troubles:?}");
    troubles[0].clone()
}

#[test]
fn every_line_both_ways() {
    let kinds = [
        ("clock 4294967295", Step::clock(u32::MAX)),
        ("read client 0 object 3", Step::read(0, 3)),
        ("ask client 255 object 255", Step::ask(255, 255)),
        ("write object 3 value 18446744073709551615", Step::write(3, u64::MAX)),
        ("deliver 0", Step::deliver(0)),
        ("lose 63", Step::lose(63)),
        ("double 64", Step::double(64)),
        ("restart server", Step::restart_server()),
        ("restart client 2", Step::restart_client(2)),
        ("save 0", Step::save(0)),
        ("return 255", Step::return_to(255)),
        (
            "kind 12 client 1 object 2 place 3 clock 4 value 5",
            Step { kind: 12, client: 1, object: 2, place: 3, clock: 4, value: 5 },
        ),
    ];
    let lines: Vec<&str> = kinds.iter().map(|(line, _)| *line).collect();
    let text = format!("note \"a note\"\n{SETUP}\n{}\n", lines.join("\n"));
    let run = parse(text.as_bytes()).unwrap();
    assert_eq!(run.note, b"a note");
    assert_eq!(run.setup.volume_of[..5], [0, 2, 2, 0, 0]);
    assert!(run.steps.iter().eq(kinds.iter().map(|(_, step)| step)));
    assert_eq!(print(&run), text);
    assert!(kinds.iter().all(|(line, step)| steps::line(step) == *line));
}

#[test]
fn every_expectation_and_short_form_both_ways() {
    let lines = [
        "clock 10 => done",
        "read client 0 object 3 => shown 18446744073709551615",
        "read client 0 object 3 => ask first",
        "write object 3 value 7 => completed 28",
        "deliver 9 => refused 3",
        "save 3 => done",
        "return 255 => refused 11",
        "deliver RENEW from client 0",
        "lose GRANT to client 255 => done",
        "double INVALIDATE to client 1",
        "deliver ACK from client 1 => completed 1",
        "deliver OFFER to client 1",
        "lose DROPPED from client 1",
        "deliver BATCH to client 1",
        "double last CLEARED from client 0 volume 2",
        "deliver INVALIDATE to client 0 object 1",
        "lose second GRANT to client 0 => done",
        "double last OFFER to client 1 volume 2",
        "deliver 11th ACK from client 1 object 3",
        "join client 1 object 3",
    ];
    let text = format!("{SETUP}\n{}\n", lines.join("\n"));
    assert_eq!(script(text.as_bytes()).unwrap().print(), text);
    // The one meant without a word has none.
    let first = format!("{SETUP}deliver first GRANT to client 0\nlose 2nd GRANT to client 0\n");
    let printed = script(first.as_bytes()).unwrap().print();
    assert!(printed.ends_with("\ndeliver GRANT to client 0\nlose second GRANT to client 0\n"), "{printed}");
}

/// The paper's words dash, region and notice.
#[test]
fn the_papers_words_are_understood() {
    let steps = "read client 0 object 3 => ask first\njoin client 1 object 0\nrestart client 1\n";
    let plain = format!("{SETUP}\n{steps}write object 0 value 7\n");
    let paper = plain.replace("client", "dash").replace("volume", "region").replace("object", "notice");
    let paper = paper.replace("dashs", "dashes");
    assert!(paper.contains("dashes 2 regions 3 notices 4\nregion lease 10 notice lease 100"));
    assert_eq!(script(paper.as_bytes()).unwrap().print(), plain);
    assert_eq!(trouble("read dash 0 dash 3"), "line 6: found `dash`, expected `object`");
}

#[test]
fn spaces_comments_and_line_ends_are_free() {
    let text = format!("# first\r\n  {}\tclock  007 # why\r\n\n#\ndeliver 1", SETUP.replace('\n', " #x\r\n"));
    let run = parse(text.as_bytes()).unwrap();
    assert_eq!(run.steps, [Step::clock(7), Step::deliver(1)]);
    assert_eq!(print(&run), format!("{SETUP}\nclock 7\ndeliver 1\n"));
}

/// Some editors put one at the beginning of a text, and only there.
#[test]
fn a_byte_order_mark_is_skipped() {
    let text = format!("{SETUP}clock 1\n");
    let marked = format!("\u{feff}{text}");
    assert_eq!(print(&parse(marked.as_bytes()).unwrap()), print(&parse(text.as_bytes()).unwrap()));
    assert_eq!(troubles(&format!("\u{feff}{marked}")).len(), 1);
}

#[test]
fn an_arrow_needs_no_space() {
    let spaced = format!("{SETUP}\nread client 0 object 3 => ask first\nclock 1 => done\n");
    for arrow in ["=>", " =>", "=> "] {
        let text = spaced.replace(" => ", arrow);
        assert_eq!(script(text.as_bytes()).unwrap().print(), spaced);
    }
    assert_eq!(trouble("clock 1=>"), trouble("clock 1 =>"));
    assert_eq!(trouble("clock=>done"), "line 6: found `=>`, expected a time from 0 to 4294967295");
}

#[test]
fn notes_of_all_sorts() {
    for (bytes, lines) in [
        (&b""[..], vec![]),
        (b"# \"a\" \\", vec![r##"note "# \"a\" \\""##]),
        (b"one\n\ttwo\r\n", vec![r#"note "one\n""#, r#"note "\ttwo\r\n""#]),
        ("größer – 道".as_bytes(), vec!["note \"größer – 道\""]),
        (b"\0ok", vec!["note hex 00 6f 6b"]),
        (b"\xff\xfe", vec!["note hex ff fe"]),
        ("\u{202e}".as_bytes(), vec!["note hex e2 80 ae"]),
    ] {
        assert_eq!(note::lines(bytes), lines);
    }
    let (long, bytes) = (note::lines(&[b'a'; 201]), note::lines(&[7; 65]));
    assert_eq!((long.len(), long[2].as_str()), (3, "note \"a\""));
    assert_eq!((bytes.len(), bytes[2].as_str()), (3, "note hex 07"));
}

/// A title has neither the word note nor quotation marks.
#[test]
fn a_note_makes_a_title() {
    for (bytes, title) in [
        (&b""[..], None),
        (b" \n\t\n", None),
        (b"line 4 of the sheet", Some("line 4 of the sheet")),
        (b"\n \"one\"\tand\r\ntwo", Some("\"one\" and")),
        (b"\0ok", Some("00 6f 6b")),
    ] {
        assert_eq!(note::title(bytes).as_deref(), title);
    }
}

#[test]
fn every_short_note_comes_back() {
    let pairs = (0..=255u8).flat_map(|a| [vec![a], vec![b'"', a], vec![0xc3, a], vec![a, b'\n', a]]);
    for bytes in pairs {
        let mut back = Vec::new();
        for line in note::lines(&bytes) {
            note::parse(line.strip_prefix("note").unwrap(), &mut back).unwrap();
        }
        assert_eq!(back, bytes);
    }
}

#[test]
fn a_bad_step_is_told() {
    let end = "expected `=>` or the end of the line";
    for (line, wrong) in [
        ("reed client 0", "found `reed`, expected `volume V objects O ...` or a step: clock, read, "),
        ("read client 0 objct 3", "found `objct`, expected `object`"),
        ("read client 0", "found the end of the line, expected `object`"),
        ("read client 256 object 0", "found `256`, expected a number of the client from 0 to 255"),
        ("clock +4", "found `+4`, expected a time from 0 to 4294967295"),
        ("clock -1", "found `-1`, expected a time from 0 to 4294967295"),
        (
            "write object 1 value 18446744073709551616",
            "found `18446744073709551616`, expected a value from 0",
        ),
        ("deliver", "found the end of the line, expected a message as `GRANT to client 0`, or a place"),
        ("restart all", "found `all`, expected `server` or `client`"),
        ("kind 9 client 0", "found `kind 9`, expected an unknown kind: 0, or 12 to 255"),
        ("kind 11 client 0", "found `kind 11`, expected an unknown kind: 0, or 12 to 255"),
        ("save", "found the end of the line, expected a number of the saved state from 0 to 255"),
        ("return 256", "found `256`, expected a number of the saved state from 0 to 255"),
        ("save 0 1", "found `1`, expected `=>` or the end of the line"),
        ("deliver GRANT from client 0", "found `from`, expected `to`"),
        ("lose ACK client 0", "found `client`, expected `from`"),
        (
            "deliver second",
            "found the end of the line, expected a message: RENEW, GRANT, INVALIDATE, ACK, OFFER, DROPPED, BATCH, CLEARED",
        ),
        ("lose last 3", "found `3`, expected a message: RENEW, "),
        (
            "deliver 65th GRANT to client 0",
            "found `65th`, expected a message as `GRANT to client 0`, or a place",
        ),
        ("deliver GRANT to client 0 volume 0", "found `volume`, expected `object`"),
        ("deliver BATCH from client 0", "found `from`, expected `to`"),
        ("lose CLEARED to client 0", "found `to`, expected `from`"),
        ("deliver BATCH to client 0 object 0", "found `object`, expected `volume`"),
        (
            "deliver GRANT to client 0 object 256",
            "found `256`, expected a number of the object from 0 to 255",
        ),
        ("deliver grant to client 0", "found `grant`, expected a message as `GRANT to client 0`, or a place"),
        ("join client 0 object 0 => done", "found `=>`, expected the end of the line"),
        ("clock 1 =>", "found the end of the line, expected `done`, `shown V`, `ask first`, "),
        ("clock 1 => completed 0", "found `0`, expected a number of writes from 1 to 28"),
        ("clock 1 => refused 7", "found `7`, expected a refusal's number: 1 to 6, or 11"),
        ("clock 1 => refused 12", "found `12`, expected a refusal's number: 1 to 6, or 11"),
        ("clock 1 => refused", "found the end of the line, expected a refusal's number: 1 to 6, or 11"),
        ("clock 1 => ask last", "found `last`, expected `first`"),
        ("clock 1 => done 1", "found `1`, expected the end of the line"),
    ] {
        let told = trouble(line);
        assert!(told.starts_with(&format!("line 6: {wrong}")), "{told}");
    }
    assert_eq!(trouble("\nclock 4 5"), format!("line 7: found `5`, {end}"));
    assert_eq!(trouble("restart server 1"), format!("line 6: found `1`, {end}"));
}

#[test]
fn a_bad_note_or_setup_is_told() {
    let first = |line: &str| troubles(&format!("{line}\n{SETUP}"))[0].clone();
    assert_eq!(first("note \"open"), "line 1: found the end of the line, expected a closing `\"`");
    assert_eq!(first("note \"a\" b"), "line 1: found `b`, expected the end of the line");
    assert_eq!(first(r#"note "\q""#), r#"line 1: found `\\q`, expected \n, \r, \t, \" or \\"#);
    assert_eq!(first("note hex 0 11"), "line 1: found `0`, expected two hex digits");
    assert_eq!(first("note hex +1"), "line 1: found `+1`, expected two hex digits");
    assert_eq!(first("note text"), "line 1: found `text`, expected text in quotes, or `hex` and bytes");
    assert_eq!(trouble("note \"late\"").split(',').next(), Some("line 6: found `note`"));
    assert_eq!(trouble("volume 3 objects 0"), "line 6: found `3`, expected a volume from 0 to 2");
    assert!(trouble("volume 1 objects 3").starts_with("line 6: found object 3 again, after volume 0"));
    let bad = SETUP.replace("clients 2", "clients 17");
    assert_eq!(troubles(&bad), ["line 1: found `17`, expected a number of clients from 1 to 16"]);
    let bad = SETUP.replace("timeout 3", "timeout 61");
    assert_eq!(troubles(&bad), ["line 2: found `61`, expected ticks from 1 to 60"]);
    for delay in ["0", "65536"] {
        let bad = SETUP.replace("delay 1", &format!("delay {delay}"));
        assert_eq!(troubles(&bad), [format!("line 3: found `{delay}`, expected ticks from 1 to 65535")]);
    }
    let bad = SETUP.replace("delay 1", "delay 1\ndelay 2");
    assert_eq!(troubles(&bad), ["line 4: found `delay`, expected it once, after the line with `timeout`"]);
    let late = SETUP.replace("delay 1\n", "") + "delay 1\n";
    assert_eq!(troubles(&late), ["line 5: found `delay`, expected it after the line with `timeout`"]);
}

/// The line that it should follow is not reported, and other bad lines are.
#[test]
fn an_early_delay_is_told_once() {
    let lines: Vec<&str> = SETUP.lines().collect();
    let ordered = |places: [usize; 3]| {
        let first = places.map(|place| lines[place]);
        troubles(&[&first[..], &lines[3..], &["clock 1"]].concat().join("\n"))
    };
    for (places, line) in [([0, 2, 1], 2), ([2, 0, 1], 1)] {
        assert_eq!(
            ordered(places),
            [format!("line {line}: found `delay`, expected it after the line with `timeout`")]
        );
    }
    let bad = format!("{}\ndelay 1\none tick is 0 s\n{}\nvolume 0 objects x\n", lines[0], lines[1]);
    let starts = ["line 2: found `delay`, ", "line 3: ", "line 5: found `x`, "];
    let troubles_of_bad = troubles(&bad);
    assert_eq!(troubles_of_bad.len(), 3, "{troubles_of_bad:?}");
    assert!(
        troubles_of_bad.iter().zip(starts).all(|(told, start)| told.starts_with(start)),
        "{troubles_of_bad:?}"
    );
    // It is not early if the line that it should follow is misspelt.
    let misspelt = SETUP.replace("volume lease", "volum lease");
    assert_eq!(troubles(&misspelt).len(), 1);
}

#[test]
fn a_missing_line_is_told_at_the_first_step() {
    let lines: Vec<&str> = SETUP.lines().collect();
    let without = |place: usize| {
        let left = [&lines[..place], &lines[place + 1..], &["clock 1", "clock 2"]].concat();
        troubles(&left.join("\n"))
    };
    assert_eq!(without(0), ["line 5: found no such line before, expected `clients C volumes V objects O`"]);
    assert!(without(1)[0].starts_with("line 5: found no such line before, expected `volume lease"));
    assert_eq!(
        without(2),
        ["line 2: found no line `delay D` after it, expected one: add `delay 1` (1 to 65535 ticks)"]
    );
    assert_eq!(without(4), ["line 5: found no volume of object 1 before, expected `volume V objects O ...`"]);
    assert_eq!(troubles("").len(), 1);
}

#[test]
fn every_bad_line_is_told_once() {
    let text = format!("{SETUP}clock\nclock 1\nread\n").replace("lease 100", "leese 100");
    let lines: Vec<usize> = parse(text.as_bytes()).unwrap_err().iter().map(|trouble| trouble.line).collect();
    assert_eq!(lines, [2, 6, 8]);
}

#[test]
fn bytes_that_are_no_text_are_told() {
    assert_eq!(
        parse(b"\n\xff").unwrap_err()[0].to_string(),
        "line 2: found bytes that are no text, expected UTF-8"
    );
    assert_eq!(parse(b"# \0").unwrap_err()[0].to_string(), "line 1: found a zero byte, expected text");
}

#[test]
fn the_file_keeps_its_limits() {
    let steps = |count: usize| format!("{SETUP}{}", "clock 0\n".repeat(count));
    assert_eq!(parse(steps(4_000).as_bytes()).unwrap().steps.len(), 4_000);
    assert_eq!(troubles(&steps(4_001)), ["line 4006: found step 4001, expected at most 4000 steps"]);
    let noted = |len: usize| format!("note \"{}\"\n{SETUP}", "n".repeat(len));
    assert_eq!(to_file(&parse(noted(65_480).as_bytes()).unwrap()).len(), 65_536);
    assert!(troubles(&noted(65_481))[0].contains("found a note of 65481 bytes, expected at most 65480"));
    assert_eq!(
        troubles(&(noted(65_470) + "clock 0\n")),
        ["line 7: found step 1 after a note of 65470 bytes, expected a note of at most 65464 bytes with so many steps"]
    );
    let joins = format!("{}{}", steps(3_999), "join client 0 object 0\n");
    assert_eq!(troubles(&joins), ["line 4005: found step 4001, expected at most 4000 steps"]);
}
