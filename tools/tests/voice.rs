//! The user's words, and the time beside the ticks.

mod common;

use common::run_program;
use model::gen::runs::run;
use tools::explain::{tables, told};
use tools::scenario::Scenario;
use tools::text::{parse, print, script, to_file};
use tools::vocabulary::Vocabulary;

const EXPLAIN: &str = env!("CARGO_BIN_EXE_explain");
const RUNTEXT: &str = env!("CARGO_BIN_EXE_runtext");

const SETUP: &str = "\
dashes 2 regions 1 notices 1
region lease 10 notice lease 100 timeout 3
delay 1
region 0 notices 0
";

fn scenario(text: &str) -> Scenario {
    script(text.as_bytes()).unwrap_or_else(|troubles| panic!("{}", troubles[0])).into()
}

fn has_field_words(text: &str) -> bool {
    text.split(|c: char| !c.is_ascii_alphabetic()).any(|word| Vocabulary::of(word) == Some(Vocabulary::Field))
}

/// For every run: the same as in the field's words, except for the words.
#[test]
fn generated_runs_are_told_in_the_papers_words() {
    for number in 0..120 {
        let text = print(&run(41, number));
        let paper = scenario(&Vocabulary::Paper.said(&text));
        let explained = told(&paper);
        assert_eq!(explained, Vocabulary::Paper.said(&told(&scenario(&text))));
        assert!(!has_field_words(&explained), "{explained}");
        let mut last = String::new();
        paper.walk(|moment| {
            if moment.number % 50 == 0 {
                last = tables::after(moment);
            }
        });
        assert!(!has_field_words(&last), "{last}");
    }
}

/// The note does not count, and what is written later changes nothing.
#[test]
fn the_first_word_of_the_setup_decides() {
    let words = |text: &str| scenario(text).voice.words;
    assert_eq!(
        words(&format!("note \"the client rides\"\n{SETUP}read client 0 object 0\n")),
        Vocabulary::Paper
    );
    let mixed = SETUP.replace("dashes", "clients");
    assert_eq!(
        words(&format!("note \"the dash rides\"\n# dash\n{mixed}read dash 0 notice 0\n")),
        Vocabulary::Field
    );
    let read = |setup: &str, line: &str| {
        let told = told(&scenario(&format!("{setup}join client 0 object 0\nclock 10\n{line}\n")));
        told.lines().last().unwrap().to_string()
    };
    assert_eq!(
        read(SETUP, "read client 0 notice 0"),
        "9 (line 7, clock 10) read client 0 notice 0: ask first: region lease ran out at 10; granted in step 7 (clock 0)"
    );
    assert_eq!(
        read(&mixed, "read dash 0 notice 0"),
        "9 (line 7, clock 10) read dash 0 notice 0: ask first: volume lease ran out at 10; granted in step 7 (clock 0)"
    );
}

/// Failures, bad lines, what cannot be met and the count of refused steps.
#[test]
fn check_answers_in_the_users_words() {
    let check = |lines: &str| {
        let ended = run_program(RUNTEXT, &["check"], format!("{SETUP}{lines}").as_bytes());
        assert_eq!(ended.status, 1);
        (String::from_utf8(ended.output).unwrap(), ended.errors)
    };
    let (output, errors) =
        check("join dash 0 notice 0\nclock 10\nread dash 0 notice 0 => shown 1\nread dash 9 notice 0\n");
    assert_eq!(
        output.lines().last().unwrap(),
        "standard input: line 7, step 9, clock 10, read dash 0 notice 0: FAILED: expected shown 1, found ask first: \
         region lease ran out at 10; granted in step 7 (clock 0)"
    );
    assert_eq!(errors, "10 steps, 1 refused: 1 with 3 (no such dash, notice or place)\n");
    assert_eq!(
        check("ask dash 0 notice 0\nlose OFFER to dash 0\n").1,
        "line 6: found no OFFER to dash 0 under way, expected one that is: 0 RENEW 1 from dash 0 notice 0\n\
         1 step, none refused\n"
    );
    assert_eq!(check("read dash 0 client 0\n").1, "line 5: found `client`, expected `notice`\n");
    assert_eq!(
        check("region 0 notices 0\n").1,
        "line 5: found notice 0 again, after region 0, expected a notice from 0 to 0, each in one region\n"
    );
    let misspelt = run_program(RUNTEXT, &["check"], SETUP.replace("dashes", "dashs").as_bytes());
    assert_eq!(
        misspelt.errors.lines().next(),
        Some("line 1: found `dashs`, expected a note or `dashes C regions V notices O`")
    );
}

/// The canonical form has the field's words, and a run file has no words.
#[test]
fn what_is_written_is_in_the_fields_words() {
    let text = format!("{SETUP}join dash 0 notice 0\nlose second GRANT to dash 0 notice 0\n");
    let formatted = run_program(RUNTEXT, &["format"], text.as_bytes());
    let formatted = String::from_utf8(formatted.output).unwrap();
    assert!(formatted.starts_with("clients 2 volumes 1 objects 1\n"), "{formatted}");
    assert!(formatted.ends_with("\nlose second GRANT to client 0 object 0\n"), "{formatted}");
    let file = to_file(&parse(format!("{SETUP}join dash 0 notice 0\n").as_bytes()).unwrap());
    assert!(!told(&Scenario::from(tools::text::from_file(&file).unwrap())).contains("dash"));
}

const TICK: &str = "one tick is 250 ms";

/// Anywhere before the first step, and after the setup in canonical form.
#[test]
fn the_length_of_a_tick_changes_no_byte() {
    let steps = "\njoin client 0 object 0\nclock 3\nread client 0 object 0\n";
    let plain =
        "clients 2 volumes 1 objects 1\nvolume lease 10 object lease 100 timeout 3\ndelay 1\nvolume 0 objects 0\n";
    let canonical = format!("{plain}{TICK}\n{steps}");
    let lines: Vec<&str> = plain.lines().collect();
    for place in 0..=lines.len() {
        let setup = [&lines[..place], &[TICK], &lines[place..]].concat().join("\n");
        let text = format!("{setup}\n{steps}");
        assert_eq!(script(text.as_bytes()).unwrap().print(), canonical);
        let encoded = run_program(RUNTEXT, &["encode"], text.as_bytes()).output;
        assert_eq!(encoded, run_program(RUNTEXT, &["encode"], format!("{plain}{steps}").as_bytes()).output);
        assert!(!encoded.is_empty());
        let expanded = run_program(RUNTEXT, &["format", "--expand"], text.as_bytes()).output;
        assert!(expanded.starts_with(format!("{plain}{TICK}\n\nask client 0 object 0\n").as_bytes()));
        let load = ["load", "--seed", "1", "--steps", "9"];
        let loaded = run_program(RUNTEXT, &load, format!("{setup}\n").as_bytes()).output;
        assert_eq!(loaded, run_program(RUNTEXT, &load, plain.as_bytes()).output);
    }
}

#[test]
fn a_bad_length_of_a_tick_is_told() {
    let trouble = |line: &str| {
        let troubles = script(format!("{SETUP}{line}\n").as_bytes()).err().unwrap();
        assert_eq!(troubles.len(), 1);
        troubles[0].to_string()
    };
    for (line, told) in [
        ("one tick is s", "line 5: found `s`, expected a number of units from 1 to 4294967295"),
        ("one tick is 0 s", "line 5: found `0`, expected a number of units from 1 to 4294967295"),
        ("one tick is 1", "line 5: found the end of the line, expected `ms`, `s`, `min` or `h`"),
        ("one tick is 1 second", "line 5: found `second`, expected `ms`, `s`, `min` or `h`"),
        ("one tick is 1 s => done", "line 5: found `=>`, expected the end of the line"),
        ("one tick takes 1 s", "line 5: found `takes`, expected `is`"),
        (
            "one tick is 1 s\none tick is 1 s",
            "line 6: found a second length of a tick, expected `one tick is N s` once",
        ),
    ] {
        assert_eq!(trouble(line), told);
    }
    assert!(trouble("clock 1\none tick is 1 s").starts_with("line 6: found `one`, expected a step: "));
}

/// For every run: wherever a time is given in ticks, it is given in its unit,
/// too.
#[test]
fn explain_tells_the_time_beside_the_ticks() {
    let text =
        "clients 1 volumes 1 objects 1\nvolume lease 10 object lease 100 timeout 3\ndelay 1\none tick is 1 min\n\
        volume 0 objects 0\njoin client 0 object 0\nclock 90\nread client 0 object 0\n";
    let ended = run_program(EXPLAIN, &[], text.as_bytes());
    let explained = String::from_utf8(ended.output).unwrap();
    let last = "9 (line 8, clock 90 = 1 h 30 min) read client 0 object 0: ask first: volume lease ran out at 10 = 10 min; \
        granted in step 7 (clock 0 = 0 s)\n";
    assert!(explained.ends_with(last), "{explained}");
    for number in 0..120 {
        let scenario = scenario(&format!("{TICK}\n{}", print(&run(43, number))));
        assert_times(&told(&scenario));
        scenario.walk(|moment| {
            if moment.number % 20 == 0 {
                assert_times_of_leases(&tables::after(moment));
            }
        });
    }
}

fn assert_times(explained: &str) {
    const BEFORE: [&str; 9] = [
        ", clock ",
        "(clock ",
        "lease to ",
        "ended at ",
        "ran out at ",
        "latest end ",
        "guard ",
        "guard, ",
        "time must be from ",
    ];
    for line in explained.lines().filter(|line| line.starts_with(|c: char| c.is_ascii_digit())) {
        assert!(line.contains(BEFORE[0]), "{line}");
        for rest in BEFORE.iter().flat_map(|before| line.split(before).skip(1)) {
            let unit = rest.trim_start_matches(|c: char| c.is_ascii_digit());
            assert!(unit.len() == rest.len() || unit.starts_with(" = "), "{rest}: {line}");
        }
    }
}

/// Checks "10 = 2.5 s alive" and "latest end 10 = 2.5 s".
fn assert_times_of_leases(tables: &str) {
    for line in tables.lines() {
        let words: Vec<&str> = line.split_whitespace().collect();
        for pair in words.windows(2).filter(|pair| ["alive", "ended"].contains(&pair[1])) {
            assert!(["s", "min", "h"].contains(&pair[0]), "{line}");
        }
        for rest in line.split("latest end ").skip(1) {
            assert_eq!(rest.split(' ').nth(1), Some("="), "{line}");
        }
    }
}

#[test]
fn tables_tell_it_too() {
    let text = format!("{TICK}\n{SETUP}join dash 0 notice 0\n");
    let ended = run_program(EXPLAIN, &["--tables", "7"], text.as_bytes());
    let tables = String::from_utf8(ended.output).unwrap();
    for row in [
        "\nclock 0 = 0 s\n",
        "\n  region  epoch  largest expiry  guard\n  0       1      10 = 2.5 s      0 = 0 s\n",
        "\n  dash  notice  lease to\n  0     0       100 = 25 s alive\n",
    ] {
        assert!(tables.contains(row), "{tables}");
    }
}
