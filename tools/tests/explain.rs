//! The explained listing, compared with the model's, and its reasons.

mod common;

use common::{example, run_program, with_returns};
use model::gen::runs::{run, Run};
use tools::explain::listing;
use tools::text::{from_file, parse};

/// Returns the model's listing, read back from the words.
fn numbers(explained: &str) -> String {
    let mut lines = String::from("step answer value\n");
    for line in explained.lines() {
        let mut parts = line.split(": ");
        let step = parts.next().unwrap().split(' ').next().unwrap();
        let words: Vec<&str> = parts.next().unwrap().split(' ').collect();
        let answer = match words[..] {
            ["done"] => "0 0".to_string(),
            ["shown", value] => format!("1 {value}"),
            ["ask", "first"] => "2 0".to_string(),
            ["completed", "1", "write"] => "3 1".to_string(),
            ["completed", count, "writes"] => format!("3 {count}"),
            ["refused", number] => format!("4 {number}"),
            _ => panic!("{line}"),
        };
        lines += &format!("{step} {answer}\n");
    }
    lines
}

fn holds(run: &Run) -> String {
    let explained = listing(run);
    let model = String::from_utf8(model::listing::listing(&run.file())).unwrap();
    assert_eq!(numbers(&explained), model);
    explained
}

/// Every line that is not plain has its reasons, and none is empty.
#[test]
fn generated_runs_get_the_models_answers() {
    let mut without = 0;
    for number in 0..200 {
        for line in holds(&with_returns(run(11, number))).lines() {
            assert!(!line.contains(": ;") && !line.contains("; ;") && !line.ends_with([' ', ':']), "{line}");
            let reasons = line.split(": ").count() > 2;
            assert!(reasons || line.contains(" clock "), "{line}");
            without += usize::from(!reasons);
        }
    }
    assert!(without > 100);
}

#[test]
fn each_example_tells_why() {
    for (name, line) in [
        (
            "0-document",
            "10 (clock 0) write object 0 value 7: done: stands, latest end 10 by the volume lease of client 0; waits for \
             client 0; sends INVALIDATE object 0 version 2 to client 0 at place 0",
        ),
        ("0-document", "12 (clock 10) clock 10: done: write of object 0 stands, latest end 10, waits for client 0"),
        ("0-document", "1 (clock 0) read client 0 object 0: ask first: never granted"),
        (
            "0-document",
            "13 (clock 10) read client 0 object 0: ask first: volume lease ran out at 10; granted in step 8 (clock 0)",
        ),
        ("0-document", "15 (clock 11) clock 4: refused 4: the time must be from 11 to 2147483647"),
        (
            "1-one-lease-alone",
            "14 (clock 130) read client 0 object 0: ask first: volume lease ran out at 60; granted in step 7 (clock 0)",
        ),
        (
            "1-one-lease-alone",
            "22 (clock 130) read client 0 object 0: ask first: leases dropped on an OFFER in step 17 (clock 130)",
        ),
        (
            "2-renew-while-waiting",
            "17 (clock 8) deliver 0: done: RENEW 4 from client 0 (object 1, epoch 1, version 1); the write of object 0 still \
             waits for client 0; sends INVALIDATE object 0 version 2 to client 0 (epoch 1) at place 0",
        ),
        (
            "3-restart-inside-write",
            "21 (clock 10) deliver 0: done: ACK object 0 version 2 from client 0 (epoch 1); nothing: epoch 1, the server's is 2",
        ),
        (
            "4-client-switched-off",
            "20 (clock 11) clock 11: completed 1 write: object 0 becomes 7, version 2, latest end 10 passed, client 1 marked \
             unreachable",
        ),
        (
            "5-old-messages",
            "51 (clock 5) deliver 1: done: DROPPED 1 from client 1 (volume 0, epoch 1); nothing: no offer stands",
        ),
        (
            "8-left-behind",
            "30 (clock 4) return 0: done: restores what step 17 saved: clock 4 (was 9), 1 message under way, no standing \
             write; object 0 is 0 again, version 1; 2 copies change; under way again: 0 RENEW 3 from client 1 object 0; \
             leaves behind steps 18 to 29",
        ),
        (
            "6-never-held",
            "17 (clock 9) write object 0 value 7: done: stands, latest end 12 by the timeout; waits for client 0; sends \
             INVALIDATE object 0 version 2 to client 0 at place 0",
        ),
    ] {
        let explained = holds(&from_file(&example(&format!("{name}.run"))).unwrap());
        assert!(explained.lines().any(|other| other == line), "{line}\n{explained}");
    }
}

#[test]
fn refusals_name_what_is_there() {
    let text = "clients 2 volumes 1 objects 1\nvolume lease 10 object lease 100 timeout 3\ndelay 1\nvolume 0 objects 0\n\
        restart server\nask client 0 object 0\nread client 2 object 0\ndeliver 1\nkind 77 client 0 object 0 place 0 clock 0 value 0\n";
    let explained = listing(&parse(text.as_bytes()).unwrap());
    let lines: Vec<&str> = explained.lines().skip(2).collect();
    assert_eq!(
        lines[0],
        "3 (clock 0) read client 2 object 0: refused 3: no such item: client 2 of 2, object 0 of 1, counted from 0"
    );
    assert_eq!(lines[1], "4 (clock 0) deliver 1: refused 3: no such item: place 1 of 1, counted from 0");
    assert!(lines[2].ends_with(": refused 2: kind 77 is not one of 1 to 11"));
}

#[test]
fn the_program_takes_a_run_file_or_its_text() {
    const EXPLAIN: &str = env!("CARGO_BIN_EXE_explain");
    let file = example("0-document.run");
    let text = tools::text::print(&from_file(&file).unwrap());
    let (by_file, by_text) = (run_program(EXPLAIN, &[], &file), run_program(EXPLAIN, &[], text.as_bytes()));
    assert_eq!((by_file.status, by_text.status), (0, 0));
    assert_eq!(by_file.errors, "15 steps, 1 refused: 1 with 4 (a time out of range)\n");
    // The first step of the text itself is on line 6.
    let lined =
        |(place, line): (usize, &str)| line.replacen(" (", &format!(" (line {}, ", place + 6), 1) + "\n";
    let expected: String =
        String::from_utf8(by_file.output.clone()).unwrap().lines().enumerate().map(lined).collect();
    assert_eq!(String::from_utf8(by_text.output).unwrap(), expected);
    assert_eq!(by_file.output, listing(&from_file(&file).unwrap()).as_bytes());
    let refused = run_program(EXPLAIN, &[], &file[1..]);
    assert_eq!((refused.status, refused.output.len()), (1, 0));
    assert_eq!(run_program(EXPLAIN, &["--help"], b"").status, 0);
    assert_eq!(run_program(EXPLAIN, &["--more"], b"").status, 2);
}
