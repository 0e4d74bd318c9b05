//! The tables after a step, as text.

mod common;

use common::{example_path, run_program};
use model::gen::runs::run;
use tools::explain::{at, tables};
use tools::scenario::Scenario;

const EXPLAIN: &str = env!("CARGO_BIN_EXE_explain");

fn explained(arguments: &[&str]) -> common::Ended {
    let file = example_path("4-client-switched-off.run").display().to_string();
    run_program(EXPLAIN, &[arguments, &[&file]].concat(), b"")
}

/// A write stands; an INVALIDATE and an ACK are under way.
#[test]
fn every_table_with_what_it_holds() {
    let ended = explained(&["--tables", "16"]);
    assert_eq!((ended.status, ended.errors.as_str()), (0, "21 steps, none refused\n"));
    let expected = "\
after step 16 (clock 0) deliver 0: done: INVALIDATE object 0 version 2 to client 0 (epoch 1); copy of version 1 erased; \
sends ACK object 0 version 2 from client 0 (epoch 1) at place 1

clock 0

server, volumes
  volume  epoch  largest expiry  guard
  0       1      10              0

server, objects
  object  volume  value  version  largest expiry  standing write
  0       0       0      1        100             value 7, latest end 10, waits for clients 0, 1

server, clients
  client  highest number seen
  0       2
  1       2

server, volume leases
  client  volume  lease to  mark  offer
  0       0       10 alive  none  none
  1       0       10 alive  none  none

server, object leases
  client  object  lease to
  0       0       100 alive
  1       0       100 alive

server, notes: none

clients, requests
  client  next number  standing request
  0       3            none
  1       3            none

clients, volumes
  client  volume  epoch  lease to
  0       0       1      10 alive
  1       0       1      10 alive

clients, copies
  client  object  version  value  lease to
  1       0       1        0      100 alive

messages under way
  place  message
  0      INVALIDATE object 0 version 2 to client 1 (epoch 1)
  1      ACK object 0 version 2 from client 0 (epoch 1)

saved states: none
";
    assert_eq!(String::from_utf8(ended.output).unwrap(), expected);
}

#[test]
fn marks_offers_requests_and_ends() {
    let text =
        "clients 2 volumes 2 objects 1\nvolume lease 10 object lease 100 timeout 3\ndelay 1\nvolume 1 objects 0\n\
        join client 0 object 0\nclock 10\nask client 1 object 0\ndeliver 0\n";
    let ended = run_program(EXPLAIN, &["--tables", "10"], text.as_bytes());
    let output = String::from_utf8(ended.output).unwrap();
    for row in [
        "  0       1       10 ended  none         none\n",
        "  1       1       none      unreachable  number 1\n",
        "  1       2            number 1 for object 0\n",
    ] {
        assert!(output.contains(row), "{row}{output}");
    }
}

#[test]
fn fresh_tables_are_before_the_first_step() {
    let output = String::from_utf8(explained(&["--tables", "0"]).output).unwrap();
    assert!(output.starts_with("clock 0\n\nserver, volumes\n"));
    for empty in ["server, object leases", "clients, copies", "messages under way", "saved states"] {
        assert!(output.contains(&format!("\n{empty}: none\n")), "{output}");
    }
}

#[test]
fn a_step_that_does_not_exist_is_told() {
    let ended = explained(&["--tables", "22"]);
    assert_eq!((ended.status, ended.output.len()), (1, 0));
    assert!(
        ended.errors.ends_with(".run: --tables: found 22, expected a step from 0 to 21\n"),
        "{}",
        ended.errors
    );
    for (wrong, told) in
        [("-1", "--tables: found \"-1\", expected the number of a step"), ("x", "--tables: found \"x\"")]
    {
        let ended = explained(&["--tables", wrong]);
        assert_eq!(ended.status, 2);
        assert!(ended.errors.starts_with(told), "{}", ended.errors);
    }
}

/// As many rows as the state has entries, whatever the run.
#[test]
fn generated_states_have_their_rows() {
    for number in 10..40 {
        let scenario = Scenario::from(run(5, number));
        let run = &scenario.run;
        let Some((text, copies, queue)) = at(&scenario, run.steps.len() / 2, |moment| {
            let held = moment.after.copies(moment.setup).iter().filter(|copy| copy.version != 0).count();
            (tables::after(moment), held, moment.after.tables.queue.len)
        }) else {
            continue;
        };
        let rows = |title: &str| {
            let part = text.split("\n\n").find(|part| part.starts_with(title)).unwrap();
            part.lines().count().saturating_sub(2)
        };
        assert_eq!((rows("clients, copies"), rows("messages under way")), (copies, queue), "{text}");
        assert_eq!(rows("server, objects"), run.setup.objects.into());
        assert_eq!(rows("clients, requests"), run.setup.clients.into());
    }
}
