//! What explain tells about notes: why a write does not wait, what is noted, and
//! what becomes of it.

use tools::explain::{at, tables, told};
use tools::scenario::Scenario;
use tools::text::script;

const SETUP: &str = "\
clients 2 volumes 2 objects 4
volume lease 10 object lease 100 timeout 3
delay 5
volume 0 objects 0 1 2
volume 1 objects 3
";

/// At 12 both clients are parked: their volume leases ended at 10, and they
/// still have leases on object 0, client 1 also on object 1.
const PARKED: &str = "join client 0 object 0\njoin client 1 object 0\njoin client 1 object 1\nclock 12\n";

/// Object 0 is noted for both, and client 1 is sent BATCH 4.
const BATCH: &str = "write object 0 value 7\nask client 1 object 1\ndeliver RENEW from client 1\n";

fn scenario(steps: &str) -> Scenario {
    let script = script(format!("{SETUP}{steps}").as_bytes());
    let scenario = Scenario::from(script.unwrap_or_else(|troubles| panic!("{}", troubles[0])));
    assert!(scenario.stopped().is_none(), "{:?}", scenario.stopped());
    scenario
}

/// Checks the reasons of the last step, at the end of its line.
fn assert_told(steps: &str, reasons: &str) {
    let listing = told(&scenario(steps));
    let last = listing.lines().rfind(|line| !line.starts_with("still under way: ")).expect("a step");
    assert!(last.ends_with(reasons), "{last}");
}

#[test]
fn a_write_does_not_wait_for_parked_clients() {
    assert_told(
        &format!("{PARKED}write object 0 value 7"),
        "completed 1 write: nobody to wait for, stored as version 2; does not wait for clients 0, 1, whose volume leases \
         ended at 10: object 0 noted",
    );
    assert_told(
        &format!("{PARKED}write object 1 value 7"),
        "stored as version 2; does not wait for client 1, whose volume lease ended at 10: object 1 noted",
    );
    // Nobody has a lease on it.
    assert_told(&format!("{PARKED}write object 2 value 7"), ": nobody to wait for, stored as version 2");
}

#[test]
fn each_lease_has_its_end() {
    let join = "join client 0 object 0\nclock 5\njoin client 1 object 0\n";
    assert_told(
        &format!("{join}clock 15\nwrite object 0 value 7"),
        "does not wait for client 0 (volume lease ended at 10), client 1 (15): object 0 noted",
    );
    assert_told(
        &format!("{join}clock 10\nwrite object 0 value 7"),
        "done: stands, latest end 15 by the volume lease of client 1; waits for client 1; sends INVALIDATE object 0 \
         version 2 to client 1 at place 0; does not wait for client 0, whose volume lease ended at 10: object 0 noted",
    );
}

/// Client 0 did not answer the first write, so it was marked when that ended.
#[test]
fn nothing_is_noted_for_a_marked_client() {
    let marked = "join client 0 object 0\njoin client 0 object 1\nwrite object 0 value 7\nclock 11\n";
    assert_told(
        &format!("{marked}write object 1 value 8"),
        "stored as version 2; does not wait for client 0, whose volume lease ended at 10: marked unreachable, nothing noted",
    );
}

#[test]
fn a_renew_is_answered_with_what_is_noted() {
    assert_told(
        &format!("{PARKED}{BATCH}"),
        "RENEW 4 from client 1 (object 1, epoch 1, version 1); noted for client 1: object 0; sends BATCH 4 to client 1 \
         (volume 0, epoch 1, object 0) at place 0",
    );
    assert_told(
        &format!("{PARKED}{BATCH}ask client 1 object 2\ndeliver RENEW from client 1"),
        "RENEW 5 from client 1 (object 2, epoch 1, version 0); noted for client 1: object 0; replaces batch 4; sends BATCH \
         5 to client 1 (volume 0, epoch 1, object 0) at place 1",
    );
    let both = format!("{PARKED}write object 1 value 8\n{BATCH}");
    assert_told(
        &both,
        "noted for client 1: objects 0, 1; sends BATCH 4 to client 1 (volume 0, epoch 1, objects 0, 1) at place 0",
    );
}

#[test]
fn a_batch_erases_copies() {
    let batch = format!("{PARKED}{BATCH}");
    let sends = "sends CLEARED 4 from client 1 (volume 0, epoch 1, object 0) at place 0";
    assert_told(
        &format!("{batch}deliver BATCH to client 1"),
        &format!("done: BATCH 4 to client 1 (volume 0, epoch 1, object 0); copy of object 0 erased; {sends}"),
    );
    assert_told(
        &format!("{batch}ask client 1 object 0\ndeliver BATCH to client 1"),
        "nothing: client 1 waits for number 5",
    );
    assert_told(
        &format!("{batch}double BATCH to client 1\ndeliver BATCH to client 1\ndeliver BATCH to client 1"),
        "nothing: client 1 has no standing request",
    );
    let both = format!("{PARKED}write object 1 value 8\n{BATCH}deliver BATCH to client 1");
    assert_told(&both, "; copies of objects 0, 1 erased; sends CLEARED 4 from client 1 (volume 0, epoch 1, objects 0, 1) at place 0");
    // The first BATCH erased the copy of object 0.
    assert_told(
        &format!("{batch}deliver BATCH to client 1\nwrite object 1 value 8\nask client 1 object 0\ndeliver RENEW from client 1\ndeliver BATCH to client 1"),
        "; copy of object 1 erased; no copy of object 0 was held; sends CLEARED 5 from client 1 (volume 0, epoch 1, \
         objects 0, 1) at place 1",
    );
}

#[test]
fn a_later_note_voids_the_batch() {
    assert_told(
        &format!("{PARKED}{BATCH}write object 1 value 8"),
        "does not wait for client 1, whose volume lease ended at 10: object 1 noted; batch 4 of client 1 is void",
    );
}

/// The first write ended the leases on the object, so the second has nobody to
/// note it for.
#[test]
fn a_second_write_tells_for_whom_it_is_noted_already() {
    assert_told(
        &format!("{PARKED}{BATCH}write object 0 value 8"),
        ": nobody to wait for, stored as version 3; object 0 is already noted for clients 0, 1",
    );
    // Of another object nothing is noted before.
    assert_told(
        &format!("{PARKED}write object 1 value 8\nwrite object 0 value 7"),
        "does not wait for clients 0, 1, whose volume leases ended at 10: object 0 noted",
    );
}

/// The write of object 0 stands for client 1, so client 0 still has its lease.
#[test]
fn a_cleared_drops_a_lease_that_is_there() {
    let join = "join client 0 object 0\nclock 5\njoin client 1 object 0\nclock 10\nwrite object 0 value 7\n";
    let batch = "ask client 0 object 0\ndeliver RENEW from client 0\ndeliver BATCH to client 0\n";
    assert_told(
        &format!("{join}{batch}deliver CLEARED from client 0"),
        "; note of object 0 dropped; lease on object 0 dropped",
    );
}

#[test]
fn a_cleared_drops_notes_or_says_why_not() {
    let cleared = format!("{PARKED}{BATCH}deliver BATCH to client 1\n");
    let deliver = "deliver CLEARED from client 1\n";
    for (between, reasons) in [
        ("", ", object 0); note of object 0 dropped"),
        ("ask client 1 object 0\ndeliver RENEW from client 1\n", "; nothing: the batch's number is 5"),
        ("write object 1 value 8\n", "; nothing: no batch stands, noted: objects 0, 1"),
        ("double CLEARED from client 1\ndeliver CLEARED from client 1\n", "; nothing: no batch stands"),
        // Here the first CLEARED ended the batch, not the note.
        (
            "double CLEARED from client 1\ndeliver CLEARED from client 1\nwrite object 1 value 8\n",
            "; nothing: no batch stands, noted: object 1",
        ),
        ("restart server\n", "; nothing: the server's epoch is 2, no batch stands"),
        ("clock 15\n", "; nothing: no batch stands, client 1 is marked unreachable"),
    ] {
        assert_told(&format!("{cleared}{between}{deliver}"), reasons);
    }
}

#[test]
fn a_mark_drops_notes() {
    // One tick before the delay is over, and at its end.
    assert_told(&format!("{PARKED}{BATCH}clock 14"), "clock 14: done");
    assert_told(
        &format!("{PARKED}{BATCH}clock 15"),
        "done: client 0 marked unreachable in volume 0, since its lease there ended at 10 and the delay of 5 is over: note \
         of object 0 dropped; client 1 marked unreachable in volume 0, since its lease there ended at 10 and the delay of 5 \
         is over: note of object 0 dropped, batch 4 void",
    );
    // It was restarted and knows no epoch.
    assert_told(
        &format!("{PARKED}{BATCH}restart client 1\nask client 1 object 0\ndeliver last RENEW from client 1"),
        "the server's epoch is 1; client 1 marked unreachable in volume 0: note of object 0 dropped, batch 4 void; sends \
         OFFER 5 to client 1 (volume 0, epoch 1) at place 1",
    );
    // It did not answer the write of object 0, whose end is before the delay's.
    assert_told(
        "join client 0 object 0\njoin client 0 object 1\nclock 9\nwrite object 0 value 7\nclock 10\nwrite object 1 value \
         8\nclock 13",
        "latest end 12 passed, client 0 marked unreachable; client 0's note of object 1 dropped",
    );
}

#[test]
fn a_client_ages_in_each_volume() {
    assert_told(
        "join client 0 object 0\njoin client 0 object 1\nclock 1\njoin client 0 object 3\nclock 11\nwrite object 0 value \
         7\nwrite object 1 value 7\nwrite object 3 value 8\nclock 16",
        "done: client 0 marked unreachable in volume 0, since its lease there ended at 10 and the delay of 5 is over: notes \
         of objects 0, 1 dropped; client 0 marked unreachable in volume 1, since its lease there ended at 11 and the delay \
         of 5 is over: note of object 3 dropped",
    );
}

#[test]
fn a_restart_loses_notes() {
    assert_told(
        &format!("{PARKED}{BATCH}restart server"),
        "; client 0's note of object 0 lost; client 1's note of object 0 lost, batch 4 void",
    );
}

#[test]
fn the_papers_words_and_the_time_are_used() {
    let text = format!("{SETUP}one tick is 2 s\n{PARKED}write object 0 value 7\nclock 15\n");
    let paper = text.replace("client", "dash").replace("dashs", "dashes").replace("volume", "region");
    let listing = told(&Scenario::from(script(paper.replace("object", "notice").as_bytes()).unwrap()));
    assert!(listing
        .contains("does not wait for dashes 0, 1, whose region leases ended at 10 = 20 s: notice 0 noted"));
    assert!(listing.contains(
        "dash 0 marked unreachable in region 0, since its lease there ended at 10 = 20 s and the delay of 5 = 10 s is over: \
         note of notice 0 dropped"
    ));
}

#[test]
fn tables_have_the_notes_and_the_batch() {
    let scenario = scenario(&format!("{PARKED}write object 1 value 8\n{BATCH}"));
    let see = |step: usize| at(&scenario, step, tables::after).expect("the step");
    let last = scenario.run.steps.len();
    let notes = "\
server, notes
  client  volume  noted         batch
  0       0       object 0      none
  1       0       objects 0, 1  number 4
";
    assert!(see(last).contains(notes), "{}", see(last));
    assert!(see(last - 1).contains(&notes.replace("number 4", "none")));
    assert!(see(1).contains("server, notes: none\n"));
}
