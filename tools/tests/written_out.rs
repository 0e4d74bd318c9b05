//! Messages by name and joins, written out as exact steps.

use model::gen::runs::{run, Run};
use model::message::Message;
use model::state::{Machine, State};
use model::step_call::step;
use model::step_record::{Step, DELIVER, DOUBLE, LOSE};
use tools::names::{item, kind, way};
use tools::scenario::Scenario;
use tools::text::which::Which;
use tools::text::{parse, print, script};

const SETUP: &str = "\
clients 2 volumes 1 objects 2
volume lease 10 object lease 100 timeout 3
delay 1
volume 0 objects 0 1
";

/// Returns the steps of these lines, in canonical form.
fn steps(lines: &str) -> Vec<String> {
    let run = parse(format!("{SETUP}{lines}").as_bytes());
    let run = run.unwrap_or_else(|troubles| panic!("{}", troubles[0]));
    print(&run).lines().skip(5).map(String::from).collect()
}

fn trouble(lines: &str) -> String {
    let troubles = parse(format!("{SETUP}{lines}").as_bytes()).unwrap_err();
    assert_eq!(troubles.len(), 1);
    troubles[0].to_string()
}

#[test]
fn a_join_is_what_it_takes() {
    let first = ["ask client 0 object 0", "deliver 0", "deliver 0", "deliver 0"];
    let granted = ["ask client 0 object 0", "deliver 0", "deliver 0"];
    assert_eq!(steps("join client 0 object 0\n"), [&first[..], &granted].concat());
    // From then on the volume is known; a message under way takes place 0.
    let known = steps("join client 0 object 0\nask client 1 object 1\njoin client 0 object 1\n");
    assert_eq!(known[8..], ["ask client 0 object 1", "deliver 1", "deliver 1"]);
    // After a restart of the server the client gets an offer again.
    assert_eq!(steps("join client 0 object 0\nrestart server\njoin client 0 object 0\n").len(), 15);
}

/// Returns the kinds of the messages that the last line delivers.
fn delivered_by_the_last(lines: &str) -> Vec<&'static str> {
    let scenario = Scenario::from(script(format!("{SETUP}{lines}").as_bytes()).unwrap());
    assert!(scenario.stopped().is_none(), "{:?}", scenario.stopped());
    let last = scenario.together(scenario.run.steps.len());
    let mut kinds = Vec::new();
    scenario.walk(|moment| {
        let taken = moment.taken().filter(|_| last.contains(&moment.number));
        kinds.extend(taken.map(|message| kind(&message.kind)));
    });
    kinds
}

/// At 12 the object is written and noted for client 0, whose volume lease ended
/// at 10.
#[test]
fn a_join_of_a_client_with_notes_takes_the_batch() {
    let noted = "join client 0 object 0\nclock 12\nwrite object 0 value 7 => completed 1\n";
    let batch = ["RENEW", "BATCH", "CLEARED", "RENEW", "GRANT"];
    for object in [0, 1] {
        let join = format!("join client 0 object {object}\n");
        assert_eq!(delivered_by_the_last(&format!("{noted}{join}")), batch);
        let read = format!("{noted}{join}read client 0 object 0 => ");
        let read = read + if object == 0 { "shown 7\n" } else { "ask first\n" };
        let scenario = Scenario::from(script(format!("{SETUP}{read}").as_bytes()).unwrap());
        assert!(tools::check::verdict(&scenario).holds());
    }
    // With a message under way, the round is at place 1.
    let written = steps(&format!("{noted}ask client 1 object 0\njoin client 0 object 0\n"));
    let round = ["ask client 0 object 0", "deliver 1", "deliver 1", "deliver 1"];
    assert_eq!(written[10..], [&round[..], &["ask client 0 object 0", "deliver 1", "deliver 1"]].concat());
    // The second join has no notes to hear of.
    let again = format!("{noted}join client 0 object 0\njoin client 0 object 0\n");
    assert_eq!(delivered_by_the_last(&again), ["RENEW", "GRANT"]);
}

/// The delay after 10 is over, so the next clock step marks the client, which
/// drops its notes. A restart of the client gets an OFFER at once.
#[test]
fn a_join_of_a_client_marked_with_notes_takes_the_offer() {
    let noted = "join client 0 object 0\nclock 12\nwrite object 0 value 7\n";
    let offer = ["RENEW", "OFFER", "DROPPED", "RENEW", "GRANT"];
    for between in ["clock 12\n", "restart client 0\n", "restart server\n"] {
        assert_eq!(delivered_by_the_last(&format!("{noted}{between}join client 0 object 0\n")), offer);
    }
}

#[test]
fn a_join_that_cannot_work_says_why() {
    let stopped = "line 7: found the join stopped at step ";
    let end = ", expected a step that leads to a GRANT";
    assert_eq!(
        trouble("join client 0 object 0\nwrite object 0 value 7\njoin client 1 object 0\n"),
        format!(
            "{stopped}14 (clock 0) deliver 1: done: RENEW 2 from client 1 (object 0, epoch 1, version 0); nothing: a write of \
             object 0 stands{end}"
        )
    );
    assert!(trouble("join client 0 object 0\nwrite object 0 value 7\njoin client 0 object 1\n")
        .contains("the write of object 0 still waits for client 0; sends INVALIDATE object 0 version 2"));
    assert!(trouble("\n\njoin client 2 object 0\n").starts_with(&format!(
        "{stopped}1 (clock 0) ask client 2 object 0: refused 3: no such item: client 2 of 2"
    )));
    let full = "ask client 1 object 1\n".repeat(64) + "join client 0 object 0\n";
    assert!(trouble(&full).contains("RENEW 1 from client 0 is lost, the queue has 64"));
}

#[test]
fn the_first_message_of_a_name_is_taken() {
    let asks = "ask client 1 object 0\nask client 0 object 0\nask client 0 object 1\n";
    for (word, line) in [("deliver", "deliver 1"), ("lose", "lose 1"), ("double", "double 1")] {
        assert_eq!(steps(&format!("{asks}{word} RENEW from client 0\n"))[3], line);
    }
}

/// Places 0 to 4 hold RENEW from client 0 for objects 0, 1, 0 and 1, and from
/// client 1 for object 0.
#[test]
fn one_of_several_messages_is_taken() {
    let asks = "ask client 0 object 0\nask client 0 object 1\nask client 0 object 0\nask client 0 object 1\n\
        ask client 1 object 0\n";
    for (message, place) in [
        ("RENEW from client 0", 0),
        ("first RENEW from client 0", 0),
        ("second RENEW from client 0", 1),
        ("4th RENEW from client 0", 3),
        ("last RENEW from client 0", 3),
        ("RENEW from client 0 object 1", 1),
        ("second RENEW from client 0 object 0", 2),
        ("last RENEW from client 0 object 0", 2),
        ("last RENEW from client 1", 4),
    ] {
        for word in ["deliver", "lose", "double"] {
            assert_eq!(
                steps(&format!("{asks}{word} {message}\n"))[5],
                format!("{word} {place}"),
                "{message}"
            );
        }
    }
    for (message, told) in [
        ("fifth RENEW from client 0", "no fifth RENEW from client 0 under way, expected one that is: "),
        ("RENEW from client 1 object 1", "no RENEW from client 1 object 1 under way, "),
        ("last GRANT to client 0", "no last GRANT to client 0 under way, "),
    ] {
        let trouble = trouble(&format!("{asks}lose {message}\n"));
        assert!(trouble.starts_with(&format!("line 10: found {told}")), "{trouble}");
    }
}

/// A client's newer GRANT is delivered before its older one.
#[test]
fn newer_before_older_needs_no_place() {
    let lines = "join client 0 object 0\nask client 0 object 0\ndeliver RENEW from client 0\nclock 5\n\
        ask client 0 object 0\ndeliver RENEW from client 0\ndeliver last GRANT to client 0\nclock 12\n\
        read client 0 object 0 => shown 0\ndeliver GRANT to client 0\nread client 0 object 0 => shown 0\n";
    let scenario = Scenario::from(script(format!("{SETUP}{lines}").as_bytes()).unwrap());
    assert!(scenario.stopped().is_none() && scenario.expectations().count() == 2);
    assert!(scenario.expectations().all(|(_, expectation)| expectation.holds()));
}

/// An OFFER and a DROPPED are about a volume.
#[test]
fn offers_are_told_apart_by_their_volumes() {
    let setup = "clients 1 volumes 2 objects 2\nvolume lease 10 object lease 100 timeout 3\ndelay 1\n\
        volume 0 objects 0\nvolume 1 objects 1\n";
    let asked = "ask client 0 object 0\nask client 0 object 1\ndeliver 0\ndeliver 0\n";
    let last = |line: &str| {
        parse(format!("{setup}{asked}{line}\n").as_bytes()).map(|run| *run.steps.last().unwrap())
    };
    assert_eq!(last("lose OFFER to client 0 volume 0").unwrap(), Step::lose(0));
    assert_eq!(last("lose OFFER to client 0 volume 1").unwrap(), Step::lose(1));
    assert_eq!(
        last("lose OFFER to client 0 object 1").unwrap_err()[0].to_string(),
        "line 10: found `object`, expected `volume`"
    );
}

#[test]
fn without_such_a_message_those_under_way_are_told() {
    assert_eq!(
        trouble("deliver GRANT to client 0\n"),
        "line 5: found no GRANT to client 0 under way, expected one, but no message is under way"
    );
    assert_eq!(
        trouble("ask client 0 object 0\nask client 1 object 0\ndeliver RENEW from client 0\nlose RENEW from client 0\n"),
        "line 8: found no RENEW from client 0 under way, expected one that is: 0 RENEW 1 from client 1 object 0, \
         1 OFFER 1 to client 0 volume 0"
    );
}

/// Returns the state after a run.
fn end(run: &Run) -> State {
    let mut machine = Machine::fresh();
    for record in &run.steps {
        step(&mut machine.world(&run.setup), record);
    }
    machine.state
}

/// Returns runs cut off in the middle, where more stands than at their ends.
fn generated() -> impl Iterator<Item = Run> {
    let cut = |number| {
        let Run { setup, mut steps, .. } = run(21, number);
        steps.truncate(steps.len() * 2 / 3);
        Run { note: Vec::new(), setup, steps }
    };
    (10..160).map(cut).filter(|run| run.steps.len() < 500)
}

/// In any state, a join ends with the copy shown, or says why not.
#[test]
fn joins_in_generated_states() {
    let (mut joined, mut stopped) = (0, 0);
    for run in generated() {
        for (client, object) in [(0, 0), (run.setup.clients - 1, run.setup.objects - 1)] {
            let lines =
                format!("join client {client} object {object}\nread client {client} object {object}\n");
            match parse((print(&run) + &lines).as_bytes()) {
                Ok(whole) => {
                    let last = tools::explain::line_at(&whole.clone().into(), whole.steps.len()).unwrap();
                    assert!(last.contains(": shown "), "{last}");
                    joined += 1;
                }
                Err(troubles) => {
                    assert!(troubles[0].to_string().contains("found the join stopped at step "));
                    stopped += 1;
                }
            }
        }
    }
    assert!(joined > 100 && stopped > 10, "{joined} joined, {stopped} stopped");
}

/// Returns every name of the message at this place: which one of its kind and
/// client, and which one of those about the same object or volume.
fn names_of(messages: &[Message], place: usize) -> Vec<String> {
    let message = &messages[place];
    let name = kind(&message.kind);
    let like = |other: &Message| kind(&other.kind) == name && other.client == message.client;
    let about = |other: &Message| like(other) && item(other) == item(message);
    let mut names = Vec::new();
    for (same, end) in [
        (&like as &dyn Fn(&Message) -> bool, String::new()),
        (&about, format!(" {} {}", tools::names::about(name), item(message))),
    ] {
        let named =
            |which: Which| format!("{}{name} {} client {}{end}", which.prefix(), way(name), message.client);
        names.push(named(Which::Nth(messages[..=place].iter().filter(|other| same(other)).count())));
        if !messages[place + 1..].iter().any(same) {
            names.push(named(Which::Last));
        }
    }
    names
}

/// In any state, each message under way is found by each of its names.
#[test]
fn names_in_generated_states() {
    let mut found = 0;
    for run in generated() {
        let state = end(&run);
        let messages = state.tables.queue.messages();
        for (number, place) in (0..messages.len()).enumerate() {
            let (word, kind) = [("deliver", DELIVER), ("lose", LOSE), ("double", DOUBLE)][number % 3];
            for name in names_of(messages, place) {
                let whole = parse(format!("{}{word} {name}\n", print(&run)).as_bytes()).unwrap();
                let step = Step { kind, place: place as u8, ..Step::default() };
                assert_eq!(whole.steps.last(), Some(&step), "{name}");
                found += 1;
            }
        }
    }
    assert!(found > 300, "{found}");
}
