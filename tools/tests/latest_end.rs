//! What fixes a write's latest end, compared with the model's tables.

use model::bits::members;
use model::gen::runs::run;
use model::step_record::WRITE;
use tools::explain::listing;
use tools::latest_end::{cause, Cause, Leases};
use tools::text::parse;
use tools::trace::{walk, Moment};

/// Returns the times that a cause names, as the tables before the write have
/// them, each with its client.
fn named(moment: &Moment, cause: &Cause) -> Vec<(Option<usize>, u32)> {
    let (server, object) = (moment.server_before(), usize::from(moment.step.object));
    let volume = moment.setup.volume(object);
    match cause {
        Cause::Leases(leases) => {
            let by_volume = |client| (Some(client), server.volume_expiry[volume][client]);
            let by_object = |client| (Some(client), server.object_expiry[object][client]);
            let of_volume = members(leases.volume.into()).map(by_volume);
            of_volume.chain(members(leases.object.into()).map(by_object)).collect()
        }
        Cause::Guard => vec![(None, server.guard[volume])],
        Cause::Timeout => vec![(None, moment.before.tables.clock + moment.setup.timeout)],
    }
}

/// Checks that every time named is the model's latest end. A client is named
/// once, is waited for and has no lease that ends earlier; no other client
/// waited for lasts as long.
fn assert_fixes(moment: &Moment, cause: &Cause, name: &str) {
    let (server, object) = (moment.server_before(), usize::from(moment.step.object));
    let write = &moment.server().write[object];
    let named = named(moment, cause);
    assert!(!named.is_empty(), "{name}: nothing fixes the end");
    assert!(named.iter().all(|(_, time)| *time == write.latest_end), "{name}: {cause:?}");
    let is_named = |client| named.iter().filter(|(named, _)| *named == Some(client)).count();
    assert!(named.iter().filter_map(|(client, _)| *client).all(|client| write.waiting >> client & 1 == 1));
    for client in members(write.waiting.into()) {
        let leases =
            [server.volume_expiry[moment.setup.volume(object)][client], server.object_expiry[object][client]];
        let last = leases.iter().all(|&end| end >= write.latest_end);
        assert_eq!(is_named(client), usize::from(last), "{name}: client {client}, {cause:?}");
    }
}

/// Every write that stands after its step has its cause, of every kind.
#[test]
fn the_cause_has_the_models_time() {
    let (mut volume, mut object, mut guard, mut timeout, mut several) = (0, 0, 0, 0, 0);
    for (seed, number) in (1..=6).flat_map(|seed| (0..100).map(move |number| (seed, number))) {
        walk(&run(seed, number), |moment| {
            let place = usize::from(moment.step.object);
            let opened = moment.step.kind == WRITE && !moment.refused();
            let stands = opened && moment.server().stands(place);
            let cause = cause(moment);
            assert_eq!(cause.is_some(), stands);
            let Some(cause) = cause else { return };
            assert_fixes(moment, &cause, &format!("seed {seed}, run {number}, step {}", moment.number));
            match cause {
                Cause::Leases(leases) => {
                    volume += usize::from(leases.volume != 0);
                    object += usize::from(leases.object != 0);
                    several += usize::from((leases.volume | leases.object).count_ones() > 1);
                }
                Cause::Guard => guard += 1,
                Cause::Timeout => timeout += 1,
            }
        });
    }
    let counts = [volume, object, guard, timeout, several];
    assert!(counts.into_iter().all(|count| count > 15), "{counts:?}");
}

const LONG_OBJECT_LEASES: &str = "volume lease 10 object lease 100 timeout 3\ndelay 1";
const LONG_VOLUME_LEASES: &str = "volume lease 20 object lease 8 timeout 3\ndelay 1";
const EQUAL_LEASES: &str = "volume lease 20 object lease 20 timeout 3\ndelay 1";

/// Checks what is told about a write of object 0 after these steps. Client 0
/// holds object 0 from time 0 on.
fn assert_told(ticks: &str, steps: &str, told: &str) {
    let setup = format!("clients 3 volumes 1 objects 2\n{ticks}\nvolume 0 objects 0 1\n");
    let text = format!("{setup}join client 0 object 0\n{steps}write object 0 value 7\n");
    let run = parse(text.as_bytes()).unwrap_or_else(|troubles| panic!("{}", troubles[0]));
    let end = format!(" write object 0 value 7: done: stands, latest end {told}");
    let explained = listing(&run);
    let last = explained.lines().last().and_then(|line| line.split("; sends INVALIDATE ").next());
    assert!(last.unwrap().ends_with(&end), "{explained}{end}");
}

#[test]
fn each_kind_is_told() {
    assert_told(LONG_OBJECT_LEASES, "", "10 by the volume lease of client 0; waits for client 0");
    assert_told(LONG_VOLUME_LEASES, "", "8 by the object lease of client 0; waits for client 0");
    assert_told(LONG_OBJECT_LEASES, "clock 9\n", "12 by the timeout; waits for client 0");
    assert_told(LONG_OBJECT_LEASES, "restart server\n", "10 by the guard; waits for the guard, 10");
}

/// A client that never held the object has the last lease on its volume.
#[test]
fn the_lease_of_another_object_fixes_nothing() {
    let steps = "clock 5\njoin client 1 object 1\n";
    assert_told(LONG_OBJECT_LEASES, steps, "10 by the volume lease of client 0; waits for client 0");
}

#[test]
fn clients_whose_leases_end_together_are_all_told() {
    let together = "join client 2 object 0\n";
    let told = "10 by the volume leases of clients 0, 2; waits for clients 0, 2";
    assert_told(LONG_OBJECT_LEASES, together, told);
    // Client 0 has a new volume lease, client 2 has both leases.
    let renewed = "clock 90\njoin client 2 object 0\nclock 95\njoin client 0 object 1\n";
    let told = "100 by the volume lease of client 2 and the object lease of client 0; waits for clients 0, 2";
    assert_told(LONG_OBJECT_LEASES, renewed, told);
}

/// The volume lease comes before the object lease, leases before the guard, and
/// the guard before the timeout.
#[test]
fn of_equal_times_the_first_is_told() {
    assert_told(EQUAL_LEASES, "", "20 by the volume lease of client 0; waits for client 0");
    let again = "restart server\njoin client 0 object 0\n";
    let told = "10 by the volume lease of client 0; waits for client 0 and the guard, 10";
    assert_told(LONG_OBJECT_LEASES, again, told);
    assert_told(LONG_OBJECT_LEASES, "clock 7\n", "10 by the volume lease of client 0; waits for client 0");
    let guarded = "restart server\nclock 7\n";
    assert_told(LONG_OBJECT_LEASES, guarded, "10 by the guard; waits for the guard, 10");
}

#[test]
fn words_tell_which_lease() {
    let leases = |volume, object| Cause::Leases(Leases { volume, object });
    for (cause, words, short) in [
        (leases(0b1, 0), "the volume lease of client 0", "client 0"),
        (leases(0b101, 0), "the volume leases of clients 0, 2", "clients 0, 2"),
        (leases(0, 0b110), "the object leases of clients 1, 2", "clients 1, 2"),
        (leases(0b100, 0b1), "the volume lease of client 2 and the object lease of client 0", "clients 0, 2"),
        (Cause::Guard, "the guard", "the guard"),
        (Cause::Timeout, "the timeout", "the timeout"),
    ] {
        assert_eq!((cause.words().as_str(), cause.short().as_str()), (words, short));
    }
}
