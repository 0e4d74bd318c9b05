//! Runs made by hand: each case of the claim, and that each of its premises is
//! needed.

use model::answer::Answer;
use model::mistakes::Mistakes;
use model::step_record::Step;
use model::until_shown::{self, Ending};

use crate::common::Bench;

/// Returns whether the premises hold, the steps claimed, and how it ended.
fn until_shown(bench: &mut Bench, client: u8, object: u8) -> (bool, u32, Ending) {
    let mut world = bench.world();
    let premises = world.until_shown_premises(client, object);
    let claimed = world.until_shown_claim(client, object);
    (premises, claimed, until_shown::until_shown(Mistakes::NONE, &mut world, client, object))
}

fn shown(bench: &mut Bench, client: u8, object: u8, steps: u32, value: u64) {
    let (premises, claimed, ending) = until_shown(bench, client, object);
    assert!(premises);
    assert_eq!((claimed, ending.steps), (steps, steps));
    assert_eq!((ending.refused, ending.messages, ending.read), (None, 0, Answer::Shown(value)));
}

/// Returns, without the premises, the steps claimed, those taken, and the read.
fn without(bench: &mut Bench, client: u8, object: u8) -> (u32, u32, Answer) {
    let (premises, claimed, ending) = until_shown(bench, client, object);
    assert!(!premises);
    assert_eq!((ending.refused, ending.messages), (None, 0));
    (claimed, ending.steps, ending.read)
}

#[test]
fn each_case_in_turn() {
    let mut bench = Bench::fresh();
    shown(&mut bench, 0, 0, 7, 0);
    shown(&mut bench, 0, 0, 3, 0);
    bench.all(&[Step::clock(10)]);
    shown(&mut bench, 0, 0, 3, 0);
    bench.all(&[Step::write(0, 5), Step::deliver(0), Step::deliver(0)]);
    shown(&mut bench, 0, 0, 3, 5);
    bench.all(&[Step::write(0, 6), Step::lose(0), Step::clock(21)]);
    assert_eq!(bench.state.tables.server.unreachable[0], 1);
    shown(&mut bench, 0, 0, 7, 6);
    bench.all(&[Step::restart_server()]);
    assert_eq!(bench.state.tables.server.guard[0], 31);
    shown(&mut bench, 0, 0, 7, 6);
    bench.all(&[Step::restart_client(0)]);
    shown(&mut bench, 0, 0, 7, 6);
    bench.all(&[Step::ask(0, 0), Step::lose(0)]);
    shown(&mut bench, 0, 0, 3, 6);
}

/// Grants these objects to these clients, then writes one and loses its
/// INVALIDATE, so that the list is empty while the write stands.
fn written(granted: &[(u8, u8)], object: u8) -> Bench {
    let mut bench = Bench::fresh();
    granted.iter().for_each(|&(client, object)| bench.hold(client, object));
    bench.all(&[Step::write(object, 5), Step::lose(0)]);
    bench
}

/// The RENEW brings back the INVALIDATE of the other object, and no GRANT.
#[test]
fn a_write_on_another_object_of_the_volume() {
    let mut bench = written(&[(0, 1)], 1);
    assert_eq!(without(&mut bench, 0, 0), (3, 4, Answer::AskFirst));
    shown(&mut bench, 0, 0, 3, 0);
}

/// The RENEW is not answered while the write waits for another client.
#[test]
fn a_write_on_the_object() {
    let mut bench = written(&[(0, 1), (1, 0)], 0);
    assert_eq!(without(&mut bench, 0, 0), (3, 2, Answer::AskFirst));
}

#[test]
fn a_write_in_another_volume_does_not_matter() {
    let mut bench = written(&[(0, 0), (0, 2)], 2);
    shown(&mut bench, 0, 0, 3, 0);
    shown(&mut bench, 1, 0, 7, 0);
}

/// An INVALIDATE that arrives twice ends the request, so its GRANT is for
/// nobody.
#[test]
fn a_message_under_way_that_ends_the_request() {
    let mut bench = Bench::fresh();
    bench.hold(0, 0);
    bench.all(&[Step::write(0, 5), Step::double(0), Step::deliver(0)]);
    assert_eq!(bench.line(Step::deliver(1)), (3, 1));
    assert_eq!(without(&mut bench, 0, 0), (3, 5, Answer::AskFirst));
    shown(&mut bench, 0, 0, 3, 5);
}

/// An older RENEW gets an offer, too: shown, but after 9.
#[test]
fn a_message_under_way_that_takes_time() {
    let mut bench = Bench::fresh();
    bench.all(&[Step::ask(0, 0)]);
    assert_eq!(without(&mut bench, 0, 0), (7, 9, Answer::Shown(0)));
}

/// "The wait of A1 excludes dashes with notes": it ends with a CLEARED, after
/// which it does not ask again. Notes in another volume do not matter.
#[test]
fn a_client_with_notes() {
    let mut bench = Bench::fresh();
    bench.hold(0, 1);
    bench.all(&[Step::clock(10), Step::write(1, 5)]);
    shown(&mut bench, 0, 2, 7, 0);
    assert_eq!(without(&mut bench, 0, 0), (3, 4, Answer::AskFirst));
    shown(&mut bench, 0, 0, 3, 0);
}

/// Made by hand only: no run takes that many numbers.
#[test]
fn two_request_numbers() {
    for (next, left) in [(4_294_967_293, true), (4_294_967_294, false)] {
        let mut bench = Bench::fresh();
        let setup = bench.setup;
        bench.state.parts(&setup).2[0].next = next;
        let (premises, claimed, ending) = until_shown(&mut bench, 0, 0);
        assert_eq!((premises, claimed), (left, 7));
        let (steps, refused, read) =
            if left { (7, None, Answer::Shown(0)) } else { (4, Some(6), Answer::AskFirst) };
        assert_eq!((ending.steps, ending.refused, ending.read), (steps, refused, read), "next {next}");
    }
}

/// In sound tables that no run reaches, the server may have seen the number.
#[test]
fn a_reachable_state() {
    let mut bench = Bench::fresh();
    bench.state.tables.server.seen[0] = 1;
    let (premises, claimed, ending) = until_shown(&mut bench, 0, 0);
    assert_eq!((premises, claimed), (true, 7));
    assert_eq!((ending.steps, ending.messages, ending.read), (2, 0, Answer::AskFirst));
}

#[test]
fn a_full_list_is_not_followed_to_its_end() {
    let mut bench = Bench::fresh();
    bench.all(&[Step::ask(0, 0); 64]);
    let (premises, _, ending) = until_shown(&mut bench, 0, 0);
    assert!(!premises && ending.messages > 0);
    assert_eq!((ending.steps, ending.refused), (64, None));
}
