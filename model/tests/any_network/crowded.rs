//! More than 64 messages under way, by hand.

use model::answer::Answer;
use model::gen::builder::{ACK, GRANT, INVALIDATE, OFFER, RENEW};
use model::gen::setups::sized;
use model::limits::QUEUE;
use model::message::Message;
use model::mistakes::Mistakes;
use model::rules::{Papers, Rules};
use model::setup::Setup;
use model::state::Machine;
use model::step_record::Step;

use crate::network::Move;
use crate::under_way::most_under_way;
use crate::watched::Watched;

const CLIENTS: u8 = 16;
const OBJECTS: u8 = 5;

/// Each client with each object: more than the list has places.
const ALL: usize = CLIENTS as usize * OBJECTS as usize;

fn setup() -> Setup {
    sized(CLIENTS, 1, OBJECTS)
}

fn fresh() -> Watched {
    Watched::fresh(Mistakes::NONE, setup())
}

fn pairs() -> impl Iterator<Item = (u8, u8)> {
    (0..CLIENTS).flat_map(|client| (0..OBJECTS).map(move |object| (client, object)))
}

/// Lets these messages arrive, and returns those that were sent meanwhile.
fn arrive(run: &mut Watched, places: impl Iterator<Item = usize>) -> Vec<usize> {
    let before = run.network.sent.len();
    for place in places {
        assert!(matches!(run.make(Move::Arrival(place)), Answer::Delivered { .. }));
    }
    (before..run.network.sent.len()).collect()
}

fn all_of_kind(messages: &[Message], kind: u8) -> bool {
    messages.iter().all(|message| message.kind.code() == kind)
}

fn all_differ(messages: &[Message]) -> bool {
    messages.iter().enumerate().all(|(place, message)| !messages[..place].contains(message))
}

/// Of a client's RENEWs that arrive last first, the server answers one; when
/// they arrive again, it answers none.
#[test]
fn eighty_renews_arrive_the_last_first() {
    let mut run = fresh();
    for (client, object) in pairs() {
        run.make(Move::Own(Step::ask(client, object)));
    }
    assert!(run.network.sent.len() == ALL && all_of_kind(&run.network.sent, RENEW));
    assert!(ALL > QUEUE && all_differ(&run.network.sent));
    let offers = arrive(&mut run, (0..ALL).rev());
    assert!(offers.len() == 16 && all_of_kind(&run.network.sent[ALL..], OFFER));
    assert_eq!(most_under_way(&run), ALL);
    let dropped = arrive(&mut run, offers.into_iter());
    assert!(arrive(&mut run, dropped.into_iter().chain(0..ALL)).is_empty());
    assert_eq!(run.breach, None);
}

/// Connects every client and gives it every object.
fn all_hold_all(run: &mut Watched) {
    for (client, object) in (0..CLIENTS).map(|client| (client, 0)).chain(pairs()) {
        run.make(Move::Own(Step::ask(client, object)));
        let mut coming = vec![run.network.sent.len() - 1];
        while !coming.is_empty() {
            coming = arrive(run, coming.into_iter());
        }
    }
    assert!(run.network.sent.last().is_some_and(|message| message.kind.code() == GRANT));
}

/// Every INVALIDATE of five writes arrives, and so does every ACK: each write
/// completes with its last one.
#[test]
fn five_writes_wait_for_eighty_acks() {
    let mut run = fresh();
    all_hold_all(&mut run);
    let before = run.network.sent.len();
    for object in 0..OBJECTS {
        run.make(Move::Own(Step::write(object, 7)));
    }
    let invalidates: Vec<_> = (before..run.network.sent.len()).collect();
    assert!(invalidates.len() == ALL && all_of_kind(&run.network.sent[before..], INVALIDATE));
    let acks = arrive(&mut run, invalidates.into_iter().rev());
    assert!(acks.len() == ALL && all_of_kind(&run.network.sent[before + ALL..], ACK));
    assert_eq!(run.ledger.completed, 0);
    let (last, others) = acks.split_last().expect("an ACK");
    arrive(&mut run, others.iter().copied());
    assert_eq!(run.ledger.completed, usize::from(OBJECTS) - 1);
    arrive(&mut run, std::iter::once(*last));
    assert_eq!((run.ledger.completed, run.breach), (usize::from(OBJECTS), None));
    assert!(most_under_way(&run) >= ALL);
}

/// The same with the list of 64: the INVALIDATEs past its end are lost, and the
/// last write is left waiting.
#[test]
fn the_list_of_64_loses_some_of_them() {
    let mut run = fresh();
    all_hold_all(&mut run);
    let mut machine = Machine { state: run.network.state, ..Machine::fresh() };
    let mut world = machine.world(&run.network.setup);
    for object in 0..OBJECTS {
        Papers.step(&mut world, &Step::write(object, 7));
    }
    assert_eq!(world.tables.queue.len, QUEUE);
    while world.tables.queue.len > 0 {
        Papers.step(&mut world, &Step::deliver(0));
    }
    assert_eq!(world.tables.server.standing, 1 << (OBJECTS - 1));
}
