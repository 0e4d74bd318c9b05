//! What the network's promise demands of the outside world, each premise shown
//! by hand where it is broken, and what storage may do instead of keeping
//! everything.

use model::answer::Answer;
use model::gen::rng::Rng;
use model::gen::setups::{self, sized};
use model::message::{Grant, Kind, Message};
use model::mistakes::Mistakes;
use model::step_record::{Step, RESTART_CLIENT, RESTART_SERVER};

use crate::ledger::Breach;
use crate::network::Move;
use crate::random_moves;
use crate::scenes::acknowledged_write;
use crate::stage::Stage;

/// Returns a stage with one client that holds the one object.
fn holding() -> Stage {
    let mut stage = Stage::new(Rng::new(0), Mistakes::NONE, sized(1, 1, 1));
    stage.hold(0, 0).expect("held");
    stage
}

/// Returns a stage after a write ended without the client, which still has the
/// old copy.
fn written_without_client() -> Stage {
    let mut stage = holding();
    stage.write(0);
    stage.clock(stage.latest_end(0) + 1);
    assert!(stage.run.ledger.completed == 1 && stage.run.breach.is_none());
    stage
}

/// No message is forged.
#[test]
fn a_message_that_nobody_sent() {
    let mut stage = holding();
    acknowledged_write(&mut stage, 0, 0).expect("acknowledged");
    stage.ask(0, 0);
    let number = stage.request(0).next - 1;
    let grant =
        Grant { object: 0, number, volume_expiry: 9, epoch: 1, version: 1, object_expiry: 9, value: Some(0) };
    stage.run.network.sent.push(Message { client: 0, kind: Kind::Grant(grant) });
    assert_eq!(stage.run.breach, None);
    stage.arrive(stage.sent().len() - 1);
    assert!(stage.run.shows_wrong());
}

/// A client reads at a time that is not before the server's clock. At any such
/// time it shows no old copy, at an earlier one it does.
#[test]
fn a_client_whose_clock_is_behind() {
    let mut stage = written_without_client();
    let now = stage.now();
    let mut read_at = |time| {
        stage.run.network.state.tables.clock = time;
        stage.run.network.step(&Step::read(0, 0))
    };
    for time in [now, now + 1, now + 1_000] {
        assert_eq!(read_at(time), Answer::AskFirst);
    }
    assert_eq!(read_at(now - 2), Answer::Shown(0));
}

/// Value and version are stored together: here the server comes back with the
/// new value and the old version, which the client still has.
#[test]
fn a_value_stored_without_its_version() {
    let mut stage = written_without_client();
    stage.run.network.state.tables.server.version[0] -= 1;
    stage.restart_server();
    assert_eq!(stage.run.breach, None);
    stage.hold(0, 0);
    assert!(stage.run.shows_wrong());
}

/// Tables that somebody else has written to are noticed.
#[test]
fn tables_changed_from_outside() {
    let mut stage = holding();
    stage.run.network.state.tables.server.value[0] = 3;
    stage.clock(1);
    assert!(matches!(stage.run.breach, Some((_, Breach::Value { value: 3, .. }))));
    let mut stage = holding();
    stage.run.network.state.tables.server.version[0] = 0;
    stage.clock(1);
    assert!(matches!(stage.run.breach, Some((_, Breach::Refused(1)))));
}

/// Before a restart, lets the server take any VE up to clock + tv for the one
/// it had, and a client any higher number for its next one.
fn store_loosely(stage: &mut Stage, kind: u8, client: u8) {
    let (setup, now) = (*stage.setup(), stage.now());
    let (rng, network) = (&mut stage.rng, &mut stage.run.network);
    let (tables, _, requests) = network.state.parts(&setup);
    if kind == RESTART_SERVER {
        for latest in &mut tables.server.volume_latest[..usize::from(setup.volumes)] {
            *latest = rng.range(*latest, now + setup.volume_lease);
        }
    }
    if kind == RESTART_CLIENT {
        requests[usize::from(client)].next += rng.range(0, 1_000);
    }
}

#[test]
fn storage_may_keep_a_later_end_and_a_higher_number() {
    let mut restarts = 0;
    for seed in 0..100 {
        let mut rng = Rng::new(seed);
        let setup = setups::any(&mut rng);
        let mut stage = Stage::new(rng, Mistakes::NONE, setup);
        for _ in 0..1_500 {
            let next = random_moves::any(&mut stage);
            if let Move::Own(step) = next {
                store_loosely(&mut stage, step.kind, step.client);
                restarts += usize::from(step.kind >= RESTART_SERVER);
            }
            stage.make(next);
        }
        assert_eq!(stage.run.breach, None, "seed {seed}");
    }
    assert!(restarts > 1_000, "{restarts}");
}
