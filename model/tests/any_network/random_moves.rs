//! Random moves.

use model::step_record::Step;

use crate::network::Move;
use crate::stage::Stage;

pub fn take(stage: &mut Stage, count: usize) {
    for _ in 0..count {
        let next = any(stage);
        stage.make(next);
    }
}

pub fn any(stage: &mut Stage) -> Move {
    match stage.rng.below(100) {
        0..=54 => arrival(stage),
        55..=79 => ask(stage),
        _ => own(stage),
    }
}

fn ask(stage: &mut Stage) -> Move {
    Move::Own(Step::ask(stage.any_client(), stage.any_object()))
}

/// Returns writes, clock steps, restarts, and steps that change nothing.
fn own(stage: &mut Stage) -> Move {
    let (client, object) = (stage.any_client(), stage.any_object());
    Move::Own(match stage.rng.below(20) {
        0..=8 => Step::write(object, stage.new_value()),
        9..=14 => Step::clock(stage.any_time()),
        15 => Step::read(client, object),
        16 => Step::restart_server(),
        17 => Step::restart_client(client),
        18 => stage.rng.pick(&[Step::deliver, Step::lose, Step::double])(0),
        _ => Step { kind: stage.rng.draw() as u8, client, object, ..Step::default() },
    })
}

/// Returns mostly one of the newest messages, often any one, seldom one not
/// sent yet.
fn arrival(stage: &mut Stage) -> Move {
    let len = stage.sent().len();
    let back = match stage.rng.below(20) {
        0..=7 => 1,
        8..=12 => stage.rng.below(12) + 1,
        13 => 0,
        _ => stage.rng.below(len.max(1)) + 1,
    };
    Move::Arrival(len.saturating_sub(back))
}

/// Lets clients hold objects until their volume leases end, and writes some
/// then; after that come asks, writes and messages in no order.
pub fn parking(stage: &mut Stage) {
    for _ in 0..3 {
        let (client, object) = (stage.any_client(), stage.any_object());
        stage.hold(client, object);
    }
    let last = stage.server().volume_latest.into_iter().max().unwrap_or(0);
    let late = stage.rng.range(0, 3);
    stage.clock(last + late);
    for _ in 0..stage.rng.range(1, 4) {
        let object = stage.any_object();
        stage.write(object);
    }
    for _ in 0..30 {
        let next = match stage.rng.below(20) {
            0..=11 => arrival(stage),
            12..=16 => ask(stage),
            17 => own(stage),
            18 => Move::Own(Step::write(stage.any_object(), stage.new_value())),
            _ => Move::Own(Step::clock(stage.now() + stage.rng.range(0, 4))),
        };
        stage.make(next);
    }
}

/// Takes many steps of clients and server while nothing arrives; then most of
/// what was sent, and of what follows from it, in any order, with older
/// messages in between.
pub fn storm(stage: &mut Stage, steps: usize) {
    let before = stage.sent().len();
    for _ in 0..steps {
        let next = if stage.rng.percent(90) { ask(stage) } else { own(stage) };
        stage.make(next);
    }
    let mut coming: Vec<usize> = (before..stage.sent().len()).collect();
    while !coming.is_empty() {
        let sent = stage.sent().len();
        let place = coming.swap_remove(stage.rng.below(coming.len()));
        if stage.rng.percent(95) {
            stage.make(Move::Arrival(place));
        }
        if let (true, Some(again)) = (stage.rng.percent(20), stage.any_arrived()) {
            stage.make(Move::Arrival(again));
        }
        coming.extend(sent..stage.sent().len());
    }
}
