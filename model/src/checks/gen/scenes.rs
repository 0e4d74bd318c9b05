//! What scenes share: reaching a state, and looking at it.

use crate::gen::builder::Builder;
use crate::gen::{random_steps, scenes_answers, scenes_grants, scenes_latest_end, scenes_leases};
use crate::gen::{scenes_marks, scenes_parked, scenes_queue, scenes_reasons};
use crate::gen::{scenes_restart, scenes_saved, scenes_writes};
use crate::limits::CLOCK_MAX;
use crate::step_record::Step;

/// A scene adds steps to a run, or stops if the setup is too small for it.
pub type Scene = fn(&mut Builder);

pub fn all() -> Vec<Scene> {
    [
        scenes_leases::SCENES,
        scenes_writes::SCENES,
        scenes_latest_end::SCENES,
        scenes_answers::SCENES,
        scenes_grants::SCENES,
        scenes_restart::SCENES,
        scenes_parked::SCENES,
        scenes_marks::SCENES,
        scenes_queue::SCENES,
        scenes_saved::SCENES,
        scenes_reasons::SCENES,
        random_steps::SCENES,
    ]
    .concat()
}

/// Asks and delivers only the messages that follow from it, leaving older ones
/// in the queue.
pub fn exchange(b: &mut Builder, client: u8, object: u8) {
    let before = b.queue_len();
    b.ask(client, object);
    while b.queue_len() > before && !b.full() {
        b.push(Step::deliver(before as u8));
    }
}

/// Exchanges until the client can show the object: twice after an offer.
pub fn hold(b: &mut Builder, client: u8, object: u8) -> bool {
    for _ in 0..3 {
        exchange(b, client, object);
        if b.read(client, object) {
            return true;
        }
    }
    false
}

/// Delivers from the front, at most this many.
pub fn drain(b: &mut Builder, most: usize) {
    for _ in 0..most {
        if b.queue_len() == 0 || b.full() {
            break;
        }
        b.push(Step::deliver(0));
    }
}

/// Loses everything under way.
pub fn lose_all(b: &mut Builder) {
    while b.queue_len() > 0 && !b.full() {
        b.push(Step::lose(0));
    }
}

/// Empties the queue and lets every standing write end.
pub fn calm(b: &mut Builder) {
    drain(b, 60);
    lose_all(b);
    let ends = b.server().write.iter().map(|write| write.latest_end + 1);
    let last = ends.max().unwrap_or(0).min(CLOCK_MAX);
    if b.server().standing != 0 && last > b.tables().clock {
        b.clock(last);
    }
}

/// Reads copies, all of them if they are few.
pub fn reads(b: &mut Builder) {
    if b.setup.copy_count() <= 12 {
        for client in 0..b.setup.clients {
            for object in 0..b.setup.objects {
                b.read(client, object);
            }
        }
        return;
    }
    for _ in 0..12 {
        let (client, object) = (b.any_client(), b.any_object());
        b.read(client, object);
    }
}

/// Looks at the state from all sides, so that a difference in the tables
/// changes an answer.
pub fn probe(b: &mut Builder) {
    reads(b);
    drain(b, 4);
    reads(b);
    if b.rng.percent(50) {
        drain(b, 70);
        b.push(Step::deliver(0));
        reads(b);
    }
}
