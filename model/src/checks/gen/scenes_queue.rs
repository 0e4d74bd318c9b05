//! Scenes about the message list itself, and refusals of the gate.

use crate::gen::builder::Builder;
use crate::gen::scenes::{drain, probe, reads, Scene};
use crate::limits::{CLOCK_MAX, QUEUE};
use crate::step_record::Step;

pub const SCENES: &[Scene] = &[full_of_asks, full_of_doubles, order, missing_items, bad_times, unknown_kinds];

/// Fills the list, then sends one more, and looks at both ends.
fn full_of_asks(b: &mut Builder) {
    fill(b);
    b.push(Step::deliver(QUEUE as u8));
    let (client, object) = (b.any_client(), b.any_object());
    b.ask(client, object);
    let place = b.rng.pick(&[0, 1, 62, 63]);
    b.push(Step::double(place));
    b.write(object);
    b.push(Step::deliver(63));
    b.push(Step::deliver(63));
    take_out(b);
}

fn full_of_doubles(b: &mut Builder) {
    let (client, object) = (b.any_client(), b.any_object());
    b.ask(client, object);
    while b.queue_len() < QUEUE && !b.full() {
        let place = b.rng.below(b.queue_len()) as u8;
        b.push(Step::double(place));
    }
    b.push(Step::double(0));
    b.push(Step::double(0));
    b.push(Step::lose(64));
    b.push(Step::lose(63));
    b.push(Step::lose(63));
    take_out(b);
}

fn fill(b: &mut Builder) {
    while b.queue_len() < QUEUE && !b.full() {
        let (client, object) = (b.any_client(), b.any_object());
        b.ask(client, object);
    }
}

/// Empties a long list at all its places, slowly or at once.
fn take_out(b: &mut Builder) {
    for _ in 0..20 {
        let Some(last) = b.queue_len().checked_sub(1) else {
            break;
        };
        let place = b.rng.below(last + 1) as u8;
        let step = b.rng.pick(&[Step::deliver, Step::lose]);
        b.push(step(place));
    }
    drain(b, 250);
    b.push(Step::deliver(0));
    reads(b);
}

/// Takes a few different messages out of order: a removal closes the gap and a
/// copy goes to the end.
fn order(b: &mut Builder) {
    for _ in 0..5 {
        let (client, object) = (b.any_client(), b.any_object());
        b.ask(client, object);
    }
    for _ in 0..b.rng.range(4, 12) {
        if b.queue_len() == 0 {
            break;
        }
        let place = b.rng.below(b.queue_len()) as u8;
        let step = b.rng.pick(&[Step::deliver, Step::lose, Step::double]);
        b.push(step(place));
    }
    probe(b);
}

/// Provokes refusal 3 by each field that a kind uses, at the first number too
/// high.
fn missing_items(b: &mut Builder) {
    let (clients, objects) = (b.setup.clients, b.setup.objects);
    let high = b.rng.range(0, 200) as u8;
    let place = b.queue_len() as u8;
    for step in [
        Step::read(clients, 0),
        Step::read(0, objects),
        Step::ask(clients.saturating_add(high), 0),
        Step::ask(0, objects),
        Step::write(objects, 1),
        Step::deliver(place),
        Step::lose(place.saturating_add(high)),
        Step::double(place),
        Step::restart_client(clients),
        Step::deliver(255),
    ] {
        b.push(step);
    }
    probe(b);
}

/// Provokes refusal 4 below the clock and above its limit, and takes what is
/// just right.
fn bad_times(b: &mut Builder) {
    let clock = b.tables().clock;
    for time in [clock.saturating_sub(1), clock, 0, CLOCK_MAX + 1, u32::MAX, clock] {
        b.clock(time);
    }
    reads(b);
    // The last tick ends most of what a run can do, so it is rare.
    if b.rng.percent(10) {
        b.clock(CLOCK_MAX);
        b.clock(CLOCK_MAX);
    }
    probe(b);
}

/// Provokes refusal 2, with any fields: the file's shape asks nothing of them.
fn unknown_kinds(b: &mut Builder) {
    for _ in 0..4 {
        let bits = b.rng.draw();
        let kind = b.rng.pick(&[0, 12, 13, 14, 255, bits as u8 | 16]);
        let value = b.rng.draw();
        b.push(Step {
            kind,
            client: (bits >> 8) as u8,
            object: (bits >> 16) as u8,
            place: (bits >> 24) as u8,
            clock: (bits >> 32) as u32,
            value,
        });
    }
}
