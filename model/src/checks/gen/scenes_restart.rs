//! Scenes about restarts, most of them inside a write.

use crate::gen::builder::{Builder, ACK, DROPPED, GRANT, INVALIDATE, OFFER, RENEW};
use crate::gen::scenes::{calm, exchange, hold, probe, Scene};
use crate::step_record::Step;

pub const SCENES: &[Scene] = &[
    ack_of_old_epoch,
    guard_without_holder,
    guard_with_holder,
    ack_before_guard,
    two_restarts,
    restart_inside_write,
    restart_before_renew,
    old_renew_after_restart,
    client_restart,
    client_restart_before_grant,
    dropped_ends_write,
    dropped_ends_two_writes,
];

fn guard(b: &Builder, object: u8) -> u32 {
    b.server().guard[b.setup.volume(object.into())]
}

/// Third trap: the write after the restart has the same new version as the
/// one that the restart cut off.
fn ack_of_old_epoch(b: &mut Builder) {
    let (client, object) = (b.any_client(), b.any_object());
    calm(b);
    hold(b, client, object);
    b.write(object);
    b.deliver(client, INVALIDATE);
    b.push(Step::restart_server());
    let past_guard = guard(b, object).max(b.tables().clock);
    b.clock(past_guard);
    hold(b, client, object);
    b.write(object);
    b.deliver(client, ACK);
    b.read(client, object);
    probe(b);
}

/// No completion one tick before the guard, completion at it.
fn guard_without_holder(b: &mut Builder) {
    let (client, object) = (b.any_client(), b.any_object());
    hold(b, client, object);
    b.push(Step::restart_server());
    b.write(object);
    let guard = guard(b, object);
    b.advance(b.setup.timeout + 1);
    for time in [guard.saturating_sub(1), guard, guard.saturating_add(1)] {
        b.clock(time);
        b.read(client, object);
    }
    probe(b);
}

/// As before, with a client that is waited for past the guard.
fn guard_with_holder(b: &mut Builder) {
    let (client, object) = (b.any_client(), b.any_object());
    hold(b, client, object);
    b.push(Step::restart_server());
    hold(b, client, object);
    b.write(object);
    let guard = guard(b, object);
    for time in [guard.saturating_sub(1), guard, guard.saturating_add(1)] {
        b.clock(time);
    }
    probe(b);
    b.clock(b.latest_end(object).saturating_add(1));
    probe(b);
}

fn ack_before_guard(b: &mut Builder) {
    let (client, object) = (b.any_client(), b.any_object());
    calm(b);
    hold(b, client, object);
    b.push(Step::restart_server());
    hold(b, client, object);
    b.write(object);
    b.deliver(client, INVALIDATE);
    b.deliver(client, ACK);
    b.clock(guard(b, object).saturating_sub(1));
    b.clock(guard(b, object));
    probe(b);
}

/// VE remains over both restarts, so the second sets the guard too.
fn two_restarts(b: &mut Builder) {
    let (client, object) = (b.any_client(), b.any_object());
    hold(b, client, object);
    b.push(Step::restart_server());
    if b.rng.percent(50) {
        b.write(object);
    }
    b.push(Step::restart_server());
    b.write(object);
    b.read(client, object);
    b.clock(guard(b, object));
    exchange(b, client, object);
    probe(b);
}

/// The restart cuts the write off: another may be accepted at once.
fn restart_inside_write(b: &mut Builder) {
    let (client, object) = (b.any_client(), b.any_object());
    hold(b, client, object);
    b.write(object);
    if b.rng.percent(50) {
        b.deliver(client, INVALIDATE);
    }
    b.push(Step::restart_server());
    let wait = b.rng.percent(50);
    if wait {
        b.clock(guard(b, object).max(b.tables().clock));
    }
    b.write(object);
    b.deliver(client, INVALIDATE);
    b.deliver(client, ACK);
    probe(b);
}

/// A RENEW of the old epoch is under way at the restart.
fn restart_before_renew(b: &mut Builder) {
    let (client, object) = (b.any_client(), b.any_object());
    calm(b);
    hold(b, client, object);
    b.ask(client, object);
    b.push(Step::restart_server());
    b.deliver(client, RENEW);
    b.deliver(client, GRANT);
    b.deliver(client, OFFER);
    b.read(client, object);
    probe(b);
}

/// The highest number seen is forgotten: an older RENEW is answered now.
fn old_renew_after_restart(b: &mut Builder) {
    let (client, object) = (b.any_client(), b.any_object());
    calm(b);
    b.ask(client, object);
    b.double(client, RENEW);
    b.deliver(client, RENEW);
    b.push(Step::restart_server());
    b.deliver(client, RENEW);
    for _ in 0..4 {
        b.push(Step::deliver(0));
    }
    exchange(b, client, object);
    probe(b);
}

fn client_restart(b: &mut Builder) {
    let (client, object) = (b.any_client(), b.any_object());
    hold(b, client, object);
    b.push(Step::restart_client(client));
    b.read(client, object);
    exchange(b, client, object);
    b.read(client, object);
    exchange(b, client, object);
    b.read(client, object);
    probe(b);
}

/// The answer to a request from before the restart.
fn client_restart_before_grant(b: &mut Builder) {
    let (client, object) = (b.any_client(), b.any_object());
    calm(b);
    b.push(Step::restart_client(client));
    exchange(b, client, object);
    b.ask(client, object);
    b.deliver(client, RENEW);
    b.push(Step::restart_client(client));
    b.deliver(client, GRANT);
    b.read(client, object);
    probe(b);
}

/// A client that restarted is waited for; its DROPPED ends that.
fn dropped_ends_write(b: &mut Builder) {
    let (client, object) = (b.any_client(), b.any_object());
    calm(b);
    hold(b, client, object);
    b.write(object);
    b.lose(client, INVALIDATE);
    b.push(Step::restart_client(client));
    b.ask(client, object);
    b.deliver(client, RENEW);
    b.deliver(client, OFFER);
    b.deliver(client, DROPPED);
    b.write(object);
    probe(b);
}

/// One DROPPED ends the waiting of every write of its volume, and only of
/// that volume. Leases it ends are not waited for later.
fn dropped_ends_two_writes(b: &mut Builder) {
    let client = b.any_client();
    calm(b);
    let objects: Vec<u8> = (0..3).map(|_| b.any_object()).collect();
    for &object in &objects {
        hold(b, client, object);
    }
    objects[..2].iter().for_each(|&object| b.write(object));
    b.push(Step::restart_client(client));
    b.ask(client, objects[0]);
    b.deliver(client, RENEW);
    b.deliver(client, OFFER);
    b.deliver(client, DROPPED);
    objects.iter().for_each(|&object| b.write(object));
    probe(b);
}
