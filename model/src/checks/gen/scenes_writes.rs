//! Scenes about writes while clients hold leases.

use crate::gen::builder::{Builder, ACK, GRANT, INVALIDATE, RENEW};
use crate::gen::scenes::{exchange, hold, probe, reads, Scene};
use crate::step_record::Step;

pub const SCENES: &[Scene] = &[
    latest_end,
    acknowledged,
    renew_while_waiting,
    unreachable_but_leased,
    short_of_time,
    two_writes,
    grant_during_write,
    marked_and_back,
    marked_without_lease,
    second_write,
];

/// Standing at the latest end, complete one past it.
fn latest_end(b: &mut Builder) {
    let (client, object) = (b.any_client(), b.any_object());
    hold(b, client, object);
    let ticks = b.rng.range(0, b.setup.volume_lease.min(20));
    b.advance(ticks);
    b.write(object);
    b.lose(client, INVALIDATE);
    let end = b.latest_end(object);
    for time in [end.saturating_sub(1), end, end.saturating_add(1)] {
        b.clock(time);
        b.read(client, object);
    }
    probe(b);
    exchange(b, client, object);
    probe(b);
}

/// Every holder acknowledges, in any order.
fn acknowledged(b: &mut Builder) {
    let object = b.any_object();
    let mut holders: Vec<u8> = (0..b.rng.range(1, 4)).map(|_| b.any_client()).collect();
    for &client in &holders {
        hold(b, client, object);
    }
    b.write(object);
    reads(b);
    while !holders.is_empty() && !b.full() {
        let place = b.rng.below(holders.len());
        let client = holders.swap_remove(place);
        b.deliver(client, INVALIDATE);
        b.read(client, object);
        b.deliver(client, ACK);
    }
    probe(b);
}

/// First trap: the INVALIDATE is lost, and the client renews the volume by
/// another object before the write ends.
fn renew_while_waiting(b: &mut Builder) {
    let (client, object) = (b.any_client(), b.any_object());
    let Some(other) = b.sibling(object) else {
        return;
    };
    hold(b, client, other);
    hold(b, client, object);
    b.write(object);
    b.lose(client, INVALIDATE);
    let late = b.setup.volume_lease.min(b.setup.object_lease) - 1;
    b.advance(late);
    let end = b.latest_end(object);
    exchange(b, client, other);
    b.read(client, object);
    b.clock(end.saturating_add(1));
    b.read(client, object);
    probe(b);
}

/// Second trap: the object lease ends before the volume lease, so a write
/// completes and marks a client whose volume lease lives. Its other objects
/// must still be waited for.
fn unreachable_but_leased(b: &mut Builder) {
    let (client, object) = (b.any_client(), b.any_object());
    let Some(other) = b.sibling(object) else {
        return;
    };
    hold(b, client, object);
    let ticks = (b.setup.object_lease / 2).min(b.setup.volume_lease / 2);
    b.advance(ticks);
    hold(b, client, other);
    b.write(object);
    b.lose(client, INVALIDATE);
    let end = b.latest_end(object);
    b.clock(end.saturating_add(1));
    b.read(client, other);
    b.write(other);
    b.read(client, other);
    probe(b);
}

/// The volume lease is dead and the object lease lives: the write waits
/// clock + m.
fn short_of_time(b: &mut Builder) {
    let (client, object) = (b.any_client(), b.any_object());
    hold(b, client, object);
    let ticks = b.setup.volume_lease.min(b.setup.object_lease) - b.rng.range(0, 1);
    b.advance(ticks);
    b.write(object);
    let end = b.latest_end(object);
    for time in [b.tables().clock.saturating_add(1), end, end.saturating_add(1)] {
        b.clock(time);
    }
    probe(b);
}

/// Two objects of a volume are written, both INVALIDATEs lost: a RENEW
/// brings back the lowest.
fn two_writes(b: &mut Builder) {
    let (client, object) = (b.any_client(), b.any_object());
    let Some(other) = b.sibling(object) else {
        return;
    };
    for held in [object, other] {
        hold(b, client, held);
    }
    for written in [object, other] {
        b.write(written);
        b.lose(client, INVALIDATE);
    }
    let asked = b.any_object();
    b.ask(client, asked);
    b.deliver(client, RENEW);
    b.deliver(client, INVALIDATE);
    b.read(client, object);
    b.read(client, other);
    b.deliver(client, ACK);
    probe(b);
}

/// A client that is not waited for asks for an object being written.
fn grant_during_write(b: &mut Builder) {
    let (client, object) = (b.any_client(), b.any_object());
    let Some(asker) = b.other_client(client) else {
        return;
    };
    if let Some(other) = b.sibling(object) {
        hold(b, asker, other);
    }
    hold(b, client, object);
    b.write(object);
    b.ask(asker, object);
    b.deliver(asker, RENEW);
    b.deliver(asker, GRANT);
    b.read(asker, object);
    b.deliver(client, INVALIDATE);
    b.deliver(client, ACK);
    b.read(asker, object);
    probe(b);
}

/// A write ends without its client, which comes back and is offered.
fn marked_and_back(b: &mut Builder) {
    let (client, object) = (b.any_client(), b.any_object());
    hold(b, client, object);
    b.write(object);
    b.lose(client, INVALIDATE);
    b.clock(b.latest_end(object).saturating_add(1));
    b.ask(client, object);
    b.deliver(client, RENEW);
    probe(b);
    exchange(b, client, object);
    b.read(client, object);
    b.write(object);
    probe(b);
}

/// An offer marks: with its volume lease dead, the client is not waited
/// for, though its object lease lives at the server.
fn marked_without_lease(b: &mut Builder) {
    let (client, object) = (b.any_client(), b.any_object());
    hold(b, client, object);
    b.push(Step::restart_client(client));
    b.ask(client, object);
    b.deliver(client, RENEW);
    b.advance(b.setup.volume_lease);
    b.write(object);
    probe(b);
}

fn second_write(b: &mut Builder) {
    let (client, object) = (b.any_client(), b.any_object());
    hold(b, client, object);
    b.write(object);
    b.write(object);
    if let Some(other) = b.sibling(object) {
        b.write(other);
    }
    b.deliver(client, INVALIDATE);
    b.deliver(client, ACK);
    b.write(object);
    probe(b);
}
