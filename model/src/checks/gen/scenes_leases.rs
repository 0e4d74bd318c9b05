//! Scenes about leases: getting them, and their last ticks.

use crate::gen::builder::Builder;
use crate::gen::scenes::{exchange, hold, probe, reads, Scene};
use crate::step_record::Step;

pub const SCENES: &[Scene] =
    &[opening, plain_opening, volume_expiry, object_expiry, one_lease_alone, kept_alive];

/// Gives some objects to some clients.
pub fn opening(b: &mut Builder) {
    for _ in 0..b.rng.range(1, 6) {
        let (client, object) = (b.any_client(), b.any_object());
        hold(b, client, object);
    }
    reads(b);
}

/// 01's example: every place is 0, whatever the answers are.
fn plain_opening(b: &mut Builder) {
    let (client, object) = (b.any_client(), b.any_object());
    b.read(client, object);
    for deliveries in [3, 2] {
        b.ask(client, object);
        for _ in 0..deliveries {
            b.push(Step::deliver(0));
        }
    }
    b.read(client, object);
}

/// Alive one tick before the expiry, dead at it.
fn volume_expiry(b: &mut Builder) {
    let (client, object) = (b.any_client(), b.any_object());
    hold(b, client, object);
    let volume = b.setup.volume(object.into());
    let expiry = b.tables().clients.expiry[usize::from(client)][volume];
    for time in [expiry.saturating_sub(1), expiry, expiry.saturating_add(1)] {
        b.clock(time);
        b.read(client, object);
    }
    probe(b);
}

fn object_expiry(b: &mut Builder) {
    let (client, object) = (b.any_client(), b.any_object());
    hold(b, client, object);
    let expiry = b.server().object_expiry[usize::from(object)][usize::from(client)];
    let times = [expiry.saturating_sub(1), expiry, expiry.saturating_add(1)];
    let end = b.rng.range(1, 3) as usize;
    for time in &times[..end] {
        b.clock(*time);
        b.read(client, object);
    }
    b.write(object);
    probe(b);
}

/// Renews the volume through another object again and again, until `early`
/// ticks before the lease on this one ends, or for 20 renewals.
pub fn keep_volume(b: &mut Builder, client: u8, object: u8, other: u8, early: u32) {
    let expiry = b.server().object_expiry[usize::from(object)][usize::from(client)];
    let last = expiry.saturating_sub(early);
    for _ in 0..20 {
        let next = b.tables().clock.saturating_add(b.setup.volume_lease - 1).min(last);
        if next <= b.tables().clock {
            break;
        }
        b.clock(next);
        exchange(b, client, other);
    }
}

/// Renews the volume through another object until the object's lease ends, then
/// changes the object: its old copy has one lease left.
fn one_lease_alone(b: &mut Builder) {
    let (client, object) = (b.any_client(), b.any_object());
    let Some(other) = b.sibling(object) else {
        return;
    };
    hold(b, client, object);
    keep_volume(b, client, object, other, 1);
    b.read(client, object);
    b.advance(1);
    exchange(b, client, other);
    b.read(client, object);
    b.write(object);
    b.read(client, object);
    probe(b);
}

/// Renews in time, with equal versions.
fn kept_alive(b: &mut Builder) {
    let (client, object) = (b.any_client(), b.any_object());
    for _ in 0..b.rng.range(2, 6) {
        exchange(b, client, object);
        let ticks = b.rng.range(0, b.setup.volume_lease.min(40));
        b.advance(ticks);
        b.read(client, object);
        if b.rng.percent(25) {
            b.write(object);
        }
    }
    probe(b);
}
