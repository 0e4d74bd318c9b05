//! Scenes about GRANTs without a value: the client held the version when it
//! asked.

use crate::gen::builder::{Builder, DROPPED, GRANT, INVALIDATE, OFFER, RENEW};
use crate::gen::scenes::{calm, exchange, hold, probe, Scene};
use crate::step_record::Step;

pub const SCENES: &[Scene] = &[
    renewed_when_a_lease_ended,
    offer_after_grant,
    grant_comes_late,
    grant_comes_too_late,
    older_grant_after_newer,
];

/// Nothing is under way, and a client holds an object that was written, so that
/// its value is most likely not 0.
fn hold_written(b: &mut Builder) -> (u8, u8) {
    let (client, object) = (b.any_client(), b.any_object());
    calm(b);
    b.write(object);
    calm(b);
    hold(b, client, object);
    (client, object)
}

/// It asks again, and the GRANT is under way.
fn renew_held(b: &mut Builder) -> (u8, u8) {
    let (client, object) = hold_written(b);
    b.ask(client, object);
    b.deliver(client, RENEW);
    (client, object)
}

/// Both expiries have to be stored, and the value to be kept.
fn renewed_when_a_lease_ended(b: &mut Builder) {
    let (client, object) = hold_written(b);
    let (of, server) = (usize::from(client), b.server());
    let by_volume = server.volume_expiry[b.setup.volume(object.into())][of];
    let by_object = server.object_expiry[usize::from(object)][of];
    let time = b.rng.pick(&[by_volume, by_object]);
    b.clock(time);
    b.read(client, object);
    exchange(b, client, object);
    b.read(client, object);
    probe(b);
}

/// The GRANT has ended the request. After a restart of the server the RENEW
/// comes again, and its OFFER is for nobody.
fn offer_after_grant(b: &mut Builder) {
    let (client, object) = hold_written(b);
    b.ask(client, object);
    b.double(client, RENEW);
    b.deliver(client, RENEW);
    b.deliver(client, GRANT);
    b.push(Step::restart_server());
    b.deliver(client, RENEW);
    b.deliver(client, OFFER);
    b.read(client, object);
    b.deliver(client, DROPPED);
    exchange(b, client, object);
    b.read(client, object);
    probe(b);
}

/// The request stands all the while: the GRANT is stored, although a lease of
/// it has ended, another write has completed or the server has restarted.
fn grant_comes_late(b: &mut Builder) {
    let (client, object) = renew_held(b);
    match b.rng.below(3) {
        0 => {
            let ticks = b.rng.pick(&[b.setup.volume_lease, b.setup.object_lease]);
            b.advance(ticks);
        }
        1 => {
            b.write(object);
            b.lose(client, INVALIDATE);
            b.clock(b.latest_end(object).saturating_add(1));
        }
        _ => drop(b.push(Step::restart_server())),
    }
    b.double(client, GRANT);
    b.deliver(client, GRANT);
    b.read(client, object);
    b.deliver(client, GRANT);
    exchange(b, client, object);
    b.read(client, object);
    probe(b);
}

/// The request stands no more, and the copy is gone by a restart, or its leases
/// are dropped by an OFFER. A value that was not brought must not be shown.
fn grant_comes_too_late(b: &mut Builder) {
    let (client, object) = renew_held(b);
    b.double(client, GRANT);
    if b.rng.percent(50) {
        b.deliver(client, GRANT);
    }
    if b.rng.percent(50) {
        b.push(Step::restart_server());
        b.ask(client, object);
        b.deliver(client, RENEW);
        b.deliver(client, OFFER);
    } else {
        b.push(Step::restart_client(client));
    }
    // Later requests must not take it either: with three, numbers that began
    // anew would have come to its own.
    for _ in 0..b.rng.pick(&[0, 1, 3]) {
        b.ask(client, object);
    }
    b.deliver(client, GRANT);
    b.read(client, object);
    probe(b);
}

/// The leases of the newer one stay.
fn older_grant_after_newer(b: &mut Builder) {
    let (client, object) = renew_held(b);
    if b.rng.percent(50) {
        b.double(client, GRANT);
        b.deliver(client, GRANT);
    }
    let older = b.tables().clock.saturating_add(b.setup.volume_lease.min(b.setup.object_lease));
    b.advance(1);
    exchange(b, client, object);
    b.deliver(client, GRANT);
    b.read(client, object);
    b.clock(older);
    b.read(client, object);
    probe(b);
}
