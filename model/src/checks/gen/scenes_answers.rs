//! Scenes about messages that come twice, late or out of order.

use crate::gen::builder::{Builder, ACK, DROPPED, GRANT, INVALIDATE, OFFER, RENEW};
use crate::gen::scenes::{calm, exchange, hold, lose_all, probe, reads, Scene};
use crate::step_record::Step;

pub const SCENES: &[Scene] = &[
    doubled_renew,
    grant_after_invalidate,
    doubled_grant,
    grant_of_replaced_request,
    doubled_offer,
    doubled_ack,
    invalidate_without_copy,
    dropped_of_old_offer,
    doubled_dropped,
    renews_out_of_order,
    dropped_after_mark,
    offer_empties_volume,
];

/// Makes the server answer this client's next RENEW with an OFFER.
fn forget(b: &mut Builder, client: u8) {
    if b.rng.percent(50) {
        b.push(Step::restart_client(client));
    } else {
        b.push(Step::restart_server());
        let guard = b.server().guard.into_iter().max().unwrap_or(0);
        b.clock(guard.max(b.tables().clock));
    }
}

/// Fourth trap: a doubled RENEW must not renew the offer, or the doubled
/// DROPPED clears fresh leases.
fn doubled_renew(b: &mut Builder) {
    let (client, object) = (b.any_client(), b.any_object());
    calm(b);
    forget(b, client);
    b.ask(client, object);
    b.double(client, RENEW);
    b.deliver(client, RENEW);
    b.deliver(client, OFFER);
    b.double(client, DROPPED);
    b.deliver(client, DROPPED);
    hold(b, client, object);
    b.deliver(client, RENEW);
    b.deliver(client, DROPPED);
    b.read(client, object);
    b.write(object);
    b.read(client, object);
    probe(b);
}

/// A GRANT under way meets the INVALIDATE of the next write.
fn grant_after_invalidate(b: &mut Builder) {
    let (client, object) = (b.any_client(), b.any_object());
    calm(b);
    hold(b, client, object);
    b.ask(client, object);
    b.deliver(client, RENEW);
    b.write(object);
    b.deliver(client, INVALIDATE);
    b.deliver(client, ACK);
    b.read(client, object);
    b.deliver(client, GRANT);
    b.read(client, object);
    probe(b);
}

/// The same GRANT again, after the copy was erased. It holds a value: the
/// client had no copy when it asked.
fn doubled_grant(b: &mut Builder) {
    let (client, object) = (b.any_client(), b.any_object());
    calm(b);
    b.push(Step::restart_client(client));
    exchange(b, client, object);
    b.ask(client, object);
    b.deliver(client, RENEW);
    b.double(client, GRANT);
    b.deliver(client, GRANT);
    b.read(client, object);
    if b.rng.percent(50) {
        b.write(object);
        b.deliver(client, INVALIDATE);
        b.deliver(client, ACK);
    } else {
        b.push(Step::restart_client(client));
    }
    b.deliver(client, GRANT);
    b.read(client, object);
    probe(b);
}

/// The GRANT of an earlier request comes while a later one stands.
fn grant_of_replaced_request(b: &mut Builder) {
    let (client, object) = (b.any_client(), b.any_object());
    calm(b);
    b.push(Step::restart_client(client));
    exchange(b, client, object);
    b.ask(client, object);
    b.deliver(client, RENEW);
    b.write(object);
    b.deliver(client, INVALIDATE);
    b.deliver(client, ACK);
    b.ask(client, object);
    b.deliver(client, GRANT);
    b.read(client, object);
    b.deliver(client, RENEW);
    b.deliver(client, GRANT);
    b.read(client, object);
    probe(b);
}

/// The same OFFER again, when the client holds leases.
fn doubled_offer(b: &mut Builder) {
    let (client, object) = (b.any_client(), b.any_object());
    calm(b);
    forget(b, client);
    b.ask(client, object);
    b.deliver(client, RENEW);
    b.double(client, OFFER);
    b.deliver(client, OFFER);
    b.deliver(client, DROPPED);
    hold(b, client, object);
    b.deliver(client, OFFER);
    b.read(client, object);
    probe(b);
}

/// The ACK of one write comes again in the next.
fn doubled_ack(b: &mut Builder) {
    let (client, object) = (b.any_client(), b.any_object());
    calm(b);
    hold(b, client, object);
    b.write(object);
    let early = b.rng.percent(50);
    b.double(client, if early { INVALIDATE } else { ACK });
    b.deliver(client, INVALIDATE);
    if early {
        b.deliver(client, INVALIDATE);
    } else {
        b.double(client, ACK);
    }
    b.deliver(client, ACK);
    hold(b, client, object);
    b.write(object);
    b.deliver(client, ACK);
    b.read(client, object);
    probe(b);
}

/// The client has restarted since: it must acknowledge all the same.
fn invalidate_without_copy(b: &mut Builder) {
    let (client, object) = (b.any_client(), b.any_object());
    calm(b);
    hold(b, client, object);
    b.write(object);
    b.push(Step::restart_client(client));
    b.deliver(client, INVALIDATE);
    b.deliver(client, ACK);
    probe(b);
}

/// A DROPPED of an offer that a later one has replaced.
fn dropped_of_old_offer(b: &mut Builder) {
    let (client, object) = (b.any_client(), b.any_object());
    calm(b);
    forget(b, client);
    b.ask(client, object);
    b.deliver(client, RENEW);
    b.deliver(client, OFFER);
    b.ask(client, object);
    b.deliver(client, RENEW);
    b.deliver(client, DROPPED);
    b.lose(client, OFFER);
    exchange(b, client, object);
    b.read(client, object);
    probe(b);
}

/// The same DROPPED again, when the client holds fresh leases.
fn doubled_dropped(b: &mut Builder) {
    let (client, object) = (b.any_client(), b.any_object());
    calm(b);
    forget(b, client);
    b.ask(client, object);
    b.deliver(client, RENEW);
    b.deliver(client, OFFER);
    b.double(client, DROPPED);
    b.deliver(client, DROPPED);
    hold(b, client, object);
    b.deliver(client, DROPPED);
    b.write(object);
    b.read(client, object);
    probe(b);
}

/// Of several RENEWs the newest comes first.
fn renews_out_of_order(b: &mut Builder) {
    let client = b.any_client();
    calm(b);
    for _ in 0..b.rng.range(2, 5) {
        let object = b.any_object();
        b.ask(client, object);
        if b.rng.percent(30) {
            b.double(client, RENEW);
        }
    }
    for _ in 0..20 {
        let Some(last) = b.queue_len().checked_sub(1) else {
            break;
        };
        b.push(Step::deliver(last as u8));
        reads(b);
    }
    probe(b);
}

/// A write that ends marks a client whose DROPPED is under way: the DROPPED
/// counts, as its offer stands.
fn dropped_after_mark(b: &mut Builder) {
    let (client, object) = (b.any_client(), b.any_object());
    calm(b);
    hold(b, client, object);
    b.push(Step::restart_client(client));
    b.ask(client, object);
    b.deliver(client, RENEW);
    b.deliver(client, OFFER);
    b.write(object);
    b.clock(b.latest_end(object).saturating_add(1));
    b.deliver(client, DROPPED);
    lose_all(b);
    exchange(b, client, object);
    b.read(client, object);
    probe(b);
}

/// An OFFER ends the leases on all objects of the volume.
fn offer_empties_volume(b: &mut Builder) {
    let (client, object) = (b.any_client(), b.any_object());
    let Some(other) = b.sibling(object) else {
        return;
    };
    calm(b);
    hold(b, client, other);
    hold(b, client, object);
    b.push(Step::restart_server());
    b.ask(client, object);
    b.deliver(client, RENEW);
    b.deliver(client, OFFER);
    reads(b);
    b.deliver(client, DROPPED);
    exchange(b, client, object);
    reads(b);
    b.write(other);
    probe(b);
}
