//! Scenes about why a read asks first (02, A8): the last event of a copy, and
//! the two leases after a grant.

use crate::gen::builder::{Builder, ACK, BATCH, CLEARED, DROPPED, GRANT, INVALIDATE, OFFER, RENEW};
use crate::gen::scenes::{calm, exchange, hold, lose_all, probe, reads, Scene};
use crate::limits::NAMES;
use crate::step_record::Step;

pub const SCENES: &[Scene] = &[
    same_end,
    both_ends,
    renewed_by_another,
    renewed_at_once,
    grant_again_after_erasing,
    nothing_to_erase,
    offered_by_another,
    offered_again,
    restarted_after_offer,
    invalidated_after_offer,
    batch_after_offer,
    grant_on_a_branch,
    events_of_two_lines,
    events_saved_over,
];

/// Returns when the client's lease on the object ends, and that on its volume.
fn ends(b: &Builder, client: u8, object: u8) -> (u32, u32) {
    let (of, volume) = (usize::from(client), b.setup.volume(object.into()));
    let copies = b.state.copies(&b.setup);
    let copy = copies[b.setup.copy_place(of, object.into())];
    (copy.expiry, b.tables().clients.expiry[of][volume])
}

/// Sets the clock, if it has not passed this time.
fn forward(b: &mut Builder, time: u32) {
    b.clock(time.max(b.tables().clock));
}

/// Lets the leases end one after the other, and reads each time.
fn read_at_ends(b: &mut Builder, client: u8, object: u8) {
    let (end, volume_end) = ends(b, client, object);
    for time in [end.min(volume_end), end.max(volume_end)] {
        forward(b, time);
        b.read(client, object);
    }
}

/// Ends the client's leases in the object's volume by an OFFER: after a restart
/// of the server the epoch differs.
fn offer(b: &mut Builder, client: u8, object: u8) {
    b.push(Step::restart_server());
    exchange(b, client, object);
}

/// Renews the volume through another object, so that both leases end at the same
/// time, or one of them a tick before.
fn same_end(b: &mut Builder) {
    let (client, object) = (b.any_client(), b.any_object());
    let Some(other) = b.sibling(object) else {
        return read_at_ends(b, client, object);
    };
    calm(b);
    hold(b, client, other);
    hold(b, client, object);
    let (end, _) = ends(b, client, object);
    let early = (b.setup.volume_lease + b.rng.range(0, 2)).saturating_sub(1);
    forward(b, end.saturating_sub(early));
    exchange(b, client, other);
    read_at_ends(b, client, object);
}

/// Each lease ends in its turn.
fn both_ends(b: &mut Builder) {
    let (client, object) = (b.any_client(), b.any_object());
    hold(b, client, object);
    read_at_ends(b, client, object);
}

/// Another object's GRANT renews the volume, which ends first all the same.
fn renewed_by_another(b: &mut Builder) {
    let (client, object) = (b.any_client(), b.any_object());
    hold(b, client, object);
    if let Some(other) = b.sibling(object) {
        let ticks = b.rng.range(0, b.setup.volume_lease.min(6) - 1);
        b.advance(ticks);
        exchange(b, client, other);
    }
    read_at_ends(b, client, object);
}

/// Renews at the same clock, which leaves the copy as it is, and some ticks
/// later, which does not. The GRANT may come twice.
fn renewed_at_once(b: &mut Builder) {
    let (client, object) = (b.any_client(), b.any_object());
    calm(b);
    hold(b, client, object);
    let ticks = b.rng.pick(&[0, 0, 1]);
    b.advance(ticks);
    b.ask(client, object);
    b.deliver(client, RENEW);
    b.double(client, GRANT);
    b.deliver(client, GRANT);
    if b.rng.percent(50) {
        b.deliver(client, GRANT);
    }
    read_at_ends(b, client, object);
}

/// A copy is erased and an old GRANT comes, which does not count; then it is
/// granted again.
fn grant_again_after_erasing(b: &mut Builder) {
    let (client, object) = (b.any_client(), b.any_object());
    calm(b);
    hold(b, client, object);
    b.ask(client, object);
    b.deliver(client, RENEW);
    b.double(client, GRANT);
    b.deliver(client, GRANT);
    if b.rng.percent(50) {
        b.write(object);
        b.deliver(client, INVALIDATE);
        b.deliver(client, ACK);
    } else {
        b.push(Step::restart_client(client));
    }
    b.read(client, object);
    b.deliver(client, GRANT);
    b.read(client, object);
    hold(b, client, object);
    read_at_ends(b, client, object);
}

/// An OFFER, an INVALIDATE and restarts find no copy: the GRANT was lost, or the
/// client had restarted.
fn nothing_to_erase(b: &mut Builder) {
    let (client, object) = (b.any_client(), b.any_object());
    calm(b);
    if b.rng.percent(50) {
        hold(b, client, object);
    }
    b.push(Step::restart_client(client));
    b.read(client, object);
    exchange(b, client, object);
    b.read(client, object);
    b.ask(client, object);
    b.deliver(client, RENEW);
    b.lose(client, GRANT);
    b.write(object);
    b.double(client, INVALIDATE);
    b.deliver(client, INVALIDATE);
    b.read(client, object);
    b.push(Step::restart_client(client));
    reads(b);
    exchange(b, client, object);
    b.deliver(client, INVALIDATE);
    reads(b);
}

/// The OFFER answers a request for another object of the volume.
fn offered_by_another(b: &mut Builder) {
    let (client, object) = (b.any_client(), b.any_object());
    calm(b);
    let other = b.sibling(object).unwrap_or(object);
    hold(b, client, other);
    hold(b, client, object);
    offer(b, client, other);
    b.read(client, object);
    b.read(client, other);
    if b.rng.percent(50) {
        lost_grant_and_batch(b, client, object);
    }
    exchange(b, client, other);
    b.read(client, object);
    read_at_ends(b, client, other);
}

/// The second OFFER finds expiries of 0, and so may a BATCH.
fn offered_again(b: &mut Builder) {
    let (client, object) = (b.any_client(), b.any_object());
    calm(b);
    hold(b, client, object);
    for _ in 0..2 {
        offer(b, client, object);
        b.read(client, object);
    }
    if b.rng.percent(50) {
        lost_grant_and_batch(b, client, object);
    }
    exchange(b, client, object);
    read_at_ends(b, client, object);
}

/// After an OFFER the version is still there, so a restart erases it; the next
/// restart does not.
fn restarted_after_offer(b: &mut Builder) {
    let (client, object) = (b.any_client(), b.any_object());
    calm(b);
    hold(b, client, object);
    offer(b, client, object);
    b.read(client, object);
    for _ in 0..2 {
        b.push(Step::restart_client(client));
        b.read(client, object);
    }
    reads(b);
}

/// An INVALIDATE comes after an OFFER, then once more, then a restart: the first
/// one finds a version and no expiry, the others find nothing.
fn invalidated_after_offer(b: &mut Builder) {
    let (client, object) = (b.any_client(), b.any_object());
    calm(b);
    hold(b, client, object);
    b.write(object);
    b.double(client, INVALIDATE);
    if b.rng.percent(50) {
        b.push(Step::restart_server());
    } else {
        // The write ends without the client, which is marked.
        forward(b, b.latest_end(object).saturating_add(1));
    }
    b.ask(client, object);
    b.deliver(client, RENEW);
    b.deliver(client, OFFER);
    for _ in 0..2 {
        b.read(client, object);
        b.deliver(client, INVALIDATE);
    }
    b.read(client, object);
    b.push(Step::restart_client(client));
    b.read(client, object);
    b.deliver(client, DROPPED);
    reads(b);
}

/// The BATCH after an OFFER finds a version and no expiry; then there are leases
/// again.
fn batch_after_offer(b: &mut Builder) {
    let (client, object) = (b.any_client(), b.any_object());
    calm(b);
    hold(b, client, object);
    offer(b, client, object);
    lost_grant_and_batch(b, client, object);
    hold(b, client, object);
    read_at_ends(b, client, object);
}

/// The GRANTs of two objects are lost, and both are noted for the client, which
/// does not know of its leases: one before the BATCH, the other before it or
/// behind it. The CLEARED is lost, too, so the next BATCH finds no copy of the
/// first.
fn lost_grant_and_batch(b: &mut Builder, client: u8, object: u8) {
    let other = b.sibling(object).unwrap_or(object);
    for asked in [other, object] {
        b.ask(client, asked);
        b.deliver(client, RENEW);
        b.lose(client, GRANT);
    }
    let end = b.server().volume_expiry[b.setup.volume(object.into())][usize::from(client)];
    forward(b, end);
    b.write(object);
    b.read(client, object);
    if b.rng.percent(50) {
        b.write(other);
    }
    for _ in 0..2 {
        b.ask(client, object);
        b.deliver(client, RENEW);
        b.deliver(client, BATCH);
        b.lose(client, CLEARED);
        b.read(client, object);
        b.read(client, other);
        b.write(other);
    }
}

/// A copy comes and goes on a branch, and after the return what was before
/// decides; then it is granted again.
fn grant_on_a_branch(b: &mut Builder) {
    let (client, object, name) = (b.any_client(), b.any_object(), b.any_name());
    calm(b);
    match b.rng.below(3) {
        0 => b.save(name),
        1 => {
            hold(b, client, object);
            b.push(Step::restart_client(client));
            b.save(name);
        }
        _ => {
            hold(b, client, object);
            b.save(name);
            b.push(Step::restart_client(client));
            b.read(client, object);
        }
    }
    hold(b, client, object);
    b.return_to(name);
    b.read(client, object);
    read_at_ends(b, client, object);
    hold(b, client, object);
    read_at_ends(b, client, object);
}

/// Two saved states whose last events differ, the second saved on a branch of
/// the first; each is returned to, and the messages of the other are gone.
fn events_of_two_lines(b: &mut Builder) {
    let (client, object, outer) = (b.any_client(), b.any_object(), b.any_name());
    let inner = (outer + 1 + b.rng.below(NAMES - 1) as u8) % NAMES as u8;
    calm(b);
    if b.rng.percent(50) {
        hold(b, client, object);
        b.write(object);
        b.deliver(client, INVALIDATE);
        b.deliver(client, ACK);
    }
    b.save(outer);
    hold(b, client, object);
    b.push(Step::restart_client(client));
    b.read(client, object);
    b.save(inner);
    for name in [outer, inner, outer, inner] {
        b.return_to(name);
        b.read(client, object);
        if b.rng.percent(50) {
            hold(b, client, object);
            read_at_ends(b, client, object);
        }
    }
    b.return_to(inner);
    reads(b);
}

/// What is saved last under a name has the events of then.
fn events_saved_over(b: &mut Builder) {
    let (client, object, name) = (b.any_client(), b.any_object(), b.any_name());
    calm(b);
    b.save(name);
    hold(b, client, object);
    if b.rng.percent(50) {
        b.push(Step::restart_client(client));
    } else {
        offer(b, client, object);
    }
    b.save(name);
    hold(b, client, object);
    lose_all(b);
    b.return_to(name);
    b.read(client, object);
    probe(b);
}
