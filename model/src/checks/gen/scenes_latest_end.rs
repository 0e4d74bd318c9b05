//! Scenes about the latest end: whose leases count, and which of the two.

use crate::gen::builder::{Builder, INVALIDATE};
use crate::gen::scenes::{exchange, hold, probe, Scene};
use crate::gen::scenes_leases::keep_volume;
use crate::mistakes::former::old_leases_end;
use crate::step_record::Step;

pub const SCENES: &[Scene] = &[
    never_held,
    held_last_and_dropped,
    several_waiting,
    // Twice, since few setups have room for it.
    either_lease_first,
    either_lease_first,
    marked_but_leased,
    guard_and_leases,
    nobody_waiting,
];

/// Writes while nobody hears of it, and looks around the latest end and the one
/// that VE and OE would give.
fn write_unheard(b: &mut Builder, object: u8) {
    let old = old_leases_end(&b.setup, b.server(), object.into());
    b.write(object);
    for client in 0..b.setup.clients {
        if let Some(place) = b.find_about(client, INVALIDATE, object) {
            b.push(Step::lose(place));
        }
    }
    let end = b.latest_end(object);
    let mut times = [end, old].map(|end| [end.saturating_sub(1), end, end.saturating_add(1)]).concat();
    times.sort();
    times.dedup();
    times.retain(|&time| time > b.tables().clock);
    for time in times {
        b.clock(time);
        let client = b.any_client();
        b.read(client, object);
    }
    probe(b);
}

/// Lets another client renew the volume through a different object.
fn hold_sibling(b: &mut Builder, client: u8, object: u8) {
    let (other, sibling) = (b.other_client(client), b.sibling(object));
    if let (Some(other), Some(sibling)) = (other, sibling) {
        hold(b, other, sibling);
    }
}

/// Lets a client forget what it holds and say so: at the server only VE and OE
/// remain.
fn drop_leases(b: &mut Builder, client: u8, object: u8) {
    b.push(Step::restart_client(client));
    exchange(b, client, object);
}

/// Lets time pass to the last tick of a fresh volume lease, or one more: then
/// the waiting client's lesser lease is dead.
fn let_time_pass(b: &mut Builder) {
    let lease = b.setup.volume_lease;
    let ticks = b.rng.pick(&[lease / 2, lease - 1, lease]);
    b.advance(ticks);
}

/// The notice desk's case: VE comes from a client that never held the object.
fn never_held(b: &mut Builder) {
    let (client, object) = (b.any_client(), b.any_object());
    hold(b, client, object);
    let_time_pass(b);
    hold_sibling(b, client, object);
    write_unheard(b, object);
}

/// VE and OE come from a client that has since dropped its leases.
fn held_last_and_dropped(b: &mut Builder) {
    let (client, object) = (b.any_client(), b.any_object());
    let Some(other) = b.other_client(client) else {
        return;
    };
    hold(b, client, object);
    let_time_pass(b);
    hold(b, other, object);
    drop_leases(b, other, object);
    write_unheard(b, object);
}

/// Each client came at another time, in any order, and some were back for
/// another object, so the lesser leases differ.
fn several_waiting(b: &mut Builder) {
    let object = b.any_object();
    let gap = b.rng.range(1, 4);
    for _ in 0..b.rng.range(2, 5) {
        let client = b.any_client();
        hold(b, client, object);
        b.advance(gap);
        if b.rng.percent(40) {
            hold_sibling(b, client, object);
        }
    }
    write_unheard(b, object);
}

/// One client's object lease ends first, the other's volume lease: the greatest
/// of each is neither client's lesser one.
fn either_lease_first(b: &mut Builder) {
    let (client, object) = (b.any_client(), b.any_object());
    let (Some(other), Some(sibling)) = (b.other_client(client), b.sibling(object)) else {
        return;
    };
    hold(b, client, object);
    let early = b.rng.range(2, 5);
    keep_volume(b, client, object, sibling, early);
    hold(b, other, object);
    b.advance(1);
    exchange(b, client, sibling);
    write_unheard(b, object);
}

/// A write ended with the object lease and marked the client, whose volume
/// lease goes on: it is waited for until the first of its leases ends.
fn marked_but_leased(b: &mut Builder) {
    let (client, object) = (b.any_client(), b.any_object());
    let Some(sibling) = b.sibling(object) else {
        return;
    };
    hold(b, client, object);
    keep_volume(b, client, object, sibling, 1);
    b.write(object);
    b.lose(client, INVALIDATE);
    b.clock(b.latest_end(object).saturating_add(1));
    hold_sibling(b, client, sibling);
    write_unheard(b, sibling);
}

/// A guard is ahead. Leases given since end before it or after it, depending on
/// which of the two is shorter and on how late they were given.
fn guard_and_leases(b: &mut Builder) {
    let (client, object) = (b.any_client(), b.any_object());
    hold(b, client, object);
    b.push(Step::restart_server());
    let ticks = b.rng.range(0, b.setup.volume_lease.min(6) - 1);
    b.advance(ticks);
    hold(b, client, object);
    b.advance(1);
    hold_sibling(b, client, object);
    write_unheard(b, object);
}

/// VE and OE are far off and nobody is waited for: only the guard, if one is
/// ahead, delays the end.
fn nobody_waiting(b: &mut Builder) {
    let (client, object) = (b.any_client(), b.any_object());
    hold(b, client, object);
    if b.rng.percent(60) {
        b.push(Step::restart_server());
        b.advance(1);
        hold(b, client, object);
    }
    drop_leases(b, client, object);
    write_unheard(b, object);
}
