//! Scenes about saved states (02, A7): what a return brings back, and which
//! names there are.

use crate::gen::builder::{Builder, ACK, GRANT, INVALIDATE, RENEW};
use crate::gen::random_steps;
use crate::gen::scenes::{calm, drain, exchange, hold, lose_all, probe, reads, Scene};
use crate::limits::{NAMES, QUEUE};
use crate::step_record::Step;

pub const SCENES: &[Scene] = &[
    old_value_again,
    write_stands_again,
    end_comes_again,
    grant_under_way,
    invalidate_under_way,
    numbers_come_again,
    clock_goes_back,
    saved_over,
    twice_to_one_name,
    one_within_another,
    restarts_between,
    notes_come_back,
    full_list,
    no_such_name,
    back_to_any,
];

/// Takes some random steps, which the return undoes.
fn wander(b: &mut Builder) {
    let count = b.rng.below(8);
    random_steps::take(b, count);
}

/// A write completes, and after the return its object has the old value again.
fn old_value_again(b: &mut Builder) {
    let (client, object, name) = (b.any_client(), b.any_object(), b.any_name());
    calm(b);
    hold(b, client, object);
    b.save(name);
    b.write(object);
    b.deliver(client, INVALIDATE);
    b.deliver(client, ACK);
    hold(b, client, object);
    b.return_to(name);
    b.read(client, object);
    probe(b);
}

/// A write that stands at the save completes, and another one begins; after the
/// return it stands, and completes in another way.
fn write_stands_again(b: &mut Builder) {
    let (client, object, name) = (b.any_client(), b.any_object(), b.any_name());
    calm(b);
    hold(b, client, object);
    b.write(object);
    b.save(name);
    let ways: [fn(&mut Builder, u8, u8); 2] = [by_ack, by_clock];
    let first = b.rng.below(2);
    ways[first](b, client, object);
    b.write(object);
    wander(b);
    b.return_to(name);
    b.write(object);
    ways[1 - first](b, client, object);
    hold(b, client, object);
    probe(b);
}

fn by_ack(b: &mut Builder, client: u8, _object: u8) {
    b.deliver(client, INVALIDATE);
    b.deliver(client, ACK);
}

fn by_clock(b: &mut Builder, _client: u8, object: u8) {
    b.clock(b.latest_end(object).saturating_add(1));
}

/// The clock passes the latest end twice, at the end itself nothing completes.
fn end_comes_again(b: &mut Builder) {
    let (client, object, name) = (b.any_client(), b.any_object(), b.any_name());
    calm(b);
    hold(b, client, object);
    b.write(object);
    let end = b.latest_end(object);
    b.save(name);
    for _ in 0..2 {
        b.clock(end.max(b.tables().clock));
        b.clock(end.max(b.tables().clock).saturating_add(1));
        b.return_to(name);
    }
    probe(b);
}

/// A GRANT is delivered before the return and after it: the copy goes and comes
/// again.
fn grant_under_way(b: &mut Builder) {
    let (client, object, name) = (b.any_client(), b.any_object(), b.any_name());
    calm(b);
    b.push(Step::restart_client(client));
    exchange(b, client, object);
    b.ask(client, object);
    b.deliver(client, RENEW);
    b.save(name);
    b.deliver(client, GRANT);
    b.read(client, object);
    wander(b);
    b.return_to(name);
    b.read(client, object);
    b.deliver(client, GRANT);
    b.read(client, object);
    probe(b);
}

/// An INVALIDATE is lost and the write ends without it, or it is delivered;
/// after the return it is under way again.
fn invalidate_under_way(b: &mut Builder) {
    let (client, object, name) = (b.any_client(), b.any_object(), b.any_name());
    calm(b);
    hold(b, client, object);
    b.write(object);
    b.save(name);
    if b.rng.percent(50) {
        b.deliver(client, INVALIDATE);
        b.read(client, object);
    } else {
        lose_all(b);
        by_clock(b, client, object);
    }
    b.return_to(name);
    b.read(client, object);
    by_ack(b, client, object);
    b.read(client, object);
    probe(b);
}

/// The numbers of the branch are used again after the return, and the server
/// has not seen them.
fn numbers_come_again(b: &mut Builder) {
    let (client, object, name) = (b.any_client(), b.any_object(), b.any_name());
    calm(b);
    exchange(b, client, object);
    b.save(name);
    for _ in 0..b.rng.range(1, 4) {
        exchange(b, client, object);
    }
    b.return_to(name);
    exchange(b, client, object);
    exchange(b, client, object);
    b.read(client, object);
    probe(b);
}

/// A lease that was over is alive again, ends at the same time, and the clock
/// takes times that had passed.
fn clock_goes_back(b: &mut Builder) {
    let (client, object, name) = (b.any_client(), b.any_object(), b.any_name());
    hold(b, client, object);
    let volume = b.setup.volume(object.into());
    let start = b.tables().clock;
    let volume_end = b.tables().clients.expiry[usize::from(client)][volume];
    let end = volume_end.min(start.saturating_add(b.setup.object_lease));
    b.save(name);
    b.clock(end.max(start));
    b.read(client, object);
    b.return_to(name);
    for time in [start, end.saturating_sub(1), end, start.saturating_sub(1)] {
        b.read(client, object);
        b.clock(time);
    }
    b.read(client, object);
    probe(b);
}

/// What was saved last under a name is what comes back.
fn saved_over(b: &mut Builder) {
    let (client, object, name) = (b.any_client(), b.any_object(), b.any_name());
    calm(b);
    for _ in 0..b.rng.range(2, 3) {
        b.save(name);
        b.write(object);
        by_ack(b, client, object);
        calm(b);
        hold(b, client, object);
    }
    b.return_to(name);
    hold(b, client, object);
    probe(b);
}

/// Two returns to the same state, with other steps after each.
fn twice_to_one_name(b: &mut Builder) {
    let (client, object, name) = (b.any_client(), b.any_object(), b.any_name());
    hold(b, client, object);
    b.save(name);
    for _ in 0..2 {
        wander(b);
        b.write(object);
        drain(b, 3);
        b.return_to(name);
        b.read(client, object);
    }
    probe(b);
}

/// A state saved after another one stays when that one is returned to, though
/// its branch is left.
fn one_within_another(b: &mut Builder) {
    let (client, object, outer) = (b.any_client(), b.any_object(), b.any_name());
    let inner = (outer + 1 + b.rng.below(NAMES - 1) as u8) % NAMES as u8;
    calm(b);
    hold(b, client, object);
    b.save(outer);
    b.write(object);
    by_ack(b, client, object);
    hold(b, client, object);
    b.save(inner);
    b.write(object);
    by_ack(b, client, object);
    for name in [outer, inner, outer] {
        b.return_to(name);
        hold(b, client, object);
    }
    probe(b);
}

/// Restarts leave saved states, and a return undoes a restart.
fn restarts_between(b: &mut Builder) {
    let (client, object, name) = (b.any_client(), b.any_object(), b.any_name());
    calm(b);
    hold(b, client, object);
    if b.rng.percent(50) {
        b.write(object);
    }
    b.save(name);
    if b.rng.percent(60) {
        b.push(Step::restart_server());
    }
    if b.rng.percent(60) {
        b.push(Step::restart_client(client));
    }
    b.read(client, object);
    wander(b);
    b.return_to(name);
    b.read(client, object);
    by_ack(b, client, object);
    hold(b, client, object);
    probe(b);
}

/// A parked client is told of its notes before the return and after it.
fn notes_come_back(b: &mut Builder) {
    let (client, object, name) = (b.any_client(), b.any_object(), b.any_name());
    calm(b);
    hold(b, client, object);
    let parked = b.tables().clients.expiry[usize::from(client)][b.setup.volume(object.into())];
    b.clock(parked.max(b.tables().clock));
    b.write(object);
    b.save(name);
    exchange(b, client, object);
    hold(b, client, object);
    b.return_to(name);
    exchange(b, client, object);
    hold(b, client, object);
    probe(b);
}

/// A full list is emptied, and is full again after the return.
fn full_list(b: &mut Builder) {
    let (client, object, name) = (b.any_client(), b.any_object(), b.any_name());
    while b.queue_len() < QUEUE && !b.full() {
        b.ask(client, object);
    }
    b.save(name);
    drain(b, 2);
    lose_all(b);
    b.return_to(name);
    b.push(Step::double(0));
    b.push(Step::deliver(QUEUE as u8));
    b.push(Step::deliver(QUEUE as u8 - 1));
    b.push(Step::deliver(QUEUE as u8 - 1));
    lose_all(b);
    probe(b);
}

/// Provokes refusal 11: names above 3, and returns to names never saved.
fn no_such_name(b: &mut Builder) {
    let any = b.rng.range(NAMES as u32, 255) as u8;
    for name in [4, 5, 7, 64, 128, 255, any] {
        b.save(name);
        b.return_to(name);
    }
    for name in 0..NAMES as u8 {
        if b.saved[usize::from(name)].is_none() {
            b.return_to(name);
        }
    }
    reads(b);
}

/// Returns to whatever an earlier scene has saved.
fn back_to_any(b: &mut Builder) {
    for _ in 0..b.rng.range(1, 3) {
        let name = b.any_name();
        b.return_to(name);
        probe(b);
    }
}
