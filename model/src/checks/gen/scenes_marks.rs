//! Scenes about clients with notes that are marked unreachable, and about a
//! restart of the server while a batch is out (02, A6).

use crate::gen::builder::{Builder, BATCH, CLEARED, DROPPED, OFFER, RENEW};
use crate::gen::scenes::{exchange, hold, probe, Scene};
use crate::gen::scenes_parked::{
    back, cleared_under_way, park, volume_expiry, waited_and_noted, write_all, write_and_read, Parked,
};
use crate::step_record::Step;

pub const SCENES: &[Scene] = &[
    aged,
    aged_when_written,
    aged_beside_another,
    aged_with_cleared_under_way,
    marked_by_a_write,
    marked_by_an_offer,
    restart_with_a_batch,
];

/// Marked at volume expiry + d, and not a tick before: then the leases on the
/// other objects stay.
fn aged(b: &mut Builder) {
    for late in [0, 1, 2] {
        let Some(parked) = park(b, 0) else {
            return;
        };
        let by = parked.objects[0];
        b.write(by);
        b.clock(volume_expiry(b, parked.client, by) + b.setup.delay + late - 1);
        back(b, &parked, by);
        write_all(b, &parked);
    }
}

/// Parked for d already, it is noted at the write, and marked by the next clock
/// step, though to the same time.
fn aged_when_written(b: &mut Builder) {
    for again in [false, true] {
        let ticks = b.setup.delay.saturating_add(b.rng.range(0, 2));
        let Some(parked) = park(b, ticks) else {
            return;
        };
        let by = parked.objects[0];
        b.write(by);
        if again {
            b.clock(b.tables().clock);
        }
        back(b, &parked, by);
        write_all(b, &parked);
    }
}

/// Another client's volume lease lives on, or it has no notes: neither counts.
fn aged_beside_another(b: &mut Builder) {
    let Some(parked) = park(b, 0) else {
        return;
    };
    let (client, by) = (parked.client, parked.objects[0]);
    let Some(other) = b.other_client(client) else {
        return;
    };
    hold(b, other, by);
    let held = b.sibling(by).unwrap_or(by);
    hold(b, other, held);
    b.write(by);
    exchange(b, other, by);
    b.clock(volume_expiry(b, client, by).saturating_add(b.setup.delay));
    back(b, &parked, by);
    back(b, &Parked { client: other, objects: vec![by, held] }, by);
    probe(b);
}

/// A CLEARED that comes after the mark must not end the leases given since.
fn late_cleared(b: &mut Builder, client: u8, noted: u8) {
    let before = b.rng.percent(30);
    if before {
        b.deliver(client, CLEARED);
    }
    b.ask(client, noted);
    b.deliver(client, RENEW);
    b.deliver(client, OFFER);
    b.deliver(client, DROPPED);
    hold(b, client, noted);
    b.deliver(client, CLEARED);
    write_and_read(b, client, noted);
    probe(b);
}

fn aged_with_cleared_under_way(b: &mut Builder) {
    let Some((parked, noted)) = cleared_under_way(b) else {
        return;
    };
    b.clock(volume_expiry(b, parked.client, noted).saturating_add(b.setup.delay));
    late_cleared(b, parked.client, noted);
}

/// A write that waited for the client ends without it, while it has notes.
fn marked_by_a_write(b: &mut Builder) {
    let Some((parked, waited, noted)) = waited_and_noted(b) else {
        return;
    };
    let client = parked.client;
    let obeyed = b.rng.percent(70);
    if obeyed {
        b.ask(client, noted);
        b.deliver(client, RENEW);
        b.deliver(client, BATCH);
    }
    b.clock(b.latest_end(waited).saturating_add(1));
    late_cleared(b, client, noted);
}

/// The client restarts, so its RENEW has no epoch. The OFFER drops its notes.
fn marked_by_an_offer(b: &mut Builder) {
    let Some((parked, noted)) = cleared_under_way(b) else {
        return;
    };
    b.push(Step::restart_client(parked.client));
    late_cleared(b, parked.client, noted);
}

/// The BATCH or its CLEARED is of the epoch before the restart.
fn restart_with_a_batch(b: &mut Builder) {
    let Some(parked) = park(b, 0) else {
        return;
    };
    let (client, noted) = (parked.client, parked.objects[0]);
    b.write(noted);
    b.ask(client, noted);
    b.double(client, RENEW);
    b.deliver(client, RENEW);
    let obeyed = b.rng.percent(50);
    if obeyed {
        b.deliver(client, BATCH);
    }
    b.push(Step::restart_server());
    b.deliver(client, RENEW);
    b.deliver(client, BATCH);
    b.deliver(client, OFFER);
    b.deliver(client, DROPPED);
    if b.rng.percent(50) {
        hold(b, client, noted);
    }
    b.deliver(client, CLEARED);
    write_and_read(b, client, noted);
    back(b, &parked, noted);
    probe(b);
}
