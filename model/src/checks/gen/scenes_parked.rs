//! Scenes about parked clients (02, A6): notes, the batch, and CLEARED.

use crate::gen::builder::{Builder, ACK, BATCH, CLEARED, DROPPED, GRANT, INVALIDATE, OFFER, RENEW};
use crate::gen::scenes::{calm, exchange, hold, probe, reads, Scene};
use crate::step_record::Step;
use crate::tables::alive;

pub const SCENES: &[Scene] = &[
    several_notes,
    note_after_batch,
    other_object_asked,
    cleared_late,
    old_cleared_after_lease,
    batch_twice,
    batch_lost,
    noted_and_waited_for,
    noted_while_another_is_waited_for,
    write_between_offer_and_dropped,
    never_held,
    at_the_expiry,
];

/// A client whose leases on these objects of one volume live, and whose lease
/// on the volume is dead.
pub struct Parked {
    pub client: u8,
    pub objects: Vec<u8>,
}

impl Parked {
    pub fn any(&self, b: &mut Builder) -> u8 {
        b.rng.pick(&self.objects)
    }
}

/// Returns when the client's volume lease ends, at the server.
pub fn volume_expiry(b: &Builder, client: u8, object: u8) -> u32 {
    b.server().volume_expiry[b.setup.volume(object.into())][usize::from(client)]
}

/// Gives a client up to four objects of a volume, if it has as many.
pub fn hold_some(b: &mut Builder) -> Parked {
    let (client, mut object) = (b.any_client(), b.any_object());
    for _ in 0..3 {
        if b.sibling(object).is_none() {
            object = b.any_object();
        }
    }
    let mut objects = vec![object];
    for _ in 0..b.rng.range(2, 3) {
        objects.extend(b.sibling(object));
    }
    objects.sort_unstable();
    objects.dedup();
    for &object in &objects {
        hold(b, client, object);
    }
    Parked { client, objects }
}

/// Parks a client: its volume lease has ended by now, or some ticks ago.
pub fn park(b: &mut Builder, ticks: u32) -> Option<Parked> {
    calm(b);
    let mut parked = hold_some(b);
    let end = volume_expiry(b, parked.client, parked.objects[0]);
    b.clock(end.saturating_add(ticks));
    let (clock, of) = (b.tables().clock, usize::from(parked.client));
    parked.objects.retain(|&object| alive(b.server().object_expiry[usize::from(object)][of], clock));
    (!parked.objects.is_empty()).then_some(parked)
}

/// Parks a client a few ticks ago, and not long enough to be marked.
fn park_shortly(b: &mut Builder) -> Option<Parked> {
    let ticks = b.rng.range(0, (b.setup.delay - 1).min(3));
    park(b, ticks)
}

/// Parks a client and notes an object. The BATCH is under way.
fn batch_under_way(b: &mut Builder) -> Option<(Parked, u8)> {
    let parked = park_shortly(b)?;
    let noted = parked.any(b);
    b.write(noted);
    let asked = parked.any(b);
    b.ask(parked.client, asked);
    b.deliver(parked.client, RENEW);
    Some((parked, noted))
}

/// The client has obeyed, and its CLEARED is under way.
pub fn cleared_under_way(b: &mut Builder) -> Option<(Parked, u8)> {
    let (parked, noted) = batch_under_way(b)?;
    b.deliver(parked.client, BATCH);
    Some((parked, noted))
}

/// Comes back through an object, and looks at the others.
pub fn back(b: &mut Builder, parked: &Parked, by: u8) {
    for _ in 0..2 {
        exchange(b, parked.client, by);
        read_all(b, parked);
    }
}

fn read_all(b: &mut Builder, parked: &Parked) {
    for &object in &parked.objects {
        b.read(parked.client, object);
    }
}

/// Writes every object that it held, and reads all: who has a lease on one is
/// waited for.
pub fn write_all(b: &mut Builder, parked: &Parked) {
    for &object in &parked.objects {
        write_and_read(b, parked.client, object);
    }
    probe(b);
}

/// Writes an object and reads it at once: who has a lease on it is waited for.
pub fn write_and_read(b: &mut Builder, client: u8, object: u8) {
    b.write(object);
    b.read(client, object);
}

/// Two or three notes are in one batch, the others' copies stay.
fn several_notes(b: &mut Builder) {
    let Some(parked) = park_shortly(b) else {
        return;
    };
    let spared = b.rng.range(0, 1) as usize;
    for &object in &parked.objects[..parked.objects.len() - spared] {
        b.write(object);
    }
    let by = parked.any(b);
    back(b, &parked, by);
    write_all(b, &parked);
}

/// A later note voids the batch: before the client gets it, or behind it.
fn note_after_batch(b: &mut Builder) {
    let Some((parked, noted)) = batch_under_way(b) else {
        return;
    };
    let later = b.rng.percent(50);
    if later {
        b.deliver(parked.client, BATCH);
    }
    let others: Vec<u8> = parked.objects.iter().copied().filter(|&object| object != noted).collect();
    others.iter().take(1).for_each(|&object| b.write(object));
    b.deliver(parked.client, BATCH);
    b.deliver(parked.client, CLEARED);
    b.ask(parked.client, noted);
    b.deliver(parked.client, RENEW);
    b.deliver(parked.client, GRANT);
    b.read(parked.client, noted);
    back(b, &parked, noted);
    probe(b);
}

/// It asks for an object that is not noted, noted ones stay old.
fn other_object_asked(b: &mut Builder) {
    let Some(parked) = park_shortly(b) else {
        return;
    };
    let noted = parked.objects[0];
    b.write(noted);
    let Some(other) = b.sibling(noted) else {
        return;
    };
    b.ask(parked.client, other);
    b.deliver(parked.client, RENEW);
    b.deliver(parked.client, GRANT);
    b.read(parked.client, noted);
    probe(b);
    back(b, &parked, other);
}

/// A CLEARED comes after the next batch was sent, with the same notes or one
/// more. It does not count, and that of the next does.
fn cleared_late(b: &mut Builder) {
    let Some((parked, noted)) = cleared_under_way(b) else {
        return;
    };
    let client = parked.client;
    if b.rng.percent(50) {
        let other = parked.any(b);
        b.write(other);
    }
    b.ask(client, noted);
    b.deliver(client, RENEW);
    b.deliver(client, CLEARED);
    if b.rng.percent(50) {
        b.deliver(client, BATCH);
        b.deliver(client, CLEARED);
    }
    b.ask(client, noted);
    b.deliver(client, RENEW);
    b.deliver(client, GRANT);
    b.read(client, noted);
    probe(b);
    back(b, &parked, noted);
}

/// A CLEARED that counted comes again when the client has a new lease; while
/// the volume lives, or when another batch is out.
fn old_cleared_after_lease(b: &mut Builder) {
    let Some((parked, noted)) = cleared_under_way(b) else {
        return;
    };
    let client = parked.client;
    b.double(client, CLEARED);
    b.deliver(client, CLEARED);
    hold(b, client, noted);
    if b.rng.percent(40) {
        let others: Vec<u8> = parked.objects.iter().copied().filter(|&object| object != noted).collect();
        for &object in &others {
            hold(b, client, object);
        }
        b.clock(volume_expiry(b, client, noted));
        others.iter().for_each(|&object| b.write(object));
        b.ask(client, noted);
        b.deliver(client, RENEW);
        b.deliver(client, CLEARED);
        back(b, &parked, noted);
    }
    b.deliver(client, CLEARED);
    write_and_read(b, client, noted);
    probe(b);
}

/// A BATCH comes twice: at once, or when the client holds the object again.
fn batch_twice(b: &mut Builder) {
    let Some((parked, noted)) = batch_under_way(b) else {
        return;
    };
    let client = parked.client;
    b.double(client, BATCH);
    b.deliver(client, BATCH);
    let late = b.rng.percent(50);
    if late {
        b.deliver(client, CLEARED);
        hold(b, client, noted);
    }
    b.deliver(client, BATCH);
    b.read(client, noted);
    b.deliver(client, CLEARED);
    b.deliver(client, CLEARED);
    b.push(Step::deliver(0));
    back(b, &parked, noted);
    probe(b);
}

/// The first BATCH is lost, or its CLEARED. The next one counts.
fn batch_lost(b: &mut Builder) {
    let Some((parked, noted)) = batch_under_way(b) else {
        return;
    };
    let client = parked.client;
    if b.rng.percent(50) {
        b.deliver(client, BATCH);
        b.lose(client, CLEARED);
    } else {
        b.lose(client, BATCH);
    }
    exchange(b, client, noted);
    exchange(b, client, noted);
    b.read(client, noted);
    probe(b);
}

/// The write of one object waits for the client when its volume lease ends, and
/// another object is noted. It is told of the notes first, then of the write.
fn noted_and_waited_for(b: &mut Builder) {
    let Some((parked, waited, noted)) = waited_and_noted(b) else {
        return;
    };
    let client = parked.client;
    b.ask(client, noted);
    b.deliver(client, RENEW);
    b.deliver(client, INVALIDATE);
    b.deliver(client, ACK);
    b.deliver(client, BATCH);
    b.deliver(client, CLEARED);
    b.write(waited);
    exchange(b, client, waited);
    back(b, &parked, noted);
    probe(b);
}

/// Leaves the client waited for on one object and noted for another; what is
/// sent is lost.
pub fn waited_and_noted(b: &mut Builder) -> Option<(Parked, u8, u8)> {
    calm(b);
    let parked = hold_some(b);
    let [waited, noted] = *parked.objects.first_chunk()?;
    let client = parked.client;
    b.write(waited);
    b.lose(client, INVALIDATE);
    b.clock(volume_expiry(b, client, waited));
    b.write(noted);
    Some((parked, waited, noted))
}

/// The write of a noted object waits for another client: the parked one gets
/// its BATCH all the same, and no lease on the object.
fn noted_while_another_is_waited_for(b: &mut Builder) {
    let Some(parked) = park_shortly(b) else {
        return;
    };
    let (client, noted) = (parked.client, parked.objects[0]);
    let Some(other) = b.other_client(client) else {
        return;
    };
    hold(b, other, noted);
    b.write(noted);
    b.ask(client, noted);
    b.deliver(client, RENEW);
    b.deliver(client, BATCH);
    b.deliver(client, CLEARED);
    if let Some(by) = b.sibling(noted) {
        exchange(b, client, by);
        b.read(client, by);
    }
    b.read(client, noted);
    b.deliver(other, INVALIDATE);
    b.deliver(other, ACK);
    back(b, &parked, noted);
    probe(b);
}

/// A client that is marked is not noted: the GRANT after its DROPPED finds no
/// notes.
fn write_between_offer_and_dropped(b: &mut Builder) {
    let Some(parked) = park_shortly(b) else {
        return;
    };
    let (client, object) = (parked.client, parked.objects[0]);
    b.push(Step::restart_client(client));
    b.ask(client, object);
    b.deliver(client, RENEW);
    b.write(object);
    b.deliver(client, OFFER);
    b.deliver(client, DROPPED);
    exchange(b, client, object);
    b.read(client, object);
    probe(b);
}

/// A client that does not hold the object gets no note: the next RENEW is
/// granted.
fn never_held(b: &mut Builder) {
    let Some(parked) = park_shortly(b) else {
        return;
    };
    let Some(other) = b.sibling(parked.objects[0]) else {
        return;
    };
    b.write(other);
    exchange(b, parked.client, parked.objects[0]);
    read_all(b, &parked);
    reads(b);
}

/// A volume lease that ends now is dead, one that ends a tick later is not.
fn at_the_expiry(b: &mut Builder) {
    calm(b);
    let held = hold_some(b);
    let object = held.objects[0];
    let early = b.rng.range(0, 1);
    b.clock(volume_expiry(b, held.client, object) - early);
    b.write(object);
    b.push(Step::deliver(0));
    back(b, &held, object);
    probe(b);
}
