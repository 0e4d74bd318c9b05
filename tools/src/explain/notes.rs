//! Reasons from the notes: which objects a write noted for which client, what a
//! batch is about, and what drops notes (02, A6).

use std::iter;

use model::bits::members;
use model::message::Batch;
use model::step_record::{CLOCK, DELIVER};
use model::tables::alive;

use super::delivery::{nothing, request_changed, standing};
use crate::names::{clients, objects};
use crate::trace::Moment;

/// Returns why the step's write does not wait for each client that still has
/// its object lease, what is noted instead, and for whom it was noted before.
pub fn of_write(moment: &Moment) -> Vec<String> {
    let object = usize::from(moment.step.object);
    let volume = moment.setup.volume(object);
    let parked = parked(moment, object, volume);
    let (before, after) = (moment.server_before(), moment.server());
    let noted = clients_with_note(moment, &after.notes[volume], object) & parked;
    let mut reasons = Vec::new();
    for (set, instead) in [
        (noted, format!("object {object} noted")),
        (parked & !noted, "marked unreachable, nothing noted".into()),
    ] {
        if set != 0 {
            reasons.push(format!("does not wait for {}: {instead}", whose_lease_ended(moment, volume, set)));
        }
    }
    reasons.extend(members(noted.into()).filter_map(|client| {
        batch(before.batch[volume][client]).map(|batch| format!("{batch} of client {client} is void"))
    }));
    match clients_with_note(moment, &before.notes[volume], object) {
        0 => (),
        set => reasons.push(format!("object {object} is already noted for {}", clients(set))),
    }
    reasons
}

/// Returns the clients that have a note of the object among these of its
/// volume.
fn clients_with_note(moment: &Moment, notes: &[u32], object: usize) -> u16 {
    let has = |&client: &usize| notes[client] >> object & 1 == 1;
    moment.clients().filter(has).fold(0, |set, client| set | 1 << client)
}

/// Returns the clients with a live lease on the object and a dead one on its
/// volume, before the step.
fn parked(moment: &Moment, object: usize, volume: usize) -> u16 {
    let (server, clock) = (moment.server_before(), moment.before.tables.clock);
    let dead = |&client: &usize| {
        alive(server.object_expiry[object][client], clock)
            && !alive(server.volume_expiry[volume][client], clock)
    };
    moment.clients().filter(dead).fold(0, |set, client| set | 1 << client)
}

/// Returns "client 1, whose volume lease ended at 10", the same of several, or
/// each with its own end if they differ.
fn whose_lease_ended(moment: &Moment, volume: usize, set: u16) -> String {
    let expiry = |client: usize| moment.voice.ticks(moment.server_before().volume_expiry[volume][client]);
    let ends: Vec<String> = members(set.into()).map(expiry).collect();
    if ends.iter().any(|end| *end != ends[0]) {
        let each = members(set.into()).zip(&ends).enumerate().map(|(place, (client, end))| match place {
            0 => format!("client {client} (volume lease ended at {end})"),
            _ => format!("client {client} ({end})"),
        });
        return each.collect::<Vec<_>>().join(", ");
    }
    let leases = if ends.len() == 1 { "lease" } else { "leases" };
    format!("{}, whose volume {leases} ended at {}", clients(set), ends[0])
}

/// Returns "batch 4", unless the number is 0.
fn batch(number: u32) -> Option<String> {
    (number != 0).then(|| format!("batch {number}"))
}

/// Returns why a RENEW was answered by a BATCH.
pub fn of_renew(moment: &Moment, client: usize, volume: usize) -> Vec<String> {
    let server = moment.server_before();
    let mut reasons = vec![format!("noted for client {client}: {}", objects(server.notes[volume][client]))];
    reasons.extend(batch(server.batch[volume][client]).map(|batch| format!("replaces {batch}")));
    reasons
}

/// Returns which copies a BATCH erased, or why it did nothing.
pub fn of_batch(moment: &Moment, client: usize, batch: &Batch) -> Vec<String> {
    if !request_changed(moment, client) {
        return nothing(standing(moment, client));
    }
    let held = members(batch.set).filter(|&object| moment.copy_before(client, object).version != 0);
    let held: u32 = held.fold(0, |set, object| set | 1 << object);
    let mut reasons = Vec::new();
    match held.count_ones() {
        0 => (),
        1 => reasons.push(format!("copy of {} erased", objects(held))),
        _ => reasons.push(format!("copies of {} erased", objects(held))),
    }
    if batch.set != held {
        reasons.push(format!("no copy of {} was held", objects(batch.set & !held)));
    }
    reasons
}

/// Returns what a CLEARED dropped, or why it did nothing.
pub fn of_cleared(moment: &Moment, client: usize, cleared: &Batch) -> Vec<String> {
    let (before, volume) = (moment.server_before(), usize::from(cleared.volume));
    let (batch, notes) = (before.batch[volume][client], before.notes[volume][client]);
    if moment.server().batch[volume][client] != batch {
        let notes = format!("{} dropped", counted("note", "of", cleared.set));
        return iter::once(notes).chain(leases_dropped(moment, client, cleared.set)).collect();
    }
    let mut unlike = Vec::new();
    if cleared.epoch != before.epoch[volume] {
        unlike.push(format!("the server's epoch is {}", before.epoch[volume]));
    }
    let marked = before.unreachable[volume] >> client & 1 == 1;
    match (batch, notes) {
        (0, 0) if marked => unlike.push(format!("no batch stands, client {client} is marked unreachable")),
        (0, 0) => unlike.push("no batch stands".into()),
        (0, _) => unlike.push(format!("no batch stands, noted: {}", objects(notes))),
        (number, _) if number != cleared.number => unlike.push(format!("the batch's number is {number}")),
        _ => (),
    }
    nothing(unlike.join(", "))
}

/// Returns the live leases on the objects of a set that a CLEARED dropped, if
/// there were any. A completed write ends its leases, so mostly there are none.
fn leases_dropped(moment: &Moment, client: usize, set: u32) -> Option<String> {
    let (server, clock) = (moment.server_before(), moment.before.tables.clock);
    let held = members(set).filter(|&object| alive(server.object_expiry[object][client], clock));
    match held.fold(0, |set, object| set | 1 << object) {
        0 => None,
        held => Some(format!("{} dropped", counted("lease", "on", held))),
    }
}

/// Returns "note of object 0" or "notes of objects 0, 1".
fn counted(what: &str, of: &str, set: u32) -> String {
    let plural = if set.count_ones() == 1 { "" } else { "s" };
    format!("{what}{plural} {of} {}", objects(set))
}

/// Returns the notes that the step dropped without a CLEARED, with the batch
/// that it voided and the mark that dropped them. The mark is left out if a
/// completed write already told of it.
pub fn dropped(moment: &Moment, how: &str) -> Vec<String> {
    let mut reasons = Vec::new();
    for (volume, client) in all(moment) {
        let before = moment.server_before();
        let notes = before.notes[volume][client];
        if notes == 0 || moment.server().notes[volume][client] != 0 {
            continue;
        }
        let void =
            batch(before.batch[volume][client]).map_or(String::new(), |batch| format!(", {batch} void"));
        let gone = format!("{} {how}{void}", counted("note", "of", notes));
        reasons.push(match why_marked(moment, volume, client) {
            None => format!("client {client}'s {gone}"),
            Some(why) => format!("client {client} marked unreachable in volume {volume}{why}: {gone}"),
        });
    }
    reasons
}

fn all(moment: &Moment) -> impl Iterator<Item = (usize, usize)> {
    let clients = moment.clients();
    moment.volumes().flat_map(move |volume| clients.clone().map(move |client| (volume, client)))
}

/// Returns the words that say why the step marked a client that had notes, if
/// its delay is over. For a RENEW they are empty, since the reason before tells
/// why. Returns nothing if the mark is told elsewhere, or there is none.
fn why_marked(moment: &Moment, volume: usize, client: usize) -> Option<String> {
    let (end, delay) = (moment.server_before().volume_expiry[volume][client], moment.setup.delay);
    match moment.step.kind {
        DELIVER => Some(String::new()),
        CLOCK if moment.clock() >= end + delay => {
            let (end, delay) = (moment.voice.ticks(end), moment.voice.ticks(delay));
            Some(format!(", since its lease there ended at {end} and the delay of {delay} is over"))
        }
        _ => None,
    }
}
