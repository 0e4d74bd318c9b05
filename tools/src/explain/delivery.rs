//! Reasons for a delivery. What it did is seen from the tables before and
//! after. If it did nothing, the reasons are the entries that the message does
//! not match.

use model::message::{Kind, Message};

use super::notes;
use super::steps::{completed, sends, waits};
use crate::names::whole;
use crate::trace::Moment;

pub fn reasons(moment: &Moment, message: &Message) -> Vec<String> {
    let client = usize::from(message.client);
    let mut reasons = vec![whole(message, &moment.voice)];
    reasons.extend(match message.kind {
        Kind::Renew { object, number, epoch, .. } => renew(moment, client, object.into(), number, epoch),
        Kind::Grant(_) => grant_stored(moment, client),
        Kind::Invalidate { object, .. } => invalidate(moment, client, object.into()),
        Kind::Ack { object, epoch, version } => ack(moment, client, object.into(), epoch, version),
        Kind::Offer { volume, epoch, .. } => offer(moment, client, volume, epoch),
        Kind::Dropped { volume, number, epoch } => dropped(moment, client, volume.into(), number, epoch),
        Kind::Batch(batch) => notes::of_batch(moment, client, &batch),
        Kind::Cleared(batch) => notes::of_cleared(moment, client, &batch),
    });
    if let Kind::Renew { .. } = message.kind {
        reasons.extend(notes::dropped(moment, "dropped"));
    }
    reasons.extend(sends(moment));
    reasons.extend(completed(moment));
    reasons
}

pub fn nothing(why: impl AsRef<str>) -> Vec<String> {
    vec![format!("nothing: {}", why.as_ref())]
}

fn renew(moment: &Moment, client: usize, object: usize, number: u32, epoch: u32) -> Vec<String> {
    let server = moment.server_before();
    let volume = moment.setup.volume(object);
    let marked = server.unreachable[volume] >> client & 1 == 1;
    match moment.sent().first().map(|sent| sent.kind) {
        None if number <= server.seen[client] => nothing(format!("number {} was seen", server.seen[client])),
        None => nothing(format!("a write of object {object} stands")),
        Some(Kind::Offer { .. }) if epoch != server.epoch[volume] => {
            vec![format!("the server's epoch is {}", server.epoch[volume])]
        }
        Some(Kind::Offer { .. }) if marked => vec![format!("client {client} is marked unreachable")],
        Some(Kind::Invalidate { object, .. }) => {
            vec![format!("the write of object {object} still waits for client {client}")]
        }
        Some(Kind::Batch(_)) => notes::of_renew(moment, client, volume),
        Some(_) => Vec::new(),
    }
}

/// Tells that a GRANT with the standing number was stored, with or without a
/// value, or why it was not.
fn grant_stored(moment: &Moment, client: usize) -> Vec<String> {
    if request_changed(moment, client) {
        return vec!["stored".into()];
    }
    nothing(standing(moment, client))
}

/// Returns whether the delivery changed the client's request. An answer that
/// the client takes ends it; any other leaves it.
pub fn request_changed(moment: &Moment, client: usize) -> bool {
    moment.after.requests(moment.setup)[client] != *moment.request_before(client)
}

pub fn standing(moment: &Moment, client: usize) -> String {
    match moment.request_before(client).standing {
        None => format!("client {client} has no standing request"),
        Some(standing) => format!("client {client} waits for number {}", standing.number),
    }
}

fn invalidate(moment: &Moment, client: usize, object: usize) -> Vec<String> {
    let mut reasons = vec![match moment.copy_before(client, object).version {
        0 => "no copy was held".into(),
        version => format!("copy of version {version} erased"),
    }];
    let (before, after) = (moment.request_before(client), moment.after.requests(moment.setup)[client]);
    if let (Some(standing), None) = (before.standing, after.standing) {
        reasons.push(format!("request {} forgotten", standing.number));
    }
    reasons
}

fn ack(moment: &Moment, client: usize, object: usize, epoch: u32, version: u32) -> Vec<String> {
    let (before, after) = (moment.server_before(), moment.server());
    if before == after {
        return nothing(unfit_ack(moment, client, object, epoch, version));
    }
    if after.stands(object) {
        return vec![format!("the write still {}", waits(moment, object, &after.write[object]))];
    }
    Vec::new()
}

fn unfit_ack(moment: &Moment, client: usize, object: usize, epoch: u32, version: u32) -> String {
    let server = moment.server_before();
    if !server.stands(object) {
        return format!("no write of object {object} stands");
    }
    let mut unlike = Vec::new();
    let own_epoch = server.epoch[moment.setup.volume(object)];
    if epoch != own_epoch {
        unlike.push(format!("epoch {epoch}, the server's is {own_epoch}"));
    }
    let own_version = server.version[object] + 1;
    if version != own_version {
        unlike.push(format!("version {version}, the write's is {own_version}"));
    }
    if unlike.is_empty() {
        unlike.push(format!("client {client} is not waited for"));
    }
    unlike.join(", ")
}

fn offer(moment: &Moment, client: usize, volume: u8, epoch: u32) -> Vec<String> {
    if !request_changed(moment, client) {
        return nothing(standing(moment, client));
    }
    vec![format!("client {client} drops its leases of volume {volume} and takes epoch {epoch}")]
}

fn dropped(moment: &Moment, client: usize, volume: usize, number: u32, epoch: u32) -> Vec<String> {
    let (before, after) = (moment.server_before(), moment.server());
    let offer = before.offer[volume][client];
    if after.offer[volume][client] != offer {
        return vec![format!("client {client}'s leases, mark and offer of volume {volume} cleared")];
    }
    let mut unlike = Vec::new();
    if epoch != before.epoch[volume] {
        unlike.push(format!("the server's epoch is {}", before.epoch[volume]));
    }
    if offer == 0 {
        unlike.push("no offer stands".into());
    } else if number != offer {
        unlike.push(format!("the offer's number is {offer}"));
    }
    nothing(unlike.join(", "))
}
