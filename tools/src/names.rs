//! Messages and sets in words.

use model::bits::members;
use model::message::{Kind, Message};

use crate::voice::Voice;

/// The kinds, in the order of their numbers in a frame.
pub const KINDS: [&str; 8] = ["RENEW", "GRANT", "INVALIDATE", "ACK", "OFFER", "DROPPED", "BATCH", "CLEARED"];

pub fn kind(kind: &Kind) -> &'static str {
    KINDS[usize::from(kind.code()) - 1]
}

/// Returns the direction of a kind, by its name: `to` a client, or `from` one.
pub fn way(kind: &str) -> &'static str {
    match kind {
        "GRANT" | "INVALIDATE" | "OFFER" | "BATCH" => "to",
        _ => "from",
    }
}

/// Returns what a kind is about, by its name: an object or a volume.
pub fn about(kind: &str) -> &'static str {
    match kind {
        "OFFER" | "DROPPED" | "BATCH" | "CLEARED" => "volume",
        _ => "object",
    }
}

/// Returns the number of the object or volume that a message is about.
pub fn item(message: &Message) -> u8 {
    match message.kind {
        Kind::Renew { object, .. } | Kind::Invalidate { object, .. } | Kind::Ack { object, .. } => object,
        Kind::Grant(grant) => grant.object,
        Kind::Offer { volume, .. } | Kind::Dropped { volume, .. } => volume,
        Kind::Batch(batch) | Kind::Cleared(batch) => batch.volume,
    }
}

/// Returns whether the server sends this kind.
pub fn from_server(message: &Kind) -> bool {
    way(kind(message)) == "to"
}

/// Returns the kind with what tells two messages of it apart.
pub fn label(message: &Message) -> String {
    let name = kind(&message.kind);
    match message.kind {
        Kind::Renew { number, .. } | Kind::Offer { number, .. } | Kind::Dropped { number, .. } => {
            format!("{name} {number}")
        }
        Kind::Grant(grant) => format!("{name} {}", grant.number),
        Kind::Batch(batch) | Kind::Cleared(batch) => format!("{name} {}", batch.number),
        Kind::Invalidate { object, version, .. } | Kind::Ack { object, version, .. } => {
            format!("{name} object {object} version {version}")
        }
    }
}

/// Returns the label with the message's direction.
pub fn routed(message: &Message) -> String {
    format!("{} {} client {}", label(message), way(kind(&message.kind)), message.client)
}

/// Returns the message with its place among those under way and what it is
/// about, so that a text can tell it from the others.
pub fn placed(place: usize, message: &Message) -> String {
    let routed = routed(message);
    match message.kind {
        Kind::Invalidate { .. } | Kind::Ack { .. } => format!("{place} {routed}"),
        _ => format!("{place} {routed} {} {}", about(kind(&message.kind)), item(message)),
    }
}

/// Returns every field that the label leaves out, with times in this voice.
pub fn fields(message: &Message, voice: &Voice) -> String {
    match message.kind {
        Kind::Renew { object, epoch, version, .. } => {
            format!("object {object}, epoch {epoch}, version {version}")
        }
        Kind::Invalidate { epoch, .. } | Kind::Ack { epoch, .. } => format!("epoch {epoch}"),
        Kind::Offer { volume, epoch, .. } | Kind::Dropped { volume, epoch, .. } => {
            format!("volume {volume}, epoch {epoch}")
        }
        Kind::Batch(batch) | Kind::Cleared(batch) => {
            format!("volume {}, epoch {}, {}", batch.volume, batch.epoch, objects(batch.set))
        }
        Kind::Grant(grant) => {
            let value = grant.value.map_or("no value".into(), |value| format!("value {value}"));
            let (volume, object) = (voice.ticks(grant.volume_expiry), voice.ticks(grant.object_expiry));
            format!(
                "object {}, volume lease to {volume}, object lease to {object}, epoch {}, version {}, {value}",
                grant.object, grant.epoch, grant.version
            )
        }
    }
}

pub fn whole(message: &Message, voice: &Voice) -> String {
    format!("{} ({})", routed(message), fields(message, voice))
}

/// Returns "client 1", "clients 0, 2" or "nobody".
pub fn clients(set: u16) -> String {
    listed("client", set.into()).unwrap_or("nobody".into())
}

/// Returns "object 1", "objects 0, 2" or "no object".
pub fn objects(set: u32) -> String {
    listed("object", set).unwrap_or("no object".into())
}

/// Returns "step 4", "steps 4 to 7" or "steps 2, 4 to 7" for numbers in order.
pub fn steps(numbers: &[usize]) -> String {
    let mut ranges: Vec<(usize, usize)> = Vec::new();
    for &number in numbers {
        match ranges.last_mut() {
            Some((_, last)) if *last + 1 == number => *last = number,
            _ => ranges.push((number, number)),
        }
    }
    let range = |(first, last): &(usize, usize)| match first == last {
        true => first.to_string(),
        false => format!("{first} to {last}"),
    };
    let word = if numbers.len() == 1 { "step" } else { "steps" };
    format!("{word} {}", ranges.iter().map(range).collect::<Vec<_>>().join(", "))
}

/// Returns the numbers in a set after the word for them, if there are any.
fn listed(word: &str, set: u32) -> Option<String> {
    let numbers: Vec<String> = members(set).map(|number| number.to_string()).collect();
    match numbers.len() {
        0 => None,
        1 => Some(format!("{word} {}", numbers[0])),
        _ => Some(format!("{word}s {}", numbers.join(", "))),
    }
}
