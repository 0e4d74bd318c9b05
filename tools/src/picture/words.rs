//! The words of messages and bars, on themselves and when pointed at.

use model::message::{Kind, Message};

use super::letters::{cut, LABEL};
use crate::latest_end::Cause;
use crate::names;
use crate::timeline::flights::{End, Flight};
use crate::timeline::spans::Span;
use crate::timeline::tracks::{Detail, Track};
use crate::timeline::{StepView, Timeline};
use crate::voice::Voice;

/// Room for a value, if a write stands for only one step.
const VALUES: f64 = 42.0;

/// Returns the kind of a step's answer, as a class and as the page's buttons
/// have it.
pub fn answered(view: &StepView) -> &'static str {
    match view.answer.numbers().0 {
        0 => "done",
        1 => "shown",
        2 => "ask",
        3 => "completed",
        _ => "refused",
    }
}

pub fn receiver(voice: &Voice, message: &Message) -> String {
    match names::from_server(&message.kind) {
        true => voice.said(&format!("client {}", message.client)),
        false => "server".into(),
    }
}

/// Returns a message's labels with the receiver, from the fullest to the
/// shortest.
pub fn addressed(voice: &Voice, message: &Message) -> Vec<String> {
    let receiver = receiver(voice, message);
    anonymous(voice, message).iter().map(|words| format!("{words} to {receiver}")).collect()
}

/// Returns a message's labels if the receiver is named elsewhere.
pub fn anonymous(voice: &Voice, message: &Message) -> Vec<String> {
    let label = names::label(message);
    let with_objects = match message.kind {
        Kind::Batch(batch) | Kind::Cleared(batch) => Some(format!("{label} {}", names::objects(batch.set))),
        _ => None,
    };
    let wordings = with_objects.into_iter().chain([label, names::kind(&message.kind).into()]);
    wordings.map(|words| voice.said(&words)).collect()
}

/// Returns the label of a message at this place in the queue.
pub fn queued(voice: &Voice, place: usize, message: &Message) -> String {
    format!("{place}: {} to {}", voice.said(&names::label(message)), receiver(voice, message))
}

pub fn flight_title(timeline: &Timeline, flight: &Flight) -> String {
    let what = timeline.voice.said(&names::whole(&flight.message, &timeline.voice));
    let line = |step: usize| &timeline.step(step).line;
    let begin = match (flight.copy_of, flight.again) {
        (Some(_), _) => format!("copied by step {}", line(flight.sent)),
        (None, true) => format!("under way again since step {}", line(flight.sent)),
        (None, false) => format!("sent by step {}", line(flight.sent)),
    };
    let end = match flight.end {
        End::Delivered(step) => format!("received in step {}", line(step)),
        End::Lost(step) => format!("lost by step {}", line(step)),
        End::Left(step) => format!("left behind by step {}", line(step)),
        End::QueueFull => "lost at once: the queue was full".into(),
        End::UnderWay => "still under way at the end".into(),
    };
    format!("{what}\n{begin}\n{end}")
}

/// Returns what fixes a write's latest end.
fn by(timeline: &Timeline, write: &Span, words: fn(&Cause) -> String) -> String {
    format!("by {}", words(timeline.cause(write)))
}

/// Returns a bar's labels, from the fullest to the shortest.
pub fn wordings(timeline: &Timeline, span: &Span) -> Vec<String> {
    let (until, version) = (span.detail.until, span.detail.version);
    let (value, time) = (span.detail.value.to_string(), timeline.voice.ticks(until));
    let wordings = match span.track {
        Track::VolumeLease(_, volume) => vec![
            format!("volume {volume} lease to {time}, epoch {version}"),
            format!("lease to {time}"),
            format!("lease to {until}"),
            format!("to {until}"),
        ],
        Track::ObjectLease(_, object) => vec![
            format!("object {object} lease to {time}, value {value}, version {version}"),
            format!("value {value}, to {time}"),
            format!("value {value}, to {until}"),
            format!("to {until}"),
        ],
        Track::Notes(_, volume) => noted(span.detail, volume),
        Track::Write(object) => {
            let (whole, short) = (by(timeline, span, Cause::words), by(timeline, span, Cause::short));
            vec![
                format!("object {object}: write {value}, latest end {time} {whole}"),
                format!("write {value}, to {time} {whole}"),
                format!("write {value}, to {until} {short}"),
                format!("to {until} {short}"),
                format!("write {value}, to {until}"),
                format!("write {value}"),
                cut(&value, VALUES, LABEL),
            ]
        }
        _ => vec![format!("guard to {time}, epoch {version}"), format!("to {until}")],
    };
    wordings.iter().map(|words| timeline.voice.said(words)).collect()
}

/// Returns the labels of notes: the objects, and the batch that told the client
/// of them.
fn noted(notes: Detail, volume: usize) -> Vec<String> {
    let objects = names::objects(notes.value as u32);
    let numbers = objects.trim_start_matches(|c: char| !c.is_ascii_digit()).to_string();
    match notes.version {
        0 => vec![
            format!("volume {volume} notes: {objects}"),
            format!("notes: {objects}"),
            objects.clone(),
            numbers,
        ],
        batch => vec![
            format!("volume {volume} notes: {objects}, batch {batch}"),
            format!("notes: {objects}, batch {batch}"),
            format!("batch {batch}: {numbers}"),
            format!("batch {batch}"),
        ],
    }
}

pub fn span_title(timeline: &Timeline, span: &Span) -> String {
    let what = timeline.voice.said(&span_words(timeline, span));
    let last = span.to.map_or("the end".into(), |to| format!("step {}", timeline.step(to).line));
    format!("{what}\nfrom step {}\nto {last}", timeline.step(span.from).line)
}

/// Returns the noted objects, the batch that told the client of them, and when
/// they age.
fn told_notes(timeline: &Timeline, notes: Detail) -> String {
    let objects = names::objects(notes.value as u32);
    let batch = match notes.version {
        0 => String::new(),
        number => format!(", sent in BATCH {number}"),
    };
    let aged = notes.until.checked_add(timeline.setup.delay);
    let aged = aged.map_or(String::new(), |time| format!(", to age at {}", timeline.voice.ticks(time)));
    format!("{objects}{batch}{aged}")
}

fn span_words(timeline: &Timeline, span: &Span) -> String {
    let (version, value) = (span.detail.version, span.detail.value);
    let until = timeline.voice.ticks(span.detail.until);
    match span.track {
        Track::Guard(volume) => format!("guard of volume {volume} to {until}, epoch {version}"),
        Track::Write(object) => {
            let by = by(timeline, span, Cause::words);
            format!("write of object {object}: value {value}, version {version}, latest end {until} {by}")
        }
        Track::ServerVolumeLease(client, volume) => {
            format!("server's record: volume {volume} lease of client {client} to {until}")
        }
        Track::ServerObjectLease(client, object) => {
            format!("server's record: object {object} lease of client {client} to {until}")
        }
        Track::Notes(client, volume) => {
            let whose = format!("server's notes for client {client} in volume {volume}");
            format!("{whose}: {}", told_notes(timeline, span.detail))
        }
        Track::Unreachable(client, volume) => {
            format!("client {client} marked unreachable in volume {volume}")
        }
        Track::VolumeLease(client, volume) => {
            format!("client {client}: volume {volume} lease to {until}, epoch {version}")
        }
        Track::ObjectLease(client, object) | Track::Copy(client, object) => {
            let copy = format!("client {client}: copy of object {object}, value {value}, version {version}");
            match span.detail.until {
                0 => copy,
                _ => format!("{copy}, lease to {until}"),
            }
        }
    }
}

#[cfg(test)]
mod tests {
    use super::*;

    /// The batch is the last to go: without it the label would tell of notes
    /// that nobody was sent.
    #[test]
    fn short_labels_of_notes_keep_what_matters() {
        let labels = |value, version| noted(Detail { until: 10, version, value }, 0);
        assert_eq!(
            labels(0b11, 4),
            [
                "volume 0 notes: objects 0, 1, batch 4",
                "notes: objects 0, 1, batch 4",
                "batch 4: 0, 1",
                "batch 4"
            ]
        );
        assert_eq!(labels(0b1, 0), ["volume 0 notes: object 0", "notes: object 0", "object 0", "0"]);
    }
}
