//! Reasons for every accepted step except a delivery, a read, a save and a
//! return.

use model::limits::QUEUE;
use model::message::Message;
use model::tables::Write;

use super::notes;
use crate::latest_end;
use crate::names::{clients, label, routed, whole};
use crate::trace::Moment;

/// Returns what the step sends, with places among the messages under way.
pub fn sends(moment: &Moment) -> Vec<String> {
    let sends = |(place, sent)| format!("sends {} at place {place}", whole(sent, &moment.voice));
    moment.placed().map(sends).collect()
}

pub fn ask(moment: &Moment) -> Vec<String> {
    let client = moment.step.client;
    let number = moment.request_before(client.into()).next;
    let mut reasons = sends(moment);
    if reasons.is_empty() {
        reasons.push(format!("RENEW {number} from client {client} is lost, the queue has {QUEUE}"));
    }
    if let Some(standing) = moment.request_before(client.into()).standing {
        reasons.push(format!("replaces request {} for object {}", standing.number, standing.object));
    }
    reasons
}

pub fn write(moment: &Moment) -> Vec<String> {
    let object = usize::from(moment.step.object);
    let server = moment.server();
    // A write without a cause does not stand.
    let Some(cause) = latest_end::cause(moment) else {
        let stored = format!("nobody to wait for, stored as version {}", server.version[object]);
        return [vec![stored], notes::of_write(moment)].concat();
    };
    let write = &server.write[object];
    let end = moment.voice.ticks(write.latest_end);
    let mut reasons =
        vec![format!("stands, latest end {end} by {}", cause.words()), waits(moment, object, write)];
    reasons.extend(sends_to(moment));
    let lost = write.waiting.count_ones() as usize - moment.sent().len();
    if lost > 0 {
        reasons.push(format!("{lost} of its INVALIDATE lost, the queue has {QUEUE}"));
    }
    reasons.extend(notes::of_write(moment));
    reasons
}

/// Returns what a write sends: the same to each client.
fn sends_to(moment: &Moment) -> Option<String> {
    let to = |(place, sent): (usize, &Message)| format!("to client {} at place {place}", sent.client);
    let (_, first) = moment.placed().next()?;
    Some(format!("sends {} {}", label(first), moment.placed().map(to).collect::<Vec<_>>().join(", ")))
}

/// Returns what a standing write waits for.
pub fn waits(moment: &Moment, object: usize, write: &Write) -> String {
    let guard = moment.server().guard[moment.setup.volume(object)];
    let held_back = moment.clock() < guard;
    let guard = moment.voice.ticks(guard);
    match (write.waiting, held_back) {
        (0, true) => format!("waits for the guard, {guard}"),
        (set, true) => format!("waits for {} and the guard, {guard}", clients(set)),
        (set, false) => format!("waits for {}", clients(set)),
    }
}

/// Returns the writes that completed in the step, in object order.
pub fn completed(moment: &Moment) -> Vec<String> {
    let words = |(object, write): (usize, &Write)| {
        let version = moment.server().version[object];
        format!("object {object} becomes {}, version {version}", write.value)
    };
    moment.ended().into_iter().map(words).collect()
}

pub fn clock(moment: &Moment) -> Vec<String> {
    let mut reasons = Vec::new();
    for ((_, write), mut words) in moment.ended().into_iter().zip(completed(moment)) {
        if write.waiting != 0 {
            words += &format!(
                ", latest end {} passed, {} marked unreachable",
                moment.voice.ticks(write.latest_end),
                clients(write.waiting)
            );
        }
        reasons.push(words);
    }
    reasons.extend(notes::dropped(moment, "dropped"));
    let server = moment.server();
    for object in moment.objects().filter(|&object| server.stands(object)) {
        let write = &server.write[object];
        let (end, waits) = (moment.voice.ticks(write.latest_end), waits(moment, object, write));
        reasons.push(format!("write of object {object} stands, latest end {end}, {waits}"));
    }
    reasons
}

pub fn lose(moment: &Moment) -> Vec<String> {
    moment.taken().map(|message| format!("{} is lost", whole(message, &moment.voice))).into_iter().collect()
}

pub fn double(moment: &Moment) -> Vec<String> {
    let original = routed(&moment.before.tables.queue.messages()[usize::from(moment.step.place)]);
    vec![match moment.sent() {
        [] => format!("the copy of {original} is lost, the queue has {QUEUE}"),
        _ => format!("a copy of {original} at place {}", moment.before.tables.queue.len),
    }]
}

pub fn restart_server(moment: &Moment) -> Vec<String> {
    let server = moment.server();
    let volumes = moment.volumes().map(|volume| {
        let (epoch, guard) = (server.epoch[volume], moment.voice.ticks(server.guard[volume]));
        format!("volume {volume} has epoch {epoch}, guard {guard}")
    });
    let cut_off = |(object, write): (usize, &Write)| {
        format!("write of object {object}, value {}, cut off", write.value)
    };
    let writes = moment.ended().into_iter().map(cut_off);
    volumes.chain(writes).chain(notes::dropped(moment, "lost")).collect()
}

pub fn restart_client(moment: &Moment) -> Vec<String> {
    let client = usize::from(moment.step.client);
    let copies = moment.objects().filter(|&object| moment.copy_before(client, object).version != 0).count();
    let next = moment.request_before(client).next;
    let copies = if copies == 1 { "1 copy".into() } else { format!("{copies} copies") };
    let mut reasons = vec![format!("{copies} erased, next number {next} remains")];
    if let Some(standing) = moment.request_before(client).standing {
        reasons.push(format!("forgets request {} for object {}", standing.number, standing.object));
    }
    reasons
}
