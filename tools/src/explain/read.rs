//! Reasons for a read: what a shown copy rests on, or why the client has to ask
//! first (02, A8). That reason and its event are the proved library's; the
//! model's tables add the times and the kind of a message.

use gevtsomi::{Reason, Why};
use model::answer::Answer;
use model::message::Kind;

use crate::trace::{Moment, Past};

pub fn reasons(moment: &Moment) -> Vec<String> {
    match moment.answer {
        Answer::Shown(_) => shown(moment),
        _ => moment.why().map_or(Vec::new(), |why| ask_first(moment, why)),
    }
}

fn shown(moment: &Moment) -> Vec<String> {
    let (volume_expiry, object_expiry) = expiries(moment);
    let version = moment.copy_before(moment.step.client.into(), moment.step.object.into()).version;
    vec![
        format!("version {version}"),
        format!("volume lease to {volume_expiry}"),
        format!("object lease to {object_expiry}"),
    ]
}

fn ask_first(moment: &Moment, why: Why) -> Vec<String> {
    let (volume_expiry, object_expiry) = expiries(moment);
    let ran_out = |which: &str, expiry: String| {
        vec![format!("{which} lease ran out at {expiry}"), format!("granted {}", event(moment, why))]
    };
    match why.reason {
        Reason::NeverGranted => vec!["never granted".into()],
        Reason::CopyInvalidated => vec![format!("copy invalidated {}", event(moment, why))],
        Reason::LeasesDropped => {
            vec![format!("leases dropped on {} {}", message(moment, why), event(moment, why))]
        }
        Reason::ClientRestarted => vec![format!("client restarted {}", event(moment, why))],
        Reason::VolumeLeaseRanOut => ran_out("volume", volume_expiry),
        Reason::ObjectLeaseRanOut => ran_out("object", object_expiry),
    }
}

/// Returns when the client's leases of the volume and of the object end.
fn expiries(moment: &Moment) -> (String, String) {
    let (client, object) = (usize::from(moment.step.client), usize::from(moment.step.object));
    let volume_expiry = moment.before.tables.clients.expiry[client][moment.setup.volume(object)];
    let object_expiry = moment.copy_before(client, object).expiry;
    (moment.voice.ticks(volume_expiry), moment.voice.ticks(object_expiry))
}

/// Returns "in step 8 (clock 0)".
fn event(moment: &Moment, why: Why) -> String {
    format!("in step {} (clock {})", why.event, moment.voice.ticks(step(moment, why).clock))
}

/// Returns the message on which the client dropped its leases.
fn message(moment: &Moment, why: Why) -> &'static str {
    match step(moment, why).delivered {
        Some(Kind::Batch(_)) => "a BATCH",
        _ => "an OFFER",
    }
}

/// Returns the step of the event. Every reason but the first has one.
fn step<'a>(moment: &Moment<'a>, why: Why) -> &'a Past {
    &moment.past[why.event as usize - 1]
}
