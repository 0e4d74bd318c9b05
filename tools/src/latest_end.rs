//! Finds what fixes the latest end of a write (02, A3). The tables keep only
//! the time, so the cause is found when the write opens.

use model::bits::members;
use model::step_record::WRITE;

use crate::names::clients;
use crate::trace::Moment;

#[derive(Clone, Copy, Debug, PartialEq, Eq)]
pub enum Cause {
    Leases(Leases),
    Guard,
    /// The clock plus m.
    Timeout,
}

/// The clients whose volume lease ends at the latest end, and those whose
/// object lease does while their volume lease ends later.
#[derive(Clone, Copy, Debug, Default, PartialEq, Eq)]
pub struct Leases {
    pub volume: u16,
    pub object: u16,
}

/// Returns what fixes the latest end of the write that the step opened, if it
/// still stands after the step. If several times are the latest, leases come
/// before the guard, since a reader looks for clients, and the guard before the
/// timeout.
pub fn cause(moment: &Moment) -> Option<Cause> {
    let object = usize::from(moment.step.object);
    let opened = moment.step.kind == WRITE && !moment.refused() && moment.server().stands(object);
    opened.then(|| {
        let guard = moment.server_before().guard[moment.setup.volume(object)];
        let timeout = moment.before.tables.clock + moment.setup.timeout;
        let (lease, leases) = last_leases(moment, object);
        if lease >= guard.max(timeout) {
            Cause::Leases(leases)
        } else if guard >= timeout {
            Cause::Guard
        } else {
            Cause::Timeout
        }
    })
}

/// Returns when the last client waited for can no longer show its copy, and the
/// leases that end then.
fn last_leases(moment: &Moment, object: usize) -> (u32, Leases) {
    let before = moment.server_before();
    let by_volume = &before.volume_expiry[moment.setup.volume(object)];
    let by_object = &before.object_expiry[object];
    let (mut last, mut leases) = (0, Leases::default());
    for client in members(moment.server().write[object].waiting.into()) {
        let end = by_volume[client].min(by_object[client]);
        if end > last {
            (last, leases) = (end, Leases::default());
        }
        if end == last {
            let lesser = if end == by_volume[client] { &mut leases.volume } else { &mut leases.object };
            *lesser |= 1 << client;
        }
    }
    (last, leases)
}

impl Cause {
    /// Returns the cause in words, with each lease that ends then.
    pub fn words(&self) -> String {
        let of = |what: &str, set: u16| {
            let ending = if set.count_ones() == 1 { "" } else { "s" };
            (set != 0).then(|| format!("the {what} lease{ending} of {}", clients(set)))
        };
        match self {
            Cause::Leases(Leases { volume, object }) => {
                let words = [of("volume", *volume), of("object", *object)];
                words.into_iter().flatten().collect::<Vec<_>>().join(" and ")
            }
            Cause::Guard => "the guard".into(),
            Cause::Timeout => "the timeout".into(),
        }
    }

    /// Returns the cause in words, without saying which lease it is.
    pub fn short(&self) -> String {
        match self {
            Cause::Leases(Leases { volume, object }) => clients(volume | object),
            _ => self.words(),
        }
    }
}
