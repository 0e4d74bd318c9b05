//! The cases that a trial is one of.

use model::message::{Grant, Kind};
use model::tables::alive;

use crate::followed::Quieted;
use crate::trial::Trial;

#[derive(Clone, Copy, Debug, PartialEq, Eq, PartialOrd, Ord)]
pub enum Case {
    // In 7 steps: why an offer comes first.
    NeverConnected,
    ClientRestarted,
    ServerRestarted,
    MarkedWithoutOffer,
    MarkedByOffer,
    // In 3 steps: what the GRANT finds.
    NoCopy,
    OtherVersion,
    SameVersion,
    // How the state was made quiet.
    AsItWas,
    MessagesLost,
    WritesEnded,
    // What must not matter.
    LeasesAlive,
    RequestStands,
    GuardAhead,
    WriteElsewhere,
}

impl Case {
    pub const ALL: [Case; 15] = [
        Case::NeverConnected,
        Case::ClientRestarted,
        Case::ServerRestarted,
        Case::MarkedWithoutOffer,
        Case::MarkedByOffer,
        Case::NoCopy,
        Case::OtherVersion,
        Case::SameVersion,
        Case::AsItWas,
        Case::MessagesLost,
        Case::WritesEnded,
        Case::LeasesAlive,
        Case::RequestStands,
        Case::GuardAhead,
        Case::WriteElsewhere,
    ];
}

pub fn cases(trial: &Trial) -> impl Iterator<Item = Case> {
    let sort = match trial.claimed {
        3 => found_by_grant(trial),
        _ => reason_to_offer(trial),
    };
    let way = match trial.quieted {
        Quieted::AsItWas => Case::AsItWas,
        Quieted::MessagesLost => Case::MessagesLost,
        Quieted::WritesEnded => Case::WritesEnded,
    };
    [Some(sort), Some(way)].into_iter().chain(beside(trial)).flatten()
}

/// Returns why an offer comes. A mark without an offer comes from a completed
/// write or from notes that aged: the number of an offer stays until a DROPPED
/// or a restart of the server ends the mark, too.
fn reason_to_offer(trial: &Trial) -> Case {
    let (client, volume) = (usize::from(trial.client), trial.volume());
    let tables = &trial.from.state.tables;
    let known = tables.clients.epoch[client][volume];
    let restarted = trial.from.restarted >> client & 1 == 1;
    match tables.server.offer[volume][client] {
        _ if known == 0 && restarted => Case::ClientRestarted,
        _ if known == 0 => Case::NeverConnected,
        _ if known != tables.server.epoch[volume] => Case::ServerRestarted,
        0 => Case::MarkedWithoutOffer,
        _ => Case::MarkedByOffer,
    }
}

/// Returns what the GRANT finds, by the last message: it has no value if the
/// version is held.
fn found_by_grant(trial: &Trial) -> Case {
    match trial.ending.delivered.map(|message| message.kind) {
        Some(Kind::Grant(Grant { value: None, .. })) => Case::SameVersion,
        _ if trial.copy().version == 0 => Case::NoCopy,
        _ => Case::OtherVersion,
    }
}

fn beside(trial: &Trial) -> [Option<Case>; 4] {
    let (client, volume) = (usize::from(trial.client), trial.volume());
    let (setup, state) = (&trial.from.setup, &trial.from.state);
    let lives = |expiry| alive(expiry, state.tables.clock);
    let leased = lives(trial.copy().expiry) && lives(state.tables.clients.expiry[client][volume]);
    let server = &state.tables.server;
    [
        leased.then_some(Case::LeasesAlive),
        state.requests(setup)[client].standing.and(Some(Case::RequestStands)),
        lives(server.guard[volume]).then_some(Case::GuardAhead),
        (server.standing & setup.all_objects() != 0).then_some(Case::WriteElsewhere),
    ]
}
