//! The tables after a step: for clients, volumes and objects that exist, only
//! the rows that hold something.

use model::setup::Setup;
use model::state::State;
use model::tables::alive;

use super::table;
use crate::names::{clients, objects, whole};
use crate::trace::Moment;
use crate::voice::Voice;

/// Makes a row of numbers and words.
macro_rules! row {
    ($($cell:expr),+) => { vec![$($cell.to_string()),+] };
}

/// Returns all tables after a step, one below the other, and the saved states.
pub fn after(moment: &Moment) -> String {
    let saved: Vec<Vec<String>> = (0..)
        .zip(moment.saved)
        .filter_map(|(name, state)| {
            let step = moment.lines.saved_in(name)?;
            Some(row![name, step, moment.voice.ticks(state.as_ref()?.tables.clock)])
        })
        .collect();
    tables(moment.setup, moment.after, &moment.voice, &saved)
}

/// Returns all tables before the first step.
pub fn fresh(setup: &Setup, voice: &Voice) -> String {
    tables(setup, &State::fresh(), voice, &[])
}

fn tables(setup: &Setup, state: &State, voice: &Voice, saved: &[Vec<String>]) -> String {
    let view = View { setup, state, voice };
    let parts = [
        format!("clock {}\n", voice.ticks(state.tables.clock)),
        view.volumes(),
        view.objects(),
        view.server_clients(),
        view.server_volume_leases(),
        view.server_object_leases(),
        view.server_notes(),
        view.requests(),
        view.client_volumes(),
        view.copies(),
        view.messages(),
        view.table("saved states", &["name", "saved in step", "clock"], saved),
    ];
    parts.join("\n")
}

struct View<'a> {
    setup: &'a Setup,
    state: &'a State,
    voice: &'a Voice,
}

/// Returns "number 3", or "none" for 0.
fn number(number: u32) -> String {
    match number {
        0 => "none".into(),
        _ => format!("number {number}"),
    }
}

impl View<'_> {
    /// Returns a table in the user's words.
    fn table(&self, title: &str, heads: &[&str], rows: &[Vec<String>]) -> String {
        let said = |cells: Vec<String>| cells.iter().map(|cell| self.voice.said(cell)).collect();
        let heads = heads.iter().map(|head| head.to_string()).collect();
        let rows: Vec<Vec<String>> = rows.iter().cloned().map(said).collect();
        table::print(&self.voice.said(title), said(heads), &rows)
    }

    /// Returns "10 alive" or "10 ended".
    fn expiry(&self, expiry: u32) -> String {
        let ticks = self.voice.ticks(expiry);
        match expiry {
            0 => "none".into(),
            _ if alive(expiry, self.state.tables.clock) => format!("{ticks} alive"),
            _ => format!("{ticks} ended"),
        }
    }

    fn each_client(&self) -> std::ops::Range<usize> {
        0..self.setup.clients.into()
    }

    fn each_volume(&self) -> std::ops::Range<usize> {
        0..self.setup.volumes.into()
    }

    fn each_object(&self) -> std::ops::Range<usize> {
        0..self.setup.objects.into()
    }

    /// Returns every client with each of the others.
    fn pairs(&self, others: std::ops::Range<usize>) -> impl Iterator<Item = (usize, usize)> {
        self.each_client().flat_map(move |client| others.clone().map(move |other| (client, other)))
    }

    fn volumes(&self) -> String {
        let server = &self.state.tables.server;
        let row = |volume: usize| {
            let (latest, guard) = (server.volume_latest[volume], server.guard[volume]);
            row![volume, server.epoch[volume], self.voice.ticks(latest), self.voice.ticks(guard)]
        };
        let rows: Vec<_> = self.each_volume().map(row).collect();
        self.table("server, volumes", &["volume", "epoch", "largest expiry", "guard"], &rows)
    }

    fn objects(&self) -> String {
        let server = &self.state.tables.server;
        let row = |object: usize| {
            let write = &server.write[object];
            let standing = match server.stands(object) {
                false => "none".into(),
                true => format!(
                    "value {}, latest end {}, waits for {}",
                    write.value,
                    self.voice.ticks(write.latest_end),
                    clients(write.waiting)
                ),
            };
            let (value, version) = (server.value[object], server.version[object]);
            let latest = self.voice.ticks(server.object_latest[object]);
            row![object, self.setup.volume(object), value, version, latest, standing]
        };
        let rows: Vec<_> = self.each_object().map(row).collect();
        let heads = ["object", "volume", "value", "version", "largest expiry", "standing write"];
        self.table("server, objects", &heads, &rows)
    }

    fn server_clients(&self) -> String {
        let seen = &self.state.tables.server.seen;
        let rows: Vec<_> = self.each_client().map(|client| row![client, seen[client]]).collect();
        self.table("server, clients", &["client", "highest number seen"], &rows)
    }

    fn server_volume_leases(&self) -> String {
        let server = &self.state.tables.server;
        let row = |(client, volume): (usize, usize)| {
            let (expiry, offer) = (server.volume_expiry[volume][client], server.offer[volume][client]);
            let marked = server.unreachable[volume] >> client & 1 == 1;
            let mark = if marked { "unreachable" } else { "none" };
            let holds = expiry != 0 || offer != 0 || marked;
            holds.then(|| row![client, volume, self.expiry(expiry), mark, number(offer)])
        };
        let rows: Vec<_> = self.pairs(self.each_volume()).filter_map(row).collect();
        self.table("server, volume leases", &["client", "volume", "lease to", "mark", "offer"], &rows)
    }

    fn server_notes(&self) -> String {
        let server = &self.state.tables.server;
        let row = |(client, volume): (usize, usize)| {
            let (notes, batch) = (server.notes[volume][client], server.batch[volume][client]);
            (notes != 0 || batch != 0).then(|| row![client, volume, objects(notes), number(batch)])
        };
        let rows: Vec<_> = self.pairs(self.each_volume()).filter_map(row).collect();
        self.table("server, notes", &["client", "volume", "noted", "batch"], &rows)
    }

    fn server_object_leases(&self) -> String {
        let expiry = &self.state.tables.server.object_expiry;
        let row = |(client, object): (usize, usize)| {
            let expiry = expiry[object][client];
            (expiry != 0).then(|| row![client, object, self.expiry(expiry)])
        };
        let rows: Vec<_> = self.pairs(self.each_object()).filter_map(row).collect();
        self.table("server, object leases", &["client", "object", "lease to"], &rows)
    }

    fn requests(&self) -> String {
        let row = |(client, request): (usize, &model::requests::Request)| {
            let standing = request.standing.map_or("none".into(), |standing| {
                format!("number {} for object {}", standing.number, standing.object)
            });
            row![client, request.next, standing]
        };
        let rows: Vec<_> = self.state.requests(self.setup).iter().enumerate().map(row).collect();
        self.table("clients, requests", &["client", "next number", "standing request"], &rows)
    }

    fn client_volumes(&self) -> String {
        let known = &self.state.tables.clients;
        let row = |(client, volume): (usize, usize)| {
            let (epoch, expiry) = (known.epoch[client][volume], known.expiry[client][volume]);
            (epoch != 0 || expiry != 0).then(|| row![client, volume, epoch, self.expiry(expiry)])
        };
        let rows: Vec<_> = self.pairs(self.each_volume()).filter_map(row).collect();
        self.table("clients, volumes", &["client", "volume", "epoch", "lease to"], &rows)
    }

    fn copies(&self) -> String {
        let copies = self.state.copies(self.setup);
        let row = |(client, object): (usize, usize)| {
            let copy = &copies[self.setup.copy_place(client, object)];
            (copy.version != 0)
                .then(|| row![client, object, copy.version, copy.value, self.expiry(copy.expiry)])
        };
        let rows: Vec<_> = self.pairs(self.each_object()).filter_map(row).collect();
        self.table("clients, copies", &["client", "object", "version", "value", "lease to"], &rows)
    }

    fn messages(&self) -> String {
        let messages = self.state.tables.queue.messages().iter().enumerate();
        let rows: Vec<_> = messages.map(|(place, message)| row![place, whole(message, self.voice)]).collect();
        self.table("messages under way", &["place", "message"], &rows)
    }
}
