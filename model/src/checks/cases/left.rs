//! What a step left: a line for each element of the tables, each message and
//! each record that differs from before, and the same of each saved state.

use std::fmt::Display;
use std::rc::Rc;

use crate::cases::rows::Row;
use crate::cases::state::CaseState;
use crate::cases::tables::CaseTables;
use crate::limits::{CLIENTS, NAMES, OBJECTS, QUEUE, VOLUMES};
use crate::tables::{ClientVolumes, Server};

/// The same thing before and after a step.
type Both<'a, T> = [&'a T; 2];

pub fn left(before: &CaseTables, after: &CaseTables) -> Vec<String> {
    let mut lines = left_of([&before.present, &after.present]);
    for name in 0..NAMES {
        let both = [before, after].map(|case| &case.saved);
        let mut saved = Vec::new();
        one(&mut saved, both, "there", |saved| u8::from(saved.there[name]));
        let [before, after] = both.map(|saved| &saved.states[name]);
        if !Rc::ptr_eq(before, after) {
            saved.extend(left_of([before, after]));
        }
        lines.extend(saved.iter().map(|line| format!("saved {name} {line}")));
    }
    lines
}

fn left_of(both: Both<CaseState>) -> Vec<String> {
    let mut lines = Vec::new();
    let tables = both.map(|state| &state.tables);
    one(&mut lines, tables, "clock", |tables| tables.clock);
    by_volume(&mut lines, tables.map(|tables| &tables.server));
    by_object(&mut lines, tables.map(|tables| &tables.server));
    known(&mut lines, tables.map(|tables| &tables.clients));
    one(&mut lines, tables, "messages", |tables| tables.queue.len);
    each(&mut lines, both, "message", QUEUE, shown);
    records(&mut lines, both);
    lines
}

fn by_volume(lines: &mut Vec<String>, both: Both<Server>) {
    each(lines, both, "epoch", VOLUMES, |server, volume| server.epoch[volume]);
    each(lines, both, "VE", VOLUMES, |server, volume| server.volume_latest[volume]);
    each(lines, both, "guard", VOLUMES, |server, volume| server.guard[volume]);
    each(lines, both, "seen", CLIENTS, |server, client| server.seen[client]);
    by_client(lines, both, "volume lease", VOLUMES, |server, client, volume| {
        server.volume_expiry[volume][client]
    });
    by_client(lines, both, "unreachable", VOLUMES, |server, client, volume| {
        server.unreachable[volume] >> client & 1
    });
    by_client(lines, both, "offer", VOLUMES, |server, client, volume| server.offer[volume][client]);
    by_client(lines, both, "notes", VOLUMES, |server, client, volume| server.notes[volume][client]);
    by_client(lines, both, "batch", VOLUMES, |server, client, volume| server.batch[volume][client]);
}

fn by_object(lines: &mut Vec<String>, both: Both<Server>) {
    each(lines, both, "value", OBJECTS, |server, object| server.value[object]);
    each(lines, both, "version", OBJECTS, |server, object| server.version[object]);
    each(lines, both, "OE", OBJECTS, |server, object| server.object_latest[object]);
    each(lines, both, "standing", OBJECTS, |server, object| server.standing >> object & 1);
    each(lines, both, "pending", OBJECTS, |server, object| server.write[object].value);
    each(lines, both, "end", OBJECTS, |server, object| server.write[object].latest_end);
    by_client(lines, both, "object lease", OBJECTS, |server, client, object| {
        server.object_expiry[object][client]
    });
    by_client(lines, both, "waiting", OBJECTS, |server, client, object| {
        server.write[object].waiting >> client & 1
    });
}

fn known(lines: &mut Vec<String>, both: Both<ClientVolumes>) {
    by_client(lines, both, "known epoch", VOLUMES, |clients, client, volume| clients.epoch[client][volume]);
    by_client(lines, both, "known expiry", VOLUMES, |clients, client, volume| clients.expiry[client][volume]);
}

/// Returns the row at a place; places past the list's length are blank,
/// whatever they hold.
fn shown(state: &CaseState, place: usize) -> Row {
    if place < state.tables.queue.len {
        state.rows[place]
    } else {
        Row::BLANK
    }
}

fn records(lines: &mut Vec<String>, both: Both<CaseState>) {
    each(lines, both, "copy", CLIENTS * OBJECTS, |state, place| state.copies[place]);
    each(lines, both, "request", CLIENTS, |state, client| {
        let (request, asked) = (&state.requests[client], &state.asked[client]);
        let stands = if request.standing.is_some() { "standing" } else { "none standing" };
        format!("next {}, {stands}, number {}, object {}", request.next, asked.number, asked.object)
    });
}

fn one<S, T: Display + PartialEq>(lines: &mut Vec<String>, both: Both<S>, name: &str, get: impl Fn(&S) -> T) {
    let [before, after] = both.map(get);
    if before != after {
        lines.push(format!("{name}: {after}"));
    }
}

/// Adds a line for each place whose element differs.
fn each<S, T: Display + PartialEq>(
    lines: &mut Vec<String>,
    both: Both<S>,
    name: &str,
    count: usize,
    get: impl Fn(&S, usize) -> T,
) {
    for place in 0..count {
        let [before, after] = both.map(|tables| get(tables, place));
        if before != after {
            lines.push(format!("{name} {place}: {after}"));
        }
    }
}

/// Does the same with a row of places for each client.
fn by_client<S, T: Display + PartialEq>(
    lines: &mut Vec<String>,
    both: Both<S>,
    name: &str,
    columns: usize,
    get: impl Fn(&S, usize, usize) -> T,
) {
    for client in 0..CLIENTS {
        let name = format!("{name} {client}");
        each(lines, both, &name, columns, |tables, column| get(tables, client, column));
    }
}
