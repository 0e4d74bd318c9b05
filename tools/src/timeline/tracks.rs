//! What lasts over several steps, as the model's tables have it at one moment.

use std::collections::BTreeMap;

use model::setup::Setup;
use model::state::State;
use model::tables::alive;

/// What it is and whose, so that a track holds one at a time.
#[derive(Clone, Copy, Debug, PartialEq, Eq, PartialOrd, Ord)]
pub enum Track {
    /// The server's, by volume or object.
    Guard(usize),
    Write(usize),
    /// What the server records about a client, by client and volume or object.
    ServerVolumeLease(usize, usize),
    ServerObjectLease(usize, usize),
    Notes(usize, usize),
    Unreachable(usize, usize),
    /// The client's own.
    VolumeLease(usize, usize),
    ObjectLease(usize, usize),
    Copy(usize, usize),
}

/// What tells one span on a track from the next.
#[derive(Clone, Copy, Debug, Default, PartialEq, Eq)]
pub struct Detail {
    /// An expiry, a latest end or a guard; for notes the client's expiry in the
    /// volume, from which they age.
    pub until: u32,
    /// The version of a copy, or after a write; the epoch of a volume; the
    /// number of the batch that tells of notes, or 0.
    pub version: u32,
    /// The value of a copy or write; the set of noted objects.
    pub value: u64,
}

type Tracks = BTreeMap<Track, Detail>;

/// Returns live leases, copies, standing writes, guards that still hold writes
/// back, notes, and unreachable marks.
pub fn of(setup: &Setup, state: &State) -> Tracks {
    let mut tracks = Tracks::new();
    server(setup, state, &mut tracks);
    for client in 0..usize::from(setup.clients) {
        volumes(setup, state, client, &mut tracks);
        objects(setup, state, client, &mut tracks);
    }
    tracks
}

fn server(setup: &Setup, state: &State, tracks: &mut Tracks) {
    let (server, clock) = (&state.tables.server, state.tables.clock);
    for volume in 0..usize::from(setup.volumes) {
        if clock < server.guard[volume] {
            let detail = Detail { until: server.guard[volume], version: server.epoch[volume], value: 0 };
            tracks.insert(Track::Guard(volume), detail);
        }
    }
    for object in (0..usize::from(setup.objects)).filter(|&object| server.stands(object)) {
        let write = &server.write[object];
        let detail =
            Detail { until: write.latest_end, version: server.version[object] + 1, value: write.value };
        tracks.insert(Track::Write(object), detail);
    }
}

fn volumes(setup: &Setup, state: &State, client: usize, tracks: &mut Tracks) {
    let (tables, clock) = (&state.tables, state.tables.clock);
    for volume in 0..usize::from(setup.volumes) {
        let (own, recorded) =
            (tables.clients.expiry[client][volume], tables.server.volume_expiry[volume][client]);
        let (known, epoch) = (tables.clients.epoch[client][volume], tables.server.epoch[volume]);
        let (notes, batch) = (tables.server.notes[volume][client], tables.server.batch[volume][client]);
        if alive(own, clock) {
            tracks
                .insert(Track::VolumeLease(client, volume), Detail { until: own, version: known, value: 0 });
        }
        if alive(recorded, clock) {
            tracks.insert(
                Track::ServerVolumeLease(client, volume),
                Detail { until: recorded, version: epoch, value: 0 },
            );
        }
        if notes != 0 {
            tracks.insert(
                Track::Notes(client, volume),
                Detail { until: recorded, version: batch, value: notes.into() },
            );
        }
        if tables.server.unreachable[volume] >> client & 1 == 1 {
            tracks.insert(Track::Unreachable(client, volume), Detail::default());
        }
    }
}

fn objects(setup: &Setup, state: &State, client: usize, tracks: &mut Tracks) {
    let clock = state.tables.clock;
    for object in 0..usize::from(setup.objects) {
        let copy = &state.copies(setup)[setup.copy_place(client, object)];
        let recorded = state.tables.server.object_expiry[object][client];
        let detail = Detail { until: copy.expiry, version: copy.version, value: copy.value };
        if copy.version != 0 {
            tracks.insert(Track::Copy(client, object), Detail { until: 0, ..detail });
        }
        if alive(copy.expiry, clock) {
            tracks.insert(Track::ObjectLease(client, object), detail);
        }
        if alive(recorded, clock) {
            tracks.insert(
                Track::ServerObjectLease(client, object),
                Detail { until: recorded, ..Detail::default() },
            );
        }
    }
}
