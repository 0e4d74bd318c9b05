//! Question 1: are setup and tables sound (01, Questions at the gate; 02, A6
//! and A7)?
//!
//! It asks about what exists: items below the counts, and messages below the
//! list's length. Slots past them are free. The scans do not stop early, so
//! that the compiler can vectorise them.

use crate::bits::members;
use crate::copies::ObjectCopy;
use crate::limits::{CLIENTS, CLOCK_MAX, EXPIRY_MAX, QUEUE, VOLUMES};
use crate::message::{Batch, Kind, Message};
use crate::requests::Request;
use crate::rules::Papers;
use crate::setup::Setup;
use crate::state::State;
use crate::tables::{ClientVolumes, Server, Tables};
use crate::world::World;

/// The set of each volume's objects.
pub type ObjectsOf = [u32; VOLUMES];

/// Asks question 1 of the present tables and of every saved state.
pub fn sound(world: &World) -> bool {
    Papers.sound(world)
}

/// The parts that A6 and A7 of 02 added to are methods, so that a mistake can
/// replace them.
pub trait SoundRules {
    fn sound(&self, world: &World) -> bool {
        self.setup_sound(world.setup)
            && self.tables_sound(world.setup, world.tables, world.copies, world.requests)
            && world.saved.iter().flatten().all(|state| self.saved_sound(world.setup, state))
    }

    /// "A saved state must be sound too, else 1": its tables, messages and
    /// records. A name never saved has none.
    fn saved_sound(&self, setup: &Setup, state: &State) -> bool {
        self.tables_sound(setup, &state.tables, state.copies(setup), state.requests(setup))
    }

    fn tables_sound(
        &self,
        setup: &Setup,
        tables: &Tables,
        copies: &[ObjectCopy],
        requests: &[Request],
    ) -> bool {
        let objects_of = setup.objects_by_volume();
        copies.len() == setup.copy_count()
            && requests.len() == setup.clients as usize
            && tables.clock <= CLOCK_MAX
            && tables.queue.len <= QUEUE
            && server_sound(setup, &tables.server)
            && self.notes_sound(setup, &tables.server.notes, &objects_of)
            && clients_sound(setup, &tables.clients)
            && copies_sound(copies)
            && requests.iter().all(|request| request_sound(setup, request))
            && tables.queue.messages().iter().all(|message| self.message_sound(setup, message, &objects_of))
    }

    fn setup_sound(&self, setup: &Setup) -> bool {
        setup.in_range()
    }

    /// "A set bit that is no object of its volume makes tables unsound."
    fn notes_sound(&self, setup: &Setup, notes: &[[u32; CLIENTS]; VOLUMES], objects_of: &ObjectsOf) -> bool {
        let asked: [u32; CLIENTS] = mask(setup.clients.into());
        let mut bad = 0;
        for (row, objects) in notes[..setup.volumes.into()].iter().zip(objects_of) {
            for (set, asked) in row.iter().zip(&asked) {
                bad |= set & asked & !objects;
            }
        }
        bad == 0
    }

    fn message_sound(&self, setup: &Setup, message: &Message, objects_of: &ObjectsOf) -> bool {
        message.client < setup.clients
            && match message.kind {
                Kind::Renew { object, .. } | Kind::Invalidate { object, .. } | Kind::Ack { object, .. } => {
                    object < setup.objects
                }
                Kind::Grant(grant) => {
                    grant.object < setup.objects
                        && grant.volume_expiry <= EXPIRY_MAX
                        && grant.object_expiry <= EXPIRY_MAX
                }
                Kind::Offer { volume, .. } | Kind::Dropped { volume, .. } => volume < setup.volumes,
                // "In messages too."
                Kind::Batch(Batch { volume, set, .. }) | Kind::Cleared(Batch { volume, set, .. }) => {
                    volume < setup.volumes && set & !objects_of[usize::from(volume)] == 0
                }
            }
    }
}

impl SoundRules for Papers {}

fn server_sound(setup: &Setup, server: &Server) -> bool {
    let volumes = setup.volumes as usize;
    let objects = setup.objects as usize;
    let clients = setup.clients as usize;
    none_zero(&server.epoch[..volumes])
        && none_zero(&server.version[..objects])
        && in_bound(&server.volume_latest[..volumes])
        && in_bound(&server.guard[..volumes])
        && in_bound(&server.object_latest[..objects])
        && rows_in_bound(&server.volume_expiry[..volumes], clients)
        && rows_in_bound(&server.object_expiry[..objects], clients)
        && writes_sound(setup, server)
}

/// Returns whether the version of each object with a standing write can grow.
fn writes_sound(setup: &Setup, server: &Server) -> bool {
    members(server.standing & setup.all_objects())
        .all(|object| server.write[object].latest_end <= EXPIRY_MAX && server.version[object] < u32::MAX)
}

fn clients_sound(setup: &Setup, clients: &ClientVolumes) -> bool {
    rows_in_bound(&clients.expiry[..setup.clients as usize], setup.volumes as usize)
}

fn copies_sound(copies: &[ObjectCopy]) -> bool {
    copies.iter().fold(0, |bad, copy| bad | u32::from(copy.expiry > EXPIRY_MAX)) == 0
}

fn request_sound(setup: &Setup, request: &Request) -> bool {
    request.next >= 1 && request.standing.is_none_or(|standing| standing.object < setup.objects)
}

fn none_zero(values: &[u32]) -> bool {
    values.iter().fold(0, |bad, &value| bad | u32::from(value == 0)) == 0
}

fn in_bound(values: &[u32]) -> bool {
    values.iter().fold(0, |bad, &value| bad | u32::from(value > EXPIRY_MAX)) == 0
}

/// Scans whole rows of fixed width, with a mask for the slots asked about: a
/// loop of fixed length needs no remainder.
fn rows_in_bound<const N: usize>(rows: &[[u32; N]], width: usize) -> bool {
    let asked: [u32; N] = mask(width);
    let mut bad = 0;
    for row in rows {
        for (value, asked) in row.iter().zip(&asked) {
            bad |= u32::from(value & asked > EXPIRY_MAX);
        }
    }
    bad == 0
}

/// Returns a row with all bits in the first `width` slots.
fn mask<const N: usize>(width: usize) -> [u32; N] {
    let mut mask = [0; N];
    mask[..width].fill(u32::MAX);
    mask
}
