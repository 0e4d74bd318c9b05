//! Mistakes about when notes have aged, and what a mark leaves of them (02,
//! A6).

use crate::limits::CLIENTS;
use crate::mistakes::kept::keeping;
use crate::rules::Papers;
use crate::world::World;

mistakes_about! { NoteRules:
    /// Marks no client with notes.
    never_ages {
        fn age(&self, _: &mut World) {}
    }

    /// Marks it one tick before volume expiry + d.
    ages_early {
        fn aged(&self, world: &World, volume: usize) -> u16 {
            let expiries = world.tables.server.volume_expiry[volume];
            let last = (world.tables.clock + 1).checked_sub(world.setup.delay);
            noted(world, volume, |client| last >= Some(expiries[client]))
        }
    }

    /// Marks it one tick after.
    ages_late {
        fn aged(&self, world: &World, volume: usize) -> u16 {
            let expiries = world.tables.server.volume_expiry[volume];
            let last = world.tables.clock.checked_sub(world.setup.delay + 1);
            noted(world, volume, |client| last >= Some(expiries[client]))
        }
    }

    /// Takes VE, which may be another client's, for its volume expiry.
    ages_by_latest {
        fn aged(&self, world: &World, volume: usize) -> u16 {
            let latest = world.tables.server.volume_latest[volume];
            let last = world.tables.clock.checked_sub(world.setup.delay);
            noted(world, volume, |_| last >= Some(latest))
        }
    }

    /// Marks a client without notes, too.
    ages_without_notes {
        fn aged(&self, world: &World, volume: usize) -> u16 {
            let expiries = world.tables.server.volume_expiry[volume];
            let last = world.tables.clock.checked_sub(world.setup.delay);
            let dead = |client: usize| last >= Some(expiries[client]) && expiries[client] != 0;
            (0..CLIENTS).filter(|&client| dead(client)).fold(0, |set, client| set | 1 << client)
                & world.setup.all_clients()
        }
    }

    /// Looks at the first volume only.
    ages_first_volume {
        fn age(&self, world: &mut World) {
            let aged = Papers.aged(world, 0);
            Papers.mark(world, 0, aged);
        }
    }

    /// Keeps the notes of a client that the clock marks.
    age_keeps_notes {
        fn age(&self, world: &mut World) {
            keeping(world, |w| &mut w.tables.server.notes, |w| Papers.age(w));
        }
    }

    /// Keeps its batch.
    age_keeps_batch {
        fn age(&self, world: &mut World) {
            keeping(world, |w| &mut w.tables.server.batch, |w| Papers.age(w));
        }
    }
}

/// Returns the clients with notes in this volume that fit.
fn noted(world: &World, volume: usize, fits: impl Fn(usize) -> bool) -> u16 {
    let has = |&client: &usize| world.tables.server.notes[volume][client] != 0 && fits(client);
    (0..usize::from(world.setup.clients)).filter(has).fold(0, |set, client| set | 1 << client)
}
