//! Mistakes about parked clients at a write, and about what a completing write
//! and a clock step do with notes (02, A6).

use crate::bits::members;
use crate::mistakes::kept::keeping;
use crate::rules::{alive_set, NoteRules, Papers};
use crate::world::World;

mistakes_about! { WriteRules:
    /// Waits for a parked client, as before A6.
    waits_for_parked {
        fn to_wait_for(&self, world: &World, object: usize) -> u16 {
            Papers.to_wait_for(world, object) | Papers.parked(world, object)
        }

        fn parked(&self, _: &World, _: usize) -> u16 {
            0
        }
    }

    /// Waits for a parked client and notes the object all the same.
    waits_and_notes {
        fn to_wait_for(&self, world: &World, object: usize) -> u16 {
            Papers.to_wait_for(world, object) | Papers.parked(world, object)
        }
    }

    /// Notes nobody.
    notes_nobody {
        fn parked(&self, _: &World, _: usize) -> u16 {
            0
        }
    }

    /// Notes a client that is marked unreachable, too.
    notes_unreachable {
        fn parked(&self, world: &World, object: usize) -> u16 {
            let dead = !Papers.volume_leases_alive(world, world.setup.volume(object));
            Papers.object_leases_alive(world, object) & dead & world.setup.all_clients()
        }
    }

    /// Notes a client whose lease on the object is dead, too.
    notes_without_object_lease {
        fn parked(&self, world: &World, object: usize) -> u16 {
            let volume = world.setup.volume(object);
            let left = Papers.volume_leases_alive(world, volume) | world.tables.server.unreachable[volume];
            !left & world.setup.all_clients()
        }
    }

    /// Notes a client that is waited for, too.
    notes_waited {
        fn parked(&self, world: &World, object: usize) -> u16 {
            let reachable = !world.tables.server.unreachable[world.setup.volume(object)];
            Papers.parked(world, object) | Papers.to_wait_for(world, object) & reachable
        }
    }

    /// Takes a volume lease to be alive at its expiry.
    parked_past_expiry {
        fn volume_leases_alive(&self, world: &World, volume: usize) -> u16 {
            alive_set(&world.tables.server.volume_expiry[volume], world.tables.clock.saturating_sub(1))
        }
    }

    /// Sends a parked client an INVALIDATE, too.
    noted_gets_invalidate {
        fn write(&self, world: &mut World, object: usize, value: u64) -> u32 {
            let parked = Papers.parked(world, object);
            members(parked.into()).for_each(|client| Papers.send_invalidate(world, client, object));
            Papers.write(world, object, value)
        }
    }

    /// Marks a client that is parked for d already, instead of noting it.
    marks_at_write {
        fn write(&self, world: &mut World, object: usize, value: u64) -> u32 {
            let (volume, latest) = (world.setup.volume(object), world.tables.clock.checked_sub(world.setup.delay));
            let dead = |&client: &usize| latest >= Some(world.tables.server.volume_expiry[volume][client]);
            let parked = members(Papers.parked(world, object).into());
            let aged = parked.filter(dead).fold(0, |set, client| set | 1 << client);
            Papers.mark(world, volume, aged);
            Papers.write(world, object, value)
        }
    }

    /// Marks a client with notes only when the clock moves on.
    ages_only_later {
        fn set_clock(&self, world: &mut World, time: u32) -> u32 {
            if time > world.tables.clock {
                return Papers.set_clock(world, time);
            }
            let due = |object: &usize| Papers.is_due(world, *object);
            let due: Vec<_> = members(world.standing()).filter(due).collect();
            due.iter().for_each(|&object| Papers.complete(world, object));
            due.len() as u32
        }
    }

    /// Keeps the notes of a client that a completing write marks.
    complete_keeps_notes {
        fn complete(&self, world: &mut World, object: usize) {
            keeping(world, |w| &mut w.tables.server.notes, |w| Papers.complete(w, object));
        }
    }

    /// Keeps its batch.
    complete_keeps_batch {
        fn complete(&self, world: &mut World, object: usize) {
            keeping(world, |w| &mut w.tables.server.batch, |w| Papers.complete(w, object));
        }
    }
}
