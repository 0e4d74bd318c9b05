//! Mistakes of the server about notes, the batch and its CLEARED (02, A6).

use crate::message::{Batch, Kind};
use crate::mistakes::kept::keeping;
use crate::rules::{NetworkRules, Papers, ServerRules};
use crate::world::World;

mistakes_about! { NoteRules:
    /// Keeps the batch at a later note.
    later_note_keeps_batch {
        fn note(&self, world: &mut World, client: usize, object: usize) {
            keeping(world, |w| &mut w.tables.server.batch, |w| Papers.note(w, client, object));
        }
    }

    /// Keeps only the last note.
    later_note_replaces {
        fn note(&self, world: &mut World, client: usize, object: usize) {
            world.tables.server.notes[world.setup.volume(object)][client] = 0;
            Papers.note(world, client, object);
        }
    }

    /// Sends BATCH only to a RENEW for a noted object.
    batch_only_for_noted {
        fn must_batch(&self, world: &World, client: usize, object: usize) -> bool {
            world.tables.server.notes[world.setup.volume(object)][client] >> object & 1 == 1
        }
    }

    /// Sends BATCH once, and gives a lease to the next RENEW.
    batch_only_once {
        fn must_batch(&self, world: &World, client: usize, object: usize) -> bool {
            let sent = world.tables.server.batch[world.setup.volume(object)][client] != 0;
            Papers.must_batch(world, client, object) && !sent
        }
    }

    /// Forgets the number of the BATCH that it sends.
    batch_without_number {
        fn send_batch(&self, world: &mut World, client: usize, volume: usize, number: u32) {
            let rule = |w: &mut World| Papers.send_batch(w, client, volume, number);
            keeping(world, |w| &mut w.tables.server.batch, rule);
        }
    }

    /// Keeps the number of the batch first sent, not last.
    batch_first_sent {
        fn send_batch(&self, world: &mut World, client: usize, volume: usize, number: u32) {
            let first = world.tables.server.batch[volume][client];
            Papers.send_batch(world, client, volume, number);
            if first != 0 {
                world.tables.server.batch[volume][client] = first;
            }
        }
    }

    /// Sends only the lowest note.
    batch_of_lowest {
        fn send_batch(&self, world: &mut World, client: usize, volume: usize, number: u32) {
            let server = &mut world.tables.server;
            server.batch[volume][client] = number;
            let (epoch, notes) = (server.epoch[volume], server.notes[volume][client]);
            let set = 1 << notes.trailing_zeros();
            Papers.send(world, client, Kind::Batch(Batch { volume: volume as u8, number, epoch, set }));
        }
    }

    /// Drops the notes when it sends them, not when they are cleared.
    batch_drops_notes {
        fn send_batch(&self, world: &mut World, client: usize, volume: usize, number: u32) {
            Papers.send_batch(world, client, volume, number);
            world.tables.server.notes[volume][client] = 0;
        }
    }

    /// Counts a CLEARED of another number while a batch is out.
    cleared_any_number {
        fn cleared_counts(&self, world: &World, client: usize, cleared: &Batch) -> bool {
            let number = world.tables.server.batch[usize::from(cleared.volume)][client];
            Papers.cleared_counts(world, client, &Batch { number, ..*cleared })
        }
    }

    /// Counts a CLEARED whether a batch is out or not.
    cleared_without_batch {
        fn cleared_counts(&self, world: &World, _: usize, cleared: &Batch) -> bool {
            cleared.epoch == world.tables.server.epoch[usize::from(cleared.volume)]
        }
    }

    /// Counts a CLEARED of another epoch.
    cleared_any_epoch {
        fn cleared_counts(&self, world: &World, client: usize, cleared: &Batch) -> bool {
            let epoch = world.tables.server.epoch[usize::from(cleared.volume)];
            Papers.cleared_counts(world, client, &Batch { epoch, ..*cleared })
        }
    }

    /// Counts a CLEARED of number 0 if no batch is out.
    cleared_number_0 {
        fn cleared_counts(&self, world: &World, client: usize, cleared: &Batch) -> bool {
            let none = world.tables.server.batch[usize::from(cleared.volume)][client] == 0;
            let epoch = world.tables.server.epoch[usize::from(cleared.volume)];
            let both_none = none && cleared.number == 0 && cleared.epoch == epoch;
            both_none || Papers.cleared_counts(world, client, cleared)
        }
    }

    /// Drops all notes of the volume, not only those of the set.
    cleared_drops_all_notes {
        fn drop_noted(&self, world: &mut World, client: usize, volume: usize, set: u32) {
            Papers.drop_noted(world, client, volume, set);
            world.tables.server.notes[volume][client] = 0;
        }
    }

    /// Drops all object leases of the volume, not only those of the set.
    cleared_drops_all_leases {
        fn drop_noted(&self, world: &mut World, client: usize, volume: usize, set: u32) {
            Papers.drop_noted(world, client, volume, set);
            for object in 0..usize::from(world.setup.objects) {
                if world.setup.volume(object) == volume {
                    world.tables.server.object_expiry[object][client] = 0;
                }
            }
        }
    }

    /// Keeps the notes at a CLEARED.
    cleared_keeps_notes {
        fn drop_noted(&self, world: &mut World, client: usize, volume: usize, set: u32) {
            let rule = |w: &mut World| Papers.drop_noted(w, client, volume, set);
            keeping(world, |w| &mut w.tables.server.notes, rule);
        }
    }

    /// Keeps the leases.
    cleared_keeps_leases {
        fn drop_noted(&self, world: &mut World, client: usize, volume: usize, set: u32) {
            let rule = |w: &mut World| Papers.drop_noted(w, client, volume, set);
            keeping(world, |w| &mut w.tables.server.object_expiry, rule);
        }
    }

    /// Keeps the batch.
    cleared_keeps_batch {
        fn drop_noted(&self, world: &mut World, client: usize, volume: usize, set: u32) {
            let rule = |w: &mut World| Papers.drop_noted(w, client, volume, set);
            keeping(world, |w| &mut w.tables.server.batch, rule);
        }
    }

    /// Waits for the client no more in this volume, as after a DROPPED.
    cleared_ends_waiting {
        fn drop_noted(&self, world: &mut World, client: usize, volume: usize, set: u32) {
            Papers.drop_noted(world, client, volume, set);
            for object in 0..usize::from(world.setup.objects) {
                if world.setup.volume(object) == volume {
                    world.tables.server.write[object].waiting &= !(1 << client);
                }
            }
        }
    }

    /// Completes each standing write of the volume on ACK's condition.
    cleared_completes {
        fn drop_noted(&self, world: &mut World, client: usize, volume: usize, set: u32) {
            Papers.drop_noted(world, client, volume, set);
            Papers.complete_free_in(world, volume);
        }
    }
}
