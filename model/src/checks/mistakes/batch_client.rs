//! Mistakes of a client at a BATCH (02, A6).

use crate::bits::members;
use crate::message::Batch;
use crate::mistakes::kept::{keeping, unsent};
use crate::rules::Papers;
use crate::world::World;

mistakes_about! { ClientRules:
    /// Obeys a BATCH that nobody asked for.
    batch_any_number {
        fn receive_batch(&self, world: &mut World, client: usize, batch: &Batch) {
            Papers.obey_batch(world, client, batch);
        }
    }

    /// Erases nothing.
    batch_erases_nothing {
        fn erase(&self, _: &mut World, _: usize, _: u32) {}
    }

    /// Erases only the copy of the object that it asked for.
    batch_erases_asked {
        fn obey_batch(&self, world: &mut World, client: usize, batch: &Batch) {
            let asked = world.requests[client].standing.map_or(0, |standing| 1 << standing.object);
            let kept: Vec<_> = world.copies.to_vec();
            Papers.obey_batch(world, client, batch);
            world.copies.copy_from_slice(&kept);
            Papers.erase(world, client, batch.set & asked);
        }
    }

    /// Erases every copy of the volume.
    batch_erases_volume {
        fn obey_batch(&self, world: &mut World, client: usize, batch: &Batch) {
            Papers.erase(world, client, world.setup.objects_by_volume()[usize::from(batch.volume)]);
            Papers.obey_batch(world, client, batch);
        }
    }

    /// Ends the leases on those copies, but keeps their versions and values.
    batch_keeps_versions {
        fn erase(&self, world: &mut World, client: usize, set: u32) {
            for object in members(set) {
                world.copy_mut(client, object).expiry = 0;
            }
        }
    }

    /// Ends its lease on the volume, too.
    batch_ends_volume_lease {
        fn obey_batch(&self, world: &mut World, client: usize, batch: &Batch) {
            Papers.obey_batch(world, client, batch);
            world.tables.clients.expiry[client][usize::from(batch.volume)] = 0;
        }
    }

    /// Takes the epoch of a BATCH, as of an OFFER.
    batch_takes_epoch {
        fn obey_batch(&self, world: &mut World, client: usize, batch: &Batch) {
            Papers.obey_batch(world, client, batch);
            world.tables.clients.epoch[client][usize::from(batch.volume)] = batch.epoch;
        }
    }

    /// Keeps the standing request.
    batch_keeps_request {
        fn obey_batch(&self, world: &mut World, client: usize, batch: &Batch) {
            let rule = |w: &mut World| Papers.obey_batch(w, client, batch);
            keeping(world, |w| &mut w.requests[client], rule);
        }
    }

    /// Sends no CLEARED.
    batch_without_cleared {
        fn obey_batch(&self, world: &mut World, client: usize, batch: &Batch) {
            unsent(world, |w| Papers.obey_batch(w, client, batch));
        }
    }
}
