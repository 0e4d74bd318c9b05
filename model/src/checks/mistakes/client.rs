//! Mistakes of a client at its steps, at an INVALIDATE and at an OFFER.

use crate::mistakes::kept::{keeping, unsent};
use crate::requests::Request;
use crate::rules::Papers;
use crate::tables::alive;
use crate::world::World;

mistakes_about! { ClientRules:
    /// Shows a copy whose volume lease is dead.
    read_without_volume_lease {
        fn both_alive(&self, _: u32, object_expiry: u32, clock: u32) -> bool {
            alive(object_expiry, clock)
        }
    }

    /// Shows a copy whose object lease is dead.
    read_without_object_lease {
        fn both_alive(&self, volume_expiry: u32, _: u32, clock: u32) -> bool {
            alive(volume_expiry, clock)
        }
    }

    /// Takes a lease to be alive at its expiry.
    read_alive_at_expiry {
        fn both_alive(&self, volume_expiry: u32, object_expiry: u32, clock: u32) -> bool {
            volume_expiry >= clock && object_expiry >= clock
        }
    }

    /// Keeps copies and volume leases across its restart.
    client_restart_keeps_leases {
        fn restart_client(&self, world: &mut World, client: usize) {
            world.requests[client].end();
            world.tables.clients.epoch[client][..world.setup.volumes.into()].fill(0);
        }
    }

    /// Keeps the standing request across its restart.
    client_restart_keeps_request {
        fn restart_client(&self, world: &mut World, client: usize) {
            keeping(world, |w| &mut w.requests[client], |w| Papers.restart_client(w, client));
        }
    }

    /// Counts from 1 again after its restart.
    client_restart_resets_number {
        fn restart_client(&self, world: &mut World, client: usize) {
            Papers.restart_client(world, client);
            world.requests[client] = Request::FRESH;
        }
    }

    /// Keeps the standing request at an INVALIDATE.
    invalidate_keeps_request {
        fn receive_invalidate(&self, world: &mut World, client: usize, object: u8, epoch: u32, version: u32) {
            let rule = |w: &mut World| Papers.receive_invalidate(w, client, object, epoch, version);
            keeping(world, |w| &mut w.requests[client], rule);
        }
    }

    /// Sends no ACK if it holds no copy.
    ack_only_with_copy {
        fn receive_invalidate(&self, world: &mut World, client: usize, object: u8, epoch: u32, version: u32) {
            let rule = |w: &mut World| Papers.receive_invalidate(w, client, object, epoch, version);
            if world.copy(client, object.into()).version == 0 {
                unsent(world, rule);
            } else {
                rule(world);
            }
        }
    }

    /// Obeys an OFFER that nobody asked for.
    offer_any_number {
        fn receive_offer(&self, world: &mut World, client: usize, volume: u8, number: u32, epoch: u32) {
            Papers.obey_offer(world, client, volume, number, epoch);
        }
    }

    /// Keeps the known epoch at an OFFER.
    offer_keeps_epoch {
        fn obey_offer(&self, world: &mut World, client: usize, volume: u8, number: u32, epoch: u32) {
            let rule = |w: &mut World| Papers.obey_offer(w, client, volume, number, epoch);
            keeping(world, |w| &mut w.tables.clients.epoch[client], rule);
        }
    }

    /// Keeps all its leases at an OFFER.
    offer_keeps_leases {
        fn drop_leases(&self, _: &mut World, _: usize, _: usize) {}
    }

    /// Keeps the object expiries at an OFFER.
    offer_keeps_object_expiries {
        fn drop_leases(&self, world: &mut World, client: usize, volume: usize) {
            world.tables.clients.expiry[client][volume] = 0;
        }
    }
}
