//! GRANT at the client (01, Messages received, as changed by A4 of document
//! 02).

use crate::message::Grant;
use crate::world::World;

pub trait GrantRules {
    /// "GRANT: needs the standing number, else nothing."
    fn receive_grant(&self, world: &mut World, client: usize, grant: &Grant) {
        if world.requests[client].waits_for(grant.number) {
            self.store_grant(world, client, grant);
        }
    }

    /// "Store its fields, epoch too, and end the request." "A GRANT without a
    /// value now always stores its other fields and keeps the value held",
    /// whatever version that is of: in a run it is the GRANT's own.
    fn store_grant(&self, world: &mut World, client: usize, grant: &Grant) {
        let volume = world.setup.volume(grant.object.into());
        let copy = world.copy_mut(client, grant.object.into());
        copy.version = grant.version;
        copy.expiry = grant.object_expiry;
        copy.value = grant.value.unwrap_or(copy.value);
        world.tables.clients.epoch[client][volume] = grant.epoch;
        world.tables.clients.expiry[client][volume] = grant.volume_expiry;
        world.requests[client].end();
    }
}
