//! The latest end of a write (01, Steps 4, as changed by A3 of document 02).

use crate::bits::members;
use crate::world::World;

pub trait LatestEnd {
    /// "The latest end is the greatest of clock + m, guard, and, over the
    /// waiting dashes, the lesser of that dash's volume and object expiry." From
    /// the tables before the write opens.
    fn latest_end(&self, world: &World, object: usize, waiting: u16) -> u32 {
        let guard = world.tables.server.guard[world.setup.volume(object)];
        let timeout = world.tables.clock + world.setup.timeout;
        timeout.max(guard).max(self.leases_end(world, object, waiting))
    }

    /// Returns the greatest "over the waiting dashes".
    fn leases_end(&self, world: &World, object: usize, waiting: u16) -> u32 {
        let server = &world.tables.server;
        let by_volume = &server.volume_expiry[world.setup.volume(object)];
        let by_object = &server.object_expiry[object];
        let ends =
            members(waiting.into()).map(|client| self.shown_until(by_volume[client], by_object[client]));
        ends.max().unwrap_or(0)
    }

    /// "The lesser of that dash's volume and object expiry": a client may show
    /// its copy until the first of its two leases ends.
    fn shown_until(&self, volume_expiry: u32, object_expiry: u32) -> u32 {
        volume_expiry.min(object_expiry)
    }
}
