//! Mistakes about the latest end of a write.

use crate::bits::members;
use crate::limits::CLIENTS;
use crate::mistakes::former::old_leases_end;
use crate::rules::Papers;
use crate::world::World;

mistakes_about! { LatestEnd:
    /// Leaves the guard out of the latest end.
    latest_end_without_guard {
        fn latest_end(&self, world: &World, object: usize, waiting: u16) -> u32 {
            let timeout = world.tables.clock + world.setup.timeout;
            timeout.max(Papers.leases_end(world, object, waiting))
        }
    }

    /// Leaves clock + m out of the latest end.
    latest_end_without_timeout {
        fn latest_end(&self, world: &World, object: usize, waiting: u16) -> u32 {
            let guard = world.tables.server.guard[world.setup.volume(object)];
            world.tables.clock.max(guard).max(Papers.leases_end(world, object, waiting))
        }
    }

    /// Leaves the waiting clients out of the latest end.
    latest_end_without_clients {
        fn leases_end(&self, _: &World, _: usize, _: u16) -> u32 {
            0
        }
    }

    /// Uses only a waiting client's volume expiry for the latest end.
    latest_end_by_volume {
        fn shown_until(&self, volume_expiry: u32, _: u32) -> u32 {
            volume_expiry
        }
    }

    /// Uses the greater of a waiting client's two expiries.
    latest_end_by_greater {
        fn shown_until(&self, volume_expiry: u32, object_expiry: u32) -> u32 {
            volume_expiry.max(object_expiry)
        }
    }

    /// Uses the waiting client whose leases end first.
    latest_end_of_first {
        fn leases_end(&self, world: &World, object: usize, waiting: u16) -> u32 {
            let alone = members(waiting.into()).map(|client| Papers.leases_end(world, object, 1 << client));
            alone.min().unwrap_or(0)
        }
    }

    /// Uses the lesser of the greatest volume expiry and the greatest object
    /// expiry of the waiting clients.
    latest_end_across_clients {
        fn leases_end(&self, world: &World, object: usize, waiting: u16) -> u32 {
            let server = &world.tables.server;
            let by_volume = latest(&server.volume_expiry[world.setup.volume(object)], waiting);
            by_volume.min(latest(&server.object_expiry[object], waiting))
        }
    }

    /// Uses the lesser of VE and OE, as before A3.
    latest_end_by_old_rule {
        fn leases_end(&self, world: &World, object: usize, _: u16) -> u32 {
            old_leases_end(world.setup, &world.tables.server, object)
        }
    }
}

/// Returns the latest of these clients' expiries.
fn latest(expiries: &[u32; CLIENTS], clients: u16) -> u32 {
    members(clients.into()).map(|client| expiries[client]).max().unwrap_or(0)
}
