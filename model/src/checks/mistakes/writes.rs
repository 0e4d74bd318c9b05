//! Mistakes about which clients a write waits for and when it completes.

use crate::bits::members;
use crate::mistakes::kept::keeping;
use crate::rules::{alive_set, Papers};
use crate::world::World;

mistakes_about! { WriteRules:
    /// Waits for no unreachable client, even if its volume lease is alive.
    skip_unreachable {
        fn to_wait_for(&self, world: &World, object: usize) -> u16 {
            let unreachable = world.tables.server.unreachable[world.setup.volume(object)];
            Papers.to_wait_for(world, object) & !unreachable
        }
    }

    /// Waits for a client whose object lease ends at the clock.
    write_alive_at_expiry {
        fn object_leases_alive(&self, world: &World, object: usize) -> u16 {
            alive_set(&world.tables.server.object_expiry[object], world.tables.clock.saturating_sub(1))
        }
    }

    /// Completes a write at its latest end, not past it.
    ends_at_latest_end {
        fn is_over(&self, world: &World, object: usize) -> bool {
            world.tables.server.write[object].latest_end <= world.tables.clock
        }
    }

    /// Waits past the latest end.
    waits_forever {
        fn is_over(&self, world: &World, object: usize) -> bool {
            Papers.is_over(world, object) && world.waiting(object) == 0
        }
    }

    /// Completes nothing at the guard.
    clock_without_guard {
        fn is_due(&self, world: &World, object: usize) -> bool {
            Papers.is_over(world, object)
        }
    }

    /// Completes a write on acceptance before the guard.
    write_before_guard {
        fn write(&self, world: &mut World, object: usize, value: u64) -> u32 {
            let completed = Papers.write(world, object, value);
            if completed == 0 && world.waiting(object) == 0 {
                Papers.complete(world, object);
                return 1;
            }
            completed
        }
    }

    /// Marks nobody unreachable when a write completes.
    complete_without_marking {
        fn complete(&self, world: &mut World, object: usize) {
            keeping(world, |w| &mut w.tables.server.unreachable, |w| Papers.complete(w, object));
        }
    }

    /// Voids the offers of the clients that a completing write marks.
    complete_clears_offers {
        fn complete(&self, world: &mut World, object: usize) {
            let (volume, waiting) = (world.setup.volume(object), world.waiting(object));
            Papers.complete(world, object);
            members(waiting.into()).for_each(|client| world.tables.server.offer[volume][client] = 0);
        }
    }
}
