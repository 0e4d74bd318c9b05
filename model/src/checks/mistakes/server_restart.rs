//! Mistakes of the server at its restart.

use crate::limits::VOLUMES;
use crate::mistakes::kept::keeping;
use crate::rules::Papers;
use crate::world::World;

mistakes_about! { ServerRules:
    /// Keeps the epochs.
    restart_keeps_epochs {
        fn restart_server(&self, world: &mut World) {
            keeping(world, |w| &mut w.tables.server.epoch, |w| Papers.restart_server(w));
        }
    }

    /// Sets no guard.
    restart_without_guard {
        fn restart_server(&self, world: &mut World) {
            Papers.restart_server(world);
            world.tables.server.guard = [0; VOLUMES];
        }
    }

    /// Forgets VE, so that a second restart sets no guard.
    restart_forgets_latest {
        fn restart_server(&self, world: &mut World) {
            Papers.restart_server(world);
            world.tables.server.volume_latest[..world.setup.volumes.into()].fill(0);
        }
    }

    /// Keeps the standing writes.
    restart_keeps_writes {
        fn restart_server(&self, world: &mut World) {
            let rule = |w: &mut World| keeping(w, |w| &mut w.tables.server.write, |w| Papers.restart_server(w));
            keeping(world, |w| &mut w.tables.server.standing, rule);
        }
    }

    /// Keeps the highest numbers seen.
    restart_keeps_seen {
        fn restart_server(&self, world: &mut World) {
            keeping(world, |w| &mut w.tables.server.seen, |w| Papers.restart_server(w));
        }
    }

    /// Keeps the leases.
    restart_keeps_leases {
        fn restart_server(&self, world: &mut World) {
            let rule = |w: &mut World| Papers.restart_server(w);
            let rule = |w: &mut World| keeping(w, |w| &mut w.tables.server.volume_expiry, rule);
            keeping(world, |w| &mut w.tables.server.object_expiry, rule);
        }
    }

    /// Loses the messages under way.
    restart_empties_queue {
        fn restart_server(&self, world: &mut World) {
            Papers.restart_server(world);
            world.tables.queue.len = 0;
        }
    }
}
