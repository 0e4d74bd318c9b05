//! Mistakes of a client at a GRANT.

use crate::message::Grant;
use crate::mistakes::former::names_held_version;
use crate::mistakes::kept::keeping;
use crate::rules::{GrantRules, Papers};
use crate::world::World;

mistakes_about! { GrantRules:
    /// Stores a GRANT that nobody asked for.
    grant_any_number {
        fn receive_grant(&self, world: &mut World, client: usize, grant: &Grant) {
            Papers.store_grant(world, client, grant);
        }
    }

    /// Stores a GRANT for the object asked for, whatever its number.
    grant_same_object {
        fn receive_grant(&self, world: &mut World, client: usize, grant: &Grant) {
            let request = &world.requests[client];
            if request.waits_for(grant.number) || request.is_about(grant.object) {
                Papers.store_grant(world, client, grant);
            }
        }
    }

    /// Stores 0 for the value that a GRANT does not bring.
    no_value_stores_0 {
        fn store_grant(&self, world: &mut World, client: usize, grant: &Grant) {
            let value = Some(grant.value.unwrap_or(0));
            Papers.store_grant(world, client, &Grant { value, ..*grant });
        }
    }

    /// Keeps the volume expiry at a GRANT without a value.
    no_value_keeps_volume_expiry {
        fn store_grant(&self, world: &mut World, client: usize, grant: &Grant) {
            let volume = world.setup.volume(grant.object.into());
            keeping_without_value(world, client, grant, |w| &mut w.tables.clients.expiry[client][volume]);
        }
    }

    /// Keeps the object expiry at a GRANT without a value.
    no_value_keeps_object_expiry {
        fn store_grant(&self, world: &mut World, client: usize, grant: &Grant) {
            let object = usize::from(grant.object);
            keeping_without_value(world, client, grant, |w| &mut w.copy_mut(client, object).expiry);
        }
    }

    /// Keeps the standing request at a GRANT without a value. Only an OFFER of
    /// the same number shows it, which a doubled RENEW brings after a restart
    /// of the server.
    no_value_keeps_request {
        fn store_grant(&self, world: &mut World, client: usize, grant: &Grant) {
            keeping_without_value(world, client, grant, |w| &mut w.requests[client]);
        }
    }

    /// Ignores a GRANT without a value if another version is held, as before
    /// A4.
    no_value_needs_version {
        fn receive_grant(&self, world: &mut World, client: usize, grant: &Grant) {
            let held = world.copy(client, grant.object.into());
            if grant.value.is_some() || names_held_version(grant, held) {
                Papers.receive_grant(world, client, grant);
            }
        }
    }

    /// Ignores a GRANT without a value if no copy is held.
    no_value_needs_copy {
        fn receive_grant(&self, world: &mut World, client: usize, grant: &Grant) {
            if grant.value.is_some() || world.copy(client, grant.object.into()).version != 0 {
                Papers.receive_grant(world, client, grant);
            }
        }
    }

    /// Keeps the version held at a GRANT without a value.
    no_value_keeps_version {
        fn store_grant(&self, world: &mut World, client: usize, grant: &Grant) {
            let object = usize::from(grant.object);
            keeping_without_value(world, client, grant, |w| &mut w.copy_mut(client, object).version);
        }
    }

    /// Keeps the known epoch at a GRANT without a value.
    no_value_keeps_epoch {
        fn store_grant(&self, world: &mut World, client: usize, grant: &Grant) {
            let volume = world.setup.volume(grant.object.into());
            keeping_without_value(world, client, grant, |w| &mut w.tables.clients.epoch[client][volume]);
        }
    }
}

/// Stores the GRANT and, if it has no value, restores the part.
fn keeping_without_value<T: Copy>(
    world: &mut World,
    client: usize,
    grant: &Grant,
    part: impl for<'a> Fn(&'a mut World) -> &'a mut T,
) {
    if grant.value.is_none() {
        keeping(world, part, |w| Papers.store_grant(w, client, grant));
    } else {
        Papers.store_grant(world, client, grant);
    }
}
