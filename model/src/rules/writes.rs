//! Writes: how they begin, which clients they wait for, and when they complete
//! (01, Steps 1 and 4, and the paragraph below the steps; 02, A6).

use crate::bits::members;
use crate::limits::CLIENTS;
use crate::message::Kind;
use crate::rules::{LatestEnd, NoteRules};
use crate::tables::{alive, Write};
use crate::world::World;

pub trait WriteRules: NoteRules + LatestEnd {
    /// "Clock T: set the clock. In object order, complete each standing write
    /// that has no waiting dash and clock at or past guard, or whose latest end
    /// is below the clock." Completing a write touches no other, so the set of
    /// standing ones may be taken beforehand. Notes age, too (02, A6); whether
    /// before or after is all the same.
    fn set_clock(&self, world: &mut World, time: u32) -> u32 {
        world.tables.clock = time;
        self.age(world);
        let mut completed = 0;
        for object in members(world.standing()) {
            if self.is_due(world, object) {
                self.complete(world, object);
                completed += 1;
            }
        }
        completed
    }

    #[inline]
    fn is_due(&self, world: &World, object: usize) -> bool {
        self.is_free(world, object) || self.is_over(world, object)
    }

    /// "No waiting dash and clock at or past guard."
    #[inline]
    fn is_free(&self, world: &World, object: usize) -> bool {
        world.waiting(object) == 0
            && world.tables.clock >= world.tables.server.guard[world.setup.volume(object)]
    }

    /// "Whose latest end is below the clock."
    #[inline]
    fn is_over(&self, world: &World, object: usize) -> bool {
        world.tables.server.write[object].latest_end < world.tables.clock
    }

    /// "Write (object, value)", with the latest end of 02, A3, and a note for
    /// each parked client (02, A6). "Send each INVALIDATE in dash order.
    /// Complete if none waits and the clock is at or past guard."
    fn write(&self, world: &mut World, object: usize, value: u64) -> u32 {
        let (waiting, parked) = (self.to_wait_for(world, object), self.parked(world, object));
        let latest_end = self.latest_end(world, object, waiting);
        world.open_write(object, Write { value, latest_end, waiting });
        for client in members(waiting.into()) {
            self.send_invalidate(world, client, object);
        }
        for client in members(parked.into()) {
            self.note(world, client, object);
        }
        self.complete_if_free(world, object)
    }

    /// "Waiting are the dashes whose object lease is alive and which either are
    /// not marked unreachable or have a live volume lease" (01), but a parked
    /// one "is no longer waited for" (02, A6). So both leases are alive,
    /// whether the client is marked or not: the write that marked it may have
    /// ended with the lease on another object.
    fn to_wait_for(&self, world: &World, object: usize) -> u16 {
        let alive = self.volume_leases_alive(world, world.setup.volume(object));
        self.object_leases_alive(world, object) & alive & world.setup.all_clients()
    }

    /// "A reachable dash with a live object lease and a dead volume lease": it
    /// shows nothing before it renews the volume.
    fn parked(&self, world: &World, object: usize) -> u16 {
        let volume = world.setup.volume(object);
        let may_not_show = !self.volume_leases_alive(world, volume);
        let reachable = !world.tables.server.unreachable[volume];
        self.object_leases_alive(world, object) & may_not_show & reachable & world.setup.all_clients()
    }

    #[inline]
    fn object_leases_alive(&self, world: &World, object: usize) -> u16 {
        alive_set(&world.tables.server.object_expiry[object], world.tables.clock)
    }

    #[inline]
    fn volume_leases_alive(&self, world: &World, volume: usize) -> u16 {
        alive_set(&world.tables.server.volume_expiry[volume], world.tables.clock)
    }

    /// Sends an INVALIDATE with the version that the write will give the
    /// object.
    fn send_invalidate(&self, world: &mut World, client: usize, object: usize) {
        let server = &world.tables.server;
        let epoch = server.epoch[world.setup.volume(object)];
        let version = server.version[object] + 1;
        self.send(world, client, Kind::Invalidate { object: object as u8, epoch, version });
    }

    /// "Complete if none waits and the clock is at or past guard." Returns 1 if
    /// it did.
    #[inline]
    fn complete_if_free(&self, world: &mut World, object: usize) -> u32 {
        let free = self.is_free(world, object);
        if free {
            self.complete(world, object);
        }
        free.into()
    }

    /// "Completing stores the value, adds 1 to the version, marks still waiting
    /// dashes unreachable, clears every dash's server lease on that object and
    /// ends the standing write." Offers stay: a DROPPED under way counts.
    fn complete(&self, world: &mut World, object: usize) {
        let (volume, waiting) = (world.setup.volume(object), world.waiting(object));
        let server = &mut world.tables.server;
        server.value[object] = server.write[object].value;
        server.version[object] += 1;
        server.object_expiry[object][..world.setup.clients.into()].fill(0);
        world.end_write(object);
        self.mark(world, volume, waiting);
    }
}

/// Returns the set of slots whose lease is alive.
#[inline]
pub fn alive_set(expiries: &[u32; CLIENTS], clock: u32) -> u16 {
    let mut set = 0;
    for (client, &expiry) in expiries.iter().enumerate() {
        set |= u16::from(alive(expiry, clock)) << client;
    }
    set
}
