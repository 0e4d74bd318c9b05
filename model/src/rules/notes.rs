//! Delayed invalidations at the server (02, A6): the notes of a client in a
//! volume, the batch that tells it of them, and what marks it unreachable.

use crate::bits::members;
use crate::limits::CLIENTS;
use crate::message::{Batch, Kind};
use crate::rules::NetworkRules;
use crate::world::World;

pub trait NoteRules: NetworkRules {
    /// "The object goes on its list of notes for that volume." "A later note
    /// voids that batch": its CLEARED would not be about this object.
    fn note(&self, world: &mut World, client: usize, object: usize) {
        let volume = world.setup.volume(object);
        let server = &mut world.tables.server;
        server.notes[volume][client] |= 1 << object;
        server.batch[volume][client] = 0;
    }

    /// Returns whether the client's "RENEW there, after the epoch rule, is
    /// answered by BATCH", whichever object it is about. So "no volume lease is
    /// given while notes remain".
    #[inline]
    fn must_batch(&self, world: &World, client: usize, object: usize) -> bool {
        world.tables.server.notes[world.setup.volume(object)][client] != 0
    }

    /// "BATCH (kind 7) with number, epoch and the noted set." The number is the
    /// RENEW's, and this is then "the batch last sent".
    fn send_batch(&self, world: &mut World, client: usize, volume: usize, number: u32) {
        let server = &mut world.tables.server;
        server.batch[volume][client] = number;
        let (epoch, set) = (server.epoch[volume], server.notes[volume][client]);
        self.send(world, client, Kind::Batch(Batch { volume: volume as u8, number, epoch, set }));
    }

    /// "The server drops the notes and leases of the set in CLEARED only if
    /// number and epoch match the batch last sent." No write waits for a noted
    /// client, so none completes.
    fn receive_cleared(&self, world: &mut World, client: usize, cleared: &Batch) {
        if self.cleared_counts(world, client, cleared) {
            self.drop_noted(world, client, cleared.volume.into(), cleared.set);
        }
    }

    /// "Only if number and epoch match the batch last sent." A restart loses
    /// the batch, so its epoch is the server's.
    #[inline]
    fn cleared_counts(&self, world: &World, client: usize, cleared: &Batch) -> bool {
        let (server, volume) = (&world.tables.server, usize::from(cleared.volume));
        let batch = server.batch[volume][client];
        cleared.epoch == server.epoch[volume] && batch != 0 && batch == cleared.number
    }

    /// "Drops the notes and leases of the set [..]; an accepted CLEARED ends"
    /// the batch.
    fn drop_noted(&self, world: &mut World, client: usize, volume: usize, set: u32) {
        let server = &mut world.tables.server;
        server.notes[volume][client] &= !set;
        server.batch[volume][client] = 0;
        for object in members(set) {
            server.object_expiry[object][client] = 0;
        }
    }

    /// "A clock step to volume expiry + d or later [..] marks a noted dash
    /// unreachable", in every volume.
    fn age(&self, world: &mut World) {
        for volume in 0..usize::from(world.setup.volumes) {
            let aged = self.aged(world, volume);
            if aged != 0 {
                self.mark(world, volume, aged);
            }
        }
    }

    /// Returns the clients with notes in this volume whose "volume expiry + d"
    /// is the clock or before it.
    fn aged(&self, world: &World, volume: usize) -> u16 {
        let server = &world.tables.server;
        let (notes, expiries) = (&server.notes[volume], &server.volume_expiry[volume]);
        let Some(latest) = world.tables.clock.checked_sub(world.setup.delay) else {
            return 0;
        };
        // Mostly nobody has any, which one quick pass shows.
        if notes.iter().fold(0, |all, set| all | set) == 0 {
            return 0;
        }
        let mut set = 0;
        for client in 0..CLIENTS {
            set |= u16::from((notes[client] != 0) & (expiries[client] <= latest)) << client;
        }
        set & world.setup.all_clients()
    }

    /// Marks these clients unreachable. "Any mark drops its notes there and
    /// voids the batch": an OFFER takes all its leases instead.
    #[inline]
    fn mark(&self, world: &mut World, volume: usize, clients: u16) {
        let server = &mut world.tables.server;
        server.unreachable[volume] |= clients;
        for client in members(clients.into()) {
            server.notes[volume][client] = 0;
            server.batch[volume][client] = 0;
        }
    }
}
