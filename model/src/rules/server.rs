//! The server's messages and its restart (01, Messages received; Steps 8; for
//! CLEARED see `notes`).

use crate::bits::members;
use crate::message::{Grant, Kind};
use crate::rules::WriteRules;
use crate::tables::Server;
use crate::world::World;

/// A RENEW received.
#[derive(Clone, Copy, Debug, PartialEq, Eq)]
pub struct Renew {
    pub client: usize,
    pub object: usize,
    pub number: u32,
    /// What the client knows and holds.
    pub epoch: u32,
    pub version: u32,
}

pub trait ServerRules: WriteRules {
    /// "RENEW: number not above the highest seen: nothing. Otherwise note it,
    /// then take the first rule that fits."
    fn receive_renew(&self, world: &mut World, renew: &Renew) {
        let seen = &mut world.tables.server.seen[renew.client];
        if renew.number > *seen {
            *seen = renew.number;
            self.answer_renew(world, renew);
        }
    }

    /// "Epoch differs or dash unreachable: [..] send OFFER. Dash waited for in
    /// this volume: resend INVALIDATE for its lowest such object. This object
    /// has a standing write: nothing. Else [..] send GRANT." BATCH comes "after
    /// the epoch rule" (02, A6).
    fn answer_renew(&self, world: &mut World, renew: &Renew) {
        let volume = world.setup.volume(renew.object);
        if self.must_offer(world, renew) {
            self.offer(world, renew.client, volume, renew.number);
        } else if self.must_batch(world, renew.client, renew.object) {
            self.send_batch(world, renew.client, volume, renew.number);
        } else if let Some(waited) = self.lowest_waited(world, renew.client, volume) {
            self.send_invalidate(world, renew.client, waited);
        } else if !world.tables.server.stands(renew.object) {
            self.grant(world, renew);
        }
    }

    /// "Epoch differs or dash unreachable."
    #[inline]
    fn must_offer(&self, world: &World, renew: &Renew) -> bool {
        let (server, volume) = (&world.tables.server, world.setup.volume(renew.object));
        let unreachable = server.unreachable[volume] >> renew.client & 1 == 1;
        renew.epoch != server.epoch[volume] || unreachable
    }

    /// "Mark unreachable, offer number := number, send OFFER."
    fn offer(&self, world: &mut World, client: usize, volume: usize, number: u32) {
        self.mark(world, volume, 1 << client);
        let server = &mut world.tables.server;
        server.offer[volume][client] = number;
        let epoch = server.epoch[volume];
        self.send(world, client, Kind::Offer { volume: volume as u8, number, epoch });
    }

    /// Returns the lowest object of the volume whose standing write waits for
    /// this client.
    fn lowest_waited(&self, world: &World, client: usize, volume: usize) -> Option<usize> {
        waited_in(world, client, volume).next()
    }

    /// "Volume expiry and VE := clock + tv, object expiry and OE := clock + t,
    /// send GRANT, with value unless versions are equal."
    fn grant(&self, world: &mut World, renew: &Renew) {
        let Renew { client, object, number, version, .. } = *renew;
        let volume = world.setup.volume(object);
        let volume_expiry = world.tables.clock + world.setup.volume_lease;
        let object_expiry = world.tables.clock + world.setup.object_lease;
        let server = &mut world.tables.server;
        server.volume_expiry[volume][client] = volume_expiry;
        server.volume_latest[volume] = volume_expiry;
        server.object_expiry[object][client] = object_expiry;
        server.object_latest[object] = object_expiry;
        let grant = Grant {
            object: object as u8,
            number,
            volume_expiry,
            epoch: server.epoch[volume],
            version: server.version[object],
            object_expiry,
            value: (version != server.version[object]).then_some(server.value[object]),
        };
        self.send(world, client, Kind::Grant(grant));
    }

    /// "Clear that dash's object lease and its waiting; complete if none waits
    /// and the clock is at or past guard."
    fn receive_ack(&self, world: &mut World, client: usize, object: usize, epoch: u32, version: u32) -> u32 {
        if !self.ack_counts(world, object, epoch, version) {
            return 0;
        }
        let server = &mut world.tables.server;
        server.object_expiry[object][client] = 0;
        server.write[object].waiting &= !(1 << client);
        self.complete_if_free(world, object)
    }

    /// "ACK: needs a standing write, its epoch and its new version, else
    /// nothing." Both, since a restart brings the same version again.
    #[inline]
    fn ack_counts(&self, world: &World, object: usize, epoch: u32, version: u32) -> bool {
        let server = &world.tables.server;
        server.stands(object)
            && epoch == server.epoch[world.setup.volume(object)]
            && version == server.version[object] + 1
    }

    /// "Clear the dash's leases in the volume, mark, offer and waiting there;
    /// then, in object order, complete each standing write of the volume on
    /// ACK's condition."
    fn receive_dropped(
        &self,
        world: &mut World,
        client: usize,
        volume: usize,
        number: u32,
        epoch: u32,
    ) -> u32 {
        if !self.dropped_counts(world, client, volume, number, epoch) {
            return 0;
        }
        self.clear_client(world, client, volume);
        self.complete_free_in(world, volume)
    }

    /// "DROPPED: needs the epoch and a nonzero equal offer number, else
    /// nothing."
    #[inline]
    fn dropped_counts(&self, world: &World, client: usize, volume: usize, number: u32, epoch: u32) -> bool {
        let (server, offer) = (&world.tables.server, world.tables.server.offer[volume][client]);
        epoch == server.epoch[volume] && offer != 0 && offer == number
    }

    /// "Clear the dash's leases in the volume, mark, offer and waiting there."
    fn clear_client(&self, world: &mut World, client: usize, volume: usize) {
        let server = &mut world.tables.server;
        server.volume_expiry[volume][client] = 0;
        server.unreachable[volume] &= !(1 << client);
        server.offer[volume][client] = 0;
        for object in 0..world.setup.objects as usize {
            if world.setup.volume(object) == volume {
                server.object_expiry[object][client] = 0;
                server.write[object].waiting &= !(1 << client);
            }
        }
    }

    /// "In object order, complete each standing write of the volume on ACK's
    /// condition."
    fn complete_free_in(&self, world: &mut World, volume: usize) -> u32 {
        let mut completed = 0;
        for object in members(world.standing()) {
            if world.setup.volume(object) == volume {
                completed += self.complete_if_free(world, object);
            }
        }
        completed
    }

    /// "Restart server: values, versions, VE remain; every epoch grows by 1;
    /// guard becomes VE; its other fields become fresh. Messages remain." The
    /// guard holds completions back until every lease given before the restart
    /// has run out. "A server restart loses notes", and so the batches.
    fn restart_server(&self, world: &mut World) {
        let old = world.tables.server;
        let server = &mut world.tables.server;
        *server = Server { value: old.value, version: old.version, ..Server::fresh() };
        (server.volume_latest, server.guard) = (old.volume_latest, old.volume_latest);
        server.epoch = old.epoch;
        for epoch in &mut server.epoch[..world.setup.volumes.into()] {
            *epoch += 1;
        }
    }
}

/// Returns the objects of the volume whose standing writes wait for this
/// client, lowest first.
pub fn waited_in<'a>(world: &'a World, client: usize, volume: usize) -> impl Iterator<Item = usize> + 'a {
    members(world.standing())
        .filter(move |&object| world.setup.volume(object) == volume)
        .filter(move |&object| world.waiting(object) >> client & 1 == 1)
}
