//! The client's steps, and INVALIDATE, OFFER and BATCH (01, Steps 2, 3 and 9;
//! Messages received; 02, A6).

use crate::answer::Answer;
use crate::bits::members;
use crate::copies::ObjectCopy;
use crate::message::{Batch, Kind};
use crate::rules::NetworkRules;
use crate::tables::alive;
use crate::world::World;

pub trait ClientRules: NetworkRules {
    /// "Read (dash, object): copy present and both leases alive: shown with its
    /// value; else "ask first"."
    fn read(&self, world: &World, client: usize, object: usize) -> Answer {
        let copy = world.copy(client, object);
        let volume_expiry = world.tables.clients.expiry[client][world.setup.volume(object)];
        if copy.version != 0 && self.both_alive(volume_expiry, copy.expiry, world.tables.clock) {
            Answer::Shown(copy.value)
        } else {
            Answer::AskFirst
        }
    }

    #[inline]
    fn both_alive(&self, volume_expiry: u32, object_expiry: u32, clock: u32) -> bool {
        alive(volume_expiry, clock) && alive(object_expiry, clock)
    }

    /// "Ask (dash, object): take the next number, replace the standing request,
    /// send RENEW with number, known epoch and held version."
    fn ask(&self, world: &mut World, client: usize, object: usize) {
        let number = world.requests[client].take(object as u8);
        let epoch = world.tables.clients.epoch[client][world.setup.volume(object)];
        let version = world.copy(client, object).version;
        self.send(world, client, Kind::Renew { object: object as u8, number, epoch, version });
    }

    /// "Restart dash: only its next request number remains." So no number is
    /// ever used twice.
    fn restart_client(&self, world: &mut World, client: usize) {
        world.requests[client].end();
        let volumes = usize::from(world.setup.volumes);
        world.tables.clients.epoch[client][..volumes].fill(0);
        world.tables.clients.expiry[client][..volumes].fill(0);
        let first = world.setup.copy_place(client, 0);
        world.copies[first..first + world.setup.objects as usize].fill(ObjectCopy::NONE);
    }

    /// "INVALIDATE: erase the copy (version, value and expiry 0), forget a
    /// standing request for that object, send ACK with the same epoch and new
    /// version (current + 1)." The request's answer may bring the old value.
    fn receive_invalidate(&self, world: &mut World, client: usize, object: u8, epoch: u32, version: u32) {
        *world.copy_mut(client, object.into()) = ObjectCopy::NONE;
        let request = &mut world.requests[client];
        if request.is_about(object) {
            request.end();
        }
        self.send(world, client, Kind::Ack { object, epoch, version });
    }

    /// "OFFER: needs the standing number, else nothing."
    fn receive_offer(&self, world: &mut World, client: usize, volume: u8, number: u32, epoch: u32) {
        if world.requests[client].waits_for(number) {
            self.obey_offer(world, client, volume, number, epoch);
        }
    }

    /// "Take its epoch, set that volume's expiry and all its object expiries to
    /// 0, end the request, send DROPPED with that number and epoch."
    fn obey_offer(&self, world: &mut World, client: usize, volume: u8, number: u32, epoch: u32) {
        world.tables.clients.epoch[client][usize::from(volume)] = epoch;
        self.drop_leases(world, client, volume.into());
        world.requests[client].end();
        self.send(world, client, Kind::Dropped { volume, number, epoch });
    }

    /// "Set that volume's expiry and all its object expiries to 0."
    fn drop_leases(&self, world: &mut World, client: usize, volume: usize) {
        world.tables.clients.expiry[client][volume] = 0;
        for object in 0..world.setup.objects as usize {
            if world.setup.volume(object) == volume {
                world.copy_mut(client, object).expiry = 0;
            }
        }
    }

    /// BATCH: "with that number standing the dash erases those copies, ends the
    /// request and sends CLEARED", else nothing.
    fn receive_batch(&self, world: &mut World, client: usize, batch: &Batch) {
        if world.requests[client].waits_for(batch.number) {
            self.obey_batch(world, client, batch);
        }
    }

    /// "The dash erases those copies, ends the request and sends CLEARED (kind
    /// 8) with number, epoch and set." It learns no epoch: the RENEW had this
    /// one.
    fn obey_batch(&self, world: &mut World, client: usize, batch: &Batch) {
        self.erase(world, client, batch.set);
        world.requests[client].end();
        self.send(world, client, Kind::Cleared(*batch));
    }

    /// "Erases those copies": version, value and expiry, as at an INVALIDATE.
    fn erase(&self, world: &mut World, client: usize, set: u32) {
        for object in members(set) {
            *world.copy_mut(client, object) = ObjectCopy::NONE;
        }
    }
}
