//! Mistakes of the server at a RENEW, an ACK and a DROPPED.

use crate::mistakes::kept::{keeping, unsent};
use crate::rules::{waited_in, Papers, Renew, WriteRules};
use crate::world::World;

mistakes_about! { ServerRules:
    /// Takes a RENEW whatever its number.
    renew_any_number {
        fn receive_renew(&self, world: &mut World, renew: &Renew) {
            let seen = &mut world.tables.server.seen[renew.client];
            *seen = renew.number.max(*seen);
            Papers.answer_renew(world, renew);
        }
    }

    /// Lets a doubled RENEW renew an offer.
    old_renew_offers {
        fn receive_renew(&self, world: &mut World, renew: &Renew) {
            let old = renew.number <= world.tables.server.seen[renew.client];
            if old && Papers.must_offer(world, renew) {
                Papers.offer(world, renew.client, world.setup.volume(renew.object), renew.number);
            } else {
                Papers.receive_renew(world, renew);
            }
        }
    }

    /// Renews a volume for a client still waited for there.
    renew_while_waiting {
        fn lowest_waited(&self, _: &World, _: usize, _: usize) -> Option<usize> {
            None
        }
    }

    /// Resends INVALIDATE for the highest object.
    resend_highest {
        fn lowest_waited(&self, world: &World, client: usize, volume: usize) -> Option<usize> {
            waited_in(world, client, volume).last()
        }
    }

    /// Marks nobody at an OFFER.
    offer_without_marking {
        fn offer(&self, world: &mut World, client: usize, volume: usize, number: u32) {
            let rule = |w: &mut World| Papers.offer(w, client, volume, number);
            keeping(world, |w| &mut w.tables.server.unreachable, rule);
        }
    }

    /// Grants an object whose write stands.
    grant_during_write {
        fn answer_renew(&self, world: &mut World, renew: &Renew) {
            let volume = world.setup.volume(renew.object);
            let waited = Papers.lowest_waited(world, renew.client, volume).is_some();
            if waited || Papers.must_offer(world, renew) {
                Papers.answer_renew(world, renew);
            } else {
                Papers.grant(world, renew);
            }
        }
    }

    /// Sends no GRANT if the client holds the version.
    grant_only_news {
        fn grant(&self, world: &mut World, renew: &Renew) {
            if renew.version == world.tables.server.version[renew.object] {
                unsent(world, |w| Papers.grant(w, renew));
            } else {
                Papers.grant(world, renew);
            }
        }
    }

    /// Counts an ACK of another epoch.
    ack_any_epoch {
        fn ack_counts(&self, world: &World, object: usize, _: u32, version: u32) -> bool {
            let epoch = world.tables.server.epoch[world.setup.volume(object)];
            Papers.ack_counts(world, object, epoch, version)
        }
    }

    /// Counts an ACK of another version.
    ack_any_version {
        fn ack_counts(&self, world: &World, object: usize, epoch: u32, _: u32) -> bool {
            let server = &world.tables.server;
            server.stands(object) && epoch == server.epoch[world.setup.volume(object)]
        }
    }

    /// Completes a write on an ACK before the guard.
    ack_before_guard {
        fn receive_ack(&self, world: &mut World, client: usize, object: usize, epoch: u32, version: u32) -> u32 {
            let counts = Papers.ack_counts(world, object, epoch, version);
            let completed = Papers.receive_ack(world, client, object, epoch, version);
            if counts && completed == 0 && world.waiting(object) == 0 {
                Papers.complete(world, object);
                return 1;
            }
            completed
        }
    }

    /// Counts a DROPPED of another number.
    dropped_any_number {
        fn dropped_counts(&self, world: &World, client: usize, volume: usize, _: u32, epoch: u32) -> bool {
            Papers.dropped_counts(world, client, volume, world.tables.server.offer[volume][client], epoch)
        }
    }

    /// Keeps the offer after its DROPPED.
    dropped_keeps_offer {
        fn clear_client(&self, world: &mut World, client: usize, volume: usize) {
            let rule = |w: &mut World| Papers.clear_client(w, client, volume);
            keeping(world, |w| &mut w.tables.server.offer, rule);
        }
    }

    /// Keeps the mark after a DROPPED.
    dropped_keeps_mark {
        fn clear_client(&self, world: &mut World, client: usize, volume: usize) {
            let rule = |w: &mut World| Papers.clear_client(w, client, volume);
            keeping(world, |w| &mut w.tables.server.unreachable, rule);
        }
    }

    /// Keeps the object leases after a DROPPED.
    dropped_keeps_leases {
        fn clear_client(&self, world: &mut World, client: usize, volume: usize) {
            let rule = |w: &mut World| Papers.clear_client(w, client, volume);
            keeping(world, |w| &mut w.tables.server.object_expiry, rule);
        }
    }

    /// Waits on after a DROPPED.
    dropped_keeps_waiting {
        fn clear_client(&self, world: &mut World, client: usize, volume: usize) {
            let rule = |w: &mut World| Papers.clear_client(w, client, volume);
            keeping(world, |w| &mut w.tables.server.write, rule);
        }
    }

    /// Completes no write on a DROPPED.
    dropped_completes_nothing {
        fn complete_free_in(&self, _: &mut World, _: usize) -> u32 {
            0
        }
    }
}
