//! Mistakes of the server about the place of BATCH among the rules of a RENEW,
//! and about notes at an OFFER, a DROPPED and its restart (02, A6).

use crate::mistakes::kept::keeping;
use crate::rules::{NoteRules, Papers, Renew, WriteRules};
use crate::world::World;

mistakes_about! { ServerRules:
    /// Sends BATCH before it asks about the epoch.
    batch_before_epoch {
        fn answer_renew(&self, world: &mut World, renew: &Renew) {
            if Papers.must_batch(world, renew.client, renew.object) {
                Papers.send_batch(world, renew.client, world.setup.volume(renew.object), renew.number);
            } else {
                Papers.answer_renew(world, renew);
            }
        }
    }

    /// Sends BATCH only if the client is not waited for.
    batch_after_waited {
        fn answer_renew(&self, world: &mut World, renew: &Renew) {
            match Papers.lowest_waited(world, renew.client, world.setup.volume(renew.object)) {
                Some(waited) if !Papers.must_offer(world, renew) => {
                    Papers.send_invalidate(world, renew.client, waited);
                }
                _ => Papers.answer_renew(world, renew),
            }
        }
    }

    /// Sends no BATCH if the object has a standing write.
    batch_after_standing {
        fn answer_renew(&self, world: &mut World, renew: &Renew) {
            let noted = !Papers.must_offer(world, renew) && Papers.must_batch(world, renew.client, renew.object);
            if !noted || !world.tables.server.stands(renew.object) {
                Papers.answer_renew(world, renew);
            }
        }
    }

    /// Gives a lease with the BATCH.
    batch_and_grant {
        fn answer_renew(&self, world: &mut World, renew: &Renew) {
            let noted = !Papers.must_offer(world, renew) && Papers.must_batch(world, renew.client, renew.object);
            Papers.answer_renew(world, renew);
            if noted && !world.tables.server.stands(renew.object) {
                Papers.grant(world, renew);
            }
        }
    }

    /// Keeps the notes of a client that an OFFER marks.
    offer_keeps_notes {
        fn offer(&self, world: &mut World, client: usize, volume: usize, number: u32) {
            let rule = |w: &mut World| Papers.offer(w, client, volume, number);
            keeping(world, |w| &mut w.tables.server.notes, rule);
        }
    }

    /// Keeps its batch.
    offer_keeps_batch {
        fn offer(&self, world: &mut World, client: usize, volume: usize, number: u32) {
            let rule = |w: &mut World| Papers.offer(w, client, volume, number);
            keeping(world, |w| &mut w.tables.server.batch, rule);
        }
    }

    /// Drops notes at a DROPPED.
    dropped_drops_notes {
        fn clear_client(&self, world: &mut World, client: usize, volume: usize) {
            Papers.clear_client(world, client, volume);
            world.tables.server.notes[volume][client] = 0;
        }
    }

    /// Voids the batch at a DROPPED.
    dropped_voids_batch {
        fn clear_client(&self, world: &mut World, client: usize, volume: usize) {
            Papers.clear_client(world, client, volume);
            world.tables.server.batch[volume][client] = 0;
        }
    }

    /// Keeps the notes across its restart.
    restart_keeps_notes {
        fn restart_server(&self, world: &mut World) {
            keeping(world, |w| &mut w.tables.server.notes, |w| Papers.restart_server(w));
        }
    }

    /// Keeps the batches.
    restart_keeps_batch {
        fn restart_server(&self, world: &mut World) {
            keeping(world, |w| &mut w.tables.server.batch, |w| Papers.restart_server(w));
        }
    }
}
