//! Mistakes about the reason, once the event is known, and about which steps
//! have one.

use crate::answer::Answer;
use crate::events::{Cause, Event, Line, Taken};
use crate::rules::{Papers, Why};
use crate::rules::{INVALIDATED, NEVER_GRANTED, OBJECT_RAN_OUT, VOLUME_RAN_OUT};
use crate::step_record::READ;
use crate::tables::alive;
use crate::world::World;

mistakes_about! { ReasonRules:
    /// The object on a tie.
    tie_is_the_objects {
        fn ran_out(&self, world: &World, client: usize, object: usize) -> u8 {
            let [volume, copy] = expiries(world, client, object);
            volume_if(volume < copy)
        }
    }

    /// The later expiry decides.
    later_expiry_decides {
        fn ran_out(&self, world: &World, client: usize, object: usize) -> u8 {
            let [volume, copy] = expiries(world, client, object);
            volume_if(volume >= copy)
        }
    }

    /// The volume whenever its lease is dead, even if the object's ended before.
    dead_volume_first {
        fn ran_out(&self, world: &World, client: usize, object: usize) -> u8 {
            let [volume, _] = expiries(world, client, object);
            volume_if(!alive(volume, world.tables.clock))
        }
    }

    /// The object whenever its lease is dead, even if the volume's ended before.
    dead_object_first {
        fn ran_out(&self, world: &World, client: usize, object: usize) -> u8 {
            let [_, copy] = expiries(world, client, object);
            volume_if(alive(copy, world.tables.clock))
        }
    }

    /// The expiries of the GRANT decide, tv and t after it was sent, whatever has
    /// renewed the volume since.
    expiries_at_grant {
        fn ran_out(&self, world: &World, _: usize, _: usize) -> u8 {
            volume_if(world.setup.volume_lease <= world.setup.object_lease)
        }
    }

    /// The server's expiries decide.
    expiries_at_server {
        fn ran_out(&self, world: &World, client: usize, object: usize) -> u8 {
            let server = &world.tables.server;
            let volume = server.volume_expiry[world.setup.volume(object)][client];
            volume_if(volume <= server.object_expiry[object][client])
        }
    }

    /// The expiries decide after an OFFER, a BATCH or a restart, too.
    expiries_alone {
        fn reason(&self, world: &World, client: usize, object: usize, last: Option<Event>) -> u8 {
            match last {
                Some(event) if event.cause != Cause::Invalidate => self.ran_out(world, client, object),
                _ => Papers.reason(world, client, object, last),
            }
        }
    }

    /// A BATCH invalidates.
    batch_is_invalidated {
        fn reason(&self, world: &World, client: usize, object: usize, last: Option<Event>) -> u8 {
            let reason = Papers.reason(world, client, object, last);
            if is(last, Cause::Batch) { INVALIDATED } else { reason }
        }
    }

    /// An OFFER invalidates.
    offer_is_invalidated {
        fn reason(&self, world: &World, client: usize, object: usize, last: Option<Event>) -> u8 {
            let reason = Papers.reason(world, client, object, last);
            if is(last, Cause::Offer) { INVALIDATED } else { reason }
        }
    }

    /// A client that restarted was never granted anything.
    restart_is_never_granted {
        fn reason(&self, world: &World, client: usize, object: usize, last: Option<Event>) -> u8 {
            let reason = Papers.reason(world, client, object, last);
            if is(last, Cause::Restart) { NEVER_GRANTED } else { reason }
        }
    }

    /// A read that is shown has a reason, too.
    shown_has_reason {
        fn has_reason(&self, taken: &Taken) -> bool {
            Papers.has_reason(taken) || matches!(taken.answer, Answer::Shown(_))
        }
    }

    /// A read that is refused has a reason, too: its copy was never granted.
    refused_has_reason {
        fn why(&self, line: &Line, taken: &Taken) -> Why {
            let refused = matches!(taken.answer, Answer::Refused(_)) && taken.step.kind == READ;
            if refused { Why { reason: NEVER_GRANTED, event: 0 } } else { Papers.why(line, taken) }
        }
    }
}

/// Returns the client's expiries, of the volume and of the object.
fn expiries(world: &World, client: usize, object: usize) -> [u32; 2] {
    let volume = world.tables.clients.expiry[client][world.setup.volume(object)];
    [volume, world.copy(client, object).expiry]
}

fn volume_if(volume: bool) -> u8 {
    if volume {
        VOLUME_RAN_OUT
    } else {
        OBJECT_RAN_OUT
    }
}

fn is(last: Option<Event>, cause: Cause) -> bool {
    last.is_some_and(|event| event.cause == cause)
}
