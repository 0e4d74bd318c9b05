//! Mistakes about what an erasing event is.

use crate::answer::Answer;
use crate::copies::ObjectCopy;
use crate::events::{Cause, Event, Line, Taken};
use crate::message::Kind;
use crate::rules::Papers;
use crate::step_record::{RESTART_SERVER, WRITE};

mistakes_about! { ReasonRules:
    /// An OFFER counts for every object of its volume, with a copy or without
    /// one.
    event_offer_without_copy {
        fn event(&self, taken: &Taken, client: usize, object: usize) -> Option<Cause> {
            Papers.event(taken, client, object).or_else(|| {
                let cause = Papers.cause(taken, client, object)?;
                (cause == Cause::Offer && is_obeyed(taken, client, object)).then_some(cause)
            })
        }
    }

    /// An OFFER counts again for a copy whose expiry is 0 already.
    event_offer_again {
        fn event(&self, taken: &Taken, client: usize, object: usize) -> Option<Cause> {
            Papers.event(taken, client, object).or_else(|| {
                let cause = Papers.cause(taken, client, object)?;
                let held = taken.copy(client, object).0.version != 0;
                (cause == Cause::Offer && held && is_obeyed(taken, client, object)).then_some(cause)
            })
        }
    }

    /// An OFFER counts only for the object that was asked for.
    event_offer_for_asked {
        fn event(&self, taken: &Taken, client: usize, object: usize) -> Option<Cause> {
            let asked = taken.before.requests[client].is_about(object as u8);
            Papers.event(taken, client, object).filter(|&cause| cause != Cause::Offer || asked)
        }
    }

    /// A copy whose version stays is not erased, so no OFFER counts.
    event_offer_never {
        fn erased(&self, _: Cause, before: &ObjectCopy, after: &ObjectCopy) -> bool {
            before.version != 0 && after.version == 0
        }
    }

    /// A BATCH counts for its whole set, with a copy or without one.
    event_batch_without_copy {
        fn event(&self, taken: &Taken, client: usize, object: usize) -> Option<Cause> {
            Papers.event(taken, client, object).or_else(|| {
                let cause = Papers.cause(taken, client, object)?;
                (cause == Cause::Batch && is_noted(taken, object)
                    && is_obeyed(taken, client, object)).then_some(cause)
            })
        }
    }

    /// A BATCH counts for every copy of its volume, as an OFFER does.
    event_batch_for_volume {
        fn event(&self, taken: &Taken, client: usize, object: usize) -> Option<Cause> {
            Papers.event(taken, client, object).or_else(|| {
                let cause = Papers.cause(taken, client, object)?;
                let held = taken.copy(client, object).0.version != 0;
                (cause == Cause::Batch && held && is_obeyed(taken, client, object)).then_some(cause)
            })
        }
    }

    /// A BATCH does not count.
    event_batch_never {
        fn erased(&self, cause: Cause, before: &ObjectCopy, after: &ObjectCopy) -> bool {
            cause != Cause::Batch && Papers.erased(cause, before, after)
        }
    }

    /// A BATCH does not count for a copy whose expiry is 0 already.
    event_batch_needs_expiry {
        fn erased(&self, cause: Cause, before: &ObjectCopy, after: &ObjectCopy) -> bool {
            Papers.erased(cause, before, after) && (cause != Cause::Batch || before.expiry != 0)
        }
    }

    /// An INVALIDATE counts, too, where there is no copy.
    event_invalidate_without_copy {
        fn event(&self, taken: &Taken, client: usize, object: usize) -> Option<Cause> {
            let cause = Papers.cause(taken, client, object).filter(|_| is_invalidated(taken, object));
            Papers.event(taken, client, object).or(cause)
        }
    }

    /// An INVALIDATE does not count for a copy whose expiry is 0 already.
    event_invalidate_needs_expiry {
        fn erased(&self, cause: Cause, before: &ObjectCopy, after: &ObjectCopy) -> bool {
            Papers.erased(cause, before, after) && (cause != Cause::Invalidate || before.expiry != 0)
        }
    }

    /// A restart counts, too, where there is no copy.
    event_restart_without_copy {
        fn erased(&self, cause: Cause, before: &ObjectCopy, after: &ObjectCopy) -> bool {
            cause == Cause::Restart || Papers.erased(cause, before, after)
        }
    }

    /// A restart does not count for a copy whose expiry is 0 already.
    event_restart_needs_expiry {
        fn erased(&self, cause: Cause, before: &ObjectCopy, after: &ObjectCopy) -> bool {
            Papers.erased(cause, before, after) && (cause != Cause::Restart || before.expiry != 0)
        }
    }

    /// A restart of the server counts as one of every client.
    event_server_restart {
        fn take_events(&self, line: &mut Line, taken: &Taken) {
            Papers.take_events(line, taken);
            if taken.step.kind == RESTART_SERVER {
                line.last.fill(Some(Event { cause: Cause::Restart, step: taken.number }));
            }
        }
    }

    /// A write counts as the INVALIDATE that it sends.
    event_write {
        fn cause(&self, taken: &Taken, client: usize, object: usize) -> Option<Cause> {
            let written = taken.step.kind == WRITE && usize::from(taken.step.object) == object;
            if written { Some(Cause::Invalidate) } else { Papers.cause(taken, client, object) }
        }

        fn erased(&self, cause: Cause, before: &ObjectCopy, after: &ObjectCopy) -> bool {
            Papers.erased(cause, before, after) || cause == Cause::Invalidate && before.version != 0
        }
    }
}

/// Returns whether the OFFER or BATCH that was delivered is about the object's
/// volume, and has the number that stood.
fn is_obeyed(taken: &Taken, client: usize, object: usize) -> bool {
    let Answer::Delivered { message, .. } = taken.answer else {
        return false;
    };
    let (volume, number) = match message.kind {
        Kind::Offer { volume, number, .. } => (volume, number),
        Kind::Batch(batch) => (batch.volume, batch.number),
        _ => return false,
    };
    taken.before.requests[client].waits_for(number) && taken.world.setup.volume(object) == usize::from(volume)
}

/// Returns whether the object is in the set of the BATCH that was delivered.
fn is_noted(taken: &Taken, object: usize) -> bool {
    matches!(taken.answer, Answer::Delivered { message, .. }
        if matches!(message.kind, Kind::Batch(batch) if batch.set >> object & 1 == 1))
}

/// Returns whether an INVALIDATE for the object was delivered.
fn is_invalidated(taken: &Taken, about: usize) -> bool {
    matches!(taken.answer, Answer::Delivered { message, .. }
        if matches!(message.kind, Kind::Invalidate { object, .. } if usize::from(object) == about))
}
