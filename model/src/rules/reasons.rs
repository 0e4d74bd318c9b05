//! Why a read is answered "ask first" (02, A8).

use crate::answer::Answer;
use crate::copies::ObjectCopy;
use crate::events::{Cause, Event, Line, Lines, Taken};
use crate::message::Kind;
use crate::step_record::{READ, RESTART_CLIENT, RETURN, SAVE};
use crate::world::World;

/// "They are 1 to 6 in that order."
pub const NO_REASON: u8 = 0;
pub const NEVER_GRANTED: u8 = 1;
pub const INVALIDATED: u8 = 2;
pub const LEASES_DROPPED: u8 = 3;
pub const CLIENT_RESTARTED: u8 = 4;
pub const VOLUME_RAN_OUT: u8 = 5;
pub const OBJECT_RAN_OUT: u8 = 6;

/// The answer about a step: a reason from 0 to 6, and the number of the step of
/// the event that decides, or 0.
#[derive(Clone, Copy, Debug, PartialEq, Eq)]
pub struct Why {
    pub reason: u8,
    pub event: u32,
}

impl Why {
    pub const NONE: Why = Why { reason: NO_REASON, event: 0 };
}

/// They are no part of what a step does, so the other rules know nothing of
/// them.
pub trait ReasonRules: Sync {
    /// Follows a step and answers about it. A read is no event, so it finds the
    /// events before it.
    fn follow(&self, lines: &mut Lines, taken: &Taken) -> Why {
        lines.present.length += 1;
        match (taken.step.kind, taken.answer) {
            (_, Answer::Refused(_)) => (),
            (SAVE, _) => self.save(lines, taken.step.place.into()),
            (RETURN, _) => self.return_to(lines, taken.step.place.into()),
            _ => self.take_events(&mut lines.present, taken),
        }
        self.why(&lines.present, taken)
    }

    /// "In its line": what is saved has a line of its own, in which the last
    /// events are those of now.
    fn save(&self, lines: &mut Lines, name: usize) {
        lines.saved[name] = Some(lines.present.clone());
    }

    /// The line of a restored state is the saved one's, "never across the
    /// abandoned branch" (A7). So a return is no event, whatever copies it
    /// brings or takes.
    fn return_to(&self, lines: &mut Lines, name: usize) {
        if let Some(line) = &lines.saved[name] {
            lines.present = line.clone();
        }
    }

    /// Looks for an event at every copy.
    fn take_events(&self, line: &mut Line, taken: &Taken) {
        let setup = taken.world.setup;
        for client in 0..usize::from(setup.clients) {
            for object in 0..usize::from(setup.objects) {
                if let Some(cause) = self.event(taken, client, object) {
                    let event = Event { cause, step: self.number(line, taken) };
                    self.keep(&mut line.last[setup.copy_place(client, object)], event);
                }
            }
        }
    }

    /// "The last erasing or granting event for that dash and object in its line
    /// decides": a later one takes the place of an earlier one.
    fn keep(&self, last: &mut Option<Event>, event: Event) {
        *last = Some(event);
    }

    /// The number of an event's step: "step from 1", as in the listing (01), so
    /// over the whole file.
    fn number(&self, _line: &Line, taken: &Taken) -> u32 {
        taken.number
    }

    /// "Erasing or granting event for that dash and object."
    fn event(&self, taken: &Taken, client: usize, object: usize) -> Option<Cause> {
        let (before, after) = taken.copy(client, object);
        let cause = self.cause(taken, client, object)?;
        let happened = cause == Cause::Grant || self.erased(cause, before, after);
        happened.then_some(cause)
    }

    /// Returns what the step can have done to this copy: it delivered a message
    /// to this client, or restarted it.
    fn cause(&self, taken: &Taken, client: usize, object: usize) -> Option<Cause> {
        match taken.answer {
            Answer::Delivered { message, .. } if usize::from(message.client) == client => {
                self.message_cause(taken, client, object, &message.kind)
            }
            Answer::Done if taken.step.kind == RESTART_CLIENT => {
                (usize::from(taken.step.client) == client).then_some(Cause::Restart)
            }
            _ => None,
        }
    }

    /// Returns what the message can have done. Whether an INVALIDATE, an OFFER
    /// or a BATCH did it, the copy shows.
    fn message_cause(&self, taken: &Taken, client: usize, object: usize, kind: &Kind) -> Option<Cause> {
        match *kind {
            Kind::Grant(grant) if usize::from(grant.object) == object => {
                self.grants(taken, client, grant.number).then_some(Cause::Grant)
            }
            Kind::Invalidate { .. } => Some(Cause::Invalidate),
            Kind::Offer { .. } => Some(Cause::Offer),
            Kind::Batch(_) => Some(Cause::Batch),
            _ => None,
        }
    }

    /// "GRANT: needs the standing number, else nothing" (01). One that is
    /// stored grants, whether it brings a copy or renews one.
    fn grants(&self, taken: &Taken, client: usize, number: u32) -> bool {
        taken.before.requests[client].waits_for(number)
    }

    /// "Erasing means that the copy's version or expiry went from nonzero to
    /// 0."
    fn erased(&self, _cause: Cause, before: &ObjectCopy, after: &ObjectCopy) -> bool {
        before.version != 0 && after.version == 0 || before.expiry != 0 && after.expiry == 0
    }

    /// "Gives one reason for a chosen read", and 0 for another step.
    fn why(&self, line: &Line, taken: &Taken) -> Why {
        if !self.has_reason(taken) {
            return Why::NONE;
        }
        let (client, object) = (taken.step.client.into(), taken.step.object.into());
        let last = line.last[taken.world.setup.copy_place(client, object)];
        let reason = self.reason(taken.world, client, object, last);
        Why { reason, event: self.named(line, taken, reason, last) }
    }

    /// "0 is for a step that is not a read answered "ask first"."
    fn has_reason(&self, taken: &Taken) -> bool {
        taken.step.kind == READ && taken.answer == Answer::AskFirst
    }

    /// "Never granted, copy invalidated, leases dropped on an offer or batch,
    /// dash restarted, volume lease ran out, object lease ran out."
    fn reason(&self, world: &World, client: usize, object: usize, last: Option<Event>) -> u8 {
        match last.map(|event| event.cause) {
            None => NEVER_GRANTED,
            Some(Cause::Invalidate) => INVALIDATED,
            Some(Cause::Offer | Cause::Batch) => LEASES_DROPPED,
            Some(Cause::Restart) => CLIENT_RESTARTED,
            Some(Cause::Grant) => self.ran_out(world, client, object),
        }
    }

    /// "After a grant, the earlier of the dash's two expiries at the read
    /// decides, the volume on a tie."
    fn ran_out(&self, world: &World, client: usize, object: usize) -> u8 {
        let volume_expiry = world.tables.clients.expiry[client][world.setup.volume(object)];
        if volume_expiry <= world.copy(client, object).expiry {
            VOLUME_RAN_OUT
        } else {
            OBJECT_RAN_OUT
        }
    }

    /// "It also names that event's step, or 0."
    fn named(&self, _line: &Line, _taken: &Taken, _reason: u8, last: Option<Event>) -> u32 {
        last.map_or(0, |event| event.step)
    }
}
