//! Mistakes about how the event's step is named.

use crate::answer::Answer;
use crate::events::{Cause, Event, Line, Lines, Taken};
use crate::rules::{Papers, Why, VOLUME_RAN_OUT};
use crate::step_record::RETURN;

mistakes_about! { ReasonRules:
    /// Counts steps from 0.
    event_numbered_from_0 {
        fn number(&self, _: &Line, taken: &Taken) -> u32 {
            taken.number - 1
        }
    }

    /// Names the step after the event.
    event_numbered_late {
        fn number(&self, _: &Line, taken: &Taken) -> u32 {
            taken.number + 1
        }
    }

    /// Counts steps along the line and not as in the listing.
    event_numbered_in_line {
        fn number(&self, line: &Line, _: &Taken) -> u32 {
            line.length
        }
    }

    /// After a return names the return for what happened before the save.
    event_numbered_by_return {
        fn follow(&self, lines: &mut Lines, taken: &Taken) -> Why {
            let why = Papers.follow(lines, taken);
            if taken.step.kind == RETURN && taken.answer == Answer::Done {
                let events = lines.present.last.iter_mut().flatten();
                events.for_each(|event| event.step = taken.number);
            }
            why
        }
    }

    /// Names erasing events only.
    grant_not_named {
        fn named(&self, _: &Line, _: &Taken, _: u8, last: Option<Event>) -> u32 {
            last.filter(|event| event.cause != Cause::Grant).map_or(0, |event| event.step)
        }
    }

    /// Where the volume lease ran out, names the GRANT of any object that
    /// renewed it last.
    renewal_of_volume_named {
        fn named(&self, line: &Line, taken: &Taken, reason: u8, last: Option<Event>) -> u32 {
            let renewals = granted_in_volume(line, taken).filter(|_| reason == VOLUME_RAN_OUT);
            renewals.max().or(last.map(|event| event.step)).unwrap_or(0)
        }
    }
}

/// Returns the steps of the last events that are grants, of the client's copies
/// in the volume that is read.
fn granted_in_volume<'a>(line: &'a Line, taken: &'a Taken) -> impl Iterator<Item = u32> + 'a {
    let setup = taken.world.setup;
    let (client, volume) = (usize::from(taken.step.client), setup.volume(taken.step.object.into()));
    let objects = (0..usize::from(setup.objects)).filter(move |&object| setup.volume(object) == volume);
    let events = objects.filter_map(move |object| line.last[setup.copy_place(client, object)]);
    events.filter(|event| event.cause == Cause::Grant).map(|event| event.step)
}
