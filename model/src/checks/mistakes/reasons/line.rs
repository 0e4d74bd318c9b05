//! Mistakes about which event decides, in the line and across returns.

use crate::answer::Answer;
use crate::copies::ObjectCopy;
use crate::events::{Cause, Event, Lines, Taken};
use crate::rules::{Papers, Why};
use crate::step_record::RETURN;

mistakes_about! { ReasonRules:
    /// The first event decides.
    first_event_decides {
        fn keep(&self, last: &mut Option<Event>, event: Event) {
            last.get_or_insert(event);
        }
    }

    /// A return leaves the last events as they are.
    return_keeps_events {
        fn return_to(&self, _: &mut Lines, _: usize) {}
    }

    /// A return restores events, but does not take away those of the branch
    /// where the saved line has none.
    return_keeps_new_events {
        fn return_to(&self, lines: &mut Lines, name: usize) {
            let left = lines.present.last.clone();
            Papers.return_to(lines, name);
            for (last, left) in lines.present.last.iter_mut().zip(left) {
                *last = last.or(left);
            }
        }
    }

    /// A return forgets all events.
    return_forgets_events {
        fn return_to(&self, lines: &mut Lines, _: usize) {
            lines.present.last.fill(None);
        }
    }

    /// After a return a copy that is not there was never granted.
    return_without_copy_is_never {
        fn follow(&self, lines: &mut Lines, taken: &Taken) -> Why {
            let why = Papers.follow(lines, taken);
            if returned(taken) {
                for (last, copy) in lines.present.last.iter_mut().zip(&*taken.world.copies) {
                    *last = last.filter(|_| *copy != ObjectCopy::NONE);
                }
            }
            why
        }
    }

    /// A return that takes a copy away counts, as a restart does.
    return_erases {
        fn follow(&self, lines: &mut Lines, taken: &Taken) -> Why {
            let why = Papers.follow(lines, taken);
            if returned(taken) {
                let copies = taken.before.copies.iter().zip(&*taken.world.copies);
                for (last, (before, after)) in lines.present.last.iter_mut().zip(copies) {
                    if self.erased(Cause::Restart, before, after) {
                        *last = Some(Event { cause: Cause::Restart, step: taken.number });
                    }
                }
            }
            why
        }
    }

    /// Keeps the events that were first saved under a name.
    save_keeps_first_events {
        fn save(&self, lines: &mut Lines, name: usize) {
            lines.saved[name].get_or_insert_with(|| lines.present.clone());
        }
    }

    /// Saves every name's events, whichever is saved.
    save_under_every_name {
        fn save(&self, lines: &mut Lines, _: usize) {
            lines.saved = std::array::from_fn(|_| Some(lines.present.clone()));
        }
    }
}

fn returned(taken: &Taken) -> bool {
    taken.step.kind == RETURN && taken.answer == Answer::Done
}
