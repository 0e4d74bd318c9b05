//! Mistakes about names, the questions of a save or a return, and its answer
//! (02, A7).

use crate::answer::Answer;
use crate::limits::{BAD_TIME, NAMES, NO_SUCH_ITEM, NO_SUCH_NAME};
use crate::rules::{Papers, SavedRules};
use crate::state::State;
use crate::step_record::{Step, RETURN, SAVE};
use crate::world::World;

mistakes_about! { Gate:
    /// Asks whether a name is a place of the message list.
    name_asked_as_place {
        fn items_exist(&self, world: &World, step: &Step) -> bool {
            Papers.items_exist(world, step) && (!is_named(step) || is_place(world, step))
        }
    }

    /// Asks question 3 of a name that does not exist.
    name_after_place {
        fn refusal(&self, world: &World, step: &Step) -> Option<u8> {
            let refusal = Papers.refusal(world, step);
            let no_place = refusal == Some(NO_SUCH_NAME) && !is_place(world, step);
            if no_place { Some(NO_SUCH_ITEM) } else { refusal }
        }
    }

    /// Asks about the name before the kind.
    name_before_kind {
        fn refusal(&self, world: &World, step: &Step) -> Option<u8> {
            let unknown = !self.knows(step.kind) && usize::from(step.place) >= NAMES;
            if unknown { Some(NO_SUCH_NAME) } else { Papers.refusal(world, step) }
        }
    }

    /// Answers 3 for a name that does not exist.
    name_refused_as_item {
        fn refusal(&self, world: &World, step: &Step) -> Option<u8> {
            let refusal = Papers.refusal(world, step);
            if refusal == Some(NO_SUCH_NAME) { Some(NO_SUCH_ITEM) } else { refusal }
        }
    }

    /// Asks that the clock does not go back in a return.
    return_asks_time {
        fn refusal(&self, world: &World, step: &Step) -> Option<u8> {
            let refusal = Papers.refusal(world, step);
            let back = step.kind == RETURN && refusal.is_none() && is_back(world, step);
            if back { Some(BAD_TIME) } else { refusal }
        }
    }

    /// Knows three names only.
    name_3_refused {
        fn name_fits(&self, world: &World, step: &Step) -> bool {
            Papers.name_fits(world, step) && !(is_named(step) && step.place == 3)
        }
    }

    /// Does not know kinds 10 and 11.
    saved_kinds_unknown {
        fn knows(&self, kind: u8) -> bool {
            Papers.knows(kind) && kind != SAVE && kind != RETURN
        }
    }
}

mistakes_about! { Rules:
    /// Takes name 4 for name 0.
    name_4_accepted {
        fn step(&self, world: &mut World, step: &Step) -> Answer {
            let place = if is_named(step) && step.place == 4 { 0 } else { step.place };
            Papers.step(world, &Step { place, ..*step })
        }
    }

    /// Looks at the lowest two bits of a name.
    name_low_bits {
        fn step(&self, world: &mut World, step: &Step) -> Answer {
            let place = if is_named(step) { step.place & 3 } else { step.place };
            Papers.step(world, &Step { place, ..*step })
        }
    }

    /// Returns to fresh tables where the name was never saved.
    never_saved_is_fresh {
        fn step(&self, world: &mut World, step: &Step) -> Answer {
            if !is_never_saved(world, step) {
                return Papers.step(world, step);
            }
            Papers.restore(world, &State::fresh());
            Answer::Done
        }
    }

    /// Accepts a return to a name that was never saved, and leaves all as it is.
    never_saved_is_nothing {
        fn step(&self, world: &mut World, step: &Step) -> Answer {
            if is_never_saved(world, step) { Answer::Done } else { Papers.step(world, step) }
        }
    }

    /// Refuses a save whose name does not exist, and saves all the same.
    refused_save_saves {
        fn step(&self, world: &mut World, step: &Step) -> Answer {
            if step.kind == SAVE {
                Papers.save(world, usize::from(step.place) % NAMES);
            }
            Papers.step(world, step)
        }
    }

    /// Takes kind 12 for a step that does nothing.
    kind_12_known {
        fn step(&self, world: &mut World, step: &Step) -> Answer {
            if step.kind == 12 { Answer::Done } else { Papers.step(world, step) }
        }
    }

    /// Reports the writes that a return ends as completed.
    return_completes {
        fn step(&self, world: &mut World, step: &Step) -> Answer {
            let before = world.standing();
            let answer = Papers.step(world, step);
            let returned = step.kind == RETURN && answer == Answer::Done;
            if returned { Answer::after((before & !world.standing()).count_ones()) } else { answer }
        }
    }

    /// Reports the writes that stand in the state returned to as completed.
    return_reports_standing {
        fn step(&self, world: &mut World, step: &Step) -> Answer {
            let answer = Papers.step(world, step);
            let returned = step.kind == RETURN && answer == Answer::Done;
            if returned { Answer::after(world.standing().count_ones()) } else { answer }
        }
    }
}

fn is_named(step: &Step) -> bool {
    step.kind == SAVE || step.kind == RETURN
}

fn is_place(world: &World, step: &Step) -> bool {
    usize::from(step.place) < world.tables.queue.len
}

fn is_back(world: &World, step: &Step) -> bool {
    let state = &world.saved[usize::from(step.place)];
    state.as_ref().is_some_and(|state| state.tables.clock < world.tables.clock)
}

fn is_never_saved(world: &World, step: &Step) -> bool {
    step.kind == RETURN && world.saved.get(usize::from(step.place)).is_some_and(|state| state.is_none())
}
