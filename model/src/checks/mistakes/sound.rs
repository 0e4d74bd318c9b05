//! Mistakes in question 1, about what A6 and A7 of 02 added to it.

use crate::bits::below;
use crate::copies::ObjectCopy;
use crate::limits::{CLIENTS, DELAY, OBJECTS, VOLUMES};
use crate::message::{Kind, Message};
use crate::queue::Queue;
use crate::requests::Request;
use crate::rules::Papers;
use crate::setup::Setup;
use crate::sound::{ObjectsOf, SoundRules};
use crate::state::State;
use crate::tables::Tables;
use crate::world::World;

/// Lets every bit through.
const ANY: ObjectsOf = [u32::MAX; VOLUMES];

mistakes_about! { SoundRules:
    /// Lets a delay of 0 through, which files from before A6 have.
    delay_of_0 {
        fn setup_sound(&self, setup: &Setup) -> bool {
            Papers.setup_sound(&Setup { delay: setup.delay.max(1), ..*setup })
        }
    }

    /// Lets a delay above 65,535 through.
    delay_above_most {
        fn setup_sound(&self, setup: &Setup) -> bool {
            Papers.setup_sound(&Setup { delay: setup.delay.min(DELAY), ..*setup })
        }
    }

    /// Asks only about the lower half of the delay.
    delay_low_half {
        fn setup_sound(&self, setup: &Setup) -> bool {
            Papers.setup_sound(&Setup { delay: setup.delay & 0xffff, ..*setup })
        }
    }

    /// Does not ask about notes.
    notes_not_asked {
        fn notes_sound(&self, _: &Setup, _: &[[u32; CLIENTS]; VOLUMES], _: &ObjectsOf) -> bool {
            true
        }
    }

    /// Lets a note of another volume's object through.
    notes_of_any_volume {
        fn notes_sound(&self, setup: &Setup, notes: &[[u32; CLIENTS]; VOLUMES], _: &ObjectsOf) -> bool {
            Papers.notes_sound(setup, notes, &[setup.all_objects(); VOLUMES])
        }
    }

    /// Lets a note past the object count through.
    notes_past_objects {
        fn notes_sound(&self, setup: &Setup, notes: &[[u32; CLIENTS]; VOLUMES], of: &ObjectsOf) -> bool {
            Papers.notes_sound(setup, notes, &of.map(|objects| objects | !setup.all_objects()))
        }
    }

    /// Does not ask about the set of a BATCH.
    batch_set_not_asked {
        fn message_sound(&self, setup: &Setup, message: &Message, of: &ObjectsOf) -> bool {
            let is_batch = matches!(message.kind, Kind::Batch(_));
            Papers.message_sound(setup, message, if is_batch { &ANY } else { of })
        }
    }

    /// Does not ask about the set of a CLEARED.
    cleared_set_not_asked {
        fn message_sound(&self, setup: &Setup, message: &Message, of: &ObjectsOf) -> bool {
            let is_cleared = matches!(message.kind, Kind::Cleared(_));
            Papers.message_sound(setup, message, if is_cleared { &ANY } else { of })
        }
    }

    /// Lets an object of another volume through in a message's set.
    sets_of_any_volume {
        fn message_sound(&self, setup: &Setup, message: &Message, _: &ObjectsOf) -> bool {
            Papers.message_sound(setup, message, &[setup.all_objects(); VOLUMES])
        }
    }

    /// Lets bits 28 to 31 through in a message's set.
    sets_above_28 {
        fn message_sound(&self, setup: &Setup, message: &Message, of: &ObjectsOf) -> bool {
            Papers.message_sound(setup, message, &of.map(|objects| objects | !below(OBJECTS as u8)))
        }
    }

    /// Does not ask about saved states.
    saved_not_asked {
        fn saved_sound(&self, _: &Setup, _: &State) -> bool {
            true
        }
    }

    /// Asks only about the records of a saved state.
    saved_tables_not_asked {
        fn saved_sound(&self, setup: &Setup, state: &State) -> bool {
            let (copies, requests) = (state.copies(setup), state.requests(setup));
            Papers.saved_sound(setup, &State::with(&Tables::fresh(), copies, requests))
        }
    }

    /// Does not ask about the messages of a saved state.
    saved_messages_not_asked {
        fn saved_sound(&self, setup: &Setup, state: &State) -> bool {
            let mut state = *state;
            state.tables.queue = Queue::fresh();
            Papers.saved_sound(setup, &state)
        }
    }

    /// Does not ask about the copies of a saved state.
    saved_copies_not_asked {
        fn saved_sound(&self, setup: &Setup, state: &State) -> bool {
            let copies = vec![ObjectCopy::NONE; setup.copy_count()];
            Papers.saved_sound(setup, &State::with(&state.tables, &copies, state.requests(setup)))
        }
    }

    /// Does not ask about the requests of a saved state.
    saved_requests_not_asked {
        fn saved_sound(&self, setup: &Setup, state: &State) -> bool {
            let requests = vec![Request::FRESH; setup.clients.into()];
            Papers.saved_sound(setup, &State::with(&state.tables, state.copies(setup), &requests))
        }
    }

    /// Asks only about the state of name 0.
    saved_only_first_asked {
        fn sound(&self, world: &World) -> bool {
            sound_with(world, &world.saved[..1])
        }
    }

    /// Does not ask about the state of name 3.
    saved_without_last {
        fn sound(&self, world: &World) -> bool {
            sound_with(world, &world.saved[..3])
        }
    }
}

/// Asks about the present tables and these saved states.
fn sound_with(world: &World, saved: &[Option<Box<State>>]) -> bool {
    let World { setup, tables, copies, requests, .. } = world;
    Papers.setup_sound(setup)
        && Papers.tables_sound(setup, tables, copies, requests)
        && saved.iter().flatten().all(|state| Papers.saved_sound(setup, state))
}
