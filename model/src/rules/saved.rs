//! The named states (02, A7).

use crate::state::State;
use crate::world::World;

pub trait SavedRules {
    /// "10 save [..] with the name in the place field." What was saved under it
    /// before is replaced. It is not inlined, so that no other step pays for the
    /// room that it needs.
    #[inline(never)]
    fn save(&self, world: &mut World, name: usize) {
        world.saved[name] = Some(Box::new(self.present(world)));
    }

    /// Returns all that a return restores: "all tables, messages, counters and
    /// clock", so the clients' records too.
    fn present(&self, world: &World) -> State {
        State::with(world.tables, world.copies, world.requests)
    }

    /// "Returning restores all tables, messages, counters and clock exactly,
    /// but not the four saved states": these stay as they are. The name must be
    /// one that was saved.
    fn return_to(&self, world: &mut World, name: usize) {
        if let Some(state) = world.saved[name].take() {
            self.restore(world, &state);
            world.saved[name] = Some(state);
        }
    }

    /// "Restores all tables, messages, counters and clock exactly."
    fn restore(&self, world: &mut World, state: &State) {
        *world.tables = state.tables;
        world.copies.copy_from_slice(state.copies(world.setup));
        world.requests.copy_from_slice(state.requests(world.setup));
    }
}
