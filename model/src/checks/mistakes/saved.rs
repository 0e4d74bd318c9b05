//! Mistakes about what is saved, what a return restores and what else becomes of
//! saved states (02, A7).

use crate::limits::NAMES;
use crate::mistakes::kept::keeping;
use crate::queue::Queue;
use crate::rules::Papers;
use crate::state::{Saved, State};
use crate::tables::Server;
use crate::world::World;

mistakes_about! { SavedRules:
    /// A return leaves the clock.
    return_keeps_clock {
        fn restore(&self, world: &mut World, state: &State) {
            keeping(world, |world| &mut world.tables.clock, |world| Papers.restore(world, state));
        }
    }

    /// A return leaves the messages under way.
    return_keeps_messages {
        fn restore(&self, world: &mut World, state: &State) {
            keeping(world, |world| &mut world.tables.queue, |world| Papers.restore(world, state));
        }
    }

    /// A return leaves the clients' copies.
    return_keeps_copies {
        fn restore(&self, world: &mut World, state: &State) {
            let copies = world.copies.to_vec();
            Papers.restore(world, state);
            world.copies.copy_from_slice(&copies);
        }
    }

    /// A return leaves the clients' requests.
    return_keeps_requests {
        fn restore(&self, world: &mut World, state: &State) {
            let requests = world.requests.to_vec();
            Papers.restore(world, state);
            world.requests.copy_from_slice(&requests);
        }
    }

    /// A return leaves the next request numbers.
    return_keeps_next {
        fn restore(&self, world: &mut World, state: &State) {
            let requests = world.requests.to_vec();
            Papers.restore(world, state);
            world.requests.iter_mut().zip(&requests).for_each(|(request, old)| request.next = old.next);
        }
    }

    /// A return leaves the numbers that the server has seen.
    return_keeps_seen {
        fn restore(&self, world: &mut World, state: &State) {
            keeping(world, |world| &mut world.tables.server.seen, |world| Papers.restore(world, state));
        }
    }

    /// A return leaves the epochs.
    return_keeps_epochs {
        fn restore(&self, world: &mut World, state: &State) {
            keeping(world, |world| &mut world.tables.server.epoch, |world| Papers.restore(world, state));
        }
    }

    /// A return leaves the values.
    return_keeps_values {
        fn restore(&self, world: &mut World, state: &State) {
            keeping(world, |world| &mut world.tables.server.value, |world| Papers.restore(world, state));
        }
    }

    /// A return leaves the standing writes.
    return_keeps_writes {
        fn restore(&self, world: &mut World, state: &State) {
            keeping(world, |world| &mut world.tables.server.standing, |world| {
                keeping(world, |world| &mut world.tables.server.write, |world| Papers.restore(world, state));
            });
        }
    }

    /// A return leaves the notes.
    return_keeps_notes {
        fn restore(&self, world: &mut World, state: &State) {
            keeping(world, |world| &mut world.tables.server.notes, |world| Papers.restore(world, state));
        }
    }

    /// A return leaves the marks.
    return_keeps_marks {
        fn restore(&self, world: &mut World, state: &State) {
            keeping(world, |world| &mut world.tables.server.unreachable, |world| Papers.restore(world, state));
        }
    }

    /// A return leaves what the clients know of the volumes.
    return_keeps_known {
        fn restore(&self, world: &mut World, state: &State) {
            keeping(world, |world| &mut world.tables.clients, |world| Papers.restore(world, state));
        }
    }

    /// A return restores the server alone.
    return_keeps_clients {
        fn restore(&self, world: &mut World, state: &State) {
            world.tables.server = state.tables.server;
            world.tables.clock = state.tables.clock;
            world.tables.queue = state.tables.queue;
        }
    }

    /// Saves no values.
    save_without_values {
        fn present(&self, world: &World) -> State {
            let mut state = Papers.present(world);
            state.tables.server.value = Server::fresh().value;
            state
        }
    }

    /// Saves no messages.
    save_without_messages {
        fn present(&self, world: &World) -> State {
            let mut state = Papers.present(world);
            state.tables.queue = Queue::fresh();
            state
        }
    }

    /// Keeps what was first saved under a name.
    save_keeps_first {
        fn save(&self, world: &mut World, name: usize) {
            if world.saved[name].is_none() {
                Papers.save(world, name);
            }
        }
    }

    /// Saves under the next name.
    save_under_next {
        fn save(&self, world: &mut World, name: usize) {
            Papers.save(world, (name + 1) % NAMES);
        }
    }

    /// A save forgets the other names.
    save_forgets_others {
        fn save(&self, world: &mut World, name: usize) {
            Papers.save(world, name);
            forget_others(world, name);
        }
    }

    /// A return uses the name up.
    return_uses_name_up {
        fn return_to(&self, world: &mut World, name: usize) {
            Papers.return_to(world, name);
            world.saved[name] = None;
        }
    }

    /// A return forgets the other names, as if nothing had been saved since.
    return_forgets_others {
        fn return_to(&self, world: &mut World, name: usize) {
            Papers.return_to(world, name);
            forget_others(world, name);
        }
    }

    /// A return forgets all saved states.
    return_forgets_saved {
        fn return_to(&self, world: &mut World, name: usize) {
            Papers.return_to(world, name);
            *world.saved = Saved::default();
        }
    }

    /// A return saves what it leaves under the same name.
    return_exchanges {
        fn return_to(&self, world: &mut World, name: usize) {
            let left = Papers.present(world);
            Papers.return_to(world, name);
            world.saved[name] = Some(Box::new(left));
        }
    }
}

mistakes_about! { ServerRules:
    /// A server restart forgets all saved states.
    server_restart_forgets_saved {
        fn restart_server(&self, world: &mut World) {
            Papers.restart_server(world);
            *world.saved = Saved::default();
        }
    }
}

mistakes_about! { ClientRules:
    /// A client restart forgets all saved states.
    client_restart_forgets_saved {
        fn restart_client(&self, world: &mut World, client: usize) {
            Papers.restart_client(world, client);
            *world.saved = Saved::default();
        }
    }

    /// A client restart is one in every saved state, too.
    client_restart_in_saved {
        fn restart_client(&self, world: &mut World, client: usize) {
            Papers.restart_client(world, client);
            for state in world.saved.iter_mut().flatten() {
                Papers.restart_client(&mut World::new(world.setup, state, &mut Saved::default()), client);
            }
        }
    }
}

fn forget_others(world: &mut World, name: usize) {
    for (other, state) in world.saved.iter_mut().enumerate() {
        *state = state.take().filter(|_| other == name);
    }
}
