//! What a run has between two steps: the present state, and the saved ones.

use crate::copies::{ObjectCopy, NO_COPIES};
use crate::limits::{CLIENTS, NAMES, OBJECTS};
use crate::requests::{Request, NO_REQUESTS};
use crate::setup::Setup;
use crate::tables::Tables;
use crate::world::World;

/// Tables and lent records, with room for the largest setup.
#[derive(Clone, Copy, Debug, PartialEq, Eq)]
pub struct State {
    pub tables: Tables,
    copies: [ObjectCopy; CLIENTS * OBJECTS],
    requests: [Request; CLIENTS],
}

impl State {
    pub const fn fresh() -> State {
        State { tables: Tables::fresh(), copies: NO_COPIES, requests: NO_REQUESTS }
    }

    /// Returns a state with these tables and lent records.
    pub fn with(tables: &Tables, copies: &[ObjectCopy], requests: &[Request]) -> State {
        let mut state = State { tables: *tables, ..State::fresh() };
        state.copies[..copies.len()].copy_from_slice(copies);
        state.requests[..requests.len()].copy_from_slice(requests);
        state
    }

    pub fn copies(&self, setup: &Setup) -> &[ObjectCopy] {
        &self.copies[..setup.copy_count()]
    }

    pub fn requests(&self, setup: &Setup) -> &[Request] {
        &self.requests[..setup.clients.into()]
    }

    /// Returns the parts as a step call takes them, for a setup in range.
    pub fn parts(&mut self, setup: &Setup) -> (&mut Tables, &mut [ObjectCopy], &mut [Request]) {
        let copies = &mut self.copies[..setup.copy_count()];
        (&mut self.tables, copies, &mut self.requests[..setup.clients.into()])
    }
}

/// The states saved under the names 0 to 3; none under a name never saved (02,
/// A7).
pub type Saved = [Option<Box<State>>; NAMES];

/// Everything that a run keeps from one step to the next.
#[derive(Clone, Debug, PartialEq, Eq)]
pub struct Machine {
    pub state: State,
    pub saved: Saved,
}

impl Machine {
    pub fn fresh() -> Machine {
        Machine { state: State::fresh(), saved: Saved::default() }
    }

    /// Returns it as a step takes it, for a setup in range.
    pub fn world<'a>(&'a mut self, setup: &'a Setup) -> World<'a> {
        World::new(setup, &mut self.state, &mut self.saved)
    }
}
