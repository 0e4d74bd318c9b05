//! A state as a step gets it, the present one or a saved one.

use crate::cases::rows::Row;
use crate::copies::{ObjectCopy, NO_COPIES};
use crate::limits::{CLIENTS, QUEUE};
use crate::queue::Queue;
use crate::requests::{Request, Standing, NO_REQUESTS};
use crate::setup::Setup;
use crate::state::State;
use crate::tables::Tables;

#[derive(Clone, Debug)]
pub struct CaseState {
    /// Only the length of the message list counts; its messages are the rows.
    pub(super) tables: Tables,
    pub(crate) rows: [Row; QUEUE],
    pub(super) copies: Vec<ObjectCopy>,
    pub(super) requests: Vec<Request>,
    /// Number and object of each request record, whether it stands or not.
    pub(super) asked: [Standing; CLIENTS],
}

impl CaseState {
    pub fn fresh() -> CaseState {
        CaseState {
            tables: Tables::fresh(),
            rows: [Row::FRESH; QUEUE],
            copies: NO_COPIES.to_vec(),
            requests: NO_REQUESTS.to_vec(),
            asked: [Standing { number: 0, object: 0 }; CLIENTS],
        }
    }

    /// Returns the same as a state of the model, with these messages.
    pub(super) fn with_messages(&self, queue: Queue) -> State {
        State::with(&Tables { queue, ..self.tables }, &self.copies, &self.requests)
    }

    /// Becomes a state of the model, as far as that goes: records past the
    /// setup's, and number and object of a request that does not stand, stay.
    pub(super) fn become_state(&mut self, setup: &Setup, state: &State) {
        self.tables = state.tables;
        self.keep_list();
        self.copies[..setup.copy_count()].copy_from_slice(state.copies(setup));
        self.requests[..setup.clients.into()].copy_from_slice(state.requests(setup));
        for (asked, request) in self.asked.iter_mut().zip(state.requests(setup)) {
            *asked = request.standing.unwrap_or(*asked);
        }
    }
}
