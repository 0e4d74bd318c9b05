//! What a request record that does not stand holds after a step, where nobody
//! asks (docs/DECISIONS.md, "What becomes of free slots?"). The rules only go
//! over what exists, so slots past the counts need nothing here, and the list's
//! places past its length are not read.

use crate::cases::tables::CaseTables;
use crate::requests::Standing;
use crate::step_record::{Step, RESTART_CLIENT, RETURN};

/// Settles free slots after an accepted step.
pub fn settle(before: &CaseTables, after: &mut CaseTables, step: &Step) {
    for client in 0..after.present.requests.len() {
        let free = free(before, step, client);
        after.present.asked[client] = after.present.requests[client].standing.unwrap_or(free);
    }
}

/// Returns number and object where no request stands: those of a request that
/// was ended are 0, and a return restores them as they were saved.
fn free(before: &CaseTables, step: &Step, client: usize) -> Standing {
    let restarted = step.kind == RESTART_CLIENT && usize::from(step.client) == client;
    match before.saved.states.get(usize::from(step.place)) {
        Some(state) if step.kind == RETURN && client < before.requests_lent => state.asked[client],
        _ if before.present.requests[client].standing.is_some() || restarted => {
            Standing { number: 0, object: 0 }
        }
        _ => before.present.asked[client],
    }
}
