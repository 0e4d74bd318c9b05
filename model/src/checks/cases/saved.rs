//! The saved states of a case. One that is not there may hold anything.

use std::rc::Rc;

use crate::answer::Answer;
use crate::cases::state::CaseState;
use crate::cases::tables::CaseTables;
use crate::limits::NAMES;
use crate::mistakes::Mistakes;
use crate::state::Saved;
use crate::step_record::{Step, SAVE};

#[derive(Clone, Debug)]
pub struct CaseSaved {
    pub(super) there: [bool; NAMES],
    /// Shared, since most steps leave them.
    pub(super) states: [Rc<CaseState>; NAMES],
}

impl CaseSaved {
    /// Returns fresh states, none of them there.
    pub fn none() -> CaseSaved {
        let fresh = Rc::new(CaseState::fresh());
        CaseSaved { there: [false; NAMES], states: std::array::from_fn(|_| fresh.clone()) }
    }

    /// Returns the states that question 1 is about, or the refusal if a row
    /// asked about is no message.
    pub(super) fn asked(&self, rules: Mistakes, step: &Step) -> Result<Saved, u8> {
        let mut saved = Saved::default();
        for (name, state) in self.states.iter().enumerate() {
            if rules.rows.asks_about_saved(self.there[name]) {
                let queue = state.list(rules, step, rules.rows.asks_about_saved_rows())?;
                saved[name] = Some(Box::new(state.with_messages(queue)));
            }
        }
        Ok(saved)
    }

    /// Returns those of them that are there.
    pub(super) fn there(&self, mut asked: Saved) -> Saved {
        for (state, there) in asked.iter_mut().zip(self.there) {
            *state = state.take().filter(|_| there);
        }
        asked
    }
}

impl CaseTables {
    /// Stores what the step left of the saved states, where it changed one or
    /// saved one.
    pub(super) fn keep_saved(&mut self, step: &Step, answer: Answer, before: &Saved, after: &Saved) {
        let done = !matches!(answer, Answer::Refused(_));
        for (name, state) in after.iter().enumerate() {
            let is_named = done && step.kind == SAVE && usize::from(step.place) == name;
            if is_named || *state != before[name] {
                self.saved.there[name] = state.is_some();
                let mut kept = self.kept_from(step, name);
                state.iter().for_each(|state| kept.become_state(&self.setup, state));
                self.saved.states[name] = Rc::new(kept);
            }
        }
    }

    /// Returns what a saved state has beyond the model's: a save copies
    /// everything, records that are not lent too.
    fn kept_from(&self, step: &Step, name: usize) -> CaseState {
        if step.kind == SAVE {
            self.present.clone()
        } else {
            CaseState::clone(&self.saved.states[name])
        }
    }
}
