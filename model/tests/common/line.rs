//! The line of steps from fresh to the present state (02, A7).

use model::answer::Answer;
use model::step_record::{Step, RETURN, SAVE};

/// What is followed along the line: saved and restored with the state, so that
/// nothing is judged across a branch that was left. It works saves and returns
/// through by itself.
pub struct Line<T> {
    pub at: T,
    saved: [Option<Box<T>>; 4],
}

impl<T: Clone> Line<T> {
    pub fn new(at: T) -> Line<T> {
        Line { at, saved: [const { None }; 4] }
    }

    /// Saves or returns; every other step, and one that is refused for its
    /// name, `take` takes.
    pub fn step(&mut self, step: &Step, take: impl FnOnce(&mut T) -> Answer) -> Answer {
        let saved = self.saved.get_mut(usize::from(step.place));
        match (step.kind, saved) {
            (SAVE, Some(saved)) => *saved = Some(Box::new(self.at.clone())),
            (RETURN, Some(Some(saved))) => self.at = T::clone(saved),
            _ => return take(&mut self.at),
        }
        Answer::Done
    }
}
