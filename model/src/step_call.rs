//! One step: the questions at the gate, then the rule (01, Steps; 02, A7).

use crate::answer::Answer;
use crate::limits::UNSOUND;
use crate::rules::{Papers, Rules};
use crate::sound::sound;
use crate::step_record::Step;
use crate::world::World;

/// Takes a step after asking all questions. A refused step leaves everything as
/// it was.
pub fn step(world: &mut World, step: &Step) -> Answer {
    if !sound(world) {
        return Answer::Refused(UNSOUND);
    }
    step_sound(world, step)
}

/// Does the same where tables and saved states are known to be sound, without
/// asking question 1 again. Every step keeps them so.
pub fn step_sound(world: &mut World, step: &Step) -> Answer {
    Papers.step(world, step)
}
