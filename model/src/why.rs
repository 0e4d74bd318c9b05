//! Why a step of a run file is answered "ask first" (02, A8).

use crate::events::{Before, Lines, Taken};
use crate::rules::{Papers, ReasonRules};
use crate::runfile::{read, RunFile};
use crate::state::Machine;
use crate::step_call::step_sound;

pub use crate::rules::Why;

/// Returns the reason and the event of a step, counted from 1, or refusal 9.
/// Step 0 and a step past the last one have none: 0 is also for a step that is
/// "not in the run".
pub fn why(file: &[u8], step: u32) -> Result<Why, u8> {
    let run = read(file)?;
    let chosen = step as usize;
    if chosen > run.len() {
        return Ok(Why::NONE);
    }
    let mut found = Why::NONE;
    walk(&run, chosen, |lines, taken| found = Papers.follow(lines, taken));
    Ok(found)
}

/// Returns the same for every step of the run, in order.
pub fn whys(file: &[u8]) -> Result<Vec<Why>, u8> {
    whys_with(&Papers, file)
}

/// Returns what a tool that makes this mistake answers about every step.
pub fn whys_with(rules: &dyn ReasonRules, file: &[u8]) -> Result<Vec<Why>, u8> {
    let run = read(file)?;
    let mut found = Vec::with_capacity(run.len());
    walk(&run, run.len(), |lines, taken| found.push(rules.follow(lines, taken)));
    Ok(found)
}

/// Takes the first `count` steps, and hands over each with the lines so far.
fn walk(run: &RunFile, count: usize, mut each: impl FnMut(&mut Lines, &Taken)) {
    let mut machine = Machine::fresh();
    let mut world = machine.world(&run.setup);
    let mut lines = Lines::fresh(&run.setup);
    for (step, number) in run.steps().take(count).zip(1..) {
        let before = Before::of(&world);
        let answer = step_sound(&mut world, &step);
        each(&mut lines, &Taken { number, step: &step, answer, before: &before, world: &world });
    }
}
