//! Takes the steps of a run one after another, from fresh tables with nothing
//! saved.

use crate::answer::Answer;
use crate::mistakes::Mistakes;
use crate::setup::Setup;
use crate::state::Machine;
use crate::step_call::{step, step_sound};
use crate::step_record::Step;

/// Runs the steps, asking question 1 before each.
pub fn run_asking(setup: &Setup, steps: impl Iterator<Item = Step>, mut each: impl FnMut(Answer)) {
    let mut machine = Machine::fresh();
    let mut world = machine.world(setup);
    for record in steps {
        each(step(&mut world, &record));
    }
}

/// Runs the steps without asking question 1 again: fresh tables are sound, and
/// steps keep them so, and what they save. The setup must be in range.
pub fn run_trusting(setup: &Setup, steps: impl Iterator<Item = Step>, mut each: impl FnMut(Answer)) {
    let mut machine = Machine::fresh();
    let mut world = machine.world(setup);
    for record in steps {
        each(step_sound(&mut world, &record));
    }
}

/// Runs the steps under other rules, to see what a mistake changes.
pub fn run_under(
    rules: Mistakes,
    setup: &Setup,
    steps: impl Iterator<Item = Step>,
    mut each: impl FnMut(Answer),
) {
    let mut machine = Machine::fresh();
    let mut world = machine.world(setup);
    for record in steps {
        each(rules.step(&mut world, &record));
    }
}
