//! A workload for the endurance rig: a 32-bit seed gives the same steps every
//! time (02, A5).

use crate::limits::{NOT_WRITTEN, QUEUE, STEPS};
use crate::setup::Setup;
use crate::step_record::{Step, CLOCK};

/// Returns the numbers after the seed, without end; the seed itself is not
/// drawn.
pub fn draws(seed: u32) -> impl Iterator<Item = u32> {
    let next = |last: &u64| Some((1_664_525 * last + 1_013_904_223) % (1 << 32));
    std::iter::successors(next(&seed.into()), next).map(|draw| draw as u32)
}

/// Returns this many steps, or refusal 7 or 10.
pub fn steps(seed: u32, setup: &Setup, count: usize) -> Result<Vec<Step>, u8> {
    setup.check()?;
    if count > STEPS {
        return Err(NOT_WRITTEN);
    }
    let (mut draws, mut total) = (draws(seed), 0);
    Ok((0..count).map(|_| step(setup, &mut draws, &mut total)).collect())
}

/// Draws a step: five times, whatever its kind uses. The total grows only in
/// clock steps.
fn step(setup: &Setup, draws: &mut impl Iterator<Item = u32>, total: &mut u32) -> Step {
    let mut draw = |count: u32| draws.next().expect("draws have no end") % count;
    let kind = 1 + draw(9) as u8;
    let client = draw(setup.clients.into()) as u8;
    let object = draw(setup.objects.into()) as u8;
    let place = draw(QUEUE as u32) as u8;
    let amount = draw(5);
    if kind == CLOCK {
        *total += amount;
    }
    Step { kind, client, object, place, clock: *total, value: amount.into() }.used_fields()
}
