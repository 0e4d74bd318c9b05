//! The total of the clock steps.

use model::gen::rng::Rng;
use model::gen::setups;
use model::limits::STEPS;
use model::step_record::{Step, CLOCK};
use model::workload::{draws, steps};

/// Returns the clocks of a workload's clock steps.
fn clocks(steps: &[Step]) -> Vec<u32> {
    steps.iter().filter(|step| step.kind == CLOCK).map(|step| step.clock).collect()
}

/// Returns the totals counted from the draws: the kind is the first of each
/// five, the amount the last.
fn sums(seed: u32) -> Vec<u32> {
    let drawn: Vec<u32> = draws(seed).take(5 * STEPS).collect();
    let amounts = drawn.chunks(5).filter(|five| five[0] % 9 == 0).map(|five| five[4] % 5);
    let mut total = 0;
    let grown = amounts.map(|amount| {
        total += amount;
        total
    });
    grown.collect()
}

/// So no clock step of a workload is refused.
#[test]
fn the_total_is_that_of_the_amounts_and_never_goes_back() {
    let mut rng = Rng::new(1);
    for number in 0..200 {
        let seed = [0, 1, u32::MAX].get(number).copied().unwrap_or(rng.draw() as u32);
        let steps = steps(seed, &setups::any(&mut rng), STEPS).unwrap();
        let clocks = clocks(&steps);
        assert_eq!(clocks, sums(seed), "seed {seed}");
        assert!(clocks.is_sorted() && clocks.last().is_some_and(|&last| last <= 4 * STEPS as u32));
    }
}
