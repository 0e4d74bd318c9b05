//! Every mistake of a generator shows in the steps worked out, and in the files
//! of the calls that the product is compared with.

use model::gen::workload_calls::calls;
use model::workload::steps;

use crate::common;
use crate::mistaken::Mistake;
use crate::rule::{assert_each_found, assert_every_answer, Rule};
use crate::vectors::vectors;

const RIGHT: Rule<Mistake> = Rule(None);

#[test]
fn without_a_mistake_it_is_the_models() {
    for seed in [0, 77, u32::MAX] {
        let drawn = RIGHT.steps(seed, &common::setup(), 4_000);
        assert_eq!(steps(seed, &common::setup(), 4_000), Ok(drawn));
    }
    for call in calls(2) {
        assert!(RIGHT.file(&call) == call.file(), "{call:?}");
    }
}

#[test]
fn the_steps_worked_out_find_every_mistake() {
    for &mistake in Mistake::EACH.iter().filter(|mistake| !mistake.is_of_the_count()) {
        let drawn = |seed| Rule(Some(mistake)).steps(seed, &common::setup(), 10);
        let found = vectors().iter().filter(|vector| drawn(vector.seed) != vector.steps).count();
        println!("{mistake:?}: {found} of 3 seeds");
        assert!(found > 0, "{mistake:?}");
    }
}

#[test]
fn the_calls_find_every_mistake() {
    assert_each_found(Mistake::EACH, &calls(1), |call| call.file(), |rule, call| rule.file(call));
}

#[test]
fn the_calls_meet_every_answer() {
    for seed in [1, 2, 3] {
        assert_every_answer(&calls(seed).iter().map(|call| call.file()).collect::<Vec<_>>());
    }
}
