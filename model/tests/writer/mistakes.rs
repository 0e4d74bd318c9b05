//! Every mistake of a writer shows in the calls that the product is compared
//! with.

use model::gen::writer_calls::calls;

use crate::mistaken::Mistake;
use crate::rule::{assert_each_found, assert_every_answer, Rule};

const RIGHT: Rule<Mistake> = Rule(None);

#[test]
fn without_a_mistake_it_is_the_models() {
    for call in calls(2) {
        assert!(RIGHT.file(&call) == call.file(), "{call:?}");
    }
}

#[test]
fn the_calls_find_every_mistake() {
    assert_each_found(Mistake::EACH, &calls(1), |call| call.file(), |rule, call| rule.file(call));
}

#[test]
fn the_calls_meet_every_answer() {
    for seed in [1, 2, 3] {
        assert_every_answer(&calls(seed).iter().map(|call| call.file()).collect::<Vec<_>>());
    }
}
