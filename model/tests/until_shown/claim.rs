//! The claim holds in the states of the generated runs, and mistakes about it
//! would be found there.

use std::collections::BTreeMap;
use std::ops::ControlFlow;

use model::mistakes::Mistakes;

use crate::cases::{cases, Case};
use crate::trial::{along, Breach};

const RUNS: usize = 1_000;

/// Each case is met at least this often.
const FLOOR: usize = 2_000;

#[test]
fn shown_in_the_steps_claimed() {
    let mut met = BTreeMap::new();
    for number in 0..RUNS {
        let broken = along(Mistakes::NONE, number, |trial| {
            cases(trial).for_each(|case| *met.entry(case).or_insert(0) += 1);
            let found = trial.breach().map(|breach| (trial.client, trial.object, breach));
            found.map_or(ControlFlow::Continue(()), ControlFlow::Break)
        });
        assert_eq!(broken, ControlFlow::Continue(()), "run {number}");
    }
    for case in Case::ALL {
        let count = met.get(&case).copied().unwrap_or(0);
        assert!(count >= FLOOR, "{case:?}: {count}");
    }
}

/// Returns whether a generated run leads this mistake to such a breach.
fn breaks(mistake: &str, such: fn(Breach) -> bool) -> bool {
    let mistakes = Mistakes::named(mistake);
    let broken = |number| {
        along(mistakes, number, |trial| match trial.breach() {
            Some(breach) if such(breach) => ControlFlow::Break(()),
            _ => ControlFlow::Continue(()),
        })
    };
    (0..RUNS).any(|number| broken(number).is_break())
}

/// The client waits in vain for an answer that 02 promises.
#[test]
fn mistakes_that_break_the_bound_are_found() {
    for mistake in
        ["client_restart_resets_number", "offer_keeps_epoch", "grant_only_news", "dropped_keeps_mark"]
    {
        assert!(breaks(mistake, |breach| breach == Breach::NotShown), "{mistake}");
    }
}

/// In time, but with a value that no completed write posted.
#[test]
fn a_mistake_that_shows_another_value_is_found() {
    assert!(breaks("restart_keeps_writes", |breach| matches!(breach, Breach::Value { .. })));
}
