//! In the generated runs it names the version held, so the test that 01 had
//! changes nothing.

use std::ops::ControlFlow;

use model::gen::runs::{run, Run};
use model::mistakes::Mistakes;
use model::tables::alive;

use crate::met::{along, Met};

const SEEDS: [u64; 4] = [1, 5, 11, 21];
const RUNS: usize = 1_000;

/// Each case is met at least this often.
const FLOOR: usize = 100;

/// Circumstances in which a GRANT without a value meets its standing number.
const CASES: [(&str, fn(&Met) -> bool); 7] = [
    ("any", |_| true),
    ("both leases alive", |met| volume_alive(met) && alive(met.copy().expiry, met.state.tables.clock)),
    ("volume lease ended", |met| !volume_alive(met)),
    ("object lease ended", |met| !alive(met.copy().expiry, met.state.tables.clock)),
    ("written since", |met| met.state.tables.server.version[object(met)] != met.grant.version),
    ("server restarted since", |met| met.state.tables.server.epoch[volume(met)] != met.grant.epoch),
    ("doubled", |met| twice(met)),
];

fn object(met: &Met) -> usize {
    met.grant.object.into()
}

fn volume(met: &Met) -> usize {
    met.setup.volume(object(met))
}

fn volume_alive(met: &Met) -> bool {
    let tables = &met.state.tables;
    alive(tables.clients.expiry[met.client][volume(met)], tables.clock)
}

fn twice(met: &Met) -> bool {
    let messages = met.state.tables.queue.messages();
    messages.iter().filter(|&message| *message == messages[met.place]).count() > 1
}

fn runs() -> impl Iterator<Item = Run> {
    SEEDS.into_iter().flat_map(|seed| (0..RUNS).map(move |number| run(seed, number)))
}

fn each_met(mut each: impl FnMut(&Met)) {
    for run in runs() {
        let _ = along(Mistakes::NONE, &run, |met| {
            each(met);
            ControlFlow::Continue(())
        });
    }
}

#[test]
fn a_standing_number_meets_its_version() {
    let mut met_in = [0; CASES.len()];
    let (mut stale, mut other) = (0, 0);
    each_met(|met| {
        if met.stands() {
            assert!(met.meets_its_version(), "{:?} {:?}", met.grant, met.copy());
            assert!(met.request().is_about(met.grant.object));
            CASES.iter().zip(&mut met_in).for_each(|((_, fits), count)| *count += usize::from(fits(met)));
        } else {
            stale += 1;
            other += usize::from(!met.meets_its_version());
        }
    });
    let named: Vec<_> = CASES.iter().map(|(name, _)| *name).zip(met_in).collect();
    println!("{named:?}; of {stale} whose number does not stand {other} meet another version");
    assert!(named.iter().all(|(_, count)| *count >= FLOOR), "{named:?}");
    assert!(other >= FLOOR, "{other}: without the standing number it would not hold");
}

/// Its delivery leaves the same with 01's test and without it, and with every
/// mistake that is said to change nothing in a run.
#[test]
fn the_old_test_changes_nothing() {
    assert!(Mistakes::NOT_IN_RUNS.iter().any(|(name, _)| *name == "no_value_needs_version"));
    let mut compared = 0;
    each_met(|met| {
        if !met.stands() {
            return;
        }
        let honest = met.delivered(Mistakes::NONE);
        assert_eq!(honest.requests(met.setup)[met.client].standing, None);
        for (name, mistakes) in Mistakes::NOT_IN_RUNS {
            assert!(met.delivered(*mistakes) == honest, "{name}: {:?} {:?}", met.grant, met.copy());
        }
        compared += 1;
    });
    assert!(compared >= FLOOR, "{compared}");
}

/// The claim rests on this: a request is forgotten when its copy goes, and no
/// number is used twice.
#[test]
fn mistakes_that_break_it_are_found() {
    for mistake in
        ["invalidate_keeps_request", "client_restart_keeps_request", "client_restart_resets_number"]
    {
        let broken = |run| {
            along(Mistakes::named(mistake), &run, |met| {
                if met.stands() && !met.meets_its_version() {
                    return ControlFlow::Break(());
                }
                ControlFlow::Continue(())
            })
        };
        assert!(runs().any(|run| broken(run).is_break()), "{mistake}");
    }
}
