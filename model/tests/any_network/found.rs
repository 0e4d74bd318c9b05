//! The wrong rules are found, and the right ones break nothing in the same
//! runs.

use model::mistakes::Mistakes;

use crate::ledger::Breach;
use crate::random_runs::{parked, plain};
use crate::scenes::{all, Scene};
use crate::watched::Watched;

/// How often a scene is played. It must show a wrong value in most of the runs.
const SEEDS: u64 = 400;
const FLOOR: usize = 300;

/// What has to be found: 01's four traps, and a client that takes a GRANT
/// without its number, keeps its request at an INVALIDATE, or forgets its
/// numbers at a restart; and of A6, what lets a parked client show an old copy,
/// or a late CLEARED end a new lease. The scenes find two more.
const AIMED_AT: [&str; 16] = [
    "renew_while_waiting",
    "skip_unreachable",
    "ack_any_epoch",
    "old_renew_offers",
    "grant_any_number",
    "invalidate_keeps_request",
    "client_restart_resets_number",
    "notes_nobody",
    "batch_only_for_noted",
    "batch_erases_nothing",
    "batch_only_once",
    "batch_drops_notes",
    "cleared_without_batch",
    "cleared_keeps_batch",
    "cleared_any_number",
    "offer_keeps_batch",
];

/// Wrong rules that random moves find often enough: what a client may show and
/// take, which clients a write waits for, and what the server keeps at a
/// restart.
const BY_CHANCE: [&str; 21] = [
    "read_without_volume_lease",
    "read_without_object_lease",
    "read_alive_at_expiry",
    "grant_same_object",
    "no_value_stores_0",
    "offer_keeps_leases",
    "offer_keeps_object_expiries",
    "client_restart_keeps_request",
    "latest_end_without_guard",
    "latest_end_without_clients",
    "write_before_guard",
    "complete_without_marking",
    "offer_without_marking",
    "grant_during_write",
    "ack_any_version",
    "dropped_keeps_offer",
    "restart_keeps_epochs",
    "restart_without_guard",
    "restart_forgets_latest",
    "restart_keeps_writes",
    "time_goes_back",
];

/// Wrong rules that random moves of parked clients find: what is noted, what a
/// BATCH erases, when a lease is given, and what a CLEARED ends.
const WHILE_PARKED: [&str; 11] = [
    "notes_nobody",
    "later_note_replaces",
    "batch_only_for_noted",
    "batch_only_once",
    "batch_and_grant",
    "batch_drops_notes",
    "batch_erases_nothing",
    "batch_erases_asked",
    "cleared_without_batch",
    "cleared_drops_all_leases",
    "cleared_keeps_batch",
];

/// Checks that the moves that led a wrong rule astray break nothing under the
/// right ones, and neither does the scene as the right rules play it.
fn right_rules_hold(scene: &Scene, seed: u64, mistaken: &Watched) {
    for run in [mistaken.again(Mistakes::NONE), scene.run(Mistakes::NONE, seed)] {
        assert_eq!(run.breach, None, "{}, seed {seed}: {:?}", scene.mistake, run.moves);
    }
}

#[test]
fn each_scene_finds_its_wrong_rule() {
    for scene in all() {
        let (rules, mut found, mut moves) = (Mistakes::named(scene.mistake), 0, 0);
        for seed in 0..SEEDS {
            let run = scene.run(rules, seed);
            right_rules_hold(scene, seed, &run);
            found += usize::from(run.shows_wrong());
            moves += run.moves.len();
        }
        println!("{}: {found} of {SEEDS} runs, {moves} moves", scene.mistake);
        assert!(found >= FLOOR, "{}: {found}", scene.mistake);
    }
}

#[test]
fn there_is_a_scene_for_each() {
    for mistake in AIMED_AT {
        assert!(all().any(|scene| scene.mistake == mistake), "{mistake}");
    }
}

/// Returns the first random run that breaks such a promise under the wrong
/// rule.
fn found_by_chance(mistake: &str, such: fn(Breach) -> bool) -> Option<u64> {
    let rules = Mistakes::named(mistake);
    (0..300).find(|&seed| plain(rules, seed).breach.is_some_and(|(_, breach)| such(breach)))
}

#[test]
fn random_moves_of_parked_clients_find_more() {
    for mistake in WHILE_PARKED {
        let shows_wrong = |&seed: &u64| parked(Mistakes::named(mistake), seed).shows_wrong();
        let seed = (0..300).find(shows_wrong);
        println!("{mistake}: {seed:?}");
        assert!(seed.is_some(), "{mistake}");
    }
}

#[test]
fn random_moves_find_more_wrong_rules() {
    for mistake in BY_CHANCE {
        let seed = found_by_chance(mistake, |breach| matches!(breach, Breach::Shown { .. }));
        println!("{mistake}: {seed:?}");
        assert!(seed.is_some(), "{mistake}");
    }
}

/// Writes that last too long, get lost, or differ from what was accepted.
#[test]
fn random_moves_find_what_breaks_other_promises() {
    let late = found_by_chance("waits_forever", |breach| matches!(breach, Breach::Late { .. }));
    let sum = found_by_chance("second_write_replaces", |breach| matches!(breach, Breach::Sum { .. }));
    let other = found_by_chance("latest_end_by_greater", |breach| matches!(breach, Breach::Standing { .. }));
    assert!(late.is_some() && sum.is_some() && other.is_some(), "{late:?} {sum:?} {other:?}");
}

/// If a mistake changes no listing of the list, it breaks nothing here either:
/// as many messages are sent, and the ledger is the same.
#[test]
fn what_no_run_shows_is_not_shown_here() {
    for (seed, play) in (0..20).flat_map(|seed| [(seed, plain as fn(_, _) -> _), (seed, parked)]) {
        let right: Watched = play(Mistakes::NONE, seed);
        for (name, rules) in Mistakes::NOT_IN_RUNS {
            let run = right.again(*rules);
            assert_eq!(run.sent_after, right.sent_after, "{name}, seed {seed}");
            assert!(run.ledger == right.ledger && run.breach.is_none(), "{name}, seed {seed}");
        }
    }
}
