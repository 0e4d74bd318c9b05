//! Random runs: the right rules break nothing, and much is reached.

use std::ops::AddAssign;

use model::gen::builder::{BATCH, CLEARED};
use model::gen::rng::Rng;
use model::gen::setups;
use model::limits::QUEUE;
use model::mistakes::Mistakes;
use model::step_record::Step;

use crate::network::Move;
use crate::random_moves;
use crate::scenes::long_copies;
use crate::stage::Stage;
use crate::under_way::{arrivals, most_under_way};
use crate::watched::Watched;

/// Runs messages in no order at all, in setups of every size.
pub fn plain(rules: Mistakes, seed: u64) -> Watched {
    let mut rng = Rng::new(seed);
    let setup = setups::any(&mut rng);
    let mut stage = Stage::new(rng, rules, setup);
    random_moves::take(&mut stage, 1_500);
    stage.run
}

/// Runs sixteen clients, with many more than 64 messages under way.
fn storms(rules: Mistakes, seed: u64) -> Watched {
    let mut rng = Rng::new(seed);
    let mut setup = setups::any(&mut rng);
    setup.clients = 16;
    let mut stage = Stage::new(rng, rules, setup);
    for _ in 0..6 {
        random_moves::storm(&mut stage, 150);
    }
    stage.run
}

/// Runs clients that are parked again and again.
pub fn parked(rules: Mistakes, seed: u64) -> Watched {
    let mut rng = Rng::new(seed);
    let mut setup = setups::any(&mut rng);
    (setup.volume_lease, setup.object_lease, setup.timeout) = long_copies(&mut rng);
    let mut stage = Stage::new(rng, rules, setup);
    for _ in 0..40 {
        random_moves::parking(&mut stage);
    }
    stage.run
}

/// What the runs reached together.
#[derive(Debug, Default)]
struct Reached {
    runs: usize,
    moves: usize,
    /// Messages sent, those of them that never arrived, and arrivals after the
    /// first.
    sent: usize,
    lost: usize,
    again: usize,
    shown: usize,
    written_shown: usize,
    completed: usize,
    cut_off: usize,
    /// BATCHes and CLEAREDs sent.
    batches: usize,
    cleared: usize,
    /// Runs with more messages under way than the list of 64 holds.
    crowded: usize,
}

impl AddAssign<&Watched> for Reached {
    fn add_assign(&mut self, run: &Watched) {
        let arrivals = arrivals(run);
        self.runs += 1;
        self.moves += run.moves.len();
        self.sent += arrivals.len();
        self.lost += arrivals.iter().filter(|moments| moments.is_empty()).count();
        self.again += arrivals.iter().map(|moments| moments.len().saturating_sub(1)).sum::<usize>();
        self.shown += run.shown;
        self.written_shown += run.written_shown;
        self.completed += run.ledger.completed;
        self.cut_off += run.ledger.cut_off;
        let of_kind = |kind| run.network.sent.iter().filter(|sent| sent.kind.code() == kind).count();
        self.batches += of_kind(BATCH);
        self.cleared += of_kind(CLEARED);
        self.crowded += usize::from(most_under_way(run) > QUEUE);
    }
}

/// Checks that past every latest end, all that was accepted is complete or cut
/// off.
fn finish(run: &mut Watched) {
    let last = run.ledger.open.iter().flatten().map(|open| open.latest_end).max();
    let clock = run.network.state.tables.clock;
    run.make(Move::Own(Step::clock(last.map_or(clock, |end| end + 1).max(clock))));
    assert_eq!((run.ledger.open_count(), run.breach), (0, None), "{:?}", run.moves);
    assert_eq!(run.ledger.accepted, run.ledger.completed + run.ledger.cut_off);
}

fn reached(run: fn(Mistakes, u64) -> Watched, seeds: u64) -> Reached {
    let mut reached = Reached::default();
    for seed in 0..seeds {
        let mut run = run(Mistakes::NONE, seed);
        finish(&mut run);
        reached += &run;
    }
    println!("{reached:?}");
    reached
}

#[test]
fn messages_in_no_order_break_nothing() {
    let Reached { runs, crowded, lost, again, written_shown, completed, cut_off, .. } = reached(plain, 300);
    assert_eq!(crowded, runs);
    assert!(lost > 10_000 && again > 50_000, "{lost} {again}");
    assert!(written_shown > 50_000 && completed > 20_000 && cut_off > 500);
}

#[test]
fn more_than_64_under_way_break_nothing() {
    let Reached { runs, crowded, lost, again, written_shown, completed, cut_off, .. } = reached(storms, 60);
    assert_eq!(crowded, runs);
    assert!(lost > 1_000 && again > 10_000, "{lost} {again}");
    assert!(written_shown > 50_000 && completed > 1_000 && cut_off > 10);
}

/// Most of what is noted is batched, and the batches are cleared.
#[test]
fn parked_clients_break_nothing() {
    let Reached { written_shown, completed, batches, cleared, .. } = reached(parked, 200);
    assert!(written_shown > 10_000 && completed > 5_000, "{written_shown} {completed}");
    assert!(batches > 3_000 && cleared > 1_000, "{batches} {cleared}");
}
