//! A8 of document 02 along the generated runs: what holds of every reason, how
//! often each is met, and how often each mistake is found.

use std::collections::{BTreeMap, BTreeSet};
use std::hash::{DefaultHasher, Hash, Hasher};

use model::answer::Answer;
use model::gen::runs::{run, Run};
use model::message::Kind;
use model::mistakes::{reasons, Mistakes};
use model::state::Machine;
use model::step_call::step_sound;
use model::step_record::{Step, READ, RESTART_CLIENT};
use model::tables::alive;
use model::why::{why, whys, whys_with, Why};
use model::world::World;

const SEED: u64 = 1;
const RUNS: usize = 1_000;

/// Each reason is met at least this often, and each mistake changes the answers
/// about at least this many runs.
const REASONS: usize = 1_000;
const FOUND: usize = 20;

fn runs(count: usize) -> impl Iterator<Item = Run> {
    (0..count).map(|number| run(SEED, number))
}

/// A mistake that answers as another one does would be the same mistake.
#[test]
fn every_mistake_is_found_and_differs_from_the_others() {
    let mut found = vec![(0, DefaultHasher::new()); reasons::EACH.len()];
    for run in runs(RUNS) {
        let file = run.file();
        let right = whys(&file);
        for ((_, mistake), (count, answers)) in reasons::EACH.iter().zip(&mut found) {
            let wrong = whys_with(*mistake, &file);
            *count += usize::from(wrong != right);
            wrong.expect("a generated run").iter().for_each(|why| (why.reason, why.event).hash(answers));
        }
    }
    let different: BTreeSet<u64> = found.iter().map(|(_, answers)| answers.finish()).collect();
    assert_eq!(different.len(), found.len());
    let counts = found.iter().map(|(count, _)| *count);
    let named: Vec<_> = reasons::EACH.iter().map(|(name, _)| *name).zip(counts).collect();
    println!("{named:#?}");
    let missed: Vec<_> = named.iter().filter(|(_, runs)| *runs < FOUND).collect();
    assert!(missed.is_empty(), "seldom found: {missed:?}");
}

#[test]
fn no_two_mistakes_have_the_same_name() {
    let others = Mistakes::EACH.iter().map(|(name, _)| *name);
    let names: Vec<_> = reasons::EACH.iter().map(|(name, _)| *name).chain(others).collect();
    assert_eq!(names.iter().collect::<BTreeSet<_>>().len(), names.len());
}

#[test]
fn one_step_is_answered_as_all_are() {
    for run in runs(60).filter(|run| run.steps.len() <= 500) {
        let file = run.file();
        let all = whys(&file).expect("a generated run");
        assert_eq!(all.len(), run.steps.len());
        for (number, found) in (1..).zip(&all) {
            assert_eq!(why(&file, number), Ok(*found));
        }
        assert_eq!(why(&file, 0), Ok(Why::NONE));
        assert_eq!(why(&file, all.len() as u32 + 1), Ok(Why::NONE));
    }
}

/// "That the named event occurred": what the step of the event was to this
/// client and object. What comes in between, this does not look at.
fn occurred(reason: u8, read: &Step, event: &(Step, Answer)) -> bool {
    let (step, answer) = event;
    if let Answer::Delivered { message, .. } = answer {
        let about = match message.kind {
            Kind::Grant(grant) => matches!(reason, 5 | 6) && grant.object == read.object,
            Kind::Invalidate { object, .. } => reason == 2 && object == read.object,
            Kind::Batch(batch) => reason == 3 && batch.set >> read.object & 1 == 1,
            Kind::Offer { .. } => reason == 3,
            _ => false,
        };
        return about && message.client == read.client;
    }
    let restarted = step.kind == RESTART_CLIENT && *answer == Answer::Done;
    reason == 4 && restarted && step.client == read.client
}

/// "No later event restored the copy", so its expiry is 0; "for 1, that there
/// was none", so there is no copy; "for 5 and 6, that the named lease was dead",
/// and the copy is there.
fn is_left(reason: u8, read: &Step, world: &World) -> bool {
    let (client, object) = (usize::from(read.client), usize::from(read.object));
    let volume_expiry = world.tables.clients.expiry[client][world.setup.volume(object)];
    let (copy, clock) = (world.copy(client, object), world.tables.clock);
    let held = copy.version != 0 && copy.expiry != 0 && volume_expiry != 0;
    match reason {
        1 | 2 | 4 => copy.version == 0 && copy.expiry == 0,
        3 => copy.expiry == 0,
        5 => held && !alive(volume_expiry, clock) && volume_expiry <= copy.expiry,
        _ => held && !alive(copy.expiry, clock) && copy.expiry < volume_expiry,
    }
}

/// Checks every step of a run, and returns how often each reason is met.
fn check(run: &Run) -> BTreeMap<u8, usize> {
    let mut machine = Machine::fresh();
    let mut world = machine.world(&run.setup);
    let (mut met, mut taken) = (BTreeMap::new(), Vec::new());
    for (record, found) in run.steps.iter().zip(whys(&run.file()).expect("a generated run")) {
        let answer = step_sound(&mut world, record);
        let Why { reason, event } = found;
        assert_eq!(reason != 0, record.kind == READ && answer == Answer::AskFirst);
        assert_eq!(event != 0, reason > 1);
        if reason != 0 {
            assert!(is_left(reason, record, &world), "{found:?}");
        }
        if event != 0 {
            assert!(occurred(reason, record, &taken[event as usize - 1]), "{found:?}");
        }
        taken.push((*record, answer));
        *met.entry(reason).or_insert(0) += 1;
    }
    met
}

#[test]
fn what_holds_of_every_reason_and_how_often_it_is_met() {
    let mut met = BTreeMap::new();
    for run in runs(RUNS) {
        for (reason, count) in check(&run) {
            *met.entry(reason).or_insert(0) += count;
        }
    }
    println!("{met:?}");
    assert!(met.keys().copied().eq(0..=6));
    assert!(met.values().all(|&count| count >= REASONS), "{met:?}");
}
