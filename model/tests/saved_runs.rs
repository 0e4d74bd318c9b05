//! A7 of document 02 along the generated runs: 01's ledger, judged along the
//! line of steps from fresh to the restored state and onward, and what is
//! reached.

mod common;

use std::collections::BTreeMap;

use common::ledger::{latest_end, Ledger};
use common::line::Line;
use model::answer::Answer;
use model::gen::runs::{run, Run};
use model::setup::Setup;
use model::state::{Machine, State};
use model::step_call::step;
use model::step_record::*;

const SEEDS: [u64; 3] = [1, 5, 11];
const RUNS: usize = 1_000;

/// Each of these is reached at least this often.
const FLOOR: usize = 20;

fn runs() -> impl Iterator<Item = Run> {
    SEEDS.into_iter().flat_map(|seed| (0..RUNS).map(move |number| run(seed, number)))
}

/// Returns the latest end of the write that this step may open.
fn end_of(setup: &Setup, state: &State, record: &Step) -> u32 {
    if record.kind == WRITE && record.object < setup.objects {
        latest_end(setup, &state.tables, record.object.into())
    } else {
        0
    }
}

/// Returns what each step breaks of a ledger that `book` books it in.
fn breaches(run: &Run, mut book: impl FnMut(&Step, Answer, u32, &State) -> Ledger) -> usize {
    let mut machine = Machine::fresh();
    let mut broken = 0;
    for record in &run.steps {
        let latest_end = end_of(&run.setup, &machine.state, record);
        let answer = step(&mut machine.world(&run.setup), record);
        let ledger = book(record, answer, latest_end, &machine.state);
        let wrong = match answer {
            Answer::Shown(value) => value != ledger.posted[usize::from(record.object)],
            _ => false,
        };
        let server = &machine.state.tables.server;
        broken += usize::from(wrong || ledger.breach(&run.setup, server, record, answer).is_some());
    }
    broken
}

#[test]
fn the_ledger_holds_along_the_line() {
    for run in runs() {
        let mut line = Line::new(Ledger::fresh());
        let broken = breaches(&run, |record, answer, latest_end, state| {
            line.step(record, |ledger| {
                ledger.book(record, answer, latest_end, &state.tables.server);
                answer
            });
            line.at.clone()
        });
        assert_eq!(broken, 0);
    }
}

/// A ledger that goes on across the branches that were left does not hold.
#[test]
fn the_ledger_does_not_hold_across_branches() {
    let mut broken = 0;
    for run in (0..RUNS).map(|number| run(1, number)) {
        let mut ledger = Ledger::fresh();
        let across = breaches(&run, |record, answer, latest_end, state| {
            ledger.book(record, answer, latest_end, &state.tables.server);
            ledger.clone()
        });
        let returns = run.steps.iter().any(|record| record.kind == RETURN);
        assert!(returns || across == 0);
        broken += usize::from(across > 0);
    }
    assert!(broken > FLOOR, "{broken}");
}

/// Everything that may be shown is the posted value, right after a return too.
#[test]
fn copies_shown_after_a_return() {
    let (mut shown, mut old) = (0, 0);
    for run in runs() {
        let mut machine = Machine::fresh();
        for record in &run.steps {
            let left = machine.state.tables.server.value;
            let answer = step(&mut machine.world(&run.setup), record);
            if record.kind != RETURN || answer != Answer::Done {
                continue;
            }
            for (client, object) in pairs(&run.setup) {
                let read = step(&mut machine.world(&run.setup), &Step::read(client, object));
                if let Answer::Shown(value) = read {
                    assert_eq!(value, machine.state.tables.server.value[usize::from(object)]);
                    shown += 1;
                    old += usize::from(value != left[usize::from(object)]);
                }
            }
        }
    }
    assert!(shown > FLOOR && old > FLOOR, "{shown} {old}");
}

fn pairs(setup: &Setup) -> impl Iterator<Item = (u8, u8)> {
    let objects = setup.objects;
    (0..setup.clients).flat_map(move |client| (0..objects).map(move |object| (client, object)))
}

/// Returns what a return meets, by the state that it leaves and the one that it
/// restores.
fn met(setup: &Setup, left: &State, restored: &State) -> impl Iterator<Item = &'static str> {
    let [before, after] = [left, restored].map(|state| &state.tables);
    let requests = left.requests(setup).iter().zip(restored.requests(setup));
    let fewer_numbers = requests.clone().any(|(before, after)| after.next < before.next);
    [
        ("nothing changes", left == restored),
        ("the clock goes back", after.clock < before.clock),
        ("the clock goes on", after.clock > before.clock),
        ("messages under way", after.queue.len > 0),
        ("other messages under way", after.queue.messages() != before.queue.messages()),
        ("a full list", after.queue.len == 64),
        ("a write stands again", after.server.standing & !before.server.standing != 0),
        ("a write stands no more", before.server.standing & !after.server.standing != 0),
        ("an older version", after.server.version.iter().zip(before.server.version).any(|(a, b)| *a < b)),
        ("a newer version", after.server.version.iter().zip(before.server.version).any(|(a, b)| *a > b)),
        ("an older epoch", after.server.epoch[0] < before.server.epoch[0]),
        ("a newer epoch", after.server.epoch[0] > before.server.epoch[0]),
        ("numbers come again", fewer_numbers),
        (
            "a request stands again",
            requests.clone().any(|(a, b)| a.standing.is_none() && b.standing.is_some()),
        ),
        ("notes come back", after.server.notes != before.server.notes),
        ("copies come back", left.copies(setup) != restored.copies(setup)),
    ]
    .into_iter()
    .filter_map(|(name, met)| met.then_some(name))
}

#[test]
fn what_the_runs_reach() {
    let mut reached = BTreeMap::new();
    let mut count = |name| *reached.entry(name).or_insert(0) += 1;
    for run in runs() {
        let mut machine = Machine::fresh();
        for record in &run.steps {
            let before = machine.clone();
            let answer = step(&mut machine.world(&run.setup), record);
            let used = before.saved.get(usize::from(record.place)).is_some_and(|saved| saved.is_some());
            match (record.kind, answer) {
                (SAVE, Answer::Refused(11)) => count("a save under no name"),
                (SAVE, _) if used => count("saved over"),
                (SAVE, _) => count("saved"),
                (RETURN, Answer::Refused(11)) if record.place < 4 => count("never saved"),
                (RETURN, Answer::Refused(11)) => count("a return to no name"),
                (RETURN, _) => met(&run.setup, &before.state, &machine.state).for_each(&mut count),
                _ => assert!(machine.saved == before.saved, "{record:?}"),
            }
        }
    }
    println!("{reached:#?}");
    assert_eq!(reached.len(), 21);
    assert!(reached.values().all(|&count| count >= FLOOR), "{reached:?}");
}
