//! What holds in the generated runs, and what they reach.

mod common;

use std::collections::BTreeSet;

use common::line::Line;
use model::answer::Answer;
use model::gen::damage;
use model::gen::runs::run;
use model::listing::{listing, listing_trusting};
use model::runfile::read;
use model::state::Machine;
use model::step_call::step;
use model::step_record::*;

const SEED: u64 = 1;
const RUNS: usize = 1_000;

#[test]
fn the_same_seed_gives_the_same_files() {
    assert_eq!(run(SEED, 17).file(), run(SEED, 17).file());
    assert_ne!(run(SEED, 17).file(), run(SEED + 1, 17).file());
    assert_eq!(damage::files(SEED), damage::files(SEED));
}

#[test]
fn every_generated_file_is_accepted_and_stays_sound() {
    for number in 0..RUNS {
        let run = run(SEED, number);
        let file = run.file();
        let parts = read(&file).expect("a generated run");
        assert_eq!((parts.note, parts.setup), (&run.note[..], run.setup));
        assert!(parts.steps().eq(run.steps.iter().copied()));
        assert_eq!(listing(&file), listing_trusting(&file), "run {number}");
    }
}

/// Writes along the line of steps that led to the present state.
#[derive(Clone, Copy, Default)]
struct Writes {
    accepted: u32,
    completed: u32,
    cut_off: u32,
}

impl Writes {
    /// Takes an accepted step, with the number of writes that stood before it.
    fn count(&mut self, record: &Step, answer: Answer, open: u32) {
        match record.kind {
            WRITE => self.accepted += 1,
            RESTART_SERVER => self.cut_off += open,
            _ => (),
        }
        self.completed += if answer.numbers().0 == 3 { answer.numbers().1 as u32 } else { 0 };
    }
}

/// 01, The ledger of a run, as far as the tables themselves show it.
#[test]
fn reads_show_the_posted_value_and_writes_end_in_time() {
    for number in 0..RUNS {
        let run = run(SEED, number);
        let mut machine = Machine::fresh();
        let mut world = machine.world(&run.setup);
        let mut line = Line::new(Writes::default());
        for record in &run.steps {
            let open = world.tables.server.standing.count_ones();
            let answer = step(&mut world, record);
            let server = &world.tables.server;
            match (record.kind, answer) {
                (_, Answer::Refused(_)) => continue,
                (READ, Answer::Shown(value)) => {
                    assert_eq!(value, server.value[record.object as usize])
                }
                (CLOCK, _) => (0..28).for_each(|object| {
                    assert!(!server.stands(object) || server.write[object].latest_end >= record.clock);
                }),
                _ => (),
            }
            line.step(record, |writes| {
                writes.count(record, answer, open);
                answer
            });
            let Writes { accepted, completed, cut_off } = line.at;
            assert_eq!(accepted, completed + cut_off + server.standing.count_ones(), "run {number}");
        }
    }
}

#[test]
fn runs_reach_every_answer_refusal_and_kind() {
    let (mut lines, mut kinds, mut longest, mut fullest) = (BTreeSet::new(), BTreeSet::new(), 0, 0);
    let mut notes = BTreeSet::new();
    for number in 0..RUNS {
        let run = run(SEED, number);
        let mut machine = Machine::fresh();
        let mut world = machine.world(&run.setup);
        for record in &run.steps {
            let answer = step(&mut world, record);
            lines.insert(match answer.numbers() {
                (4, number) => (4, number),
                (answer, _) => (answer, 0),
            });
            if let Answer::Delivered { message, .. } = answer {
                kinds.insert(message.kind.code());
            }
            fullest = fullest.max(world.tables.queue.len);
        }
        longest = longest.max(run.steps.len());
        notes.insert(run.note.len().min(3));
    }
    assert!(lines.into_iter().eq([(0, 0), (1, 0), (2, 0), (3, 0), (4, 2), (4, 3), (4, 4), (4, 5), (4, 11)]));
    assert!(kinds.into_iter().eq(1..=8));
    assert_eq!((longest, fullest), (4_000, 64));
    assert!(notes.contains(&0) && notes.contains(&1));
}

#[test]
fn damaged_files_are_of_both_sorts() {
    let files = damage::files(SEED);
    let refused = files.iter().filter(|file| read(file).is_err()).count();
    assert!(refused > 200, "{refused} refused");
    assert!(files.len() - refused > 50, "{} accepted", files.len() - refused);
}
