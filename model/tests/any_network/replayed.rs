//! Runs of the list of 64, replayed on the network: the same answers. What is
//! delivered arrives, what is lost never does, and what is doubled may arrive
//! once more.

use model::answer::Answer;
use model::gen::runs::run;
use model::limits::QUEUE;
use model::mistakes::Mistakes;
use model::setup::Setup;
use model::state::{Machine, Saved, State};
use model::step_call::step;
use model::step_record::{Step, DELIVER, DOUBLE, LOSE};
use model::world::World;

use crate::common::line::Line;
use crate::network::Move;
use crate::watched::Watched;

/// The same run in both worlds.
#[derive(Clone)]
struct Both {
    setup: Setup,
    listed: State,
    watched: Watched,
    /// For each place of the list, the index of its message among all sent.
    places: Vec<usize>,
}

impl Both {
    fn fresh(setup: Setup) -> Both {
        let watched = Watched::fresh(Mistakes::NONE, setup);
        Both { setup, listed: State::fresh(), watched, places: Vec::new() }
    }

    /// Takes a step in both worlds, with nothing saved: `Line` saves and
    /// returns, the network with all that was sent until then.
    fn step(&mut self, record: &Step) -> Answer {
        let listed = step(&mut World::new(&self.setup, &mut self.listed, &mut Saved::default()), record);
        assert_eq!(listed, self.replay(record), "{record:?}");
        listed
    }

    /// Replays a step. One that finds its message is an arrival, or no move at
    /// all.
    fn replay(&mut self, record: &Step) -> Answer {
        let (place, sent) = (usize::from(record.place), self.watched.network.sent.len());
        let found = self.places.get(place).copied();
        let answer = match (record.kind, found) {
            (DELIVER, Some(at)) => {
                self.places.remove(place);
                self.watched.make(Move::Arrival(at))
            }
            (LOSE, Some(_)) => {
                self.places.remove(place);
                Answer::Done
            }
            (DOUBLE, Some(at)) => {
                self.places.push(at);
                Answer::Done
            }
            _ => self.watched.make(Move::Own(*record)),
        };
        self.places.extend(sent..self.watched.network.sent.len());
        self.places.truncate(QUEUE);
        answer
    }

    /// Returns whether everything except the list is the same, and the list has
    /// the same messages.
    fn same(&self) -> bool {
        let mut replayed = self.watched.network.state;
        replayed.tables.queue = self.listed.tables.queue;
        let messages = self.listed.tables.queue.messages();
        let sent = &self.watched.network.sent;
        replayed == self.listed && self.places.iter().map(|&at| &sent[at]).eq(messages)
    }
}

#[test]
fn runs_of_the_list_give_the_same_answers() {
    let (mut steps, mut moves, mut full) = (0, 0, 0);
    for number in 0..1_000 {
        let run = run(1, number);
        let mut line = Line::new(Both::fresh(run.setup));
        let mut machine = Machine::fresh();
        for record in &run.steps {
            let answer = line.step(record, |both| both.step(record));
            assert_eq!(step(&mut machine.world(&run.setup), record), answer, "run {number}, {record:?}");
            assert!(machine.state == line.at.listed && line.at.same(), "run {number}, {record:?}");
            assert_eq!(line.at.watched.breach, None, "run {number}");
            full += usize::from(line.at.places.len() == QUEUE);
        }
        (steps, moves) = (steps + run.steps.len(), moves + line.at.watched.moves.len());
    }
    println!("{steps} steps, {moves} moves, {full} with a full list");
    assert!(steps > moves && full > 1_000, "{steps} {moves} {full}");
}
