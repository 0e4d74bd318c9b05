//! A run on the network, held to its ledger after every move.

use model::answer::Answer;
use model::limits::UNSOUND;
use model::mistakes::Mistakes;
use model::setup::Setup;
use model::step_record::{Step, WRITE};

use crate::ledger::{latest_end, Breach, Ledger};
use crate::network::{Move, Network};

#[derive(Clone)]
pub struct Watched {
    pub network: Network,
    pub ledger: Ledger,
    pub moves: Vec<Move>,
    /// How many messages had been sent after each of the moves.
    pub sent_after: Vec<usize>,
    /// How many reads showed the posted value, and how many of these one that a
    /// write had posted.
    pub shown: usize,
    pub written_shown: usize,
    /// The first breach, and the number of the move that led to it. A wrong
    /// value shown takes the place of any other breach.
    pub breach: Option<(usize, Breach)>,
}

impl Watched {
    pub fn fresh(rules: Mistakes, setup: Setup) -> Watched {
        let (network, ledger) = (Network::fresh(rules, setup), Ledger::fresh());
        let (moves, sent_after) = (Vec::new(), Vec::new());
        Watched { network, ledger, moves, sent_after, shown: 0, written_shown: 0, breach: None }
    }

    /// The same moves again, under other rules.
    pub fn again(&self, rules: Mistakes) -> Watched {
        let mut run = Watched::fresh(rules, self.network.setup);
        for &next in &self.moves {
            run.make(next);
        }
        run
    }

    pub fn shows_wrong(&self) -> bool {
        matches!(self.breach, Some((_, Breach::Shown { .. })))
    }

    /// Makes the move and looks at everything afterwards.
    pub fn make(&mut self, next: Move) -> Answer {
        self.moves.push(next);
        let latest_end = self.end_of(next);
        let answer = self.network.make(next);
        self.sent_after.push(self.network.sent.len());
        self.ledger.book(&step_of(next), answer, latest_end, &self.network.state.tables.server);
        if let Some(breach) = self.wrong_read().or_else(|| self.wrong_books(next, answer)) {
            self.note(breach);
        }
        answer
    }

    fn note(&mut self, breach: Breach) {
        let first = self.breach.is_none();
        if first || matches!(breach, Breach::Shown { .. }) && !self.shows_wrong() {
            self.breach = Some((self.moves.len(), breach));
        }
    }

    /// The latest end of the write that this move may open.
    fn end_of(&self, next: Move) -> u32 {
        let Network { setup, state, .. } = &self.network;
        match next {
            Move::Own(step) if step.kind == WRITE && step.object < setup.objects => {
                latest_end(setup, &state.tables, step.object.into())
            }
            _ => 0,
        }
    }

    /// Reads every object at every client. A read changes nothing, so this
    /// covers whatever reads a run might have here.
    fn wrong_read(&mut self) -> Option<Breach> {
        let Setup { clients, objects, .. } = self.network.setup;
        for (client, object) in (0..clients).flat_map(|client| (0..objects).map(move |at| (client, at))) {
            let Answer::Shown(shown) = self.network.step(&Step::read(client, object)) else {
                continue;
            };
            let posted = self.ledger.posted[usize::from(object)];
            if shown != posted {
                return Some(Breach::Shown { client, object, shown, posted });
            }
            self.shown += 1;
            self.written_shown += usize::from(posted != 0);
        }
        None
    }

    fn wrong_books(&self, next: Move, answer: Answer) -> Option<Breach> {
        let Network { setup, state, .. } = &self.network;
        let breach = self.ledger.breach(setup, &state.tables.server, &step_of(next), answer);
        breach.or_else(|| self.refused(next, answer))
    }

    /// No message that was sent is refused, and no step finds unsound tables.
    fn refused(&self, next: Move, answer: Answer) -> Option<Breach> {
        let Answer::Refused(number) = answer else {
            return None;
        };
        let arrived = matches!(next, Move::Arrival(place) if place < self.network.sent.len());
        (arrived || number == UNSOUND).then_some(Breach::Refused(number))
    }
}

/// Returns the step that a move is: an arrival is a delivery.
fn step_of(next: Move) -> Step {
    match next {
        Move::Own(step) => step,
        Move::Arrival(_) => Step::deliver(0),
    }
}
