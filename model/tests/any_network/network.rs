//! Server and clients on a network without the list of 64.

use model::answer::Answer;
use model::limits::{CLIENTS, UNSOUND};
use model::message::Message;
use model::mistakes::Mistakes;
use model::setup::Setup;
use model::sound::sound;
use model::state::{Saved, State};
use model::step_record::Step;
use model::world::World;

/// What happens next.
#[derive(Clone, Copy, Debug, PartialEq, Eq)]
pub enum Move {
    /// A step of the server or of a client. Deliver, lose and double find an
    /// empty list, so they are refused.
    Own(Step),
    /// The message at this place of all that were sent arrives, for the first
    /// time or again.
    Arrival(usize),
}

/// Keeps every message ever sent, so any of them may arrive at any time, any
/// number of times, or never. Server and clients take the model's own steps.
#[derive(Clone)]
pub struct Network {
    pub rules: Mistakes,
    pub setup: Setup,
    pub state: State,
    pub sent: Vec<Message>,
}

impl Network {
    pub fn fresh(rules: Mistakes, setup: Setup) -> Network {
        Network { rules, setup, state: State::fresh(), sent: Vec::new() }
    }

    /// Takes a step by the rules, without question 1.
    pub fn step(&mut self, step: &Step) -> Answer {
        self.rules.step(&mut World::new(&self.setup, &mut self.state, &mut Saved::default()), step)
    }

    /// Takes a step of the model, with all six questions, on a list that holds
    /// only what arrives. What was not sent cannot arrive: that is refused with
    /// 3.
    pub fn make(&mut self, next: Move) -> Answer {
        let step = match next {
            Move::Own(step) => step,
            Move::Arrival(place) => {
                let arriving = self.sent.get(place).copied();
                arriving.into_iter().for_each(|message| self.state.tables.queue.send(message));
                Step::deliver(0)
            }
        };
        let answer = if self.is_sound() { self.step(&step) } else { Answer::Refused(UNSOUND) };
        if !matches!(answer, Answer::Refused(_)) {
            self.keep_sent();
        }
        self.state.tables.queue.len = 0;
        answer
    }

    fn is_sound(&mut self) -> bool {
        sound(&World::new(&self.setup, &mut self.state, &mut Saved::default()))
    }

    /// Keeps what the step sent: at most one message to each client, so the
    /// list never gets full and loses nothing.
    fn keep_sent(&mut self) {
        let messages = self.state.tables.queue.messages();
        assert!(messages.len() <= CLIENTS, "{} messages in one step", messages.len());
        self.sent.extend_from_slice(messages);
    }
}
