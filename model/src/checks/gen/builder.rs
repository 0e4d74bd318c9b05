//! Writes a run step by step and works the right rules alongside, so that a
//! scene can aim: it sees the tables that its steps have led to.

use crate::answer::Answer;
use crate::gen::rng::Rng;
use crate::limits::{NAMES, STEPS};
use crate::message::{Kind, Message};
use crate::rules::{Papers, Rules};
use crate::setup::Setup;
use crate::state::{Saved, State};
use crate::step_record::Step;
use crate::tables::{Server, Tables};
use crate::world::World;

pub struct Builder {
    pub rng: Rng,
    pub setup: Setup,
    pub state: State,
    pub saved: Saved,
    pub steps: Vec<Step>,
}

/// The eight kinds, to look for in the queue.
pub const RENEW: u8 = 1;
pub const GRANT: u8 = 2;
pub const INVALIDATE: u8 = 3;
pub const ACK: u8 = 4;
pub const OFFER: u8 = 5;
pub const DROPPED: u8 = 6;
pub const BATCH: u8 = 7;
pub const CLEARED: u8 = 8;

impl Builder {
    pub fn new(rng: Rng, setup: Setup) -> Builder {
        Builder { rng, setup, state: State::fresh(), saved: Saved::default(), steps: Vec::new() }
    }

    /// Adds a step, unless the run is full.
    pub fn push(&mut self, step: Step) -> Answer {
        if self.steps.len() == STEPS {
            return Answer::Done;
        }
        self.steps.push(step);
        Papers.step(&mut World::new(&self.setup, &mut self.state, &mut self.saved), &step)
    }

    pub fn full(&self) -> bool {
        self.steps.len() == STEPS
    }

    pub fn tables(&self) -> &Tables {
        &self.state.tables
    }

    pub fn server(&self) -> &Server {
        &self.state.tables.server
    }

    pub fn queue_len(&self) -> usize {
        self.tables().queue.len
    }

    pub fn any_client(&mut self) -> u8 {
        self.rng.below(self.setup.clients.into()) as u8
    }

    pub fn any_object(&mut self) -> u8 {
        self.rng.below(self.setup.objects.into()) as u8
    }

    /// Returns another object of the same volume, if there is one.
    pub fn sibling(&mut self, object: u8) -> Option<u8> {
        let volume = self.setup.volume(object.into());
        let same = |&other: &u8| other != object && self.setup.volume(other.into()) == volume;
        let others: Vec<u8> = (0..self.setup.objects).filter(same).collect();
        (!others.is_empty()).then(|| self.rng.pick(&others))
    }

    pub fn other_client(&mut self, client: u8) -> Option<u8> {
        let count = self.setup.clients;
        (count > 1).then(|| (client + 1 + self.rng.below(count as usize - 1) as u8) % count)
    }

    /// Returns the first place of a message of this kind to or from this
    /// client.
    pub fn find(&self, client: u8, kind: u8) -> Option<u8> {
        let fits = |message: &Message| message.client == client && message.kind.code() == kind;
        self.tables().queue.messages().iter().position(fits).map(|place| place as u8)
    }

    /// Returns the first place of an INVALIDATE or ACK about this object.
    pub fn find_about(&self, client: u8, kind: u8, about: u8) -> Option<u8> {
        let fits = |message: &Message| {
            message.client == client
                && message.kind.code() == kind
                && match message.kind {
                    Kind::Invalidate { object, .. } | Kind::Ack { object, .. } => object == about,
                    _ => false,
                }
        };
        self.tables().queue.messages().iter().position(fits).map(|place| place as u8)
    }

    pub fn deliver(&mut self, client: u8, kind: u8) -> bool {
        let place = self.find(client, kind);
        place.is_some_and(|place| self.push(Step::deliver(place)).numbers().0 != 4)
    }

    pub fn lose(&mut self, client: u8, kind: u8) -> bool {
        let place = self.find(client, kind);
        place.is_some_and(|place| self.push(Step::lose(place)).numbers().0 != 4)
    }

    pub fn double(&mut self, client: u8, kind: u8) -> bool {
        let place = self.find(client, kind);
        place.is_some_and(|place| self.push(Step::double(place)).numbers().0 != 4)
    }

    pub fn ask(&mut self, client: u8, object: u8) {
        self.push(Step::ask(client, object));
    }

    pub fn read(&mut self, client: u8, object: u8) -> bool {
        self.push(Step::read(client, object)).numbers().0 == 1
    }

    /// Writes a value not used before, so that stale copies can be told apart.
    pub fn write(&mut self, object: u8) {
        let value = self.rng.draw() >> self.rng.pick(&[0, 16, 40, 56]);
        self.push(Step::write(object, value));
    }

    pub fn clock(&mut self, time: u32) {
        self.push(Step::clock(time));
    }

    pub fn advance(&mut self, ticks: u32) {
        self.clock(self.tables().clock.saturating_add(ticks));
    }

    pub fn any_name(&mut self) -> u8 {
        self.rng.below(NAMES) as u8
    }

    pub fn save(&mut self, name: u8) {
        self.push(Step::save(name));
    }

    pub fn return_to(&mut self, name: u8) {
        self.push(Step::return_to(name));
    }

    pub fn latest_end(&self, object: u8) -> u32 {
        self.server().write[usize::from(object)].latest_end
    }
}
