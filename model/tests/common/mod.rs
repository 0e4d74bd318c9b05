//! A setup and a state in use, for tests that hand tables over.
#![allow(dead_code)]

pub mod ledger;
pub mod line;

use model::answer::Answer;
use model::message::Message;
use model::setup::Setup;
use model::state::{Saved, State};
use model::step_call::step;
use model::step_record::Step;
use model::world::World;

/// Returns a setup of three clients, two volumes and four objects: 0, 1, 3 in
/// volume 0, and 2 in volume 1.
pub fn setup() -> Setup {
    let mut volume_of = [0; 28];
    volume_of[2] = 1;
    let (volume_lease, object_lease, timeout, delay) = (10, 100, 3, 5);
    Setup { clients: 3, volumes: 2, objects: 4, volume_lease, object_lease, timeout, delay, volume_of }
}

pub struct Bench {
    pub setup: Setup,
    pub state: State,
    pub saved: Saved,
}

impl Bench {
    pub fn fresh() -> Bench {
        Bench::of(setup())
    }

    pub fn with(volume_lease: u32, object_lease: u32, timeout: u32) -> Bench {
        Bench::of(Setup { volume_lease, object_lease, timeout, ..setup() })
    }

    /// Returns fresh tables with this setup.
    pub fn of(setup: Setup) -> Bench {
        Bench { setup, state: State::fresh(), saved: Saved::default() }
    }

    pub fn world(&mut self) -> World<'_> {
        World::new(&self.setup, &mut self.state, &mut self.saved)
    }

    pub fn step(&mut self, record: Step) -> Answer {
        step(&mut self.world(), &record)
    }

    /// Takes a step and returns the listing's two numbers.
    pub fn line(&mut self, record: Step) -> (u8, u64) {
        self.step(record).numbers()
    }

    pub fn all(&mut self, records: &[Step]) {
        for &record in records {
            assert_ne!(self.line(record).0, 4, "{record:?}");
        }
    }

    pub fn queue(&self) -> &[Message] {
        self.state.tables.queue.messages()
    }

    pub fn deliver_all(&mut self) {
        while !self.queue().is_empty() {
            self.step(Step::deliver(0));
        }
    }

    /// Asks until the client holds the object, as 01's example does.
    pub fn hold(&mut self, client: u8, object: u8) {
        self.step(Step::ask(client, object));
        self.deliver_all();
        if self.line(Step::read(client, object)).0 != 1 {
            self.step(Step::ask(client, object));
            self.deliver_all();
        }
        assert_eq!(self.line(Step::read(client, object)).0, 1);
    }
}
