//! Makes the moves of a scene, or random ones, one after another.

use model::answer::Answer;
use model::gen::random_steps::time;
use model::gen::rng::Rng;
use model::message::Message;
use model::mistakes::Mistakes;
use model::requests::Request;
use model::setup::Setup;
use model::step_record::Step;
use model::tables::Server;

use crate::network::Move;
use crate::watched::Watched;

pub struct Stage {
    pub rng: Rng,
    pub run: Watched,
    /// The indices, among all messages sent, of those that have arrived.
    arrived: Vec<usize>,
    /// How likely one more random move is before each of a scene's own, in
    /// percent.
    pub noise: usize,
    /// The client that random moves leave alone, since a scene is about it.
    pub spared: Option<u8>,
    last_value: u64,
}

impl Stage {
    pub fn new(rng: Rng, rules: Mistakes, setup: Setup) -> Stage {
        let run = Watched::fresh(rules, setup);
        Stage { rng, run, arrived: Vec::new(), noise: 0, spared: None, last_value: 0 }
    }

    pub fn setup(&self) -> &Setup {
        &self.run.network.setup
    }

    pub fn server(&self) -> &Server {
        &self.run.network.state.tables.server
    }

    pub fn now(&self) -> u32 {
        self.run.network.state.tables.clock
    }

    pub fn request(&self, client: u8) -> &Request {
        &self.run.network.state.requests(self.setup())[usize::from(client)]
    }

    pub fn sent(&self) -> &[Message] {
        &self.run.network.sent
    }

    /// Makes this move and no other.
    pub fn make(&mut self, next: Move) -> Answer {
        match next {
            Move::Arrival(place) if place < self.sent().len() => self.arrived.push(place),
            _ => (),
        }
        self.run.make(next)
    }

    pub fn any_client(&mut self) -> u8 {
        self.rng.below(self.setup().clients.into()) as u8
    }

    pub fn any_object(&mut self) -> u8 {
        self.rng.below(self.setup().objects.into()) as u8
    }

    /// Returns a value that no write had before, so that reading an old one
    /// shows.
    pub fn new_value(&mut self) -> u64 {
        self.last_value += 1 + (self.rng.draw() >> 60);
        self.last_value
    }

    /// Returns a random time, mostly near one at which something ends.
    pub fn any_time(&mut self) -> u32 {
        time(&mut self.rng, &self.run.network.state.tables)
    }

    /// Returns the index of a message that has arrived before.
    pub fn any_arrived(&mut self) -> Option<usize> {
        (!self.arrived.is_empty()).then(|| self.rng.pick(&self.arrived))
    }

    /// Makes random moves that seldom spoil a scene: messages that arrive
    /// again, reads, refused steps, and the other clients' traffic.
    fn fill(&mut self) {
        while self.rng.percent(self.noise) {
            let (client, object) = (self.any_client(), self.any_object());
            let newest = self.sent().len().saturating_sub(1);
            let foreign = self.sent().get(newest).is_some_and(|sent| self.spared != Some(sent.client));
            let next = match self.rng.below(8) {
                0..=2 => Move::Arrival(self.any_arrived().unwrap_or(newest)),
                3 => Move::Own(Step::read(client, object)),
                4 => Move::Own(Step::clock(self.now())),
                5 => Move::Own(self.rng.pick(&[Step::deliver, Step::lose, Step::double])(0)),
                6 if self.spared != Some(client) => Move::Own(Step::ask(client, object)),
                _ if foreign => Move::Arrival(newest),
                _ => continue,
            };
            self.make(next);
        }
    }

    /// Makes a scene's own move, after some random ones.
    fn play(&mut self, next: Move) -> Answer {
        self.fill();
        self.make(next)
    }

    /// Asks, and returns the index of the RENEW.
    pub fn ask(&mut self, client: u8, object: u8) -> usize {
        self.play(Move::Own(Step::ask(client, object)));
        self.sent().len() - 1
    }

    pub fn write(&mut self, object: u8) {
        let value = self.new_value();
        self.play(Move::Own(Step::write(object, value)));
    }

    /// Sets the clock, unless it is already past that time.
    pub fn clock(&mut self, time: u32) {
        self.play(Move::Own(Step::clock(time.max(self.now()))));
    }

    pub fn advance(&mut self, ticks: u32) {
        self.clock(self.now() + ticks);
    }

    pub fn restart_client(&mut self, client: u8) {
        self.play(Move::Own(Step::restart_client(client)));
    }

    pub fn restart_server(&mut self) {
        self.play(Move::Own(Step::restart_server()));
    }

    pub fn arrive(&mut self, place: usize) {
        self.play(Move::Arrival(place));
    }

    /// Returns the newest message of this kind to or from the client.
    pub fn newest(&self, client: u8, kind: u8) -> Option<usize> {
        self.sent().iter().rposition(|message| message.client == client && message.kind.code() == kind)
    }

    /// Lets the newest message of this kind arrive, and returns its index.
    pub fn arrive_newest(&mut self, client: u8, kind: u8) -> Option<usize> {
        let place = self.newest(client, kind)?;
        self.arrive(place);
        Some(place)
    }

    /// Asks, and lets everything arrive that follows from it.
    pub fn exchange(&mut self, client: u8, object: u8) {
        let mut place = self.ask(client, object);
        while place < self.sent().len() {
            if self.sent()[place].client == client {
                self.arrive(place);
            }
            place += 1;
        }
    }

    pub fn shows(&mut self, client: u8, object: u8) -> bool {
        matches!(self.make(Move::Own(Step::read(client, object))), Answer::Shown(_))
    }

    /// Exchanges until the client shows the object: twice after an OFFER.
    pub fn hold(&mut self, client: u8, object: u8) -> Option<()> {
        for _ in 0..4 {
            self.exchange(client, object);
            if self.shows(client, object) {
                return Some(());
            }
        }
        None
    }

    pub fn latest_end(&self, object: u8) -> u32 {
        self.server().write[usize::from(object)].latest_end
    }

    pub fn guard(&self, object: u8) -> u32 {
        self.server().guard[self.setup().volume(object.into())]
    }

    /// Lets every standing write end and every guard pass.
    pub fn settle(&mut self) {
        let server = self.server();
        let ends = server.write.iter().map(|write| write.latest_end + 1);
        let last = ends.chain(server.guard).max().unwrap_or(0);
        self.clock(last);
    }
}
