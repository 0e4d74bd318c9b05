//! How soon a client shows an object again (02, A1): it asks, everything is
//! delivered at place 0, and it asks once more after a DROPPED.
//!
//! The claim is about reachable states, which only the caller knows: if the
//! premises hold, the read is shown after the steps claimed.

use crate::answer::Answer;
use crate::bits::members;
use crate::message::{Kind, Message};
use crate::mistakes::Mistakes;
use crate::step_record::Step;
use crate::world::World;

/// Far beyond every claim. It ends here under any mistake, and from a full
/// list.
const MOST_STEPS: u32 = 64;

/// The last next number from which two asks are accepted: question 6 wants each
/// of them below 4,294,967,295.
const LAST_NEXT: u32 = u32::MAX - 2;

/// The steps of an ask that is granted: RENEW and GRANT are delivered.
const GRANTED: u32 = 3;

/// The steps of an ask that is offered: RENEW, OFFER and DROPPED are delivered.
const OFFERED: u32 = 4;

/// How it went, and what the read then answered.
#[derive(Clone, Copy, Debug, PartialEq, Eq)]
pub struct Ending {
    /// The asks and deliveries that were accepted.
    pub steps: u32,
    /// The refusal of the first ask or delivery that was not accepted, which
    /// ends it.
    pub refused: Option<u8>,
    /// The message delivered last.
    pub delivered: Option<Message>,
    /// How many messages are left in the list.
    pub messages: usize,
    pub read: Answer,
}

impl Ending {
    const NONE: Ending = Ending { steps: 0, refused: None, delivered: None, messages: 0, read: Answer::Done };

    fn goes_on(&self) -> bool {
        self.refused.is_none() && self.steps < MOST_STEPS
    }

    /// Counts the answer to an ask or a delivery.
    fn count(&mut self, answer: Answer) {
        match answer {
            Answer::Refused(number) => {
                self.refused = Some(number);
                return;
            }
            Answer::Delivered { message, .. } => self.delivered = Some(message),
            _ => (),
        }
        self.steps += 1;
    }
}

impl World<'_> {
    /// Returns whether the state meets 02's premises, except that it is
    /// reachable. "The wait of A1 excludes dashes with notes" in the volume
    /// (A6).
    pub fn until_shown_premises(&self, client: u8, object: u8) -> bool {
        let volume = self.setup.volume(object.into());
        self.tables.queue.len == 0
            && !self.write_stands_in(volume)
            && self.tables.server.notes[volume][usize::from(client)] == 0
            && self.requests[usize::from(client)].next <= LAST_NEXT
    }

    fn write_stands_in(&self, volume: usize) -> bool {
        members(self.standing()).any(|object| self.setup.volume(object) == volume)
    }

    /// Returns how many asks and deliveries are enough according to 02. The
    /// mark is what the server holds, the known epoch what the client does.
    pub fn until_shown_claim(&self, client: u8, object: u8) -> u32 {
        let (client, volume) = (usize::from(client), self.setup.volume(object.into()));
        let server = &self.tables.server;
        let marked = server.unreachable[volume] >> client & 1 == 1;
        let known = self.tables.clients.epoch[client][volume] == server.epoch[volume];
        if known && !marked {
            GRANTED
        } else {
            OFFERED + GRANTED
        }
    }
}

/// Asks and delivers, and does so once more after a DROPPED of this client. It
/// asks even if the copy is alive or a request stands.
pub fn until_shown(rules: Mistakes, world: &mut World, client: u8, object: u8) -> Ending {
    let mut ending = Ending::NONE;
    let dropped = ask_and_deliver(rules, world, client, object, &mut ending);
    if dropped && ending.goes_on() {
        ask_and_deliver(rules, world, client, object, &mut ending);
    }
    ending.messages = world.tables.queue.len;
    ending.read = rules.step(world, &Step::read(client, object));
    ending
}

/// Asks and delivers everything. Returns whether a DROPPED of this client was
/// among the deliveries.
fn ask_and_deliver(rules: Mistakes, world: &mut World, client: u8, object: u8, ending: &mut Ending) -> bool {
    let mut dropped = false;
    ending.count(rules.step(world, &Step::ask(client, object)));
    while world.tables.queue.len > 0 && ending.goes_on() {
        ending.count(rules.step(world, &Step::deliver(0)));
        let of_client = ending.delivered.filter(|message| message.client == client);
        dropped |= of_client.is_some_and(|message| matches!(message.kind, Kind::Dropped { .. }));
    }
    dropped
}
