//! The rules of document 01, with A3, A4, A6, A7 and A8 of document 02: a trait
//! for each part of the papers, a method for each rule, in the papers' words. A
//! mistake overrides a method (`mistakes`). The rules are a type, so calling one
//! costs no more than calling a plain function.

mod client;
mod gate;
mod grant;
mod latest_end;
mod network;
mod notes;
mod reasons;
mod saved;
mod server;
mod writes;

pub use client::ClientRules;
pub use gate::{is_known, Gate};
pub use grant::GrantRules;
pub use latest_end::LatestEnd;
pub use network::NetworkRules;
pub use notes::NoteRules;
pub use reasons::*;
pub use saved::SavedRules;
pub use server::{waited_in, Renew, ServerRules};
pub use writes::{alive_set, WriteRules};

use crate::answer::Answer;
use crate::message::{Kind, Message};
use crate::step_record::*;
use crate::world::World;

/// All the rules, and which of them a step or a message calls for.
pub trait Rules: Gate + ClientRules + GrantRules + ServerRules + SavedRules {
    /// Asks the questions after the first, then takes the step.
    fn step(&self, world: &mut World, step: &Step) -> Answer {
        match self.refusal(world, step) {
            Some(number) => Answer::Refused(number),
            None => self.take(world, step),
        }
    }

    /// Takes a step that no question refuses (01, Steps; 02, A7).
    #[inline(always)]
    fn take(&self, world: &mut World, step: &Step) -> Answer {
        let client = usize::from(step.client);
        let object = usize::from(step.object);
        let place = usize::from(step.place);
        match step.kind {
            CLOCK => return Answer::after(self.set_clock(world, step.clock)),
            READ => return self.read(world, client, object),
            WRITE => return Answer::after(self.write(world, object, step.value)),
            DELIVER => return self.deliver(world, place),
            ASK => self.ask(world, client, object),
            LOSE => drop(self.remove(&mut world.tables.queue, place)),
            DOUBLE => self.double(&mut world.tables.queue, place),
            RESTART_SERVER => self.restart_server(world),
            RESTART_CLIENT => self.restart_client(world, client),
            SAVE => self.save(world, place),
            _ => self.return_to(world, place),
        }
        Answer::Done
    }

    /// "Deliver place i: remove the message, then receive it."
    fn deliver(&self, world: &mut World, place: usize) -> Answer {
        let message = self.remove(&mut world.tables.queue, place);
        let completed = self.receive(world, &message);
        Answer::Delivered { message, completed }
    }

    /// Hands a message to its receiver and returns the number of writes that
    /// this completes. "Each message names its dash."
    fn receive(&self, world: &mut World, message: &Message) -> u32 {
        let client = usize::from(message.client);
        match message.kind {
            Kind::Ack { object, epoch, version } => {
                return self.receive_ack(world, client, object.into(), epoch, version);
            }
            Kind::Dropped { volume, number, epoch } => {
                return self.receive_dropped(world, client, volume.into(), number, epoch);
            }
            Kind::Renew { object, number, epoch, version } => {
                self.receive_renew(world, &Renew { client, object: object.into(), number, epoch, version });
            }
            Kind::Grant(grant) => self.receive_grant(world, client, &grant),
            Kind::Invalidate { object, epoch, version } => {
                self.receive_invalidate(world, client, object, epoch, version);
            }
            Kind::Offer { volume, number, epoch } => {
                self.receive_offer(world, client, volume, number, epoch);
            }
            Kind::Batch(batch) => self.receive_batch(world, client, &batch),
            Kind::Cleared(cleared) => self.receive_cleared(world, client, &cleared),
        }
        0
    }
}

/// The rules as the papers have them.
#[derive(Clone, Copy, Debug)]
pub struct Papers;

impl Gate for Papers {}
impl NetworkRules for Papers {}
impl ClientRules for Papers {}
impl GrantRules for Papers {}
impl LatestEnd for Papers {}
impl NoteRules for Papers {}
impl WriteRules for Papers {}
impl ServerRules for Papers {}
impl SavedRules for Papers {}
impl Rules for Papers {}
impl ReasonRules for Papers {}
