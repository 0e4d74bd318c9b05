//! The list of messages under way (01, Tables; Steps 6 and 7).

use crate::message::{Kind, Message};
use crate::queue::Queue;
use crate::world::World;

pub trait NetworkRules {
    #[inline]
    fn send(&self, world: &mut World, client: usize, kind: Kind) {
        self.put(&mut world.tables.queue, Message { client: client as u8, kind });
    }

    /// "Message list: at most 64, in sending order. [..] A message sent to a
    /// full list is lost."
    #[inline]
    fn put(&self, queue: &mut Queue, message: Message) {
        queue.send(message);
    }

    /// "A removal closes the gap."
    #[inline]
    fn remove(&self, queue: &mut Queue, place: usize) -> Message {
        queue.remove(place)
    }

    /// "Double place i: send a copy, to the end."
    #[inline]
    fn double(&self, queue: &mut Queue, place: usize) {
        let copy = queue.places[place];
        self.put(queue, copy);
    }
}
