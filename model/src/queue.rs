//! The messages under way, in sending order (01, Tables).

use crate::limits::QUEUE;
use crate::message::{Kind, Message};

const EMPTY: Message = Message { client: 0, kind: Kind::Dropped { volume: 0, number: 0, epoch: 0 } };

/// The message list. Places from `len` on are free; nobody reads them.
#[derive(Clone, Copy, Debug, PartialEq, Eq)]
pub struct Queue {
    pub len: usize,
    pub places: [Message; QUEUE],
}

impl Queue {
    pub const fn fresh() -> Queue {
        Queue { len: 0, places: [EMPTY; QUEUE] }
    }

    pub fn messages(&self) -> &[Message] {
        &self.places[..self.len]
    }

    /// Appends a message. A message sent to a full list is lost.
    #[inline]
    pub fn send(&mut self, message: Message) {
        if self.len < QUEUE {
            self.places[self.len] = message;
            self.len += 1;
        }
    }

    /// Removes and returns a message. A removal closes the gap.
    #[inline]
    pub fn remove(&mut self, place: usize) -> Message {
        let message = self.places[place];
        self.places.copy_within(place + 1..self.len, place);
        self.len -= 1;
        message
    }
}

#[cfg(test)]
mod tests {
    use super::*;

    fn from(client: u8) -> Message {
        Message { client, ..EMPTY }
    }

    #[test]
    fn a_removal_closes_the_gap() {
        let mut queue = Queue::fresh();
        (0..4).for_each(|client| queue.send(from(client)));
        assert_eq!(queue.remove(1), from(1));
        assert_eq!(queue.messages(), [from(0), from(2), from(3)]);
        assert_eq!(queue.remove(2), from(3));
        assert_eq!(queue.messages(), [from(0), from(2)]);
    }

    #[test]
    fn the_65th_message_is_lost() {
        let mut queue = Queue::fresh();
        (0..65).for_each(|client| queue.send(from(client)));
        assert_eq!(queue.len, 64);
        assert_eq!(queue.messages()[63], from(63));
        assert_eq!(queue.messages()[0], from(0));
    }
}
