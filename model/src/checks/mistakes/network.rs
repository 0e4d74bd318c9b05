//! Mistakes in the message list.

use crate::limits::QUEUE;
use crate::message::Message;
use crate::queue::Queue;
use crate::rules::Papers;

mistakes_about! { NetworkRules:
    /// Overwrites the 64th message with the 65th.
    full_overwrites_last {
        fn put(&self, queue: &mut Queue, message: Message) {
            queue.len = queue.len.min(QUEUE - 1);
            Papers.put(queue, message);
        }
    }

    /// Makes room for the 65th message by losing the first.
    full_loses_first {
        fn put(&self, queue: &mut Queue, message: Message) {
            if queue.len == QUEUE {
                queue.remove(0);
            }
            Papers.put(queue, message);
        }
    }

    /// Fills the gap of a removal with the last message.
    removal_swaps_last {
        fn remove(&self, queue: &mut Queue, place: usize) -> Message {
            queue.len -= 1;
            queue.places.swap(place, queue.len);
            queue.places[queue.len]
        }
    }

    /// Puts a doubled message behind its original.
    double_lands_behind {
        fn double(&self, queue: &mut Queue, place: usize) {
            let len = queue.len;
            Papers.double(queue, place);
            if queue.len > len {
                queue.places[place + 1..queue.len].rotate_right(1);
            }
        }
    }
}
