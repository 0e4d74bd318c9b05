//! Each message, from the step that sent it to the step that ended it.

use model::limits::QUEUE;
use model::message::{Kind, Message};
use model::step_record::{ASK, DELIVER, DOUBLE, WRITE};

use crate::trace::Moment;

#[derive(Clone, Copy, Debug, PartialEq, Eq)]
pub enum End {
    /// Still in the queue after the last step.
    UnderWay,
    Delivered(usize),
    Lost(usize),
    /// Still in the queue when a return restored another.
    Left(usize),
    /// Sent to a full queue: lost at once.
    QueueFull,
}

#[derive(Clone, Copy, Debug, PartialEq, Eq)]
pub struct Flight {
    pub message: Message,
    /// The step that sent or doubled it, or the return that put it under way
    /// again.
    pub sent: usize,
    pub again: bool,
    /// The index in the list of flights of the message that this is a copy of.
    pub copy_of: Option<usize>,
    pub end: End,
}

impl Flight {
    pub fn under_way_after(&self, step: usize) -> bool {
        let ended = match self.end {
            End::UnderWay => false,
            End::Delivered(end) | End::Lost(end) | End::Left(end) => end <= step,
            End::QueueFull => true,
        };
        self.sent <= step && !ended
    }
}

#[derive(Default)]
pub struct Flights {
    pub all: Vec<Flight>,
    /// The flights in the queue, in order.
    under_way: Vec<usize>,
}

impl Flights {
    /// Follows the flights through one step. To be called for each step in
    /// turn.
    pub fn follow(&mut self, moment: &Moment) {
        if moment.refused() {
            return;
        }
        if moment.restored().is_some() {
            return self.restore(moment);
        }
        let place = usize::from(moment.step.place);
        let copy_of = (moment.step.kind == DOUBLE).then(|| self.under_way[place]);
        if moment.taken().is_some() {
            let end = if moment.step.kind == DELIVER { End::Delivered } else { End::Lost };
            let flight = self.under_way.remove(place);
            self.all[flight].end = end(moment.number);
        }
        let (sent, again) = (moment.number, false);
        for &message in moment.sent() {
            self.under_way.push(self.all.len());
            self.all.push(Flight { message, sent, again, copy_of, end: End::UnderWay });
        }
        for message in turned_away(moment) {
            self.all.push(Flight { message, sent, again, copy_of, end: End::QueueFull });
        }
    }

    /// Ends what was under way, and begins anew with what was when the state was
    /// saved.
    fn restore(&mut self, moment: &Moment) {
        let (sent, again, copy_of) = (moment.number, true, None);
        for flight in self.under_way.drain(..) {
            self.all[flight].end = End::Left(sent);
        }
        let restored = moment.after.tables.queue.messages().iter();
        self.under_way.extend(self.all.len()..self.all.len() + restored.len());
        let flight = |&message| Flight { message, sent, again, copy_of, end: End::UnderWay };
        self.all.extend(restored.map(flight));
    }

    /// Returns the messages under way, in queue order.
    pub fn queue(&self) -> impl Iterator<Item = Message> + '_ {
        self.under_way.iter().map(|&flight| self.all[flight].message)
    }
}

/// Returns the messages sent to a full queue. The tables tell how many were
/// sent: one by an ask or a double, one to each client that a write waits for.
/// A delivery first makes room for the one that it may send.
fn turned_away(moment: &Moment) -> Vec<Message> {
    if moment.after.tables.queue.len < QUEUE {
        return Vec::new();
    }
    let sent = moment.sent().len();
    match moment.step.kind {
        ASK if sent == 0 => vec![renew(moment)],
        DOUBLE if sent == 0 => vec![moment.before.tables.queue.messages()[usize::from(moment.step.place)]],
        WRITE => invalidates(moment).split_off(sent),
        _ => Vec::new(),
    }
}

fn renew(moment: &Moment) -> Message {
    let (client, object) = (usize::from(moment.step.client), usize::from(moment.step.object));
    let number = moment.request_before(client).next;
    let epoch = moment.before.tables.clients.epoch[client][moment.setup.volume(object)];
    let version = moment.copy_before(client, object).version;
    Message {
        client: moment.step.client,
        kind: Kind::Renew { object: moment.step.object, number, epoch, version },
    }
}

fn invalidates(moment: &Moment) -> Vec<Message> {
    let object = usize::from(moment.step.object);
    let server = moment.server();
    if !server.stands(object) {
        return Vec::new();
    }
    let (epoch, version) = (server.epoch[moment.setup.volume(object)], server.version[object] + 1);
    let kind = Kind::Invalidate { object: moment.step.object, epoch, version };
    let to = |client| Message { client: client as u8, kind };
    model::bits::members(server.write[object].waiting.into()).map(to).collect()
}
