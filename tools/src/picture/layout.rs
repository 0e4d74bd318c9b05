//! Where everything goes: a column for each step of the window, a lane for the
//! server and one for each client, in each lane a row for each volume and
//! object that the window shows something of, and on the right the messages
//! under way after the last step shown.
//!
//! Messages fall from the server's line and rise from the clients', so the
//! words of steps are on the other side of each line: above the server's, below
//! a client's. A step says one thing on a lane, within its column.

use std::collections::BTreeMap;

use model::message::Message;
use model::step_record::{ASK, READ, RESTART_CLIENT};

use super::letters::{width, LABEL};
use super::svg::{at, Point};
use super::words;
use crate::names;
use crate::timeline::flights::Flight;
use crate::timeline::spans::Span;
use crate::timeline::tracks::Track;
use crate::timeline::{StepView, Timeline};
use crate::voice::Voice;

pub const COLUMN: f64 = 48.0;
pub const ROW: f64 = 21.0;
/// Half of the gap in all lanes at a return.
pub const BREAK: f64 = 4.0;
/// From the server's line down to the first client's: room for a label along
/// the steepest arrow.
const FALL: f64 = 132.0;
const ABOVE_CLIENT: f64 = 24.0;
/// Between a lane's line and its rows.
const BESIDE_LINE: f64 = 19.0;
/// How far from its receiver's line a message that does not arrive ends.
const SHORT: f64 = 13.0;
/// Right of the columns, at least.
const MARGIN: f64 = 10.0;
/// Between the messages under way at the right.
const QUEUED: f64 = 11.0;

/// The most steps of a picture alone: it stays narrower than 16,000 pixels,
/// with everything beside the steps, so that any renderer draws all of it.
const MOST: usize = 300;

/// The steps shown, counted from 1, both ends included.
#[derive(Clone, Copy, Debug, PartialEq, Eq)]
pub struct Window {
    pub from: usize,
    pub to: usize,
}

#[derive(Clone, Copy, PartialEq, Eq, PartialOrd, Ord)]
pub enum Row {
    Guard(usize),
    Write(usize),
    Volume(usize, usize),
    Object(usize, usize),
}

pub struct Layout {
    pub voice: Voice,
    pub window: Window,
    pub width: f64,
    pub height: f64,
    /// Right of the columns, for the messages under way.
    pub margin: f64,
    /// The y of each lane's line, on which its steps and messages are.
    pub server: f64,
    pub clients: Vec<f64>,
    /// The upper edge of each row.
    pub rows: BTreeMap<Row, f64>,
    /// Below the last lane.
    foot: f64,
    /// For the flights under way after the last step shown, by index in their
    /// list: where each ends, and the words there.
    pub queue: BTreeMap<usize, (Point, String)>,
}

impl Layout {
    pub fn new(timeline: &Timeline, window: Window) -> Layout {
        let mut rows: BTreeMap<Row, f64> = timeline
            .spans
            .iter()
            .filter(|span| window.shows(span))
            .map(|span| (row(span.track), 0.0))
            .collect();
        let mut y = 8.0;
        rows.range_mut(..Row::Volume(0, 0)).for_each(|(_, top)| (*top, y) = (y, y + ROW));
        let server = y + BESIDE_LINE;
        y = server + FALL - ABOVE_CLIENT;
        let mut clients = Vec::new();
        for client in 0..usize::from(timeline.setup.clients) {
            clients.push(y + ABOVE_CLIENT);
            y += ABOVE_CLIENT + BESIDE_LINE;
            let own = rows.iter_mut().filter(|(row, _)| row.client() == Some(client));
            own.for_each(|(_, top)| (*top, y) = (y, y + ROW));
        }
        let width = (window.to + 1 - window.from) as f64 * COLUMN;
        let (height, margin, foot, queue) = (y + 14.0, MARGIN, y, BTreeMap::new());
        let voice = timeline.voice;
        let mut layout = Layout { voice, window, width, height, margin, server, clients, rows, foot, queue };
        layout.line_up(&timeline.flights);
        layout
    }

    /// Puts each message under way near its receiver's line, below the one
    /// before it.
    fn line_up(&mut self, flights: &[Flight]) {
        let under_way = |flight: &Flight| flight.under_way_after(self.window.to);
        let queue = flights.iter().enumerate().filter(|(_, flight)| under_way(flight));
        let mut queue: Vec<(f64, usize, String)> = queue
            .enumerate()
            .map(|(queued, (place, flight))| {
                (self.short(&flight.message), place, words::queued(&self.voice, queued, &flight.message))
            })
            .collect();
        queue.sort_by(|one, other| one.0.total_cmp(&other.0));
        let mut lowest = 0.0;
        for (y, place, words) in queue {
            lowest = f64::max(y, lowest + QUEUED);
            self.margin = self.margin.max(width(&words, LABEL) + 20.0);
            self.queue.insert(place, (at(self.width + 6.0, lowest), words));
        }
        self.height = self.height.max(lowest + QUEUED);
    }

    /// Returns a lane's upper and lower edge.
    pub fn reach(&self, client: Option<usize>) -> (f64, f64) {
        let top = |client: usize| self.clients.get(client).map(|line| line - ABOVE_CLIENT);
        match client {
            Some(client) => (top(client).unwrap_or(self.foot), top(client + 1).unwrap_or(self.foot)),
            None => (0.0, top(0).unwrap_or(self.foot)),
        }
    }

    /// Returns the line of the lane that a step is about: the receiver's of its
    /// message, or that of the client that the step names.
    pub fn lane(&self, view: &StepView) -> f64 {
        let client = || self.clients.get(usize::from(view.step.client)).copied();
        match (&view.message, view.step.kind) {
            (Some(message), _) => self.ends(message).1,
            (None, READ | ASK | RESTART_CLIENT) => client().unwrap_or(self.server),
            _ => self.server,
        }
    }

    /// Returns the lines of a message's sender and receiver.
    pub fn ends(&self, message: &Message) -> (f64, f64) {
        let client = self.clients[usize::from(message.client)];
        match names::from_server(&message.kind) {
            true => (self.server, client),
            false => (client, self.server),
        }
    }

    /// Returns where a message ends that does not reach its receiver's line.
    pub fn short(&self, message: &Message) -> f64 {
        let (sender, receiver) = self.ends(message);
        receiver - SHORT * (receiver - sender).signum()
    }

    /// Returns where a message begins that a return puts under way again: its
    /// sender does not send it now.
    pub fn begun(&self, message: &Message) -> f64 {
        let (sender, receiver) = self.ends(message);
        sender + SHORT * (receiver - sender).signum()
    }

    /// Returns the line that words beside a lane's line stand on.
    pub fn beside(&self, lane: f64) -> f64 {
        if lane == self.server {
            lane - 9.0
        } else {
            lane + 15.5
        }
    }

    /// Returns the middle of a step's column; left or right of the picture for
    /// a step outside the window.
    pub fn x(&self, step: usize) -> f64 {
        (step as f64 - self.window.from as f64 + 0.5) * COLUMN
    }

    pub fn left(&self, step: usize) -> f64 {
        self.x(step) - COLUMN / 2.0
    }

    pub fn row(&self, track: Track) -> Option<f64> {
        self.rows.get(&row(track)).copied()
    }

    pub fn shows(&self, from: f64, to: f64) -> bool {
        from < self.width && to > 0.0
    }
}

impl Window {
    /// Returns the first steps of the window, as many as a picture alone may
    /// have.
    pub fn narrowed(&self) -> Window {
        Window { to: self.to.min(self.from + MOST - 1), ..*self }
    }

    pub fn holds(&self, step: usize) -> bool {
        (self.from..=self.to).contains(&step)
    }

    /// Returns whether a span is in the window: it neither ended before nor
    /// begins after.
    fn shows(&self, span: &Span) -> bool {
        span.from <= self.to && span.to.is_none_or(|to| to >= self.from)
    }
}

impl Row {
    pub fn client(&self) -> Option<usize> {
        match *self {
            Row::Volume(client, _) | Row::Object(client, _) => Some(client),
            Row::Guard(_) | Row::Write(_) => None,
        }
    }

    pub fn name(&self) -> String {
        match *self {
            Row::Guard(volume) => format!("guard, volume {volume}"),
            Row::Write(object) => format!("write, object {object}"),
            Row::Volume(_, volume) => format!("volume {volume}"),
            Row::Object(_, object) => format!("object {object}"),
        }
    }
}

pub fn row(track: Track) -> Row {
    match track {
        Track::Guard(volume) => Row::Guard(volume),
        Track::Write(object) => Row::Write(object),
        Track::ServerVolumeLease(client, volume)
        | Track::Notes(client, volume)
        | Track::Unreachable(client, volume)
        | Track::VolumeLease(client, volume) => Row::Volume(client, volume),
        Track::ServerObjectLease(client, object)
        | Track::ObjectLease(client, object)
        | Track::Copy(client, object) => Row::Object(client, object),
    }
}
