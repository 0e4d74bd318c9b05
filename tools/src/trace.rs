//! Runs a run through the model, step by step.

use gevtsomi::Why;
use model::answer::Answer;
use model::copies::ObjectCopy;
use model::gen::runs::Run;
use model::message::{Kind, Message};
use model::requests::Request;
use model::setup::Setup;
use model::state::{Machine, Saved, State};
use model::step_call::step;
use model::step_record::Step;
use model::tables::{Server, Write};

use crate::line::Lines;
use crate::proved;
use crate::voice::Voice;

/// One step, with the model's state before and after it.
pub struct Moment<'a> {
    /// The step's number, from 1, as in the listing.
    pub number: usize,
    pub step: Step,
    pub setup: &'a Setup,
    /// The voice in which it is told.
    pub voice: Voice,
    pub before: &'a State,
    pub after: &'a State,
    pub answer: Answer,
    /// The steps so far, this one too. Step k is at index k - 1.
    pub past: &'a [Past],
    /// The saved states after it, by name.
    pub saved: &'a Saved,
    /// The lines of the steps up to this one.
    pub lines: &'a Lines,
}

/// A step as a later one looks back at it.
pub struct Past {
    pub step: Step,
    /// The clock after it.
    pub clock: u32,
    /// The message that it delivered.
    pub delivered: Option<Kind>,
}

/// A run in progress: the states that its steps so far have led to and saved.
pub struct Walk<'a> {
    setup: &'a Setup,
    voice: Voice,
    machine: Machine,
    lines: Lines,
    past: Vec<Past>,
}

impl<'a> Walk<'a> {
    pub fn fresh(setup: &'a Setup, voice: Voice) -> Walk<'a> {
        Walk { setup, voice, machine: Machine::fresh(), lines: Lines::default(), past: Vec::new() }
    }

    /// Returns the messages under way.
    pub fn under_way(&self) -> &[Message] {
        self.machine.state.tables.queue.messages()
    }

    /// Takes a step, for which question 1 is asked first, and returns what
    /// `seen` makes of it.
    pub fn take<T>(&mut self, record: Step, seen: impl FnOnce(&Moment) -> T) -> T {
        let before = self.machine.state;
        let answer = step(&mut self.machine.world(self.setup), &record);
        let delivered = match answer {
            Answer::Delivered { message, .. } => Some(message.kind),
            _ => None,
        };
        self.past.push(Past { step: record, clock: self.machine.state.tables.clock, delivered });
        self.lines.follow(&record, matches!(answer, Answer::Refused(_)));
        let (number, setup, voice) = (self.past.len(), self.setup, self.voice);
        let (Machine { state: after, saved }, lines, past) = (&self.machine, &self.lines, &self.past);
        let (step, before) = (record, &before);
        seen(&Moment { number, step, setup, voice, before, after, answer, past, saved, lines })
    }
}

/// Calls `each` for every step of the run, in the voice of a run file.
pub fn walk(run: &Run, each: impl FnMut(&Moment)) {
    walk_in(run, Voice::default(), each);
}

/// Calls `each` for every step of the run, in this voice.
pub fn walk_in(run: &Run, voice: Voice, mut each: impl FnMut(&Moment)) {
    let mut walk = Walk::fresh(&run.setup, voice);
    for &step in &run.steps {
        walk.take(step, &mut each);
    }
}

impl<'a> Moment<'a> {
    pub fn refused(&self) -> bool {
        matches!(self.answer, Answer::Refused(_))
    }

    /// Returns why the step was answered "ask first", if it is a read answered so.
    /// This is the library's answer, about the run up to here.
    pub fn why(&self) -> Option<Why> {
        let steps = self.past.iter().map(|past| past.step).collect();
        proved::why(&Run { note: Vec::new(), setup: *self.setup, steps })
    }

    /// Returns the step that saved the state which this step restored, if it is
    /// a return that was not refused.
    pub fn restored(&self) -> Option<usize> {
        use model::step_record::RETURN;
        let restores = self.step.kind == RETURN && !self.refused();
        restores.then(|| self.lines.before(self.number))
    }

    pub fn clock(&self) -> u32 {
        self.after.tables.clock
    }

    pub fn server_before(&self) -> &'a Server {
        &self.before.tables.server
    }

    pub fn server(&self) -> &'a Server {
        &self.after.tables.server
    }

    pub fn clients(&self) -> std::ops::Range<usize> {
        0..usize::from(self.setup.clients)
    }

    pub fn objects(&self) -> std::ops::Range<usize> {
        0..usize::from(self.setup.objects)
    }

    pub fn volumes(&self) -> std::ops::Range<usize> {
        0..usize::from(self.setup.volumes)
    }

    /// Returns the client's copy before the step.
    pub fn copy_before(&self, client: usize, object: usize) -> &'a ObjectCopy {
        &self.before.copies(self.setup)[self.setup.copy_place(client, object)]
    }

    pub fn request_before(&self, client: usize) -> &'a Request {
        &self.before.requests(self.setup)[client]
    }

    /// Returns the messages that the step added to the queue's end: those
    /// beyond what was there before, less the one taken out. A return sends
    /// none: it restores the queue.
    pub fn sent(&self) -> &'a [Message] {
        let queue = &self.after.tables.queue;
        let kept = match self.restored() {
            Some(_) => queue.len,
            None => self.before.tables.queue.len - usize::from(self.taken().is_some()),
        };
        &queue.messages()[kept..]
    }

    /// Returns the same messages with their places in the queue.
    pub fn placed(&self) -> impl Iterator<Item = (usize, &'a Message)> {
        let first = self.after.tables.queue.len - self.sent().len();
        self.sent().iter().enumerate().map(move |(place, message)| (first + place, message))
    }

    /// Returns the message that the step took out of the queue, if it is a
    /// delivery or a loss that was not refused.
    pub fn taken(&self) -> Option<&'a Message> {
        use model::step_record::{DELIVER, LOSE};
        let takes = [DELIVER, LOSE].contains(&self.step.kind) && !self.refused();
        takes.then(|| &self.before.tables.queue.messages()[usize::from(self.step.place)])
    }

    /// Returns the writes that ended in the step, with their objects. Not for a
    /// return, which ends none.
    pub fn ended(&self) -> Vec<(usize, &'a Write)> {
        let (before, after) = (self.server_before(), self.server());
        let ended = self.objects().filter(|&object| before.stands(object) && !after.stands(object));
        ended.map(|object| (object, &before.write[object])).collect()
    }
}
