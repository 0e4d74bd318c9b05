//! Counts the messages that are sent when objects are written that parked
//! clients hold, by the rule of 02's A6 and by the one before it. The counts
//! are the model's, whose listing of each run is the library's.

use model::answer::Answer;
use model::gen::setups::sized;
use model::limits::{CLIENTS, STEPS};
use model::message::Message;
use model::mistakes::Mistakes;
use model::rules::{Papers, Rules};
use model::setup::Setup;
use model::state::Machine;
use model::step_record::{Step, DELIVER, LOSE};
use model::unchecked_writer::write;
use model::world::World;

use crate::subjects::same;

/// The objects that every client holds, all in one volume.
const OBJECTS: u8 = 8;

/// How many of them are written.
const WRITTEN: [u8; 3] = [1, 2, 8];

/// How many of the 16 clients are parked.
const PARKED: [u8; 3] = [0, 4, 16];

/// Takes a step by one of the rules.
type Rule = fn(&mut World, &Step) -> Answer;

/// Whether messages of a write reach parked clients.
#[derive(Clone, Copy)]
enum Parked {
    InReach,
    SwitchedOff,
}

/// The messages sent in a run.
#[derive(Debug, PartialEq, Eq)]
struct Sent {
    /// In the write steps alone.
    writing: usize,
    whole: usize,
}

pub fn report() {
    println!("Messages sent when {CLIENTS} clients hold {OBJECTS} objects of a volume and some are parked, before and after");
    println!("A6: in the write steps, and in the whole run if the parked clients hear what is sent to them, and if");
    println!("they are switched off until they come back.\n");
    println!("| parked | objects written | at the writes, before | after | in reach, before | after | switched off, before | after |");
    println!("|---|---|---|---|---|---|---|---|");
    rows().for_each(|row| println!("{row}"));
}

fn rows() -> impl Iterator<Item = String> {
    PARKED.into_iter().flat_map(|parked| WRITTEN.map(|written| row(parked, written)))
}

fn row(parked: u8, written: u8) -> String {
    let [before, after] = both(Parked::InReach, parked, written);
    let heard = format!("{} | {} | {} | {}", before.writing, after.writing, before.whole, after.whole);
    let [before, after] = both(Parked::SwitchedOff, parked, written);
    format!("| {parked} | {written} | {heard} | {} | {} |", before.whole, after.whole)
}

/// Returns the counts by the rule before A6 and by A6.
fn both(reach: Parked, parked: u8, written: u8) -> [Sent; 2] {
    let before = |world: &mut World, step: &Step| Mistakes::named("waits_for_parked").step(world, step);
    let after = |world: &mut World, step: &Step| Papers.step(world, step);
    let [mut before, mut after] = [Run::new(before), Run::new(after)];
    let sent = [&mut before, &mut after].map(|run| run.park_and_return(reach, parked, written));
    same(&write(&[], &after.setup, &after.steps));
    sent
}

struct Run {
    setup: Setup,
    machine: Machine,
    rule: Rule,
    steps: Vec<Step>,
    sent: usize,
    /// This many of the first clients hear nothing.
    switched_off: u8,
}

impl Run {
    fn new(rule: Rule) -> Run {
        let setup = Setup { delay: 60, ..sized(CLIENTS as u8, 1, OBJECTS) };
        Run { setup, machine: Machine::fresh(), rule, steps: Vec::new(), sent: 0, switched_off: 0 }
    }

    /// All clients hold all objects. The first ones let their volume lease end,
    /// the others renew it. Some objects are written, and who is in reach gets
    /// every message. When all leases on the volume have ended, and with them
    /// every write, all clients come and read everything.
    fn park_and_return(&mut self, reach: Parked, parked: u8, written: u8) -> Sent {
        (0..CLIENTS as u8).for_each(|client| self.read_all(client));
        self.take(Step::clock(self.setup.volume_lease - 1));
        (parked..CLIENTS as u8).for_each(|client| self.ask(client, 0));
        self.take(Step::clock(self.setup.volume_lease));
        self.switched_off = if let Parked::SwitchedOff = reach { parked } else { 0 };
        let writing = (0..written).map(|object| self.write(object)).sum();
        self.take(Step::clock(2 * self.setup.volume_lease));
        self.switched_off = 0;
        (0..CLIENTS as u8).for_each(|client| self.read_all(client));
        Sent { writing, whole: self.sent }
    }

    /// Returns how many messages the write step sends.
    fn write(&mut self, object: u8) -> usize {
        let before = self.sent;
        self.take(Step::write(object, 7));
        let sent = self.sent - before;
        self.deliver_all();
        sent
    }

    /// Reads each object, and asks for it until it is shown.
    fn read_all(&mut self, client: u8) {
        for object in 0..OBJECTS {
            while self.take(Step::read(client, object)) == Answer::AskFirst {
                self.ask(client, object);
            }
        }
    }

    fn ask(&mut self, client: u8, object: u8) {
        self.take(Step::ask(client, object));
        self.deliver_all();
    }

    fn deliver_all(&mut self) {
        while let Some(message) = self.under_way().first() {
            let heard = message.client >= self.switched_off;
            self.take(if heard { Step::deliver(0) } else { Step::lose(0) });
        }
    }

    fn under_way(&self) -> &[Message] {
        self.machine.state.tables.queue.messages()
    }

    /// Takes a step and counts what it sends. The list is never full, so
    /// nothing that is sent is lost.
    fn take(&mut self, step: Step) -> Answer {
        assert!(self.steps.len() < STEPS, "a run has an end");
        let left = self.under_way().len() - usize::from([DELIVER, LOSE].contains(&step.kind));
        let answer = (self.rule)(&mut self.machine.world(&self.setup), &step);
        self.steps.push(step);
        self.sent += self.under_way().len() - left;
        answer
    }
}

#[cfg(test)]
mod tests {
    use super::*;

    /// An INVALIDATE for each of 16 clients and 8 objects, or none.
    #[test]
    fn a_write_sends_nothing_to_parked_clients() {
        for reach in [Parked::InReach, Parked::SwitchedOff] {
            assert_eq!(both(reach, 16, 8).map(|sent| sent.writing), [128, 0]);
            assert_eq!(both(reach, 4, 1).map(|sent| sent.writing), [16, 12]);
        }
    }

    /// RENEW, BATCH and CLEARED take the place of an INVALIDATE and an ACK for
    /// each object.
    #[test]
    fn a_client_that_heard_costs_three_messages() {
        for written in WRITTEN {
            let [before, after] = both(Parked::InReach, 16, written);
            assert_eq!(before.whole + 16 * 3, after.whole + 16 * 2 * usize::from(written));
        }
    }

    /// They take the place of the INVALIDATEs that are lost, of RENEW, OFFER
    /// and DROPPED, and of a RENEW and a GRANT for each object not written.
    #[test]
    fn a_client_that_was_switched_off_keeps_what_was_not_written() {
        for written in WRITTEN {
            let [before, after] = both(Parked::SwitchedOff, 16, written);
            let (lost, kept) = (16 * usize::from(written), 16 * usize::from(OBJECTS - written));
            assert_eq!(before.whole, after.whole + lost + 2 * kept);
        }
    }

    #[test]
    fn nothing_changes_where_nobody_is_parked() {
        for written in WRITTEN {
            let [before, after] = both(Parked::InReach, 0, written);
            assert_eq!(before, after);
        }
    }

    #[test]
    fn the_table_is_the_one_in_the_document() {
        let document = include_str!("../../docs/PERFORMANCE.md");
        for row in rows() {
            assert!(document.lines().any(|line| line == row), "{row}");
        }
    }
}
