//! The ledger of a run (01), and how a run may break what it promises.

use model::answer::Answer;
use model::bits::members;
use model::limits::OBJECTS;
use model::setup::Setup;
use model::step_record::{Step, CLOCK, RESTART_SERVER, WRITE};
use model::tables::{alive, Server, Tables};

#[derive(Clone, Copy, Debug, PartialEq, Eq)]
pub struct Open {
    pub value: u64,
    pub latest_end: u32,
}

/// Learns from the server which writes stand, but never what it has stored. So
/// a wrong rule is compared with what it completed itself.
#[derive(Clone, Debug, PartialEq, Eq)]
pub struct Ledger {
    pub posted: [u64; OBJECTS],
    pub open: [Option<Open>; OBJECTS],
    pub accepted: usize,
    pub completed: usize,
    pub cut_off: usize,
    /// Completed writes that the answers reported.
    pub reported: usize,
}

/// What a step broke.
#[derive(Clone, Copy, Debug, PartialEq, Eq)]
pub enum Breach {
    /// A read shows a value that is not the posted one.
    Shown { client: u8, object: u8, shown: u64, posted: u64 },
    /// The server's value is not the posted one.
    Value { object: u8, value: u64, posted: u64 },
    /// Where the ledger has an open write the server has none, or a different
    /// one, or the other way round.
    Standing { object: u8 },
    /// A write is open after a clock step past its latest end.
    Late { object: u8, latest_end: u32, clock: u32 },
    /// More or fewer completed writes than the answers reported.
    Reported { completed: usize, reported: usize },
    /// Accepted is not completed + cut off + open.
    Sum { accepted: usize, completed: usize, cut_off: usize, open: usize },
    /// A message that was sent is refused, or the tables are unsound.
    Refused(u8),
}

impl Ledger {
    pub fn fresh() -> Ledger {
        Ledger {
            posted: [0; OBJECTS],
            open: [None; OBJECTS],
            accepted: 0,
            completed: 0,
            cut_off: 0,
            reported: 0,
        }
    }

    pub fn open_count(&self) -> usize {
        self.open.iter().flatten().count()
    }

    /// Books a step. `latest_end` is that of a write, from the tables before
    /// it. A refused step changes nothing.
    pub fn book(&mut self, step: &Step, answer: Answer, latest_end: u32, server: &Server) {
        match (step.kind, answer) {
            (_, Answer::Refused(_)) => return,
            (WRITE, _) => {
                self.accepted += 1;
                self.open[usize::from(step.object)] = Some(Open { value: step.value, latest_end });
            }
            (RESTART_SERVER, _) => {
                self.cut_off += self.open_count();
                self.open = [None; OBJECTS];
            }
            _ => (),
        }
        self.close(server);
        if let Answer::Completed(count) | Answer::Delivered { completed: count, .. } = answer {
            self.reported += count as usize;
        }
    }

    /// Closes each open write that no longer stands: it has completed.
    fn close(&mut self, server: &Server) {
        for object in 0..OBJECTS {
            if let Some(open) = self.open[object].take_if(|_| !server.stands(object)) {
                self.posted[object] = open.value;
                self.completed += 1;
            }
        }
    }
}

impl Ledger {
    /// Returns what the step broke, apart from reads.
    pub fn breach(&self, setup: &Setup, server: &Server, step: &Step, answer: Answer) -> Option<Breach> {
        let wrong_object = (0..setup.objects).find_map(|object| self.wrong_object(server, object));
        wrong_object.or_else(|| self.late(step, answer)).or_else(|| self.wrong_sum())
    }

    fn wrong_object(&self, server: &Server, object: u8) -> Option<Breach> {
        let at = usize::from(object);
        let (value, posted) = (server.value[at], self.posted[at]);
        if value != posted {
            return Some(Breach::Value { object, value, posted });
        }
        let standing = server.stands(at).then_some((server.write[at].value, server.write[at].latest_end));
        let open = self.open[at].map(|open| (open.value, open.latest_end));
        (standing != open).then_some(Breach::Standing { object })
    }

    fn late(&self, step: &Step, answer: Answer) -> Option<Breach> {
        if step.kind != CLOCK || matches!(answer, Answer::Refused(_)) {
            return None;
        }
        let mut open = (0..).zip(self.open).filter_map(|(object, open)| Some((object, open?.latest_end)));
        let (object, latest_end) = open.find(|(_, latest_end)| *latest_end < step.clock)?;
        Some(Breach::Late { object, latest_end, clock: step.clock })
    }

    fn wrong_sum(&self) -> Option<Breach> {
        let Ledger { accepted, completed, cut_off, reported, .. } = *self;
        let open = self.open_count();
        if completed != reported {
            return Some(Breach::Reported { completed, reported });
        }
        let sum = completed + cut_off + open;
        (accepted != sum).then_some(Breach::Sum { accepted, completed, cut_off, open })
    }
}

/// Returns the latest end of a write accepted now (02, A3): the greatest of
/// clock + m, guard and, over the clients waited for, the lesser of the two
/// leases. Since A6 these are the clients with both leases alive.
pub fn latest_end(setup: &Setup, tables: &Tables, object: usize) -> u32 {
    let (volume, server) = (setup.volume(object), &tables.server);
    let ends = members(setup.all_clients().into()).map(|client| {
        let by_volume = server.volume_expiry[volume][client];
        let by_object = server.object_expiry[object][client];
        if alive(by_object, tables.clock) && alive(by_volume, tables.clock) {
            by_volume.min(by_object)
        } else {
            0
        }
    });
    let leases = ends.max().unwrap_or(0);
    leases.max(tables.clock + setup.timeout).max(server.guard[volume])
}
