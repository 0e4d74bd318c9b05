//! Everything that a step gets, to be changed field by field.

use crate::answer::Answer;
use crate::cases::free::settle;
use crate::cases::saved::CaseSaved;
use crate::cases::state::CaseState;
use crate::limits::OBJECTS;
use crate::mistakes::Mistakes;
use crate::queue::Queue;
use crate::setup::Setup;
use crate::state::Saved;
use crate::step_record::Step;
use crate::world::World;

#[derive(Clone, Debug)]
pub struct CaseTables {
    pub(super) setup: Setup,
    pub(crate) present: CaseState,
    pub(super) saved: CaseSaved,
    /// How many copies and how many requests are lent.
    pub(super) copies_lent: usize,
    pub(super) requests_lent: usize,
}

impl CaseTables {
    /// Returns fresh tables and records, nothing saved, and a setup of zeros.
    pub fn fresh() -> CaseTables {
        let setup = Setup {
            clients: 0,
            volumes: 0,
            objects: 0,
            volume_lease: 0,
            object_lease: 0,
            timeout: 0,
            delay: 0,
            volume_of: [0; OBJECTS],
        };
        let (present, saved) = (CaseState::fresh(), CaseSaved::none());
        CaseTables { setup, present, saved, copies_lent: 0, requests_lent: 0 }
    }

    /// Lends as many records as the setup has, so that a case about the setup
    /// is not one about their number.
    pub(super) fn lend_all(&mut self) {
        self.requests_lent = usize::from(self.setup.clients);
        self.copies_lent = self.requests_lent * usize::from(self.setup.objects);
    }

    /// Asks all questions, then takes the step.
    pub fn take(&mut self, rules: Mistakes, record: &Step) -> Answer {
        let before = self.clone();
        let answer = match self.lists(rules, record) {
            Ok((queue, asked)) => self.asked_and_taken(rules, record, queue, asked),
            Err(number) => Answer::Refused(number),
        };
        if !matches!(answer, Answer::Refused(_)) {
            settle(&before, self, record);
            self.present.keep_list();
        } else {
            rules.rows.refused(self);
        }
        answer
    }

    /// Reads all rows as messages: the present list, and the saved states with
    /// theirs. Returns the refusal if a row asked about is no message.
    fn lists(&self, rules: Mistakes, record: &Step) -> Result<(Queue, Saved), u8> {
        let queue = self.present.list(rules, record, true)?;
        Ok((queue, self.saved.asked(rules, record)?))
    }

    fn asked_and_taken(&mut self, rules: Mistakes, record: &Step, queue: Queue, mut asked: Saved) -> Answer {
        let (setup, present) = (&self.setup, &mut self.present);
        let copies = self.copies_lent.min(present.copies.len());
        let requests = self.requests_lent.min(present.requests.len());
        present.tables.queue = queue;
        let (tables, copies) = (&mut present.tables, &mut present.copies[..copies]);
        let requests = &mut present.requests[..requests];
        let mut world = World { setup, tables, copies, requests, saved: &mut asked };
        if !rules.sound.sound(&world) {
            return Answer::Refused(rules.rows.unsound(record));
        }
        let before = self.saved.there(std::mem::take(world.saved));
        *world.saved = before.clone();
        let answer = rules.step(&mut world, record);
        self.keep_saved(record, answer, &before, &asked);
        answer
    }
}
