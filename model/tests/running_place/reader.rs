//! A small separate reader, which may make a mistake in its running place. It
//! is for files whose trailer and setup are right.

use std::io::Write;

use model::answer::Answer;
use model::setup::Setup;
use model::state::Machine;
use model::step_call::step_sound;
use model::step_record::{Step, CLOCK, RETURN};

use crate::bytes::{setup_place, step_count, step_in};

#[derive(Clone, Copy, Debug, PartialEq, Eq)]
pub enum Mistake {
    Adds15,
    /// Adds 16 before the record is read, not after it.
    AddsFirst,
    /// Begins at the setup, without the 48.
    StartsAtSetup,
    /// Adds nothing after a refused step. The shape check takes no steps; there
    /// it is a record of an unknown kind, of which nothing is asked.
    StaysAtRefused,
}

impl Mistake {
    const EACH: [Mistake; 4] =
        [Mistake::Adds15, Mistake::AddsFirst, Mistake::StartsAtSetup, Mistake::StaysAtRefused];
}

struct Running<'a> {
    file: &'a [u8],
    place: usize,
    mistake: Option<Mistake>,
}

impl<'a> Running<'a> {
    fn new(file: &'a [u8], mistake: Option<Mistake>) -> Running<'a> {
        let setup_bytes = if mistake == Some(Mistake::StartsAtSetup) { 0 } else { 48 };
        Running { file, place: setup_place(file) + setup_bytes, mistake }
    }

    /// Returns none if the record would reach past the file.
    fn record(&mut self) -> Option<Step> {
        if self.mistake == Some(Mistake::AddsFirst) {
            self.place += 16;
        }
        self.file.get(self.place..self.place + 16).map(step_in)
    }

    fn move_on(&mut self, refused: bool) {
        self.place += match self.mistake {
            Some(Mistake::Adds15) => 15,
            Some(Mistake::AddsFirst) => 0,
            Some(Mistake::StaysAtRefused) if refused => 0,
            _ => 16,
        };
    }
}

/// The mistake of the shape check, and that of the run.
#[derive(Clone, Copy, Debug, PartialEq, Eq)]
pub struct Reader {
    check: Option<Mistake>,
    run: Option<Mistake>,
}

impl Reader {
    pub const RIGHT: Reader = Reader { check: None, run: None };
    pub const STAYS: Reader = Reader { check: None, run: Some(Mistake::StaysAtRefused) };

    /// Returns each mistake in the check alone, in the run alone, and in both.
    pub fn wrong() -> Vec<Reader> {
        let readers = |mistake| {
            let check = Some(mistake);
            [Reader { check, run: None }, Reader { check: None, run: check }, Reader { check, run: check }]
        };
        Mistake::EACH.into_iter().flat_map(readers).collect()
    }

    /// Returns the listing. Both passes go by the step count, so they end
    /// whatever the place does.
    pub fn listing(self, setup: &Setup, file: &[u8]) -> Vec<u8> {
        let mut lines = b"step answer value\n".to_vec();
        if self.shaped(file) {
            self.run(setup, file, &mut lines);
        } else {
            lines.extend_from_slice(b"0 4 9\n");
        }
        lines
    }

    fn shaped(self, file: &[u8]) -> bool {
        let mut running = Running::new(file, self.check);
        (0..step_count(file)).all(|_| {
            let record = running.record();
            running.move_on(record.is_some_and(|step| !(CLOCK..=RETURN).contains(&step.kind)));
            record.is_some_and(|step| step == step.used_fields())
        })
    }

    fn run(self, setup: &Setup, file: &[u8], lines: &mut Vec<u8>) {
        let mut machine = Machine::fresh();
        let mut world = machine.world(setup);
        let mut running = Running::new(file, self.run);
        for number in 1..=step_count(file) {
            let Some(record) = running.record() else {
                return;
            };
            let answer = step_sound(&mut world, &record);
            running.move_on(matches!(answer, Answer::Refused(_)));
            let (answer, value) = answer.numbers();
            writeln!(lines, "{number} {answer} {value}").expect("a vector takes every byte");
        }
    }
}
