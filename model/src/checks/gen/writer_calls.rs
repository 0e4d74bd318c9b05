//! What callers lend the writer of run files (02, A5), in bytes and aimed at
//! its refusals: one thing wrong, only just right, or several things wrong at
//! once.

use crate::checked_writer::written;
use crate::gen::rng::Rng;
use crate::gen::{lent_setups, runs};
use crate::limits::{FILE_BYTES, STEP_BYTES};
use crate::runfile::distance;
use crate::step_record::Step;
use crate::unchecked_writer::{record, setup_bytes};

#[derive(Clone, Debug, PartialEq, Eq)]
pub struct WriterCall {
    pub note: Vec<u8>,
    pub setup: Vec<u8>,
    pub records: Vec<u8>,
    /// The bytes of the output.
    pub room: usize,
}

impl WriterCall {
    /// Makes a call with exactly the room that the file takes.
    fn new(note: &[u8], setup: &[u8], records: &[u8]) -> WriterCall {
        let room = note.len() + distance(0) + records.len();
        WriterCall { note: note.to_vec(), setup: setup.to_vec(), records: records.to_vec(), room }
    }

    /// Returns the file to be written, or the refusal.
    pub fn file(&self) -> Result<Vec<u8>, u8> {
        written(&self.note, &self.setup, &self.records, self.room)
    }
}

pub fn calls(seed: u64) -> Vec<WriterCall> {
    let mut rng = Rng::new(seed);
    let mut calls = Vec::new();
    whole_runs(seed, &mut calls);
    sizes(&mut rng, &mut calls);
    unused_fields(&mut rng, &mut calls);
    unknown_kinds(&mut rng, &mut calls);
    odd_lengths(&mut rng, &mut calls);
    bad_setups(&mut rng, &mut calls);
    calls
}

/// Returns the room that the file takes, one byte less, and more.
pub fn rooms(len: usize) -> [usize; 5] {
    [len, len - 1, len + 1, len + 100, 0]
}

fn with_rooms(call: WriterCall, calls: &mut Vec<WriterCall>) {
    calls.extend(rooms(call.room).map(|room| WriterCall { room, ..call.clone() }));
}

fn whole_runs(seed: u64, calls: &mut Vec<WriterCall>) {
    for number in 0..50 {
        let run = runs::run(seed, number);
        with_rooms(WriterCall::new(&run.note, &setup_bytes(&run.setup), &records(&run.steps)), calls);
    }
}

/// Adds files at and past the most steps, and at and past the most bytes.
fn sizes(rng: &mut Rng, calls: &mut Vec<WriterCall>) {
    for count in [0, 1, 3_999, 4_000, 4_001] {
        let (setup, steps) = (lent_setups::good(rng), some_steps(rng, count));
        let least = distance(count);
        for len in [least, FILE_BYTES - 1, FILE_BYTES, FILE_BYTES + 1] {
            with_rooms(WriterCall::new(&bytes(rng, len - least), &setup, &records(&steps)), calls);
        }
    }
    for setup in lent_setups::ends() {
        with_rooms(WriterCall::new(&[], &setup, &records(&some_steps(rng, 3))), calls);
    }
}

/// Adds each field of each known kind, used or not, as the only one that is not
/// 0, by its lowest bit and its highest; in the first, middle and last step.
fn unused_fields(rng: &mut Rng, calls: &mut Vec<WriterCall>) {
    let setup = lent_setups::good(rng);
    for step in (1..=11).flat_map(single_fields) {
        for place in [0, 3, 6] {
            let mut steps = some_steps(rng, 7);
            steps[place] = step;
            calls.push(WriterCall::new(b"odd", &setup, &records(&steps)));
        }
    }
}

fn single_fields(kind: u8) -> [Step; 10] {
    let zero = Step { kind, ..Step::default() };
    [
        Step { client: 1, ..zero },
        Step { client: 1 << 7, ..zero },
        Step { object: 1, ..zero },
        Step { object: 1 << 7, ..zero },
        Step { place: 1, ..zero },
        Step { place: 1 << 7, ..zero },
        Step { clock: 1, ..zero },
        Step { clock: 1 << 31, ..zero },
        Step { value: 1, ..zero },
        Step { value: 1 << 63, ..zero },
    ]
}

/// Adds unknown kinds, whose fields may hold anything: all in one file, then
/// one by one.
fn unknown_kinds(rng: &mut Rng, calls: &mut Vec<WriterCall>) {
    let setup = lent_setups::good(rng);
    let steps: Vec<Step> =
        (0..=255).filter(|kind| !(1..=11).contains(kind)).map(|kind| full(rng, kind)).collect();
    calls.push(WriterCall::new(b"unknown", &setup, &records(&steps)));
    for kind in [0, 12, 13, 17, 128, 255] {
        let alone = single_fields(kind).map(|step| WriterCall::new(&[], &setup, &record(&step)));
        calls.extend(alone);
    }
}

/// Adds records that do not end with a whole step.
fn odd_lengths(rng: &mut Rng, calls: &mut Vec<WriterCall>) {
    let setup = lent_setups::good(rng);
    for count in [0, 1, 5, 3_999, 4_000] {
        let steps = records(&some_steps(rng, count));
        for more in 1..STEP_BYTES {
            calls.push(WriterCall::new(&[], &setup, &[&steps[..], &vec![0; more]].concat()));
        }
    }
}

/// Adds bad setups with all else right, then with each reason for 10, and with
/// all of them.
fn bad_setups(rng: &mut Rng, calls: &mut Vec<WriterCall>) {
    let right = records(&some_steps(rng, 2));
    let odd = record(&Step { place: 1, ..Step::clock(0) });
    let many = records(&some_steps(rng, 4_001));
    let all = [&odd[..], &many, &[0]].concat();
    let good = lent_setups::good(rng);
    for setup in lent_setups::bad(rng).into_iter().chain([good]) {
        let call = |note: usize, records: &[u8]| WriterCall::new(&vec![b'n'; note], &setup, records);
        calls.push(call(3, &right));
        calls.push(call(3, &odd));
        calls.push(call(3, &right[1..]));
        calls.push(call(0, &many));
        calls.push(call(FILE_BYTES, &right));
        calls.push(WriterCall { room: 0, ..call(3, &right) });
        calls.push(WriterCall { room: 0, ..call(FILE_BYTES, &all) });
    }
}

pub fn bytes(rng: &mut Rng, len: usize) -> Vec<u8> {
    (0..len).map(|_| rng.draw() as u8).collect()
}

fn records(steps: &[Step]) -> Vec<u8> {
    steps.iter().flat_map(record).collect()
}

/// Returns steps of known kinds and a few unknown ones; the used fields hold
/// anything.
fn some_steps(rng: &mut Rng, count: usize) -> Vec<Step> {
    let any = |_| {
        let kind = rng.below(13) as u8;
        full(rng, kind).used_fields()
    };
    (0..count).map(any).collect()
}

fn full(rng: &mut Rng, kind: u8) -> Step {
    let (client, object, place) = (rng.draw() as u8, rng.draw() as u8, rng.draw() as u8);
    Step { kind, client, object, place, clock: rng.draw() as u32, value: rng.draw() }
}
