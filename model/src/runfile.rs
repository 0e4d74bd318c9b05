//! The run file reader (01, Frame, run file and listing).

use crate::limits::{BAD_FILE, FILE_BYTES, OBJECTS, SETUP_BYTES, STEPS, STEP_BYTES, TRAILER_BYTES};
use crate::setup::{OutOfRange, Setup};
use crate::step_record::Step;

/// The parts of a run file; note and step records are slices of the caller's
/// bytes.
#[derive(Clone, Copy, Debug, PartialEq, Eq)]
pub struct RunFile<'a> {
    pub note: &'a [u8],
    pub setup: Setup,
    /// Everything before the trailer, so that an index here is one in the file.
    body: &'a [u8],
}

impl<'a> RunFile<'a> {
    pub fn len(&self) -> usize {
        self.steps().len()
    }

    pub fn is_empty(&self) -> bool {
        self.len() == 0
    }

    /// Returns where the setup begins: everything before it is the note.
    pub fn setup_place(&self) -> usize {
        self.note.len()
    }

    pub fn steps(&self) -> Steps<'a> {
        Steps { body: self.body, place: self.setup_place() + SETUP_BYTES }
    }
}

/// Iterates over the step records with a running place (02, A2). Setup and
/// trailer have whole records between them, so it ends at the trailer.
#[derive(Clone, Debug)]
pub struct Steps<'a> {
    body: &'a [u8],
    place: usize,
}

impl Steps<'_> {
    /// Returns where the next record begins in the file; after the last one,
    /// the trailer.
    pub fn place(&self) -> usize {
        self.place
    }
}

impl Iterator for Steps<'_> {
    type Item = Step;

    #[inline]
    fn next(&mut self) -> Option<Step> {
        let record = self.body.get(self.place..)?.first_chunk()?;
        self.place += STEP_BYTES;
        Some(read_step(record))
    }

    fn size_hint(&self) -> (usize, Option<usize>) {
        let left = (self.body.len() - self.place) / STEP_BYTES;
        (left, Some(left))
    }
}

impl ExactSizeIterator for Steps<'_> {}

/// Where d stands in a setup.
const DELAY_PLACE: usize = 16 + OBJECTS;

/// Returns the distance from the file's end back to the setup.
pub fn distance(count: usize) -> usize {
    SETUP_BYTES + TRAILER_BYTES + STEP_BYTES * count
}

/// Why a file is refused: the first thing wrong with it. The numbers are what
/// was found.
#[derive(Clone, Copy, Debug, PartialEq, Eq)]
pub enum Fault {
    TooLong(usize),
    TooShort(usize),
    /// The trailer's step count is above the limit.
    Count(u32),
    /// The trailer's distance does not match its count.
    Distance {
        count: usize,
        found: u32,
    },
    /// The file is too short for the trailer's steps.
    Missing {
        count: usize,
        len: usize,
    },
    /// The setup's fourth byte is not 0.
    Spare(u8),
    Setup(OutOfRange),
    /// A field that the step's kind does not use is not 0; steps count from 1.
    Unused {
        number: usize,
        step: Step,
    },
}

/// Returns the file's parts, or refusal 9.
pub fn read(file: &[u8]) -> Result<RunFile<'_>, u8> {
    parts(file).map_err(|_| BAD_FILE)
}

/// Returns the same with the reason. The trailer is read first: the note may
/// have any length, so only the distance tells where the setup begins.
pub fn parts(file: &[u8]) -> Result<RunFile<'_>, Fault> {
    if file.len() > FILE_BYTES {
        return Err(Fault::TooLong(file.len()));
    }
    if file.len() < distance(0) {
        return Err(Fault::TooShort(file.len()));
    }
    let (body, trailer) = file.split_at(file.len() - TRAILER_BYTES);
    let setup_place = file.len() - distance_back(trailer, file.len())?;
    let (note, shaped) = body.split_at(setup_place);
    let run = RunFile { note, setup: read_setup(&shaped[..SETUP_BYTES])?, body };
    let mut numbered = run.steps().zip(1..);
    match numbered.find(|(step, _)| *step != step.used_fields()) {
        Some((step, number)) => Err(Fault::Unused { number, step }),
        None => Ok(run),
    }
}

/// Returns the distance that the trailer gives, if it is right.
fn distance_back(trailer: &[u8], len: usize) -> Result<usize, Fault> {
    let (count, found) = (word(trailer, 0), word(trailer, 4));
    if count as usize > STEPS {
        return Err(Fault::Count(count));
    }
    let count = count as usize;
    if found as usize != distance(count) {
        return Err(Fault::Distance { count, found });
    }
    if distance(count) > len {
        return Err(Fault::Missing { count, len });
    }
    Ok(distance(count))
}

/// Reads a setup from its 48 bytes. "In the last four volume bytes" is d (02,
/// A6).
pub fn read_setup(bytes: &[u8]) -> Result<Setup, Fault> {
    let mut volume_of = [0; OBJECTS];
    volume_of.copy_from_slice(&bytes[16..DELAY_PLACE]);
    let setup = Setup {
        clients: bytes[0],
        volumes: bytes[1],
        objects: bytes[2],
        volume_lease: word(bytes, 4),
        object_lease: word(bytes, 8),
        timeout: word(bytes, 12),
        delay: word(bytes, DELAY_PLACE),
        volume_of,
    };
    match (bytes[3], setup.out_of_range()) {
        (0, None) => Ok(setup),
        (0, Some(out)) => Err(Fault::Setup(out)),
        (spare, _) => Err(Fault::Spare(spare)),
    }
}

pub fn read_step(bytes: &[u8; STEP_BYTES]) -> Step {
    Step {
        kind: bytes[0],
        client: bytes[1],
        object: bytes[2],
        place: bytes[3],
        clock: word(bytes, 4),
        value: u64::from(word(bytes, 8)) | u64::from(word(bytes, 12)) << 32,
    }
}

fn word(bytes: &[u8], at: usize) -> u32 {
    u32::from_le_bytes([bytes[at], bytes[at + 1], bytes[at + 2], bytes[at + 3]])
}
