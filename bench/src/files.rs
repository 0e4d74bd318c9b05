//! Makes the run files that are timed, the same in every run of the program.

use std::fmt;

use gevtsomi::FILE_BYTES;
use model::answer::Answer;
use model::gen::builder::{Builder, BATCH};
use model::gen::random_steps;
use model::gen::rng::Rng;
use model::gen::setups::sized;
use model::limits::STEPS;
use model::runfile::parts;
use model::setup::Setup;
use model::step_record::{Step, RETURN, SAVE, WRITE};
use model::unchecked_writer::{setup_bytes, write};

/// The seed of the workload.
pub const SEED: u32 = 1;

pub struct Timed {
    pub name: &'static str,
    pub file: Vec<u8>,
    /// The average number of messages under way over the steps.
    pub queue: f64,
    /// The number of reads that were shown a copy.
    pub shown: usize,
    /// The number of writes that did not complete at once.
    pub waited: usize,
    /// The number of BATCHes delivered.
    pub batches: usize,
}

impl fmt::Display for Timed {
    fn fmt(&self, out: &mut fmt::Formatter) -> fmt::Result {
        let Timed { name, queue, shown, waited, batches, .. } = self;
        write!(out, "{name}; {queue:.0} messages under way on the average, ")?;
        write!(out, "{shown} reads shown, {waited} writes that waited, {batches} BATCHes delivered")
    }
}

/// Returns runs of the most steps: in the largest setup with the message list
/// mostly full, with messages delivered in time, and with parked clients; in the
/// smallest setup; and a workload.
pub fn runs() -> Vec<Timed> {
    vec![
        timed("16 clients, 8 volumes, 28 objects, by chance", largest(), by_chance),
        timed("16 clients, 8 volumes, 28 objects, delivered in time", largest(), in_time),
        timed("1 client, 1 volume, 1 object, by chance", sized(1, 1, 1), by_chance),
        load("3 clients, 2 volumes, 4 objects, a workload"),
        timed("16 clients, 8 volumes, 28 objects, clients parked", parking(), parked),
    ]
}

/// Returns a setup in which a workload does not tie objects to clients.
fn load_setup() -> Setup {
    spread(sized(3, 2, 4))
}

/// Returns the library's file of the timed workload.
pub fn load_file() -> Vec<u8> {
    let mut file = vec![0; FILE_BYTES];
    let setup = setup_bytes(&load_setup());
    let len = gevtsomi::workload(SEED, &[], &setup, STEPS as u32, &mut file).expect("room for any file");
    file.truncate(len);
    file
}

/// Returns the setup with the most clients, volumes and objects.
pub fn largest() -> Setup {
    spread(sized(16, 8, 28))
}

/// Returns the same with time for parked clients to come back.
fn parking() -> Setup {
    Setup { delay: 60, ..largest() }
}

/// Spreads the objects evenly over the volumes.
fn spread(mut setup: Setup) -> Setup {
    for object in 0..setup.objects {
        setup.volume_of[usize::from(object)] = object % setup.volumes;
    }
    setup
}

/// Builds a run to the most steps by calling `more`.
fn timed(name: &'static str, setup: Setup, more: fn(&mut Builder)) -> Timed {
    let mut builder = Builder::new(Rng::new(1), setup);
    while builder.steps.len() < STEPS {
        more(&mut builder);
    }
    described(name, write(&[], &setup, &builder.steps))
}

fn load(name: &'static str) -> Timed {
    described(name, load_file())
}

/// Counts what a run does.
fn described(name: &'static str, file: Vec<u8>) -> Timed {
    let run = parts(&file).expect("a run file");
    let mut builder = Builder::new(Rng::new(1), run.setup);
    let (mut messages, mut shown, mut waited, mut batches) = (0, 0, 0, 0);
    for step in run.steps() {
        let answer = builder.push(step);
        messages += builder.queue_len();
        shown += usize::from(matches!(answer, Answer::Shown(_)));
        waited += usize::from(step.kind == WRITE && answer == Answer::Done);
        batches +=
            usize::from(matches!(answer, Answer::Delivered { message, .. } if message.kind.code() == BATCH));
    }
    Timed { name, queue: messages as f64 / STEPS as f64, shown, waited, batches, file }
}

/// Takes a random step: reads, asks, writes and restarts, with the message list
/// mostly full, and some messages lost or doubled. Saves and returns are left
/// out: a kind of their own times them.
fn by_chance(builder: &mut Builder) {
    let steps = std::iter::repeat_with(|| random_steps::any(builder));
    let step = { steps }.find(|step| ![SAVE, RETURN].contains(&step.kind)).expect("steps without end");
    builder.push(step);
}

/// Takes a step of a run that delivers messages from the front before there are
/// many, and asks for few objects, so that copies are shown and writes wait.
fn in_time(builder: &mut Builder) {
    let (client, object) = (builder.any_client(), builder.any_object() % 4);
    let step = match builder.rng.below(100) {
        0..=29 => Step::read(client, object),
        30..=44 => Step::ask(client, object),
        45..=47 => Step::write(object, builder.rng.draw() >> 48),
        48 | 49 => Step::clock(builder.tables().clock + 1),
        50 => Step::lose(0),
        51 => Step::double(0),
        _ if builder.queue_len() > 0 => Step::deliver(0),
        _ => Step::read(client, object),
    };
    builder.push(step);
}

/// Takes a step of a run that delivers messages in time to clients that often
/// park: the clock goes past volume leases, writes are noted, and who asks again
/// gets a BATCH first. Clients ask for objects of two volumes.
fn parked(builder: &mut Builder) {
    let (client, object) = (builder.any_client(), builder.any_object() & 9);
    let step = match builder.rng.below(100) {
        0..=9 => Step::read(client, object),
        10..=29 => Step::ask(client, object),
        30..=33 => Step::write(object, builder.rng.draw() >> 48),
        34 => Step::clock(builder.tables().clock + 5),
        _ if builder.queue_len() > 0 => Step::deliver(0),
        _ => Step::read(client, object),
    };
    builder.push(step);
}

/// Returns the run with messages delivered in time, with a read at its end that
/// is answered "ask first", by an event shortly before.
pub fn asked_last() -> Vec<u8> {
    let file = &runs()[1].file;
    let run = parts(file).expect("a run file");
    let mut steps: Vec<Step> = run.steps().collect();
    steps[STEPS - 1] = Step::read(15, 3);
    write(&[], &run.setup, &steps)
}

/// Returns what a run grows by, with a run for each size: messages delivered in
/// time with more and more clients, and with more and more objects; and an ask
/// and a loss at the front in turn, with more and more messages under way.
pub fn growing() -> Vec<(&'static str, Vec<(usize, Vec<u8>)>)> {
    let delivered = |setup| timed("", spread(setup), in_time).file;
    let clients = [1, 4, 16].map(|n| (n.into(), delivered(sized(n, 8, 28))));
    let objects = [1, 8, 28].map(|n| (n.into(), delivered(sized(16, n.min(8), n))));
    let messages = [0, 16, 63].map(|n| (n, under_way(n)));
    vec![("clients", clients.into()), ("objects", objects.into()), ("messages under way", messages.into())]
}

fn under_way(messages: usize) -> Vec<u8> {
    let ask = Step::ask(0, 0);
    let turns = [ask, Step::lose(0)].into_iter().cycle();
    let steps: Vec<Step> = std::iter::repeat(ask).take(messages).chain(turns).take(STEPS).collect();
    write(&[], &largest(), &steps)
}

/// Returns the same file with a bad last step: an unused field is not 0. So the
/// file is read to its end and then refused.
pub fn refused_at_its_end(file: &[u8]) -> Vec<u8> {
    let mut file = file.to_vec();
    let last_step = file.len() - 8 - 16;
    file[last_step] = 2;
    file[last_step + 8] = 1;
    file
}

#[cfg(test)]
mod tests {
    use super::*;
    use crate::kinds::kinds;
    use crate::subjects::same;
    use model::runfile::read;

    #[test]
    fn every_file_has_the_most_steps_and_one_listing() {
        let grown = growing()
            .into_iter()
            .flat_map(|(name, sizes)| sizes.into_iter().map(move |(_, file)| (name, file)));
        let runs = runs().into_iter().map(|run| (run.name, run.file));
        let kinds = kinds().into_iter().map(|kind| (kind.name, kind.file));
        for (name, file) in runs.chain(kinds).chain(grown) {
            assert_eq!(read(&file).map(|run| run.len()), Ok(STEPS), "{name}");
            same(&file);
        }
    }

    #[test]
    fn copies_are_shown_and_writes_wait_where_messages_are_delivered() {
        let run = &runs()[1];
        assert!(run.shown > 0 && run.waited > 0, "{} and {}", run.shown, run.waited);
    }

    #[test]
    fn parked_clients_are_told_of_writes() {
        let run = &runs()[4];
        assert!(run.batches > 40 && run.shown > 0, "{} and {}", run.batches, run.shown);
    }

    #[test]
    fn the_file_that_is_read_to_its_end_is_refused() {
        assert_eq!(read(&refused_at_its_end(&runs()[0].file)), Err(9));
    }
}
