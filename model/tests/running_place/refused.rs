//! A scene by hand: refused steps come first, in the middle and last.

use model::gen::runs::Run;
use model::gen::setups::sized;
use model::listing::{listing, listing_trusting};
use model::runfile::read;
use model::step_record::Step;

use crate::common::Bench;
use crate::reader::Reader;

const LISTING: &str = "\
step answer value
1 4 3
2 3 1
3 0 0
4 4 4
5 4 2
6 0 0
7 2 0
8 4 3
9 0 0
10 0 0
11 0 0
12 4 3
13 0 0
14 0 0
15 0 0
16 1 7
17 0 0
18 4 5
19 0 0
20 3 1
21 4 3
";

/// Returns a run of one client and one object. The client gets an offer, then
/// is granted 7; the write of 8 waits for its ACK.
pub fn scene() -> Run {
    let (read, ask, deliver) = (Step::read(0, 0), Step::ask(0, 0), Step::deliver(0));
    let unknown = Step { kind: 255, client: 255, object: 255, place: 255, clock: u32::MAX, value: u64::MAX };
    let opening = [deliver, Step::write(0, 7), Step::clock(5), Step::clock(4), unknown];
    let offered = [ask, read, Step::read(1, 0), deliver, deliver, deliver, deliver];
    let granted = [ask, deliver, deliver, read];
    let written = [Step::write(0, 8), Step::write(0, 9), deliver, deliver, deliver];
    let steps = [&opening[..], &offered, &granted, &written].concat();
    Run { note: b"refused".to_vec(), setup: sized(1, 1, 1), steps }
}

/// Returns whether the step is refused, by its line in the listing; steps count
/// from 1.
fn refused(number: usize) -> bool {
    let line = LISTING.lines().nth(number).expect("a line for each step");
    line.split(' ').nth(1) == Some("4")
}

/// Returns the scene with only this one of its refused steps. They change
/// nothing, so the others answer as before.
fn with_alone(number: usize) -> Run {
    let mut run = scene();
    let stays = |other: usize| other == number || !refused(other);
    run.steps = (1..).zip(run.steps).filter(|(other, _)| stays(*other)).map(|(_, step)| step).collect();
    run
}

#[test]
fn the_listing_is_the_one_by_hand() {
    let file = scene().file();
    assert_eq!(String::from_utf8(listing(&file)).unwrap(), LISTING);
    assert_eq!(listing_trusting(&file), LISTING.as_bytes());
}

/// A place that stays reads the same record again, and it is refused again.
/// Only after the last step is there nothing left to miss.
#[test]
fn every_refused_step_is_passed_over() {
    let stays = |run: &Run| Reader::STAYS.listing(&run.setup, &run.file());
    assert_ne!(stays(&scene()), LISTING.as_bytes());
    let count = scene().steps.len();
    for number in (1..=count).filter(|&number| refused(number)) {
        let run = with_alone(number);
        let changed = stays(&run) != listing(&run.file());
        assert_eq!(changed, number < count, "step {number}");
    }
    assert!(refused(1) && refused(count));
}

/// That it moves past the last one, too, shows only at the place.
#[test]
fn the_place_moves_on_after_each_step_refused_or_not() {
    let file = scene().file();
    let run = read(&file).expect("an accepted file");
    let mut bench = Bench::of(run.setup);
    let (mut steps, mut taken) = (run.steps(), 0);
    while let Some(step) = steps.next() {
        taken += 1;
        assert_eq!(bench.line(step).0 == 4, refused(taken));
        assert_eq!(steps.place(), b"refused".len() + 48 + 16 * taken);
    }
    assert_eq!((taken, steps.place()), (scene().steps.len(), file.len() - 8));
}
