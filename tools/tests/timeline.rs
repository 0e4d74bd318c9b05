//! The timeline of generated runs, compared with the model's tables at each
//! step.

mod common;

use std::collections::BTreeMap;

use common::with_returns;
use model::gen::runs::{run, Run};
use tools::timeline::flights::{End, Flights};
use tools::timeline::tracks::Track;
use tools::timeline::{tracks, Timeline};
use tools::trace::walk;

/// The flights under way are the model's queue, in order.
#[test]
fn flights_follow_the_queue() {
    let mut ends = [0; 5];
    for number in 0..200 {
        let mut flights = Flights::default();
        walk(&with_returns(run(5, number)), |moment| {
            flights.follow(moment);
            assert!(flights.queue().eq(moment.after.tables.queue.messages().iter().copied()));
        });
        for flight in &flights.all {
            ends[match flight.end {
                End::UnderWay => 0,
                End::Delivered(_) => 1,
                End::Lost(_) => 2,
                End::QueueFull => 3,
                End::Left(_) => 4,
            }] += 1;
        }
    }
    assert!(ends.iter().all(|&count| count > 50), "{ends:?}");
}

/// The flights under way after a step are, in order, the queue at that time.
#[test]
fn flights_know_when_they_are_under_way() {
    for number in 2..50 {
        let run = with_returns(run(9, number));
        let flights = Timeline::new(&run).flights;
        walk(&run, |moment| {
            let under_way = flights.iter().filter(|flight| flight.under_way_after(moment.number));
            let queue = moment.after.tables.queue.messages();
            assert!(under_way.map(|flight| flight.message).eq(queue.iter().copied()), "run {number}");
        });
    }
}

/// A full queue loses what a queue with room would have taken.
#[test]
fn messages_to_a_full_queue_are_noted() {
    use model::step_record::Step;
    let setup = model::gen::setups::sized(2, 1, 1);
    let hold = |client| [Step::ask(client, 0), Step::deliver(0), Step::deliver(0), Step::deliver(0)];
    let granted = |client| [Step::ask(client, 0), Step::deliver(0), Step::deliver(0)];
    let steps =
        [&hold(0)[..], &granted(0), &hold(1), &granted(1), &[Step::ask(0, 0)], &[Step::double(0); 62]]
            .concat();
    let lost = |step: Step| {
        let steps = [&steps[..], &[step]].concat();
        let timeline = Timeline::new(&Run { note: Vec::new(), setup, steps });
        timeline.flights.iter().filter(|flight| flight.end == End::QueueFull).count()
    };
    assert_eq!((lost(Step::ask(1, 0)), lost(Step::write(0, 7)), lost(Step::double(3))), (0, 1, 0));
    let mut full = steps.clone();
    full.push(Step::ask(1, 0));
    let timeline =
        |step| Timeline::new(&Run { note: Vec::new(), setup, steps: [&full[..], &[step]].concat() });
    for (step, count) in
        [(Step::ask(1, 0), 1), (Step::write(0, 7), 2), (Step::double(3), 1), (Step::deliver(0), 0)]
    {
        let flights = timeline(step).flights;
        assert_eq!(flights.iter().filter(|flight| flight.end == End::QueueFull).count(), count, "{step:?}");
    }
}

/// At each step the spans that cover it are what the tables hold.
#[test]
fn spans_cover_what_the_tables_hold() {
    for number in (0..100).filter(|number| number % 50 > 1) {
        let run = with_returns(run(6, number));
        let timeline = Timeline::new(&run);
        walk(&run, |moment| {
            let covers = |from: usize, to: Option<usize>| {
                from <= moment.number && to.is_none_or(|to| moment.number < to)
            };
            let spans = timeline.spans.iter().filter(|span| covers(span.from, span.to));
            let covered: BTreeMap<_, _> = spans.map(|span| (span.track, span.detail)).collect();
            assert_eq!(covered, tracks::of(moment.setup, moment.after));
        });
    }
}

/// The notes and batches shown after a step are those of the server's tables.
/// Meanwhile the client has no lease on the volume, whose row they use.
#[test]
fn notes_are_the_servers() {
    let (mut noted, mut sent) = (0, 0);
    for number in (0..200).filter(|number| number % 50 > 1) {
        let run = run(10, number);
        let spans = Timeline::new(&run).spans;
        walk(&run, |moment| {
            let (step, server) = (moment.number, moment.server());
            let now = |track| {
                let mut of_track = spans.iter().filter(|span| span.track == track && span.from <= step);
                of_track.find(|span| span.to.is_none_or(|to| step < to)).map(|span| span.detail)
            };
            let pairs = (0..16).flat_map(|client| moment.volumes().map(move |volume| (client, volume)));
            for (client, volume) in pairs {
                let (set, batch) = (server.notes[volume][client], server.batch[volume][client]);
                let shown = now(Track::Notes(client, volume));
                let told = shown.map_or((0, 0), |notes| (notes.value, notes.version));
                assert_eq!(told, (set.into(), batch), "run {number}, step {step}");
                let lease = now(Track::VolumeLease(client, volume));
                assert!(shown.is_none() || lease.is_none(), "run {number}, step {step}");
                (noted, sent) = (noted + usize::from(set != 0), sent + usize::from(batch != 0));
            }
        });
    }
    assert!(noted > 500 && sent > 100, "{noted} {sent}");
}

#[test]
fn steps_have_the_models_answers() {
    for number in 0..60 {
        let run = with_returns(run(8, number));
        let mut listing = String::from("step answer value\n");
        for (place, view) in Timeline::new(&run).steps.iter().enumerate() {
            let (answer, value) = view.answer.numbers();
            listing += &format!("{} {answer} {value}\n", place + 1);
        }
        assert_eq!(listing.as_bytes(), model::listing::listing(&run.file()));
    }
}
