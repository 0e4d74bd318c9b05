//! Each sentence of A7 of document 02, named states, by hand.

mod common;

use common::{setup, Bench};
use model::answer::Answer;
use model::checked_writer::write_checked;
use model::listing::listing;
use model::message::{Batch, Kind, Message};
use model::requests::Standing;
use model::runfile::read;
use model::state::State;
use model::step_record::*;
use model::unchecked_writer::write;

const PAST: u32 = 2_148_483_648;

/// Returns tables with leases, copies, a standing write, notes, a standing
/// request and messages under way, at 12.
fn in_use() -> Bench {
    let mut bench = Bench::fresh();
    bench.hold(1, 0);
    bench.hold(2, 2);
    bench.all(&[Step::clock(10), Step::write(0, 7), Step::clock(12)]);
    bench.hold(0, 1);
    bench.all(&[Step::write(1, 9), Step::ask(2, 3), Step::double(1)]);
    bench
}

/// One step of each kind that is accepted in that state.
const EVERY_KIND: [Step; 9] = [
    Step { kind: CLOCK, clock: 30, ..NONE },
    Step { kind: READ, ..NONE },
    Step { kind: ASK, client: 1, object: 2, ..NONE },
    Step { kind: WRITE, object: 3, value: 5, ..NONE },
    Step { kind: DELIVER, ..NONE },
    Step { kind: LOSE, place: 1, ..NONE },
    Step { kind: DOUBLE, ..NONE },
    Step { kind: RESTART_SERVER, ..NONE },
    Step { kind: RESTART_CLIENT, client: 2, ..NONE },
];

const NONE: Step = Step { kind: 0, client: 0, object: 0, place: 0, clock: 0, value: 0 };

#[test]
fn two_new_step_kinds_with_the_name_in_the_place_field() {
    assert_eq!(Step::save(2), Step { kind: 10, place: 2, ..NONE });
    assert_eq!(Step::return_to(3), Step { kind: 11, place: 3, ..NONE });
    let mut bench = Bench::fresh();
    assert_eq!(bench.line(Step { kind: 10, place: 2, ..NONE }), (0, 0));
    assert_eq!(bench.line(Step { kind: 11, place: 2, ..NONE }), (0, 0));
}

#[test]
fn four_named_states() {
    let mut bench = Bench::fresh();
    for name in 0..4 {
        bench.all(&[Step::clock(10 + u32::from(name)), Step::save(name)]);
    }
    for name in [2, 0, 3, 1, 1] {
        bench.all(&[Step::return_to(name)]);
        assert_eq!(bench.state.tables.clock, 10 + u32::from(name));
    }
}

/// Whatever steps there were in between, and in each order of two.
#[test]
fn returning_restores_everything_exactly() {
    for first in EVERY_KIND {
        for second in EVERY_KIND {
            let mut bench = in_use();
            let before = bench.state;
            assert_eq!(bench.line(Step::save(1)), (0, 0));
            assert!(bench.state == before, "a save changes nothing else");
            bench.step(first);
            bench.step(second);
            assert_eq!(bench.line(Step::return_to(1)), (0, 0));
            assert!(bench.state == before, "{first:?} {second:?}");
        }
    }
}

#[test]
fn each_of_these_steps_changes_something() {
    for step in EVERY_KIND.into_iter().filter(|step| step.kind != READ) {
        let mut bench = in_use();
        let before = bench.state;
        assert_ne!(bench.step(step).numbers().0, 4, "{step:?}");
        assert!(bench.state != before, "{step:?}");
    }
}

#[test]
fn returning_leaves_the_four_saved_states() {
    let mut bench = Bench::fresh();
    bench.all(&[Step::save(0), Step::clock(1), Step::save(1), Step::clock(2), Step::save(2)]);
    let saved = bench.saved.clone();
    for name in [0, 2, 1, 0, 0, 1] {
        bench.all(&[Step::return_to(name)]);
        assert!(bench.saved == saved);
    }
}

#[test]
fn no_other_step_touches_a_saved_state() {
    for step in EVERY_KIND {
        let mut bench = in_use();
        bench.all(&[Step::save(0), Step::save(3)]);
        let saved = bench.saved.clone();
        bench.step(step);
        assert!(bench.saved == saved, "{step:?}");
    }
}

#[test]
fn saving_over_a_used_name_replaces_it() {
    let mut bench = Bench::fresh();
    bench.all(&[Step::save(2), Step::clock(5), Step::save(2), Step::clock(9), Step::return_to(2)]);
    assert_eq!(bench.state.tables.clock, 5);
    assert!(bench.saved[0].is_none() && bench.saved[1].is_none() && bench.saved[3].is_none());
}

#[test]
fn copies_shown_are_judged_along_the_line() {
    let mut bench = Bench::fresh();
    bench.hold(0, 0);
    bench.all(&[Step::save(0), Step::write(0, 5), Step::deliver(0), Step::deliver(0)]);
    bench.hold(0, 0);
    assert_eq!(bench.line(Step::read(0, 0)), (1, 5));
    bench.all(&[Step::save(1), Step::return_to(0)]);
    assert_eq!(bench.line(Step::read(0, 0)), (1, 0));
    assert_eq!(bench.state.tables.server.version[0], 1);
    bench.all(&[Step::return_to(1)]);
    assert_eq!(bench.line(Step::read(0, 0)), (1, 5));
}

/// The write completes on the branch, and again after the return, at the same
/// end; a second one is refused in between.
#[test]
fn ends_of_writes_are_judged_along_the_line() {
    let mut bench = Bench::fresh();
    bench.hold(0, 0);
    bench.all(&[Step::write(0, 5), Step::save(0)]);
    let end = bench.state.tables.server.write[0].latest_end;
    for value in [6, 7] {
        assert_eq!(bench.line(Step::write(0, value)), (4, 5));
        assert_eq!(bench.line(Step::clock(end)), (0, 0));
        assert_eq!(bench.line(Step::clock(end + 1)), (3, 1));
        assert_eq!(bench.line(Step::write(0, value)), (3, 1));
        bench.all(&[Step::return_to(0)]);
        assert_eq!(bench.state.tables.server.value[0], 0);
    }
    bench.all(&[Step::deliver(0)]);
    assert_eq!(bench.line(Step::deliver(0)), (3, 1));
}

#[test]
fn the_clock_goes_back() {
    let mut bench = Bench::fresh();
    bench.all(&[Step::clock(20), Step::save(0), Step::clock(50), Step::return_to(0)]);
    assert_eq!(bench.line(Step::clock(19)), (4, 4));
    assert_eq!(bench.line(Step::clock(20)), (0, 0));
    assert_eq!(bench.line(Step::clock(49)), (0, 0));
}

/// The server has not seen the number of the branch, and its RENEW is gone.
#[test]
fn request_numbers_come_again() {
    let mut bench = Bench::fresh();
    bench.all(&[Step::save(0)]);
    for _ in 0..3 {
        bench.all(&[Step::ask(0, 0)]);
        let renew = Kind::Renew { object: 0, number: 1, epoch: 0, version: 0 };
        assert_eq!(bench.queue(), [Message { client: 0, kind: renew }]);
        bench.deliver_all();
        bench.all(&[Step::return_to(0)]);
        assert!(bench.queue().is_empty());
    }
}

#[test]
fn a_message_under_way_at_the_save_arrives_on_both_sides_of_the_return() {
    let mut bench = Bench::fresh();
    bench.hold(0, 0);
    bench.all(&[Step::restart_client(0), Step::ask(0, 0)]);
    bench.deliver_all();
    bench.all(&[Step::ask(0, 0), Step::deliver(0), Step::save(0)]);
    for _ in 0..2 {
        assert_eq!(bench.line(Step::read(0, 0)), (2, 0));
        bench.all(&[Step::deliver(0)]);
        assert_eq!(bench.line(Step::read(0, 0)), (1, 0));
        bench.all(&[Step::return_to(0)]);
    }
}

type Change = fn(&mut State);

/// What makes a state unsound, each by itself.
const UNSOUND: [Change; 16] = [
    |s| s.tables.clock = 2_147_483_648,
    |s| s.tables.server.epoch[1] = 0,
    |s| s.tables.server.version[3] = 0,
    |s| s.tables.server.version[1] = u32::MAX,
    |s| s.tables.server.guard[1] = PAST,
    |s| s.tables.server.volume_expiry[1][2] = PAST,
    |s| s.tables.server.object_expiry[3][2] = PAST,
    |s| s.tables.server.write[1].latest_end = PAST,
    |s| s.tables.server.notes[0][2] = 1 << 2,
    |s| s.tables.clients.expiry[2][1] = PAST,
    |s| s.tables.queue.len = 65,
    |s| s.tables.queue.places[0].client = 3,
    |s| s.tables.queue.places[0].kind = Kind::Batch(Batch { volume: 1, number: 1, epoch: 1, set: 1 }),
    |s| s.parts(&setup()).1[11].expiry = PAST,
    |s| s.parts(&setup()).2[2].standing = Some(Standing { number: 1, object: 4 }),
    |s| s.parts(&setup()).2[0].next = 0,
];

fn saved(bench: &mut Bench, name: usize) -> &mut State {
    bench.saved[name].as_mut().expect("saved before")
}

#[test]
fn a_saved_state_must_be_sound_too() {
    let named = (0..=4).flat_map(|name| [Step::save(name), Step::return_to(name)]);
    let steps: Vec<Step> =
        EVERY_KIND.into_iter().chain(named).chain([NONE, Step { kind: 12, ..NONE }]).collect();
    for (place, change) in UNSOUND.into_iter().enumerate() {
        let mut bench = in_use();
        bench.all(&[Step::save(0), Step::save(1), Step::save(2), Step::save(3)]);
        change(saved(&mut bench, place % 4));
        let before = (bench.state, bench.saved.clone());
        for &step in &steps {
            assert_eq!(bench.step(step), Answer::Refused(1), "change {place}, {step:?}");
        }
        assert!((bench.state, bench.saved.clone()) == before);
    }
}

/// Not even a save under that name, or a return, helps.
#[test]
fn a_return_does_not_mend_the_present_tables() {
    for (place, change) in UNSOUND.into_iter().enumerate() {
        let mut bench = in_use();
        bench.all(&[Step::save(0)]);
        change(&mut bench.state);
        for step in [Step::return_to(0), Step::save(0), Step::return_to(1), Step::save(4)] {
            assert_eq!(bench.step(step), Answer::Refused(1), "change {place}, {step:?}");
        }
    }
}

#[test]
fn eleven_when_the_name_is_above_3_or_was_never_saved() {
    let mut bench = in_use();
    bench.all(&[Step::save(1)]);
    let before = (bench.state, bench.saved.clone());
    for name in 4..=255 {
        assert_eq!(bench.line(Step::save(name)), (4, 11));
        assert_eq!(bench.line(Step::return_to(name)), (4, 11));
    }
    for name in [0, 2, 3] {
        assert_eq!(bench.line(Step::return_to(name)), (4, 11));
    }
    assert!((bench.state, bench.saved.clone()) == before);
}

/// And before the others, which ask nothing of a name: it is no place, and the
/// fields that are not used may hold anything.
#[test]
fn after_the_kind_question() {
    let mut bench = Bench::fresh();
    bench.all(&[Step::clock(5)]);
    let any = Step { kind: 12, client: 255, object: 255, place: 4, clock: 4, value: 1 };
    assert_eq!(bench.line(any), (4, 2));
    assert_eq!(bench.line(Step { kind: SAVE, ..any }), (4, 11));
    assert_eq!(bench.line(Step { kind: RETURN, ..any }), (4, 11));
    assert_eq!(bench.line(Step { kind: RETURN, place: 3, ..any }), (4, 11));
    assert_eq!(bench.line(Step { kind: SAVE, place: 3, ..any }), (0, 0));
    assert_eq!(bench.line(Step { kind: RETURN, place: 3, ..any }), (0, 0));
}

/// A name above 3 is no fault of a file's shape; another field that is not 0 is.
#[test]
fn files_with_saves_and_returns() {
    for step in [Step::save(0), Step::return_to(3), Step::save(4), Step::return_to(255)] {
        let file = write_checked(b"note", &setup(), &[step], 200).expect("a file");
        assert!(read(&file).expect("an accepted file").steps().eq([step]));
        for odd in [
            Step { client: 1, ..step },
            Step { object: 1, ..step },
            Step { clock: 1, ..step },
            Step { value: 1, ..step },
        ] {
            assert_eq!(write_checked(b"note", &setup(), &[odd], 200), Err(10), "{odd:?}");
            assert_eq!(read(&write(b"note", &setup(), &[odd])), Err(9), "{odd:?}");
        }
    }
}

#[test]
fn a_listing() {
    let steps = [
        Step::return_to(0),
        Step::write(0, 5),
        Step::save(0),
        Step::write(0, 6),
        Step::return_to(0),
        Step::return_to(1),
        Step::save(4),
        Step::clock(9),
        Step::return_to(0),
        Step::clock(8),
    ];
    let lines =
        "step answer value\n1 4 11\n2 3 1\n3 0 0\n4 3 1\n5 0 0\n6 4 11\n7 4 11\n8 0 0\n9 0 0\n10 0 0\n";
    assert_eq!(listing(&write(&[], &setup(), &steps)), lines.as_bytes());
}
