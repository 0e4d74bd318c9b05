//! Questions 2 to 6, and that the first "no" gives the number.

mod common;

use common::Bench;
use model::answer::Answer;
use model::step_record::*;

/// Returns the refusal, and checks that it changed nothing.
fn refused(bench: &mut Bench, record: Step) -> Option<u8> {
    let before = bench.state;
    match bench.step(record) {
        Answer::Refused(number) => {
            assert_eq!(bench.state, before, "{record:?}");
            Some(number)
        }
        _ => None,
    }
}

fn of_kind(kind: u8) -> Step {
    Step { kind, ..Step::default() }
}

#[test]
fn question_2_kinds() {
    for kind in [0, 12, 13, 128, 255] {
        let any = Step { kind, client: 255, object: 255, place: 255, clock: u32::MAX, value: u64::MAX };
        assert_eq!(refused(&mut Bench::fresh(), any), Some(2), "kind {kind}");
    }
}

#[test]
fn question_3_items() {
    let mut bench = Bench::fresh();
    bench.step(Step::ask(0, 0));
    for kind in [READ, ASK, RESTART_CLIENT] {
        assert_eq!(refused(&mut bench, Step { client: 3, ..of_kind(kind) }), Some(3));
        assert_eq!(refused(&mut bench, Step { client: 255, ..of_kind(kind) }), Some(3));
    }
    for kind in [READ, ASK, WRITE] {
        assert_eq!(refused(&mut bench, Step { object: 4, ..of_kind(kind) }), Some(3));
        assert_eq!(refused(&mut bench, Step { object: 255, ..of_kind(kind) }), Some(3));
    }
    for kind in [DELIVER, LOSE, DOUBLE] {
        assert_eq!(refused(&mut bench, Step { place: 1, ..of_kind(kind) }), Some(3));
        assert_eq!(refused(&mut bench, Step { place: 255, ..of_kind(kind) }), Some(3));
    }
    assert_eq!(refused(&mut Bench::fresh(), Step::deliver(0)), Some(3));
}

#[test]
fn question_3_asks_only_about_used_fields() {
    let stray = |kind| Step { kind, client: 255, object: 255, place: 255, clock: 0, value: 1 };
    for kind in [CLOCK, RESTART_SERVER] {
        assert_eq!(refused(&mut Bench::fresh(), stray(kind)), None, "kind {kind}");
    }
    let mut bench = Bench::fresh();
    bench.step(Step::ask(0, 0));
    assert_eq!(refused(&mut bench, Step { place: 0, ..stray(DOUBLE) }), None);
    assert_eq!(refused(&mut bench, Step { client: 0, ..stray(RESTART_CLIENT) }), None);
    assert_eq!(refused(&mut bench, Step { object: 0, ..stray(WRITE) }), None);
}

#[test]
fn question_4_times() {
    let mut bench = Bench::fresh();
    bench.all(&[Step::clock(5), Step::clock(5)]);
    assert_eq!(refused(&mut bench, Step::clock(4)), Some(4));
    assert_eq!(refused(&mut bench, Step::clock(2_147_483_648)), Some(4));
    assert_eq!(refused(&mut bench, Step::clock(2_147_483_647)), None);
    assert_eq!(refused(&mut bench, Step::clock(u32::MAX)), Some(4));
}

#[test]
fn question_5_second_write() {
    let mut bench = Bench::fresh();
    bench.hold(0, 0);
    bench.all(&[Step::write(0, 1)]);
    assert_eq!(refused(&mut bench, Step::write(0, 2)), Some(5));
    assert_eq!(refused(&mut bench, Step::write(1, 2)), None);
}

#[test]
fn question_6_numbers() {
    let mut bench = Bench::fresh();
    let setup = bench.setup;
    bench.state.parts(&setup).2[1].next = u32::MAX;
    assert_eq!(refused(&mut bench, Step::ask(1, 0)), Some(6));
    assert_eq!(refused(&mut bench, Step::ask(0, 0)), None);
    bench.state.tables.server.version[2] = u32::MAX;
    assert_eq!(refused(&mut bench, Step::write(2, 0)), Some(6));
    assert_eq!(refused(&mut bench, Step::write(1, 0)), None);
    bench.state.tables.server.epoch[1] = u32::MAX;
    assert_eq!(refused(&mut bench, Step::restart_server()), Some(6));
    bench.state.tables.server.epoch[1] = u32::MAX - 1;
    bench.state.tables.server.epoch[2] = u32::MAX;
    assert_eq!(refused(&mut bench, Step::restart_server()), None, "volume 2 does not exist");
}

#[test]
fn question_1_before_2() {
    let mut bench = Bench::fresh();
    bench.state.tables.server.guard[0] = u32::MAX;
    assert_eq!(refused(&mut bench, of_kind(0)), Some(1));
}

#[test]
fn question_2_before_3() {
    let mut bench = Bench::fresh();
    assert_eq!(refused(&mut bench, Step { client: 9, object: 99, place: 64, ..of_kind(12) }), Some(2));
}

/// No step uses both an item and a time, so 3 and 4 meet only in a field that
/// is not used and not asked about.
#[test]
fn question_3_beside_4() {
    let mut bench = Bench::fresh();
    bench.all(&[Step::clock(5)]);
    assert_eq!(refused(&mut bench, Step { client: 9, clock: 4, ..of_kind(READ) }), Some(3));
    assert_eq!(refused(&mut bench, Step { client: 9, clock: 4, ..of_kind(CLOCK) }), Some(4));
}

/// 4 is only about the clock step, and 5 only about the write.
#[test]
fn question_4_beside_5() {
    let mut bench = Bench::fresh();
    bench.all(&[Step::clock(5)]);
    bench.hold(0, 0);
    bench.all(&[Step::write(0, 1)]);
    assert_eq!(refused(&mut bench, Step { clock: 4, ..of_kind(WRITE) }), Some(5));
    assert_eq!(refused(&mut bench, Step { clock: 4, ..of_kind(CLOCK) }), Some(4));
}

#[test]
fn question_3_before_5() {
    let mut bench = Bench::fresh();
    bench.state.tables.server.standing = 1 << 4;
    assert_eq!(refused(&mut bench, Step::write(4, 1)), Some(3));
}

/// A standing write at the last version is already unsound, so 5 and 6 cannot
/// both be "no"; one below it, 5 is asked and 6 would be "yes".
#[test]
fn question_5_before_6() {
    let mut bench = Bench::fresh();
    bench.hold(0, 0);
    bench.all(&[Step::write(0, 1)]);
    bench.state.tables.server.version[0] = u32::MAX - 1;
    assert_eq!(refused(&mut bench, Step::write(0, 1)), Some(5));
    bench.state.tables.server.version[0] = u32::MAX;
    assert_eq!(refused(&mut bench, Step::write(0, 1)), Some(1));
}

#[test]
fn question_3_before_6() {
    let mut bench = Bench::fresh();
    let setup = bench.setup;
    bench.state.parts(&setup).2[0].next = u32::MAX;
    assert_eq!(refused(&mut bench, Step::ask(0, 4)), Some(3));
}
