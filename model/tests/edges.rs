//! Every line of 01's Edges, and those of the latest end of 02, A3.

mod common;

use common::Bench;
use model::step_record::Step;

/// Returns one client that holds object 0 from clock 0 on, with leases to 10
/// and 100.
fn holding() -> Bench {
    let mut bench = Bench::fresh();
    bench.hold(0, 0);
    bench
}

#[test]
fn volume_expiry_10_is_alive_at_9_and_dead_at_10() {
    let mut bench = holding();
    bench.all(&[Step::clock(9)]);
    assert_eq!(bench.line(Step::read(0, 0)), (1, 0));
    bench.all(&[Step::clock(10)]);
    assert_eq!(bench.line(Step::read(0, 0)), (2, 0));
}

#[test]
fn object_expiry_10_is_alive_at_9_and_dead_at_10() {
    let mut bench = Bench::with(100, 10, 3);
    bench.hold(0, 0);
    bench.all(&[Step::clock(9)]);
    assert_eq!(bench.line(Step::read(0, 0)), (1, 0));
    bench.all(&[Step::clock(10)]);
    assert_eq!(bench.line(Step::read(0, 0)), (2, 0));
}

#[test]
fn object_expiry_10_is_waited_for_at_9_and_not_at_10() {
    for (clock, line) in [(9, (0, 0)), (10, (3, 1))] {
        let mut bench = Bench::with(100, 10, 3);
        bench.hold(0, 0);
        bench.all(&[Step::clock(clock)]);
        assert_eq!(bench.line(Step::write(0, 1)), line, "clock {clock}");
    }
}

#[test]
fn latest_end_10_stands_at_10_and_is_complete_at_11() {
    let mut bench = holding();
    assert_eq!(bench.line(Step::write(0, 7)), (0, 0));
    assert_eq!(bench.state.tables.server.write[0].latest_end, 10);
    assert_eq!(bench.line(Step::clock(10)), (0, 0));
    assert_eq!(bench.line(Step::clock(11)), (3, 1));
    assert_eq!(bench.state.tables.server.value[0], 7);
}

/// Each row has the clock, the guard, each client's volume and object expiry,
/// the set of those marked, and the end. VE and OE are far off in all of them.
#[test]
fn latest_end_by_the_clients_waited_for() {
    const NO: (u32, u32) = (0, 0);
    for (clock, guard, leases, marked, end) in [
        (0, 0, [(10, 100), NO, NO], 0, 10),
        (0, 0, [(100, 10), NO, NO], 0, 10),
        (0, 0, [(10, 100), (100, 12), (11, 11)], 0, 12),
        (0, 0, [(50, 10), (12, 60), NO], 0, 12),
        (0, 0, [(3, 100), NO, NO], 0, 3),
        (0, 0, [(4, 100), NO, NO], 0, 4),
        (9, 0, [(10, 100), (19, 0), NO], 0, 12),
        (10, 0, [(10, 100), (11, 100), NO], 0, 13),
        (10, 0, [(10, 100), (20, 100), NO], 0, 20),
        (10, 0, [(20, 100), (10, 100), NO], 0b11, 20),
        (10, 0, [(100, 20), (10, 100), NO], 0b11, 20),
        (0, 9, [(10, 100), NO, NO], 0, 10),
        (0, 11, [(10, 100), NO, NO], 0, 11),
        (0, 2, [NO, NO, NO], 0, 3),
        (0, 5, [NO, (10, 0), (0, 10)], 0b100, 5),
    ] {
        let mut bench = Bench::fresh();
        let server = &mut bench.state.tables.server;
        (server.volume_latest[0], server.object_latest[0]) = (1_000, 1_000);
        (server.guard[0], server.unreachable[0]) = (guard, marked);
        for (client, (volume, object)) in leases.into_iter().enumerate() {
            (server.volume_expiry[0][client], server.object_expiry[0][client]) = (volume, object);
        }
        bench.state.tables.clock = clock;
        assert_eq!(bench.line(Step::write(0, 7)), (0, 0));
        let found = bench.state.tables.server.write[0].latest_end;
        assert_eq!(found, end, "clock {clock}, guard {guard}, {leases:?}");
    }
}

#[test]
fn latest_end_of_the_notice_desk_is_12_and_not_19() {
    let mut bench = holding();
    bench.all(&[Step::clock(9)]);
    bench.hold(1, 1);
    bench.all(&[Step::write(0, 7), Step::lose(0)]);
    assert_eq!(bench.state.tables.server.write[0].latest_end, 12);
    assert_eq!(bench.line(Step::clock(12)), (0, 0));
    assert_eq!(bench.line(Step::clock(13)), (3, 1));
}

#[test]
fn latest_end_stays_when_the_client_of_it_acknowledges() {
    let mut bench = holding();
    bench.all(&[Step::clock(5)]);
    bench.hold(1, 0);
    bench.all(&[Step::write(0, 7), Step::lose(0), Step::deliver(0), Step::deliver(0)]);
    assert_eq!(bench.state.tables.server.write[0].waiting, 0b01);
    assert_eq!(bench.line(Step::clock(15)), (0, 0));
    assert_eq!(bench.line(Step::clock(16)), (3, 1));
}

#[test]
fn clock_equal_is_accepted_and_one_less_is_4() {
    let mut bench = Bench::fresh();
    bench.all(&[Step::clock(8)]);
    assert_eq!(bench.line(Step::clock(8)), (0, 0));
    assert_eq!(bench.line(Step::clock(7)), (4, 4));
}

#[test]
fn place_63_of_64_exists_and_place_64_does_not() {
    let mut bench = Bench::fresh();
    (0..64).for_each(|_| bench.all(&[Step::ask(0, 0)]));
    assert_eq!(bench.queue().len(), 64);
    assert_eq!(bench.line(Step::double(64)), (4, 3));
    assert_eq!(bench.line(Step::lose(64)), (4, 3));
    assert_eq!(bench.line(Step::deliver(64)), (4, 3));
    assert_eq!(bench.line(Step::double(63)), (0, 0));
    assert_eq!(bench.line(Step::deliver(63)), (0, 0));
    assert_eq!(bench.line(Step::lose(63)), (0, 0));
    assert_eq!(bench.queue().len(), 63);
}

#[test]
fn second_write_standing_is_5() {
    let mut bench = holding();
    assert_eq!(bench.line(Step::write(0, 7)), (0, 0));
    assert_eq!(bench.line(Step::write(0, 8)), (4, 5));
    assert_eq!(bench.state.tables.server.write[0].value, 7);
}

#[test]
fn doubling_with_64_leaves_the_list() {
    let mut bench = Bench::fresh();
    (0..64).for_each(|place| bench.all(&[Step::ask(place % 3, place % 4)]));
    let before = bench.state;
    assert_eq!(bench.line(Step::double(5)), (0, 0));
    assert_eq!(bench.state, before);
}

#[test]
fn write_at_clock_0_with_no_lease_is_complete() {
    assert_eq!(Bench::fresh().line(Step::write(0, 7)), (3, 1));
}

#[test]
fn guard_20_holds_at_19_and_not_at_20() {
    let mut bench = Bench::with(20, 100, 3);
    bench.hold(0, 0);
    bench.all(&[Step::restart_server()]);
    assert_eq!(bench.state.tables.server.guard, [20, 0, 0, 0, 0, 0, 0, 0]);
    assert_eq!(bench.line(Step::write(0, 7)), (0, 0));
    assert_eq!(bench.line(Step::clock(19)), (0, 0));
    assert_eq!(bench.line(Step::clock(20)), (3, 1));
}

#[test]
fn guard_20_holds_a_write_that_somebody_waits_for_at_20() {
    let mut bench = Bench::with(20, 100, 3);
    bench.hold(0, 0);
    bench.all(&[Step::restart_server()]);
    bench.hold(0, 0);
    assert_eq!(bench.line(Step::write(0, 7)), (0, 0));
    assert_eq!(bench.line(Step::clock(20)), (0, 0));
    assert_eq!(bench.line(Step::clock(21)), (3, 1));
}

#[test]
fn guard_20_holds_an_acknowledged_write_at_19() {
    let mut bench = Bench::with(20, 100, 3);
    bench.hold(0, 0);
    bench.all(&[Step::restart_server()]);
    bench.hold(0, 0);
    bench.all(&[Step::write(0, 7), Step::clock(19)]);
    bench.deliver_all();
    assert_eq!(bench.state.tables.server.write[0].waiting, 0);
    assert_eq!(bench.line(Step::clock(19)), (0, 0));
    assert_eq!(bench.line(Step::clock(20)), (3, 1));
}

#[test]
fn version_4294967294_may_be_written_and_the_next_is_6() {
    let mut bench = Bench::fresh();
    bench.state.tables.server.version[0] = 4_294_967_294;
    assert_eq!(bench.line(Step::write(0, 7)), (3, 1));
    assert_eq!(bench.state.tables.server.version[0], 4_294_967_295);
    assert_eq!(bench.line(Step::write(0, 8)), (4, 6));
}

#[test]
fn the_largest_times_do_not_overflow() {
    let mut bench = Bench::with(3_600, 1_000_000, 60);
    bench.all(&[Step::clock(2_147_483_647)]);
    bench.hold(0, 0);
    assert_eq!(bench.line(Step::write(0, 7)), (0, 0));
    assert_eq!(bench.state.tables.server.object_latest[0], 2_148_483_647);
    assert_eq!(bench.line(Step::clock(2_147_483_647)), (0, 0));
    bench.deliver_all();
    assert_eq!(bench.state.tables.server.value[0], 7);
}
