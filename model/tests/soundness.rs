//! Question 1, clause by clause, each by one change to sound tables.

mod common;

use common::Bench;
use model::answer::Answer;
use model::message::{Batch, Grant, Kind, Message};
use model::requests::Standing;
use model::step_call::step;
use model::step_record::Step;
use model::world::World;

const PAST: u32 = 2_148_483_648;
const MOST: u32 = 2_148_483_647;

type Change = fn(&mut Bench);

fn grant(object: u8, volume_expiry: u32, object_expiry: u32) -> Kind {
    Kind::Grant(Grant { object, number: 1, volume_expiry, epoch: 1, version: 1, object_expiry, value: None })
}

/// Objects 0, 1 and 3 are in volume 0, and 2 in volume 1.
fn batch(volume: u8, set: u32) -> Batch {
    Batch { volume, number: 1, epoch: 1, set }
}

fn put(bench: &mut Bench, client: u8, kind: Kind) {
    bench.state.tables.queue.send(Message { client, kind });
}

fn stand(bench: &mut Bench, object: usize, latest_end: u32) {
    bench.state.tables.server.standing |= 1 << object;
    bench.state.tables.server.write[object].latest_end = latest_end;
}

/// Returns tables with leases, a standing write and messages under way.
fn in_use() -> Bench {
    let mut bench = Bench::fresh();
    bench.hold(1, 0);
    bench.hold(2, 2);
    bench.all(&[Step::write(0, 9), Step::ask(0, 3)]);
    bench
}

/// Returns whether the changed tables are sound, by a step that no later
/// question refuses: its answer is 1 exactly if they are not.
fn is_sound(change: Change) -> bool {
    let mut bench = in_use();
    change(&mut bench);
    let before = bench.state;
    let answer = bench.step(Step::read(0, 0));
    assert_eq!(bench.state, before, "a read changes nothing");
    answer != Answer::Refused(1)
}

#[test]
fn unsound() {
    let changes: &[Change] = &[
        |b| b.setup.clients = 0,
        |b| b.setup.timeout = 0,
        |b| b.setup.delay = 0,
        |b| b.setup.delay = 65_536,
        |b| b.setup.volume_of[1] = 2,
        |b| b.setup.volume_of[4] = 1,
        |b| put(b, 3, Kind::Ack { object: 0, epoch: 1, version: 1 }),
        |b| put(b, 0, Kind::Renew { object: 4, number: 1, epoch: 1, version: 1 }),
        |b| put(b, 0, grant(4, 0, 0)),
        |b| put(b, 0, Kind::Invalidate { object: 4, epoch: 1, version: 1 }),
        |b| put(b, 0, Kind::Ack { object: 255, epoch: 1, version: 1 }),
        |b| put(b, 0, Kind::Offer { volume: 2, number: 1, epoch: 1 }),
        |b| put(b, 0, Kind::Dropped { volume: 2, number: 1, epoch: 1 }),
        |b| put(b, 0, grant(0, PAST, 0)),
        |b| put(b, 0, grant(0, 0, PAST)),
        |b| b.state.parts(&common::setup()).2[2].standing = Some(Standing { number: 1, object: 4 }),
        |b| b.state.parts(&common::setup()).2[2].next = 0,
        |b| b.state.tables.queue.len = 65,
        |b| b.state.tables.clock = 2_147_483_648,
        |b| b.state.tables.server.volume_latest[1] = PAST,
        |b| b.state.tables.server.object_latest[3] = PAST,
        |b| b.state.tables.server.guard[1] = PAST,
        |b| b.state.tables.server.volume_expiry[1][2] = PAST,
        |b| b.state.tables.server.object_expiry[3][2] = PAST,
        |b| b.state.tables.clients.expiry[2][1] = PAST,
        |b| b.state.parts(&common::setup()).1[11].expiry = PAST,
        |b| stand(b, 0, PAST),
        |b| b.state.tables.server.epoch[1] = 0,
        |b| b.state.tables.server.version[3] = 0,
        |b| b.state.tables.server.version[0] = u32::MAX,
    ];
    for (place, change) in changes.iter().enumerate() {
        assert!(!is_sound(*change), "change {place}");
    }
}

/// "A set bit that is no object of its volume makes tables unsound, in messages
/// too" (02, A6).
#[test]
fn unsound_sets() {
    let changes: &[Change] = &[
        |b| put(b, 0, Kind::Batch(batch(2, 0))),
        |b| put(b, 0, Kind::Cleared(batch(2, 0))),
        |b| put(b, 3, Kind::Batch(batch(0, 0))),
        |b| put(b, 0, Kind::Batch(batch(0, 1 << 2))),
        |b| put(b, 0, Kind::Batch(batch(0, 1 << 4 | 1))),
        |b| put(b, 0, Kind::Batch(batch(1, 1 << 31))),
        |b| put(b, 0, Kind::Cleared(batch(1, 1 << 2 | 1))),
        |b| put(b, 0, Kind::Cleared(batch(0, 1 << 28))),
        |b| b.state.tables.server.notes[0][0] = 1 << 2,
        |b| b.state.tables.server.notes[0][2] = 1 << 4,
        |b| b.state.tables.server.notes[1][1] = 1 << 2 | 1,
        |b| b.state.tables.server.notes[1][2] = 1 << 31,
    ];
    for (place, change) in changes.iter().enumerate() {
        assert!(!is_sound(*change), "change {place}");
    }
}

#[test]
fn sound() {
    let changes: &[Change] = &[
        |_| (),
        |b| put(b, 2, Kind::Ack { object: 3, epoch: 0, version: u32::MAX }),
        |b| put(b, 0, Kind::Renew { object: 3, number: 0, epoch: u32::MAX, version: 0 }),
        |b| put(b, 0, grant(3, MOST, MOST)),
        |b| put(b, 0, Kind::Offer { volume: 1, number: u32::MAX, epoch: 0 }),
        |b| put(b, 0, Kind::Batch(Batch { number: 0, epoch: 0, ..batch(0, 0) })),
        |b| put(b, 0, Kind::Batch(batch(0, 0b1011))),
        |b| put(b, 2, Kind::Cleared(Batch { number: u32::MAX, epoch: u32::MAX, ..batch(1, 0b0100) })),
        |b| b.state.tables.server.notes[0][2] = 0b1011,
        |b| b.state.tables.server.notes[1][0] = 0b0100,
        |b| b.state.tables.server.batch[1][2] = u32::MAX,
        |b| (b.setup.delay, b.state.tables.server.volume_expiry[0][0]) = (65_535, MOST),
        |b| b.state.parts(&common::setup()).2[2].standing = Some(Standing { number: 0, object: 3 }),
        |b| b.state.parts(&common::setup()).2[2].next = u32::MAX,
        |b| b.state.tables.queue.len = 64,
        |b| b.state.tables.clock = 2_147_483_647,
        |b| b.state.tables.server.volume_latest[1] = MOST,
        |b| b.state.tables.server.object_latest[3] = MOST,
        |b| b.state.tables.server.guard[1] = MOST,
        |b| b.state.tables.server.volume_expiry[1][2] = MOST,
        |b| b.state.tables.server.object_expiry[3][2] = MOST,
        |b| b.state.tables.server.offer[1][2] = u32::MAX,
        |b| b.state.tables.server.seen[2] = u32::MAX,
        |b| b.state.tables.clients.expiry[2][1] = MOST,
        |b| b.state.tables.clients.epoch[2][1] = u32::MAX,
        |b| b.state.parts(&common::setup()).1[11].expiry = MOST,
        |b| b.state.parts(&common::setup()).1[11].version = u32::MAX,
        |b| stand(b, 0, MOST),
        |b| b.state.tables.server.epoch[1] = u32::MAX,
        |b| b.state.tables.server.version[3] = u32::MAX,
        |b| b.state.tables.server.version[0] = u32::MAX - 1,
    ];
    for (place, change) in changes.iter().enumerate() {
        assert!(is_sound(*change), "change {place}");
    }
}

#[test]
fn slots_past_the_counts_are_free() {
    let changes: &[Change] = &[
        |b| b.state.tables.server.epoch[2] = 0,
        |b| b.state.tables.server.version[4] = 0,
        |b| b.state.tables.server.guard[2] = u32::MAX,
        |b| b.state.tables.server.volume_latest[2] = u32::MAX,
        |b| b.state.tables.server.object_latest[4] = u32::MAX,
        |b| b.state.tables.server.notes[0][3] = u32::MAX,
        |b| b.state.tables.server.notes[2][0] = u32::MAX,
        |b| b.state.tables.server.volume_expiry[0][3] = u32::MAX,
        |b| b.state.tables.server.volume_expiry[2][0] = u32::MAX,
        |b| b.state.tables.server.object_expiry[0][3] = u32::MAX,
        |b| b.state.tables.server.object_expiry[4][0] = u32::MAX,
        |b| b.state.tables.clients.expiry[0][2] = u32::MAX,
        |b| b.state.tables.clients.expiry[3][0] = u32::MAX,
        |b| b.state.tables.server.write[3].latest_end = u32::MAX,
        |b| stand(b, 4, u32::MAX),
        |b| b.state.tables.queue.places[63].client = 255,
    ];
    for (place, change) in changes.iter().enumerate() {
        assert!(is_sound(*change), "change {place}");
    }
}

#[test]
fn a_flag_of_a_client_that_does_not_exist_blocks_no_write() {
    let mut bench = Bench::fresh();
    bench.state.tables.server.object_expiry[1][3] = 50;
    assert_eq!(bench.line(Step::write(1, 5)), (3, 1));
    stand(&mut bench, 3, 50);
    bench.state.tables.server.write[3].waiting = 1 << 3;
    assert_eq!(bench.line(Step::clock(0)), (3, 1));
}

#[test]
fn lent_records_of_another_length() {
    let mut bench = in_use();
    let setup = bench.setup;
    let before = bench.state;
    let mut largest = setup;
    (largest.clients, largest.objects) = (4, 5);
    let (tables, copies, requests) = bench.state.parts(&largest);
    let saved = &mut bench.saved;
    for (copies_len, requests_len) in [(11, 3), (13, 3), (0, 3), (12, 2), (12, 4), (12, 0)] {
        let (copies, requests) = (&mut copies[..copies_len], &mut requests[..requests_len]);
        let mut world = World { setup: &setup, tables, copies, requests, saved };
        let answer = step(&mut world, &Step::restart_server());
        assert_eq!(answer, Answer::Refused(1), "{copies_len} copies, {requests_len} requests");
    }
    assert_eq!(bench.state, before);
}

#[test]
fn an_unsound_state_stays_as_it_was_at_every_kind() {
    let mut bench = in_use();
    bench.state.tables.server.guard[1] = PAST;
    let before = bench.state;
    for kind in 0..=12 {
        let record = Step { kind, ..Step::default() };
        assert_eq!(bench.step(record), Answer::Refused(1), "kind {kind}");
        assert_eq!(bench.state, before, "kind {kind}");
    }
}
