//! Each sentence of A6 of document 02, delayed invalidations, by hand. Objects
//! 0, 1 and 3 are in volume 0, and d is 5.

mod common;

use common::Bench;
use model::message::{Batch, Kind};
use model::step_record::Step;

/// Returns client 0 parked at 10: its leases on objects 0 and 1 end at 100.
fn parked() -> Bench {
    let mut bench = Bench::fresh();
    bench.hold(0, 0);
    bench.hold(0, 1);
    bench.all(&[Step::clock(10)]);
    bench
}

/// Returns the same with object 0 written and noted.
fn noted() -> Bench {
    let mut bench = parked();
    assert_eq!(bench.line(Step::write(0, 7)), (3, 1));
    bench
}

/// Returns the same with the BATCH to a RENEW for object 1 under way.
fn batched() -> Bench {
    let mut bench = noted();
    bench.all(&[Step::ask(0, 1), Step::deliver(0)]);
    bench
}

/// Returns the notes of client 0 in volume 0 and the number of its batch.
fn notes(bench: &Bench) -> (u32, u32) {
    let server = &bench.state.tables.server;
    (server.notes[0][0], server.batch[0][0])
}

fn marked(bench: &Bench) -> bool {
    bench.state.tables.server.unreachable[0] & 1 == 1
}

/// Returns the one message under way.
fn sent(bench: &Bench) -> Kind {
    let [message] = bench.queue() else {
        panic!("{:?}", bench.queue());
    };
    assert_eq!(message.client, 0);
    message.kind
}

fn code(bench: &Bench) -> u8 {
    sent(bench).code()
}

/// Returns the number of the last request.
fn number(bench: &Bench) -> u32 {
    bench.state.requests(&bench.setup)[0].next - 1
}

/// "A reachable dash with a live object lease and a dead volume lease is no
/// longer waited for: the object goes on its list of notes for that volume."
#[test]
fn a_parked_client_is_noted_and_not_waited_for() {
    let bench = noted();
    assert_eq!((notes(&bench), bench.queue().len()), ((0b0001, 0), 0));
    assert_eq!(bench.state.tables.server.value[0], 7);
}

#[test]
fn a_client_whose_volume_lease_lives_is_waited_for() {
    let mut bench = Bench::fresh();
    bench.hold(0, 0);
    bench.all(&[Step::clock(9), Step::write(0, 7)]);
    assert_eq!((code(&bench), notes(&bench)), (3, (0, 0)));
    assert_eq!(bench.state.tables.server.write[0].waiting, 0b001);
}

#[test]
fn nobody_else_is_noted() {
    let mut bench = parked();
    assert_eq!(bench.line(Step::write(3, 7)), (3, 1), "never held");
    assert_eq!(notes(&bench), (0, 0));
    let mut bench = parked();
    bench.state.tables.server.unreachable[0] = 1;
    assert_eq!(bench.line(Step::write(0, 7)), (3, 1), "marked");
    assert_eq!(notes(&bench), (0, 0));
    let mut bench = parked();
    bench.all(&[Step::clock(100)]);
    assert_eq!(bench.line(Step::write(0, 7)), (3, 1), "the object lease is dead");
    assert_eq!(notes(&bench), (0, 0));
}

/// The write waits for the other client until its own end, and the noted one
/// does not count.
#[test]
fn one_is_noted_and_another_waited_for() {
    let mut bench = parked();
    bench.hold(1, 0);
    bench.all(&[Step::write(0, 7)]);
    let write = bench.state.tables.server.write[0];
    assert_eq!((write.waiting, write.latest_end, notes(&bench).0), (0b010, 20, 0b0001));
}

/// "Its RENEW there, after the epoch rule, is answered by BATCH (kind 7) with
/// number, epoch and the noted set", whichever object it asks for.
#[test]
fn a_renew_is_answered_by_the_batch() {
    for object in [0, 1, 3] {
        let mut bench = noted();
        bench.all(&[Step::write(1, 8), Step::ask(0, object), Step::deliver(0)]);
        let number = number(&bench);
        assert_eq!(sent(&bench), Kind::Batch(Batch { volume: 0, number, epoch: 1, set: 0b0011 }));
        assert_eq!(notes(&bench), (0b0011, number));
    }
}

#[test]
fn a_renew_in_another_volume_is_not() {
    let mut bench = parked();
    bench.hold(0, 2);
    bench.all(&[Step::write(0, 7), Step::ask(0, 2), Step::deliver(0)]);
    assert_eq!((code(&bench), notes(&bench)), (2, (0b0001, 0)));
}

/// "After the epoch rule": a client that restarted knows no epoch.
#[test]
fn an_offer_comes_before_the_batch() {
    let mut bench = noted();
    bench.all(&[Step::restart_client(0), Step::ask(0, 0), Step::deliver(0)]);
    assert_eq!((code(&bench), notes(&bench), marked(&bench)), (5, (0, 0), true));
}

/// The write of object 0 at 9 waits for the client until 12, and object 1 is
/// noted at 10.
fn noted_and_waited_for() -> Bench {
    let mut bench = Bench::fresh();
    bench.hold(0, 0);
    bench.hold(0, 1);
    bench.all(&[Step::clock(9), Step::write(0, 7), Step::lose(0), Step::clock(10)]);
    assert_eq!(bench.line(Step::write(1, 8)), (3, 1));
    bench
}

#[test]
fn the_batch_comes_before_an_invalidate() {
    let mut bench = noted_and_waited_for();
    for kind in [7, 3, 2] {
        bench.all(&[Step::ask(0, 1), Step::deliver(0)]);
        assert_eq!(code(&bench), kind);
        bench.deliver_all();
    }
    assert_eq!(bench.line(Step::read(0, 1)), (1, 8));
}

#[test]
fn the_batch_comes_though_the_object_has_a_standing_write() {
    let mut bench = parked();
    bench.hold(1, 0);
    bench.all(&[Step::write(0, 7), Step::lose(0), Step::ask(0, 0), Step::deliver(0)]);
    assert_eq!(code(&bench), 7);
    bench.deliver_all();
    assert_eq!(notes(&bench), (0, 0));
    bench.all(&[Step::ask(0, 0), Step::deliver(0)]);
    assert!(bench.queue().is_empty(), "the write stands");
}

/// "With that number standing the dash erases those copies, ends the request
/// and sends CLEARED (kind 8) with number, epoch and set."
#[test]
fn a_client_obeys_the_batch() {
    let mut bench = batched();
    let number = number(&bench);
    let before = bench.state;
    bench.all(&[Step::deliver(0)]);
    assert_eq!(sent(&bench), Kind::Cleared(Batch { volume: 0, number, epoch: 1, set: 0b0001 }));
    let (copies, before_copies) = (bench.state.copies(&bench.setup), before.copies(&bench.setup));
    assert_eq!((copies[0].version, copies[0].value, copies[0].expiry), (0, 0, 0));
    assert_eq!(copies[1..], before_copies[1..]);
    assert_eq!(bench.state.requests(&bench.setup)[0].standing, None);
    assert_eq!(bench.state.tables.clients, before.tables.clients);
}

#[test]
fn a_batch_of_another_number_does_nothing() {
    let mut bench = batched();
    bench.all(&[Step::ask(0, 1), Step::lose(1)]);
    let before = bench.state;
    bench.all(&[Step::deliver(0)]);
    assert!(bench.queue().is_empty());
    assert_eq!(bench.state.copies(&bench.setup), before.copies(&bench.setup));
    assert_eq!(bench.state.requests(&bench.setup), before.requests(&bench.setup));
}

/// "The server drops the notes and leases of the set in CLEARED", "and an
/// accepted CLEARED ends" the batch. Then a lease is given.
#[test]
fn a_cleared_drops_notes_and_leases_of_its_set() {
    let mut bench = batched();
    bench.state.tables.server.object_expiry[0][0] = 100;
    bench.all(&[Step::deliver(0), Step::deliver(0)]);
    let server = &bench.state.tables.server;
    assert_eq!((notes(&bench), server.object_expiry[0][0], server.object_expiry[1][0]), ((0, 0), 0, 100));
    bench.all(&[Step::ask(0, 1), Step::deliver(0)]);
    assert_eq!(code(&bench), 2);
    bench.deliver_all();
    assert_eq!((bench.line(Step::read(0, 0)), bench.line(Step::read(0, 1))), ((2, 0), (1, 0)));
}

/// "Only if number and epoch match the batch last sent."
#[test]
fn a_cleared_of_an_older_batch_does_nothing() {
    let mut bench = batched();
    bench.all(&[Step::deliver(0), Step::ask(0, 1), Step::deliver(1)]);
    let last = number(&bench);
    bench.all(&[Step::deliver(0)]);
    assert_eq!(notes(&bench), (0b0001, last));
    bench.deliver_all();
    assert_eq!(notes(&bench), (0, 0));
}

#[test]
fn a_cleared_of_another_epoch_or_without_a_batch_does_nothing() {
    let mut bench = batched();
    bench.all(&[Step::deliver(0)]);
    let before = bench.state;
    for (epoch, batch) in [(2, number(&bench)), (1, 0)] {
        bench.state = before;
        (bench.state.tables.server.epoch[0], bench.state.tables.server.batch[0][0]) = (epoch, batch);
        bench.all(&[Step::deliver(0)]);
        assert_eq!(notes(&bench), (0b0001, batch));
    }
}

/// "A later note voids that batch."
#[test]
fn a_later_note_voids_the_batch() {
    let mut bench = batched();
    bench.all(&[Step::deliver(0), Step::write(1, 8)]);
    assert_eq!(notes(&bench), (0b0011, 0));
    bench.deliver_all();
    assert_eq!(notes(&bench), (0b0011, 0), "its CLEARED does not count");
    bench.all(&[Step::ask(0, 1)]);
    bench.deliver_all();
    assert_eq!(notes(&bench), (0, 0));
}

/// "No volume lease is given while notes remain."
#[test]
fn no_lease_while_notes_remain() {
    let mut bench = noted();
    for _ in 0..3 {
        bench.all(&[Step::ask(0, 1), Step::deliver(0)]);
        assert_eq!(code(&bench), 7);
        bench.all(&[Step::lose(0)]);
        assert_eq!(bench.state.tables.server.volume_expiry[0][0], 10);
    }
}

/// A second CLEARED must not end the lease given since.
#[test]
fn a_cleared_counts_once() {
    let mut bench = batched();
    bench.all(&[Step::deliver(0), Step::double(0), Step::deliver(0)]);
    bench.all(&[Step::ask(0, 0), Step::deliver(1), Step::deliver(1), Step::deliver(0)]);
    assert_eq!(bench.line(Step::read(0, 0)), (1, 7));
    assert_eq!(bench.line(Step::write(0, 9)), (0, 0), "waited for");
}

/// "A clock step to volume expiry + d or later marks a noted dash unreachable."
#[test]
fn notes_age_at_volume_expiry_and_delay() {
    let mut bench = batched();
    bench.all(&[Step::clock(14)]);
    assert!(!marked(&bench) && notes(&bench).0 == 0b0001);
    bench.all(&[Step::clock(15)]);
    assert!(marked(&bench) && notes(&bench) == (0, 0));
    let mut bench = noted();
    bench.all(&[Step::clock(60)]);
    assert!(marked(&bench));
}

#[test]
fn a_client_parked_for_long_is_noted_and_marked_by_the_next_clock_step() {
    let mut bench = parked();
    bench.all(&[Step::clock(20), Step::write(0, 7)]);
    assert!(!marked(&bench) && notes(&bench).0 == 0b0001);
    bench.all(&[Step::clock(20)]);
    assert!(marked(&bench) && notes(&bench).0 == 0);
}

#[test]
fn a_client_without_notes_does_not_age() {
    let mut bench = parked();
    bench.all(&[Step::clock(50)]);
    assert!(!marked(&bench));
    bench.all(&[Step::ask(0, 1), Step::deliver(0)]);
    assert_eq!(code(&bench), 2);
}

/// "Any mark drops its notes there and voids the batch": that of a write, too.
#[test]
fn a_write_that_ends_without_the_client_drops_its_notes() {
    let mut bench = noted_and_waited_for();
    bench.all(&[Step::ask(0, 1), Step::deliver(0)]);
    assert_eq!(notes(&bench), (0b0010, number(&bench)));
    assert_eq!(bench.line(Step::clock(13)), (3, 1));
    assert!(marked(&bench) && notes(&bench) == (0, 0));
}

#[test]
fn a_mark_leaves_the_notes_of_other_volumes() {
    let mut bench = parked();
    bench.hold(0, 2);
    bench.all(&[Step::write(0, 7), Step::clock(20)]);
    assert!(marked(&bench));
    bench.all(&[Step::write(2, 8)]);
    assert_eq!(bench.state.tables.server.notes[1][0], 0b0100);
    bench.all(&[Step::ask(0, 0), Step::deliver(0)]);
    assert_eq!(bench.state.tables.server.notes[1][0], 0b0100, "the OFFER is about volume 0");
}

/// "A server restart loses notes." A dash restart does not.
#[test]
fn restarts() {
    let mut bench = batched();
    bench.all(&[Step::restart_client(0)]);
    assert_eq!(notes(&bench), (0b0001, number(&bench)));
    bench.all(&[Step::restart_server()]);
    assert_eq!(notes(&bench), (0, 0));
    assert!(!marked(&bench));
}

/// A marked client gets all its leases dropped by the OFFER instead.
#[test]
fn a_marked_client_comes_back_by_an_offer() {
    let mut bench = noted();
    bench.all(&[Step::clock(15)]);
    bench.hold(0, 1);
    assert_eq!((bench.line(Step::read(0, 0)), bench.line(Step::read(0, 1))), ((2, 0), (1, 0)));
    assert!(!marked(&bench));
}
