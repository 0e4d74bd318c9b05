//! Each sentence of A8 of document 02, why a read asks first, by hand.

mod common;

use common::setup;
use model::setup::Setup;
use model::step_record::Step;
use model::unchecked_writer::write;
use model::why::{why, whys, Why};

const READ: Step = Step { kind: 2, client: 0, object: 0, place: 0, clock: 0, value: 0 };

/// Asks and delivers until the client holds the object: seven steps, the first
/// OFFER is delivered in the third, the GRANT in the last.
fn hold(client: u8, object: u8) -> Vec<Step> {
    let (ask, deliver) = (Step::ask(client, object), Step::deliver(0));
    vec![ask, deliver, deliver, deliver, ask, deliver, deliver]
}

/// Renews a lease of a client that knows the epoch: three steps, the GRANT is
/// delivered in the last.
fn renew(client: u8, object: u8) -> Vec<Step> {
    vec![Step::ask(client, object), Step::deliver(0), Step::deliver(0)]
}

/// Returns the answer about the last step, and checks it against that of every
/// other call.
fn last_with(setup: &Setup, parts: &[&[Step]]) -> (u8, u32) {
    let steps = parts.concat();
    let file = write(b"any note", setup, &steps);
    let each = whys(&file).expect("a run file");
    assert_eq!(each.len(), steps.len());
    for (number, found) in (1..).zip(&each) {
        assert_eq!(why(&file, number), Ok(*found));
    }
    let Why { reason, event } = each[each.len() - 1];
    (reason, event)
}

fn last(parts: &[&[Step]]) -> (u8, u32) {
    last_with(&setup(), parts)
}

fn ticks(volume_lease: u32, object_lease: u32) -> Setup {
    Setup { volume_lease, object_lease, ..setup() }
}

#[test]
fn never_granted_is_1_and_there_is_no_event() {
    assert_eq!(last(&[&[READ]]), (1, 0));
    assert_eq!(last(&[&[Step::ask(0, 0)], &[READ]]), (1, 0));
}

/// The GRANT is under way, is lost, or is for another client or object.
#[test]
fn never_granted_though_others_were() {
    assert_eq!(last(&[&hold(0, 0)[..6], &[READ]]), (1, 0));
    assert_eq!(last(&[&hold(0, 0)[..6], &[Step::lose(0), READ]]), (1, 0));
    assert_eq!(last(&[&hold(1, 0), &[READ]]), (1, 0));
    assert_eq!(last(&[&hold(0, 1), &[READ]]), (1, 0));
    assert_eq!(last(&[&hold(0, 2), &[READ]]), (1, 0));
}

/// "Erasing means that the copy's version or expiry went from nonzero to 0", so
/// without a copy nothing is an event.
#[test]
fn never_granted_and_nothing_to_erase() {
    assert_eq!(last(&[&hold(0, 0)[..4], &[READ]]), (1, 0), "an OFFER");
    assert_eq!(last(&[&[Step::restart_client(0), READ]]), (1, 0));
    assert_eq!(last(&[&hold(0, 1), &[Step::restart_client(0), READ]]), (1, 0));
    // The write waits for a client that was granted but never got the GRANT.
    let unheard = [Step::lose(0), Step::write(0, 7), Step::deliver(0), READ];
    assert_eq!(last(&[&hold(0, 0)[..6], &unheard]), (1, 0), "an INVALIDATE");
}

#[test]
fn copy_invalidated_is_2() {
    assert_eq!(last(&[&hold(0, 0), &[Step::write(0, 7), Step::deliver(0), READ]]), (2, 9));
    let later = [Step::write(0, 7), Step::deliver(0), Step::deliver(0), Step::clock(500), READ];
    assert_eq!(last(&[&hold(0, 0), &later]), (2, 9), "whatever comes after it");
}

/// The second INVALIDATE finds no copy, so the first one is named.
#[test]
fn an_invalidate_that_comes_twice() {
    let twice = [Step::write(0, 7), Step::double(0), Step::deliver(0), Step::deliver(0), READ];
    assert_eq!(last(&[&hold(0, 0), &twice]), (2, 10));
}

/// The server was restarted, so the epoch differs.
fn offered() -> Vec<Step> {
    let offer = [Step::restart_server(), Step::ask(0, 0), Step::deliver(0), Step::deliver(0)];
    [&hold(0, 0)[..], &offer].concat()
}

#[test]
fn leases_dropped_on_an_offer_is_3() {
    assert_eq!(last(&[&offered(), &[READ]]), (3, 11));
    assert_eq!(last(&[&offered(), &[Step::clock(500), READ]]), (3, 11));
}

/// An OFFER sets all object expiries of its volume to 0, whichever object was
/// asked for, and none of another volume.
#[test]
fn an_offer_is_an_event_for_every_copy_of_its_volume() {
    let held = [hold(0, 0), renew(0, 1), hold(0, 2)].concat();
    let offer = [Step::restart_server(), Step::ask(0, 0), Step::deliver(0), Step::deliver(0)];
    assert_eq!(last(&[&held, &offer, &[READ]]), (3, 21));
    assert_eq!(last(&[&held, &offer, &[Step::read(0, 1)]]), (3, 21));
    assert_eq!(last(&[&held, &offer, &[Step::read(0, 2)]]), (0, 0), "shown");
    assert_eq!(last(&[&held, &offer, &[Step::clock(10), Step::read(0, 2)]]), (5, 17));
    assert_eq!(last(&[&held, &offer, &[Step::read(0, 3)]]), (1, 0));
}

#[test]
fn an_offer_that_finds_expiry_0_is_no_event() {
    let again = [Step::restart_server(), Step::ask(0, 0), Step::deliver(1), Step::deliver(1), READ];
    assert_eq!(last(&[&offered(), &again]), (3, 11));
}

/// An OFFER needs the standing number.
#[test]
fn an_offer_of_no_standing_request_is_no_event() {
    let asked_again = [Step::restart_server(), Step::ask(0, 0), Step::deliver(0), Step::ask(0, 0)];
    let both = [Step::deliver(0), Step::clock(10), READ];
    assert_eq!(last(&[&hold(0, 0), &asked_again, &both]), (5, 7));
}

/// The client is parked at 10, and object 0 is noted for it.
fn batched(asked: u8) -> Vec<Step> {
    let batch = [Step::clock(10), Step::write(0, 7), Step::ask(0, asked), Step::deliver(0)];
    [&hold(0, 0)[..], &renew(0, 1), &batch].concat()
}

#[test]
fn leases_dropped_on_a_batch_is_3() {
    assert_eq!(last(&[&batched(0), &[READ]]), (5, 7), "under way");
    for asked in [0, 1] {
        assert_eq!(last(&[&batched(asked), &[Step::deliver(0), READ]]), (3, 15));
        let other = [Step::deliver(0), Step::read(0, 1)];
        assert_eq!(last(&[&batched(asked), &other]), (5, 10), "not in the set");
    }
}

/// After a BATCH whose CLEARED was lost the next one finds no copy.
#[test]
fn a_batch_that_finds_no_copy_is_no_event() {
    let again = [Step::deliver(0), Step::lose(0), Step::ask(0, 0), Step::deliver(0), Step::deliver(0), READ];
    assert_eq!(last(&[&batched(0), &again]), (3, 15));
}

#[test]
fn client_restarted_is_4() {
    assert_eq!(last(&[&hold(0, 0), &[Step::restart_client(0), READ]]), (4, 8));
    let twice = [Step::restart_client(0), Step::clock(500), Step::restart_client(0), READ];
    assert_eq!(last(&[&hold(0, 0), &twice]), (4, 8), "the second finds no copy");
}

#[test]
fn other_restarts_are_no_events() {
    let others = [Step::restart_client(1), Step::restart_server(), Step::clock(10), READ];
    assert_eq!(last(&[&hold(0, 0), &others]), (5, 7));
}

#[test]
fn volume_lease_ran_out_is_5() {
    assert_eq!(last(&[&hold(0, 0), &[Step::clock(9), READ]]), (0, 0), "alive at 9");
    assert_eq!(last(&[&hold(0, 0), &[Step::clock(10), READ]]), (5, 7));
    assert_eq!(last(&[&hold(0, 0), &[Step::clock(500), READ]]), (5, 7), "the object's too, later");
}

#[test]
fn object_lease_ran_out_is_6() {
    let setup = ticks(10, 5);
    assert_eq!(last_with(&setup, &[&hold(0, 0), &[Step::clock(4), READ]]), (0, 0));
    assert_eq!(last_with(&setup, &[&hold(0, 0), &[Step::clock(5), READ]]), (6, 7));
    assert_eq!(last_with(&setup, &[&hold(0, 0), &[Step::clock(10), READ]]), (6, 7), "it ran out first");
}

#[test]
fn the_volume_on_a_tie() {
    for time in [5, 6] {
        assert_eq!(last_with(&ticks(5, 5), &[&hold(0, 0), &[Step::clock(time), READ]]), (5, 7));
    }
    assert_eq!(last_with(&ticks(6, 5), &[&hold(0, 0), &[Step::clock(6), READ]]), (6, 7));
    assert_eq!(last_with(&ticks(5, 6), &[&hold(0, 0), &[Step::clock(6), READ]]), (5, 7));
}

/// Another object's GRANT renews the volume. It decides which lease is the
/// earlier one, but it is no event for this object.
#[test]
fn the_expiries_at_the_read_decide() {
    let setup = ticks(10, 15);
    let renewed = [&[Step::clock(8)][..], &renew(0, 1)].concat();
    assert_eq!(last_with(&setup, &[&hold(0, 0), &[Step::clock(15), READ]]), (5, 7));
    assert_eq!(last_with(&setup, &[&hold(0, 0), &renewed, &[Step::clock(15), READ]]), (6, 7));
    assert_eq!(last_with(&setup, &[&hold(0, 0), &renewed, &[Step::clock(18), READ]]), (6, 7));
    let tie = [&[Step::clock(5)][..], &renew(0, 1)].concat();
    assert_eq!(last_with(&setup, &[&hold(0, 0), &tie, &[Step::clock(15), READ]]), (5, 7));
    let other_volume = [&[Step::clock(8)][..], &hold(0, 2)].concat();
    assert_eq!(last_with(&setup, &[&hold(0, 0), &other_volume, &[Step::clock(15), READ]]), (5, 7));
}

/// The server has given a longer lease, but its GRANT was lost.
#[test]
fn the_clients_own_expiries_decide() {
    let setup = ticks(10, 5);
    let lost = [Step::clock(4), Step::ask(0, 0), Step::deliver(0), Step::lose(0), Step::clock(5), READ];
    assert_eq!(last_with(&setup, &[&hold(0, 0), &lost]), (6, 7));
}

/// A GRANT that renews is the last granting event, with a value or without one,
/// even if it changes nothing.
#[test]
fn every_grant_that_is_stored_is_an_event() {
    let renewed = [&[Step::clock(5)][..], &renew(0, 0), &[Step::clock(15), READ]].concat();
    assert_eq!(last(&[&hold(0, 0), &renewed]), (5, 11));
    assert_eq!(last(&[&hold(0, 0), &renew(0, 0), &[Step::clock(10), READ]]), (5, 10));
}

#[test]
fn a_grant_after_erasing_is_the_last_event() {
    let written = [Step::write(0, 7), Step::deliver(0), Step::deliver(0)];
    assert_eq!(last(&[&hold(0, 0), &written, &renew(0, 0), &[Step::clock(10), READ]]), (5, 13));
    let dropped = [&[Step::deliver(0)][..], &renew(0, 0)].concat();
    assert_eq!(last(&[&offered(), &dropped, &[Step::clock(10), READ]]), (5, 15));
    assert_eq!(
        last(&[&hold(0, 0), &[Step::restart_client(0)], &hold(0, 0), &[Step::clock(10), READ]]),
        (5, 15)
    );
}

/// The GRANT comes twice, and the second time its number does not stand.
#[test]
fn a_grant_that_is_not_stored_is_no_event() {
    let doubled = [Step::double(0), Step::deliver(0), Step::deliver(0), Step::clock(10), READ];
    assert_eq!(last(&[&hold(0, 0)[..6], &doubled]), (5, 8));
    let late = [Step::double(0), Step::deliver(0), Step::restart_client(0), Step::deliver(0), READ];
    assert_eq!(last(&[&hold(0, 0)[..6], &late]), (4, 9));
}

#[test]
fn invalidated_then_restarted() {
    let both = [Step::write(0, 7), Step::deliver(0), Step::restart_client(0), READ];
    assert_eq!(last(&[&hold(0, 0), &both]), (2, 9));
}

/// After an OFFER the version is still there, so it can go from nonzero to 0.
#[test]
fn offered_then_restarted() {
    assert_eq!(last(&[&offered(), &[Step::restart_client(0), READ]]), (4, 12));
}

/// The INVALIDATE was under way when the server restarted.
#[test]
fn offered_then_invalidated() {
    let offer = [Step::write(0, 7), Step::restart_server(), Step::ask(0, 0), Step::deliver(1)];
    assert_eq!(last(&[&hold(0, 0), &offer, &[Step::deliver(1), READ]]), (3, 12));
    assert_eq!(last(&[&hold(0, 0), &offer, &[Step::deliver(1), Step::deliver(0), READ]]), (2, 13));
}

/// A write that completes without the client erases nothing at the client.
#[test]
fn a_completed_write_is_no_event() {
    let written = [Step::write(0, 7), Step::lose(0), Step::clock(11), READ];
    assert_eq!(last(&[&hold(0, 0), &written]), (5, 7));
}

#[test]
fn zero_is_for_a_step_that_is_not_a_read_answered_ask_first() {
    assert_eq!(last(&[&hold(0, 0), &[READ]]), (0, 0), "shown");
    for refused in [Step::read(3, 0), Step::read(0, 4), Step::read(255, 255), Step { kind: 12, ..READ }] {
        assert_eq!(last(&[&[refused]]), (0, 0), "{refused:?}");
    }
    let others = [
        Step::clock(5),
        Step::ask(0, 0),
        Step::write(0, 7),
        Step::deliver(0),
        Step::lose(0),
        Step::double(0),
        Step::restart_server(),
        Step::restart_client(0),
        Step::save(0),
        Step::return_to(0),
        Step { kind: 0, ..READ },
    ];
    for other in others {
        assert_eq!(last(&[&[READ, other]]), (0, 0), "{other:?}");
    }
}

#[test]
fn zero_is_for_a_step_not_in_the_run() {
    let file = write(&[], &setup(), &[READ, READ]);
    let never = Ok(Why { reason: 1, event: 0 });
    assert_eq!([why(&file, 1), why(&file, 2)], [never, never]);
    for step in [0, 3, 4, 4_001, 1 << 16, u32::MAX] {
        assert_eq!(why(&file, step), Ok(Why::NONE), "{step}");
    }
    let empty = write(&[], &setup(), &[]);
    assert_eq!((why(&empty, 0), why(&empty, 1)), (Ok(Why::NONE), Ok(Why::NONE)));
    assert_eq!(whys(&empty), Ok(vec![]));
}

#[test]
fn nine_for_what_is_no_run_file() {
    let file = write(&[], &setup(), &[READ]);
    let bad_setup = write(&[], &Setup { clients: 0, ..setup() }, &[READ]);
    let unused = write(&[], &setup(), &[Step { place: 1, ..READ }]);
    for bad in [&[][..], &[0; 60], &file[1..], &file[..file.len() - 1], &bad_setup, &unused] {
        assert_eq!(whys(bad), Err(9));
        for step in [0, 1, 2, u32::MAX] {
            assert_eq!(why(bad, step), Err(9));
        }
    }
}

/// Returns to what was saved before the client held anything.
#[test]
fn a_grant_on_an_abandoned_branch() {
    let (save, back) = ([Step::save(0)], [Step::return_to(0), READ]);
    assert_eq!(last(&[&save, &hold(0, 0), &back]), (1, 0));
    assert_eq!(last(&[&save, &hold(0, 0), &[Step::restart_client(0)], &back]), (1, 0));
}

/// The GRANT is under way at the save, and is delivered on both sides.
#[test]
fn the_event_of_a_grant_after_a_return() {
    let both = [Step::save(0), Step::deliver(0), Step::return_to(0), Step::clock(1), Step::deliver(0)];
    assert_eq!(last(&[&hold(0, 0)[..6], &both, &[Step::clock(10), READ]]), (5, 11));
    assert_eq!(last(&[&hold(0, 0)[..6], &both[..3], &[READ]]), (1, 0));
}

/// What happened before the save counts again, with its own number.
#[test]
fn events_before_the_save_come_back() {
    let invalidated = [Step::write(0, 7), Step::deliver(0), Step::deliver(0), Step::save(1)];
    let branch = [hold(0, 0), vec![Step::restart_client(0), READ]].concat();
    let line = [hold(0, 0), invalidated.to_vec()].concat();
    assert_eq!(last(&[&line, &branch]), (4, 19));
    assert_eq!(last(&[&line, &branch, &[Step::return_to(1), READ]]), (2, 9));
    let granted = [Step::save(0), Step::restart_client(0), READ, Step::return_to(0)];
    assert_eq!(last(&[&hold(0, 0), &granted, &[READ]]), (0, 0), "shown again");
    assert_eq!(last(&[&hold(0, 0), &granted, &[Step::clock(10), READ]]), (5, 7));
}

/// A branch that was left is a line again when a state saved on it is returned
/// to.
#[test]
fn a_state_saved_on_a_branch_has_that_branch_in_its_line() {
    let saves = [&[Step::save(0)][..], &hold(0, 0), &[Step::restart_client(0), Step::save(1)]].concat();
    assert_eq!(last(&[&saves, &[Step::return_to(0), READ]]), (1, 0));
    assert_eq!(last(&[&saves, &[Step::return_to(0), Step::return_to(1), READ]]), (4, 9));
    assert_eq!(last(&[&saves, &[Step::return_to(1), Step::return_to(0), READ]]), (1, 0));
}

#[test]
fn saving_over_a_name_saves_its_events_too() {
    let saved_over = [&[Step::save(0)][..], &hold(0, 0), &[Step::save(0), Step::restart_client(0)]].concat();
    assert_eq!(last(&[&saved_over, &[Step::return_to(0), Step::clock(10), READ]]), (5, 8));
}

/// A save and a return that are refused do nothing.
#[test]
fn refused_saves_and_returns() {
    let refused = [Step::save(4), Step::return_to(1), Step::return_to(255), Step::restart_client(0)];
    assert_eq!(last(&[&hold(0, 0), &refused, &[READ]]), (4, 11));
    assert_eq!(last(&[&hold(0, 0), &refused, &[Step::return_to(0), READ]]), (4, 11));
}

/// 01's own run: its two reads that ask first.
#[test]
fn the_document() {
    let document = &model::examples::all()[0];
    let each = whys(&document.run.file()).expect("a run file");
    let found: Vec<_> = (1..).zip(&each).filter(|(_, why)| why.reason != 0).collect();
    assert_eq!(found, [(1, &Why { reason: 1, event: 0 }), (13, &Why { reason: 5, event: 8 })]);
}
