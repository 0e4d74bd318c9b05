//! Why a read was answered "ask first": document 01's example, a run by hand for
//! each reason, lines left behind, and refusals.

use std::thread;

use gevtsomi::{why, write, Reason, Refused, Setup, Step, Why, FILE_BYTES, OBJECTS, STEPS, WHY_STACK_BYTES};

const DOCUMENT: &[u8] = include_bytes!("data/document.run");

const NONE: Step = Step { kind: 0, client: 0, object: 0, place: 0, clock: 0, value: 0 };
const READ: Step = Step { kind: 2, ..NONE };
const ASK: Step = Step { kind: 3, ..NONE };
const WRITE: Step = Step { kind: 4, value: 7, ..NONE };
const DELIVER: Step = Step { kind: 5, ..NONE };
const RESTART_SERVER: Step = Step { kind: 8, ..NONE };
const RESTART_CLIENT: Step = Step { kind: 9, ..NONE };
const SAVE: Step = Step { kind: 10, ..NONE };
const RETURN: Step = Step { kind: 11, ..NONE };

/// The client knows no epoch, so that it gets an OFFER first and a GRANT in the
/// seventh step.
const GRANTED: [Step; 7] = [ASK, DELIVER, DELIVER, DELIVER, ASK, DELIVER, DELIVER];

extern "C" {
    fn gevtsomi_why(file: *const u8, file_len: usize, step: u32, reason: *mut u8, event: *mut u32) -> u8;
}

fn clock(clock: u32) -> Step {
    Step { kind: 1, clock, ..NONE }
}

/// Returns the file of a run with one client and one object.
fn file(volume_lease: u32, object_lease: u32, steps: &[Step]) -> Vec<u8> {
    let (clients, volumes, objects, timeout, delay) = (1, 1, 1, 3, 1);
    let volume_of = [0; OBJECTS];
    let setup = Setup { clients, volumes, objects, volume_lease, object_lease, timeout, delay, volume_of };
    let records: Vec<u8> = steps.iter().flat_map(Step::record).collect();
    let mut file = vec![0; FILE_BYTES];
    let len = write(&[], &setup.bytes(), &records, &mut file).expect("a file");
    file.truncate(len);
    file
}

/// Checks why the last of these steps, a read after a grant, was answered "ask
/// first", in a run with these leases.
fn last_read(leases: (u32, u32), after_the_grant: &[Step], reason: Reason, event: u32) {
    let steps = [&GRANTED, after_the_grant, &[READ]].concat();
    let file = file(leases.0, leases.1, &steps);
    assert_eq!(why(&file, steps.len() as u32), Ok(Some(Why { reason, event })), "{after_the_grant:?}");
}

/// It has two reads answered "ask first": before the grant, and when the volume
/// lease has run out.
#[test]
fn the_documents_reads_have_their_reasons() {
    for step in (0..=17).chain([STEPS as u32, u32::MAX]) {
        let expected = match step {
            1 => Some(Why { reason: Reason::NeverGranted, event: 0 }),
            13 => Some(Why { reason: Reason::VolumeLeaseRanOut, event: 8 }),
            _ => None,
        };
        assert_eq!(why(DOCUMENT, step), Ok(expected), "step {step}");
    }
}

#[test]
fn each_event_has_its_reason() {
    let leases = (10, 100);
    last_read(leases, &[WRITE, DELIVER], Reason::CopyInvalidated, 9);
    last_read(leases, &[RESTART_SERVER, ASK, DELIVER, DELIVER], Reason::LeasesDropped, 11);
    // The write is noted, since the client's volume lease has ended; a BATCH
    // tells it.
    last_read(leases, &[clock(12), WRITE, ASK, DELIVER, DELIVER], Reason::LeasesDropped, 12);
    last_read(leases, &[RESTART_CLIENT], Reason::ClientRestarted, 8);
}

/// The volume lease decides if both end at once.
#[test]
fn the_lease_that_ran_out_first_is_named() {
    last_read((10, 11), &[clock(20)], Reason::VolumeLeaseRanOut, 7);
    last_read((10, 10), &[clock(20)], Reason::VolumeLeaseRanOut, 7);
    last_read((11, 10), &[clock(20)], Reason::ObjectLeaseRanOut, 7);
    last_read((11, 10), &[clock(10)], Reason::ObjectLeaseRanOut, 7);
}

#[test]
fn what_a_return_leaves_behind_does_not_count() {
    last_read((10, 100), &[SAVE, RESTART_CLIENT, RETURN, clock(10)], Reason::VolumeLeaseRanOut, 7);
    let steps = [&[SAVE][..], &GRANTED, &[RETURN, READ]].concat();
    let never = Why { reason: Reason::NeverGranted, event: 0 };
    assert_eq!(why(&file(10, 100, &steps), 10), Ok(Some(never)));
}

/// The outputs keep what they held before.
#[test]
fn what_is_no_run_file_is_refused() {
    let mut too_long = vec![0; FILE_BYTES + 1 - DOCUMENT.len()];
    too_long.extend(DOCUMENT);
    let mut no_delay = DOCUMENT.to_vec();
    no_delay[44] = 0;
    for file in [&[], &DOCUMENT[1..], &DOCUMENT[..DOCUMENT.len() - 1], &too_long, &no_delay] {
        for step in [0, 1, 13, u32::MAX] {
            assert_eq!(why(file, step), Err(Refused { number: 9 }));
            let (mut reason, mut event) = (77, 88);
            // SAFETY: the slice is valid for its length, and the outputs are
            // locals.
            let refusal = unsafe { gevtsomi_why(file.as_ptr(), file.len(), step, &mut reason, &mut event) };
            assert_eq!((refusal, reason, event), (9, 77, 88));
        }
    }
}

/// Both outputs are written even if they are 0.
#[test]
fn a_step_without_a_reason_gets_zeros() {
    for step in [0, 9, 16] {
        let (mut reason, mut event) = (77, 88);
        // SAFETY: as above.
        let refusal =
            unsafe { gevtsomi_why(DOCUMENT.as_ptr(), DOCUMENT.len(), step, &mut reason, &mut event) };
        assert_eq!((refusal, reason, event), (0, 0, 0), "step {step}");
    }
}

/// Calls on a thread with just that much stack, some of which the thread needs
/// for itself.
#[test]
fn the_stack_that_is_named_is_enough() {
    let mut steps = [&GRANTED[..], &[SAVE, RETURN, clock(10)]].concat();
    steps.resize(STEPS, READ);
    let file = file(10, 100, &steps);
    thread::scope(|scope| {
        let thread = thread::Builder::new().stack_size(WHY_STACK_BYTES);
        let found = thread.spawn_scoped(scope, || why(&file, STEPS as u32)).expect("a thread");
        let reason = Why { reason: Reason::VolumeLeaseRanOut, event: 7 };
        assert_eq!(found.join().expect("no panic"), Ok(Some(reason)));
    });
}
