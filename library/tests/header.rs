//! The C header has the same numbers as the package.

use gevtsomi::{
    decode, list, why, workload, write, Reason, Setup, Step, FILE_BYTES, FRAME_BYTES, LISTING_BYTES,
    LIST_STACK_BYTES, OBJECTS, SETUP_BYTES, STEPS, STEP_BYTES, WHY_STACK_BYTES, WRITE_STACK_BYTES,
};

const HEADER: &str = include_str!("../gevtsomi.h");
const FILE: &[u8] = include_bytes!("data/document.run");

/// Returns what the header defines a name as.
fn text(name: &str) -> &str {
    let mut definitions = HEADER.lines().filter_map(|line| line.strip_prefix("#define ")?.split_once(' '));
    definitions.find(|(defined, _)| *defined == name).expect(name).1
}

fn defined(name: &str) -> usize {
    text(name).parse().expect(name)
}

#[test]
fn its_version_is_the_packages() {
    assert_eq!(text("GEVTSOMI_VERSION"), concat!('"', env!("CARGO_PKG_VERSION"), '"'));
    assert_eq!(text("GEVTSOMI_VERSION_MAJOR"), env!("CARGO_PKG_VERSION_MAJOR"));
    assert_eq!(text("GEVTSOMI_VERSION_MINOR"), env!("CARGO_PKG_VERSION_MINOR"));
    assert_eq!(text("GEVTSOMI_VERSION_PATCH"), env!("CARGO_PKG_VERSION_PATCH"));
}

#[test]
fn its_lengths_are_the_packages() {
    assert_eq!(defined("GEVTSOMI_FILE_BYTES"), FILE_BYTES);
    assert_eq!(defined("GEVTSOMI_LISTING_BYTES"), LISTING_BYTES);
    assert_eq!(defined("GEVTSOMI_LIST_STACK_BYTES"), LIST_STACK_BYTES);
    assert_eq!(defined("GEVTSOMI_WHY_STACK_BYTES"), WHY_STACK_BYTES);
    assert_eq!(defined("GEVTSOMI_WRITE_STACK_BYTES"), WRITE_STACK_BYTES);
    assert_eq!(defined("GEVTSOMI_SETUP_BYTES"), SETUP_BYTES);
    assert_eq!(defined("GEVTSOMI_STEP_BYTES"), STEP_BYTES);
    assert_eq!(defined("GEVTSOMI_OBJECTS"), OBJECTS);
    assert_eq!(defined("GEVTSOMI_STEPS"), STEPS);
    assert_eq!(defined("GEVTSOMI_FRAME_BYTES"), FRAME_BYTES);
}

/// The enum's first name has a number, and the others follow it.
#[test]
fn its_reasons_are_the_packages() {
    let body = HEADER.split_once("enum gevtsomi_reason {\n").expect("the enum").1;
    let lines = body.lines().take_while(|line| !line.starts_with('}'));
    let names: Vec<&str> = lines.map(|line| line.trim().trim_end_matches(',')).collect();
    let reasons = [
        (Reason::NeverGranted, "GEVTSOMI_NEVER_GRANTED = 1"),
        (Reason::CopyInvalidated, "GEVTSOMI_COPY_INVALIDATED"),
        (Reason::LeasesDropped, "GEVTSOMI_LEASES_DROPPED"),
        (Reason::ClientRestarted, "GEVTSOMI_CLIENT_RESTARTED"),
        (Reason::VolumeLeaseRanOut, "GEVTSOMI_VOLUME_LEASE_RAN_OUT"),
        (Reason::ObjectLeaseRanOut, "GEVTSOMI_OBJECT_LEASE_RAN_OUT"),
    ];
    assert_eq!(names, reasons.map(|(_, name)| name));
    assert_eq!(reasons.map(|(reason, _)| reason as u8), [1, 2, 3, 4, 5, 6]);
}

const SETUP: Setup = Setup {
    clients: 1,
    volumes: 1,
    objects: 1,
    volume_lease: 1,
    object_lease: 1,
    timeout: 1,
    delay: 1,
    volume_of: [0; OBJECTS],
};

#[test]
fn its_refusals_are_those_given() {
    let no_file = list(&[], &mut []).unwrap_err();
    let no_room = list(FILE, &mut []).unwrap_err();
    let no_run = why(&[], 1).unwrap_err();
    let no_frame = decode(&[]).unwrap_err();
    assert_eq!(defined("GEVTSOMI_NO_RUN_FILE"), no_file.number.into());
    assert_eq!(defined("GEVTSOMI_NO_RUN_FILE"), no_run.number.into());
    assert_eq!(defined("GEVTSOMI_NO_FRAME_OR_ROOM"), no_room.number.into());
    assert_eq!(defined("GEVTSOMI_NO_FRAME_OR_ROOM"), no_frame.number.into());
    for (setup, name) in [(&[][..], "GEVTSOMI_BAD_SETUP"), (&SETUP.bytes(), "GEVTSOMI_NOT_WRITTEN")] {
        let not_written = write(&[], setup, &[], &mut []).unwrap_err();
        let not_drawn = workload(1, &[], setup, 0, &mut []).unwrap_err();
        assert_eq!(defined(name), not_written.number.into());
        assert_eq!(defined(name), not_drawn.number.into());
    }
}

/// A name above 3, and a return to a name that was never saved.
#[test]
fn its_refusal_of_a_name_is_the_listings() {
    let steps =
        [(10, 4), (11, 0), (10, 0), (11, 0)].map(|(kind, place)| Step { kind, place, ..Step::default() });
    let (mut file, mut listing) = (vec![0; FILE_BYTES], vec![0; LISTING_BYTES]);
    let len =
        write(&[], &SETUP.bytes(), &steps.map(|step| step.record()).concat(), &mut file).expect("a file");
    let len = list(&file[..len], &mut listing).expect("a listing");
    let refused = defined("GEVTSOMI_NO_SAVED_STATE");
    let lines = format!("step answer value\n1 4 {refused}\n2 4 {refused}\n3 0 0\n4 0 0\n");
    assert_eq!(String::from_utf8_lossy(&listing[..len]), lines);
}
