//! Whole runs: document 01's example, and refusals.

use std::thread;

use gevtsomi::{list, Refused, FILE_BYTES, LISTING_BYTES, LIST_STACK_BYTES};

const FILE: &[u8] = include_bytes!("data/document.run");
const LISTING: &[u8] = include_bytes!("data/document.listing");

#[test]
fn the_listing_is_the_documents() {
    let mut output = vec![0xaa; LISTING_BYTES];
    assert_eq!(list(FILE, &mut output), Ok(LISTING.len()));
    assert_eq!(output[..LISTING.len()], *LISTING);
    assert!(output[LISTING.len()..].iter().all(|&byte| byte == 0xaa), "bytes past the listing stay");
}

#[test]
fn an_output_of_the_listings_length_is_enough() {
    let mut output = vec![0xaa; LISTING.len()];
    assert_eq!(list(FILE, &mut output), Ok(LISTING.len()));
    assert_eq!(output, LISTING);
}

fn refused(file: &[u8], room: usize, number: u8) {
    let mut output = vec![0xaa; room];
    assert_eq!(list(file, &mut output), Err(Refused { number }));
    assert!(output.iter().all(|&byte| byte == 0xaa), "{room} bytes of output");
}

#[test]
fn an_output_too_short_stays_as_it_was() {
    for short in [0, 1, 17, 18, LISTING.len() - 1] {
        refused(FILE, short, 8);
    }
}

/// The file is checked first, even where the output has no room for a listing.
#[test]
fn what_is_no_run_file_is_refused() {
    let mut too_long = vec![0; FILE_BYTES + 1 - FILE.len()];
    too_long.extend(FILE);
    for file in [&[], &FILE[1..], &FILE[..FILE.len() - 1], &too_long] {
        for room in [0, LISTING_BYTES] {
            refused(file, room, 9);
        }
    }
    assert!(
        list(&too_long[1..], &mut [0; LISTING_BYTES]).is_ok(),
        "a note may be as long as the file has room"
    );
}

/// A file from before delayed invalidations has 0 where the delay is now.
#[test]
fn a_file_without_a_delay_is_refused() {
    for delay in [0, 65_536, u32::MAX] {
        let mut file = FILE.to_vec();
        file[44..48].copy_from_slice(&delay.to_le_bytes());
        refused(&file, LISTING_BYTES, 9);
    }
}

/// Calls on a thread with just that much stack, some of which the thread needs
/// for itself.
#[test]
fn the_stack_that_is_named_is_enough() {
    let mut output = vec![0; LISTING_BYTES];
    thread::scope(|scope| {
        let thread = thread::Builder::new().stack_size(LIST_STACK_BYTES);
        let listing = thread.spawn_scoped(scope, || list(FILE, &mut output)).expect("a thread");
        assert_eq!(listing.join().expect("no panic"), Ok(LISTING.len()));
    });
}
