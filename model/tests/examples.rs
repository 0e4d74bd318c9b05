//! The stored examples, and the line of each that a mistake would change.

use std::fs;
use std::path::Path;

use model::examples::all;
use model::listing::{listing, listing_with};
use model::mistakes::Mistakes;

fn stored(name: &str) -> Vec<u8> {
    let folder = Path::new(env!("CARGO_MANIFEST_DIR")).join("../examples");
    fs::read(folder.join(name)).unwrap_or_else(|error| panic!("{name}: {error}"))
}

fn run(name: &str) -> Vec<u8> {
    stored(&format!("{name}.run"))
}

#[test]
fn a_file_without_a_delay_is_refused() {
    assert_eq!(listing(&run("formats/run-file-of-01")), b"step answer value\n0 4 9\n");
}

#[test]
fn stored_files_and_listings_are_the_models() {
    for example in all() {
        let file = run(example.name);
        assert_eq!(file, example.run.file(), "{}", example.name);
        assert_eq!(stored(&format!("{}.listing", example.name)), listing(&file), "{}", example.name);
    }
}

/// Returns the lines, right and mistaken, in which the listings differ.
fn differences(name: &str, mistakes: Mistakes) -> Vec<(String, String)> {
    let file = run(name);
    let honest = String::from_utf8(stored(&format!("{name}.listing"))).unwrap();
    let wrong = String::from_utf8(listing_with(mistakes, &file)).unwrap();
    let pairs = honest.lines().zip(wrong.lines()).filter(|(honest, wrong)| honest != wrong);
    pairs.map(|(honest, wrong)| (honest.into(), wrong.into())).collect()
}

#[test]
fn each_mistake_changes_exactly_its_line() {
    for (example, mistake, honest, wrong) in [
        ("1-one-lease-alone", "read_without_volume_lease", "14 2 0", "14 1 0"),
        ("1-one-lease-alone", "read_without_object_lease", "22 2 0", "22 1 0"),
        ("2-renew-while-waiting", "renew_while_waiting", "20 2 0", "20 1 0"),
        ("3-restart-inside-write", "ack_any_epoch", "21 0 0", "21 3 1"),
        ("4-client-switched-off", "waits_forever", "20 3 1", "20 0 0"),
        ("5-old-messages", "grant_any_number", "46 2 0", "46 1 0"),
        ("5-old-messages", "ack_any_version", "48 0 0", "48 3 1"),
        ("5-old-messages", "dropped_keeps_offer", "52 0 0", "52 3 1"),
        ("5-old-messages", "old_renew_offers", "52 0 0", "52 3 1"),
        ("5-old-messages", "offer_any_number", "55 1 0", "55 2 0"),
        ("6-never-held", "latest_end_by_old_rule", "22 3 1", "22 0 0"),
        ("6-never-held", "latest_end_by_greater", "22 3 1", "22 0 0"),
        ("7-parked", "waits_for_parked", "18 3 1", "18 0 0"),
        ("8-left-behind", "return_keeps_copies", "31 1 0", "31 1 7"),
        ("8-left-behind", "return_keeps_clock", "32 0 0", "32 4 4"),
        ("8-left-behind", "return_keeps_messages", "33 0 0", "33 4 3"),
        ("8-left-behind", "never_saved_is_nothing", "43 4 11", "43 0 0"),
    ] {
        let expected = vec![(honest.to_string(), wrong.to_string())];
        assert_eq!(differences(example, Mistakes::named(mistake)), expected, "{example}, {mistake}");
    }
}
