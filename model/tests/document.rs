//! 01's own example, byte for byte.

use model::listing::{listing, listing_trusting};
use model::setup::Setup;
use model::step_record::Step;
use model::unchecked_writer::write;

const LISTING: &str = "\
step answer value
1 2 0
2 0 0
3 0 0
4 0 0
5 0 0
6 0 0
7 0 0
8 0 0
9 1 0
10 0 0
11 0 0
12 0 0
13 2 0
14 3 1
15 4 4
";

fn file() -> Vec<u8> {
    let setup = Setup {
        clients: 1,
        volumes: 1,
        objects: 1,
        volume_lease: 10,
        object_lease: 100,
        timeout: 3,
        delay: 1,
        volume_of: [0; 28],
    };
    let (read, ask, deliver) = (Step::read(0, 0), Step::ask(0, 0), Step::deliver(0));
    let opening = [read, ask, deliver, deliver, deliver, ask, deliver, deliver];
    let change = [read, Step::write(0, 7), Step::lose(0), Step::clock(10), read];
    let end = [Step::clock(11), Step::clock(4)];
    write(b"", &setup, &[&opening[..], &change, &end].concat())
}

#[test]
fn the_listing_is_the_printed_one() {
    assert_eq!(String::from_utf8(listing(&file())).unwrap(), LISTING);
    assert_eq!(listing_trusting(&file()), LISTING.as_bytes());
}

#[test]
fn a_refused_file_has_one_line() {
    let refused = b"step answer value\n0 4 9\n";
    assert_eq!(listing(b""), refused);
    assert_eq!(listing(&file()[1..]), refused);
    assert_eq!(listing(&vec![0; 65_537]), refused);
}
