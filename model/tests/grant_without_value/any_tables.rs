//! Tables made by hand, which no run reaches.

use model::copies::ObjectCopy;
use model::message::{Grant, Kind, Message};
use model::requests::{Request, Standing};
use model::step_record::Step;

use crate::common::{setup, Bench};

const CLIENT: usize = 1;
const OBJECT: u8 = 2;

/// The volume of the object.
const VOLUME: usize = 1;

const GRANT: Grant = Grant {
    object: OBJECT,
    number: 5,
    volume_expiry: 30,
    epoch: 4,
    version: 3,
    object_expiry: 40,
    value: None,
};

/// What the client holds of the object beforehand.
const HELD: [ObjectCopy; 5] = [
    ObjectCopy { version: 0, expiry: 0, value: 0 },
    ObjectCopy { version: 0, expiry: 50, value: 7 },
    ObjectCopy { version: 2, expiry: 20, value: 7 },
    ObjectCopy { version: 3, expiry: 20, value: 7 },
    ObjectCopy { version: u32::MAX, expiry: 90, value: u64::MAX },
];

fn place() -> usize {
    setup().copy_place(CLIENT, OBJECT.into())
}

/// Returns tables in which the GRANT is under way and a request with this
/// number stands.
fn with(held: ObjectCopy, number: u32, object: u8) -> Bench {
    let mut bench = Bench::fresh();
    let (tables, copies, requests) = bench.state.parts(&bench.setup);
    tables.queue.send(Message { client: CLIENT as u8, kind: Kind::Grant(GRANT) });
    tables.clients.epoch[CLIENT][VOLUME] = 9;
    tables.clients.expiry[CLIENT][VOLUME] = 60;
    copies[place()] = held;
    requests[CLIENT] = Request { next: 8, standing: Some(Standing { number, object }) };
    bench
}

/// Everything except the value is stored, and the request ends, whichever
/// object it is for.
#[test]
fn stored_whatever_is_held() {
    for held in HELD {
        for object in [OBJECT, 0] {
            let mut bench = with(held, GRANT.number, object);
            let mut expected = bench.state;
            assert_eq!(bench.line(Step::deliver(0)), (0, 0));
            let (tables, copies, requests) = expected.parts(&bench.setup);
            tables.queue.len = 0;
            tables.clients.epoch[CLIENT][VOLUME] = 4;
            tables.clients.expiry[CLIENT][VOLUME] = 30;
            copies[place()] = ObjectCopy { version: 3, expiry: 40, value: held.value };
            requests[CLIENT] = Request { next: 8, standing: None };
            assert!(bench.state == expected, "{held:?}, object {object}");
            assert_eq!(bench.line(Step::read(CLIENT as u8, OBJECT)), (1, held.value));
        }
    }
}

#[test]
fn nothing_with_another_number() {
    for held in HELD {
        let mut bench = with(held, GRANT.number + 1, OBJECT);
        let mut expected = bench.state;
        expected.tables.queue.len = 0;
        assert_eq!(bench.line(Step::deliver(0)), (0, 0));
        assert!(bench.state == expected, "{held:?}");
    }
}
