//! 7 before 10, and 10 from 4,001 steps on.

use model::setup::Setup;
use model::workload::steps;

use crate::common;

#[test]
fn most_steps_and_one_more() {
    for (count, drawn) in [(0, Ok(0)), (1, Ok(1)), (3_999, Ok(3_999)), (4_000, Ok(4_000))] {
        assert_eq!(steps(7, &common::setup(), count).map(|steps| steps.len()), drawn);
    }
    for count in [4_001, u32::MAX as usize, usize::MAX] {
        assert_eq!(steps(7, &common::setup(), count), Err(10));
    }
}

/// Also for a count of 0, which would be no remainder.
#[test]
fn the_setup_is_asked_about_first() {
    let setup = common::setup();
    for bad in [Setup { clients: 0, ..setup }, Setup { objects: 0, ..setup }, Setup { timeout: 61, ..setup }]
    {
        for count in [0, 1, 4_000, 4_001] {
            assert_eq!(steps(7, &bad, count), Err(7), "{count} steps");
        }
    }
}
