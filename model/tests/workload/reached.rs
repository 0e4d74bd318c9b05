//! How far a workload gets in the protocol. A server restart is drawn as often
//! as a delivery, whose place is one of 64, so hardly any exchange of messages
//! ends within one epoch.

use std::collections::BTreeMap;

use model::gen::setups::sized;
use model::limits::STEPS;
use model::setup::Setup;
use model::step_record::*;
use model::workload::steps;

use crate::common::Bench;

/// Returns the answers of each kind of step, with the refusal; leases do not
/// run out.
fn answers(setup: Setup, seeds: std::ops::Range<u32>) -> BTreeMap<(u8, u8, u64), usize> {
    let setup = Setup { volume_lease: 3_600, object_lease: 1_000_000, timeout: 60, ..setup };
    let mut answers = BTreeMap::new();
    for seed in seeds {
        let mut bench = Bench::of(setup);
        for step in steps(seed, &setup, STEPS).unwrap() {
            let (answer, value) = bench.line(step);
            *answers.entry((step.kind, answer, value)).or_default() += 1;
        }
    }
    answers
}

/// In these workloads no read is shown, every write completes at once, and only
/// a place past the list is refused.
#[test]
fn no_lease_is_given() {
    for setup in [sized(1, 1, 1), sized(2, 1, 2), sized(3, 1, 4), sized(16, 1, 28)] {
        let answers = answers(setup, 0..20);
        println!("{answers:?}");
        let others = |kind, answer, value| match kind {
            READ => (answer, value) != (2, 0),
            WRITE => (answer, value) != (3, 1),
            DELIVER | LOSE | DOUBLE => (answer, value) != (0, 0) && (answer, value) != (4, 3),
            _ => (answer, value) != (0, 0),
        };
        assert!(!answers.keys().any(|&(kind, answer, value)| others(kind, answer, value)));
    }
}
