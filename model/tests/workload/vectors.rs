//! Draws and steps worked out with integers of any size, apart from the model.

use model::step_record::Step;
use model::workload::{draws, steps};

use crate::common;

pub struct Vector {
    pub seed: u32,
    draws: [u32; 20],
    /// For the setup of the tests: 3 clients, 4 objects.
    pub steps: [Step; 10],
}

pub fn vectors() -> [Vector; 3] {
    [from_0(), from_1(), from_last()]
}

fn from_0() -> Vector {
    Vector {
        seed: 0,
        draws: [
            1_013_904_223,
            1_196_435_762,
            3_519_870_697,
            2_868_466_484,
            1_649_599_747,
            2_670_642_822,
            1_476_291_629,
            2_748_932_008,
            2_180_890_343,
            2_498_801_434,
            3_421_909_937,
            3_167_820_124,
            2_636_375_307,
            3_801_544_430,
            28_987_765,
            2_210_837_584,
            3_039_689_583,
            1_338_634_754,
            1_649_346_937,
            2_768_872_580,
        ],
        steps: [
            Step::restart_server(),
            Step::write(0, 4),
            Step::ask(1, 3),
            Step::deliver(57),
            Step::restart_server(),
            Step::restart_client(1),
            Step::write(3, 4),
            Step::clock(3),
            Step::restart_client(1),
            Step::write(0, 0),
        ],
    }
}

fn from_1() -> Vector {
    Vector {
        seed: 1,
        draws: [
            1_015_568_748,
            1_586_005_467,
            2_165_703_038,
            3_027_450_565,
            217_083_232,
            1_587_069_247,
            3_327_581_586,
            2_388_811_721,
            70_837_908,
            2_745_540_835,
            1_075_679_462,
            1_814_098_701,
            2_536_995_080,
            3_594_602_695,
            1_009_643_386,
            4_212_701_329,
            3_697_481_916,
            1_403_919_595,
            2_931_756_366,
            2_282_599_509,
        ],
        steps: [
            Step::clock(2),
            Step::deliver(20),
            Step::ask(0, 0),
            Step::deliver(14),
            Step::lose(25),
            Step::read(1, 1),
            Step::read(1, 0),
            Step::clock(3),
            Step::read(2, 2),
            Step::clock(7),
        ],
    }
}

fn from_last() -> Vector {
    Vector {
        seed: u32::MAX,
        draws: [
            1_012_239_698,
            806_866_057,
            579_071_060,
            2_709_482_403,
            3_082_116_262,
            3_754_216_397,
            3_919_968_968,
            3_109_052_295,
            4_290_942_778,
            2_252_062_033,
            1_473_173_116,
            226_574_251,
            2_735_755_534,
            4_008_486_165,
            3_343_299_440,
            208_973_839,
            2_381_897_250,
            1_273_349_913,
            366_937_508,
            3_255_145_651,
        ],
        steps: [
            Step::lose(35),
            Step::ask(2, 3),
            Step::restart_server(),
            Step::deliver(36),
            Step::clock(3),
            Step::read(0, 3),
            Step::clock(7),
            Step::clock(7),
            Step::read(1, 0),
            Step::double(2),
        ],
    }
}

#[test]
fn draws_are_those_worked_out() {
    for vector in vectors() {
        assert_eq!(draws(vector.seed).take(20).collect::<Vec<_>>(), vector.draws);
    }
}

/// Fewer steps are the first of more.
#[test]
fn steps_are_those_worked_out() {
    for vector in vectors() {
        for count in 0..=10 {
            assert_eq!(steps(vector.seed, &common::setup(), count).unwrap(), vector.steps[..count]);
        }
    }
}

#[test]
fn every_kind_is_among_them() {
    let kinds = vectors().into_iter().flat_map(|vector| vector.steps).map(|step| step.kind);
    assert_eq!(kinds.collect::<std::collections::BTreeSet<_>>(), (1..=9).collect());
}
