//! Makes a failing file smaller while it still fails.

use crate::limits::OBJECTS;
use crate::runfile::{distance, read};
use crate::setup::Setup;
use crate::step_record::Step;
use crate::unchecked_writer::write;

/// How often the failure may be tried, since each try may start a program.
const TRIES: usize = 3_000;

struct Shrinker<F> {
    fails: F,
    tries: usize,
}

/// Returns the smallest file found for which `fails` still holds.
pub fn shrink(file: &[u8], fails: impl FnMut(&[u8]) -> bool) -> Vec<u8> {
    let mut shrinker = Shrinker { fails, tries: TRIES };
    match read(file) {
        Ok(run) => shrinker.shrink_run(run.note.to_vec(), run.setup, run.steps().collect()),
        Err(_) => shrinker.shrink_bytes(file.to_vec()),
    }
}

impl<F: FnMut(&[u8]) -> bool> Shrinker<F> {
    fn still(&mut self, file: &[u8]) -> bool {
        self.tries = self.tries.saturating_sub(1);
        self.tries > 0 && (self.fails)(file)
    }

    fn shrink_run(&mut self, mut note: Vec<u8>, mut setup: Setup, mut steps: Vec<Step>) -> Vec<u8> {
        if self.still(&write(&[], &setup, &steps)) {
            note = Vec::new();
        }
        loop {
            let before = (steps.clone(), setup);
            steps = drop_pieces(steps, |fewer| self.still(&write(&note, &setup, fewer)));
            steps = drop_pairs(steps, |fewer| self.still(&write(&note, &setup, fewer)));
            steps = drop_senders(steps, |fewer| self.still(&write(&note, &setup, fewer)));
            steps = simpler_steps(steps, |simpler| self.still(&write(&note, &setup, simpler)));
            setup = simpler_setup(setup, |simpler| self.still(&write(&note, simpler, &steps)));
            if (&before.0, before.1) == (&steps, setup) || self.tries == 0 {
                return write(&note, &setup, &steps);
            }
        }
    }

    fn shrink_bytes(&mut self, file: Vec<u8>) -> Vec<u8> {
        let mut file = drop_pieces(file, |fewer| self.still(fewer));
        for place in 0..file.len().min(distance(20)) {
            let mut zero = file.clone();
            zero[place] = 0;
            if zero != file && self.still(&zero) {
                file = zero;
            }
        }
        file
    }
}

/// Drops pieces, first half of the list, then smaller and smaller ones. It
/// starts from the end, since later steps depend on earlier ones.
fn drop_pieces<T: Clone>(mut list: Vec<T>, mut still: impl FnMut(&[T]) -> bool) -> Vec<T> {
    let mut size = list.len().div_ceil(2).max(1);
    loop {
        let mut end = list.len();
        while end > 0 {
            let begin = end.saturating_sub(size);
            let fewer = [&list[..begin], &list[end..]].concat();
            if still(&fewer) {
                list = fewer;
            }
            end = begin;
        }
        if size == 1 {
            return list;
        }
        size = size.div_ceil(2);
    }
}

/// Drops two steps at a time, since an ask and its delivery can only go
/// together.
fn drop_pairs(mut steps: Vec<Step>, mut still: impl FnMut(&[Step]) -> bool) -> Vec<Step> {
    let mut first = 0;
    while first < steps.len() && steps.len() <= 40 {
        let without = |second: usize| {
            let mut fewer = steps.clone();
            fewer.remove(second);
            fewer.remove(first);
            fewer
        };
        match (first + 1..steps.len()).map(without).find(|fewer| still(fewer)) {
            Some(fewer) => steps = fewer,
            None => first += 1,
        }
    }
    steps
}

/// Drops a step that sends, and moves later places down by one.
fn drop_senders(mut steps: Vec<Step>, mut still: impl FnMut(&[Step]) -> bool) -> Vec<Step> {
    for place in (0..steps.len()).rev() {
        let mut fewer = steps.clone();
        fewer.remove(place);
        fewer[place..].iter_mut().for_each(|step| step.place = step.place.saturating_sub(1));
        if still(&fewer) {
            steps = fewer;
        }
    }
    steps
}

/// Sets each field of each step to 0, each value to 1.
fn simpler_steps(mut steps: Vec<Step>, mut still: impl FnMut(&[Step]) -> bool) -> Vec<Step> {
    let changes: [fn(&mut Step); 6] = [
        |step| step.client = 0,
        |step| step.object = 0,
        |step| step.place = 0,
        |step| step.value = step.value.min(1),
        |step| step.clock = 0,
        |step| step.clock /= 2,
    ];
    for place in 0..steps.len() {
        for change in changes {
            let mut simpler = steps.clone();
            change(&mut simpler[place]);
            if simpler != steps && still(&simpler) {
                steps = simpler;
            }
        }
    }
    steps
}

/// Tries fewer clients, volumes and objects, and 01's ticks.
fn simpler_setup(mut setup: Setup, mut still: impl FnMut(&Setup) -> bool) -> Setup {
    let changes: [fn(&mut Setup); 7] = [
        |setup| setup.clients -= 1,
        |setup| setup.volumes -= 1,
        one_object_less,
        |setup| setup.volume_of = [0; OBJECTS],
        |setup| (setup.volume_lease, setup.object_lease) = (10, 100),
        |setup| setup.timeout = 3,
        |setup| setup.delay = 1,
    ];
    for change in changes {
        loop {
            let mut simpler = setup;
            change(&mut simpler);
            if simpler == setup || !simpler.in_range() || !still(&simpler) {
                break;
            }
            setup = simpler;
        }
    }
    setup
}

/// Removes the last object and its volume byte.
fn one_object_less(setup: &mut Setup) {
    setup.objects -= 1;
    setup.volume_of[usize::from(setup.objects)] = 0;
}

#[cfg(test)]
mod tests {
    use super::*;
    use crate::gen::runs::run;
    use crate::listing::{listing_trusting, listing_with};
    use crate::mistakes::Mistakes;

    #[test]
    fn a_long_run_becomes_short() {
        let mistakes = Mistakes::named("ends_at_latest_end");
        let fails = |file: &[u8]| listing_with(mistakes, file) != listing_trusting(file);
        let long = (0..).map(|number| run(1, number).file()).find(|file| fails(file)).unwrap();
        let short = shrink(&long, fails);
        assert!(fails(&short));
        let steps = read(&short).unwrap().len();
        // Nine are needed: an ask, three deliveries, an ask, two deliveries, a
        // write and a clock step.
        assert!(steps <= 12, "{steps} steps");
    }

    #[test]
    fn a_file_that_is_no_run_loses_bytes() {
        let short = shrink(&[7; 300], |file| file.contains(&7));
        assert_eq!(short, [7]);
    }
}
